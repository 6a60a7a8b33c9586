"""Questions of who ever, and who never: those about all days at once, or all days of a month.

    tools/ever SCRIPT [REPORT] --of COLUMNS --ever ANSWER [--ever ANSWER ..] [--never ANSWER ..]

A sequenced query is asked of each day alone; this tool looks at all days of its answers. The values
that are asked about are of the columns of --of, which each answer that is named has.

--ever ANSWER takes those that the answer has a row on some day, and --never ANSWER leaves out
those that it has. ANSWER is the number or the name of a statement; after a colon it may
name values that the rows have to have: `--ever 3:DEPT=1 --never 3:DEPT=2`, or
`places:DEPT=1,GRADE=5`.

--each asks the question of each month (quarter, year) of the days of --in by itself. Without --in
it looks at all days of the answers, of which none may be open.

Printed are those who are chosen, with the days on which the first --ever has a row of them, and
with --different the values there.

It is made by this script, outside the proofs.
"""
import argparse
from collections.abc import Iterator, Sequence

from bitemporal_tools import options
from bitemporal_tools.command_line import Fault
from bitemporal_tools.days.choices import Choice, Condition, DaysOf, condition, part_of
from bitemporal_tools.days.numbers import FIRST, LAST, iso
from bitemporal_tools.days.rows import DayTable, Values, grouped, picked, stretches_by
from bitemporal_tools.days.stretches import within
from bitemporal_tools.days.windows import MONTHS, WITHIN, Window, months, window
from bitemporal_tools.reports import asked, forms
from bitemporal_tools.reports.answer_tables import Table, free_names, sort

ALL_DAYS = Window('', (FIRST, LAST))


def wanted_of(words: Sequence[str]) -> argparse.Namespace:
    parser = asked.parser('ever', __doc__, {
        **asked.OPTIONS,
        '--different COLUMNS': 'they have different values there in the first --ever: who had two'
                               ' managers',
        '--who': 'each of them once, without days'},
        'SCRIPT [REPORT] --of COLUMNS --ever ANSWER [OPTIONS]')
    options.add(parser, {'--of COLUMNS': 'who is asked about'}, required=True)
    options.add(parser, {'--ever ANSWER': 'on some day it has a row of them'}, action='append',
                required=True)
    options.add(parser, {'--never ANSWER': 'on no day it has one'}, action='append', default=[])
    options.add(parser, {'--least N': 'how many different ones at least: 2'}, type=int, default=2)
    options.add(parser, WITHIN, dest='within', type=window, default=ALL_DAYS)
    parser.add_argument('--each', choices=sorted(MONTHS), help='each one by itself')
    forms.add_options(parser)
    return parser.parse_args(words)


def windows(wanted: argparse.Namespace, tables: Sequence[DayTable]) -> list[Window]:
    """The windows of which the question is asked."""
    if not wanted.each:
        return [wanted.within]
    first, end = wanted.within.period
    if wanted.within is ALL_DAYS:
        rows = [row for table in tables for row in table.rows]
        first = min((row.start for row in rows), default=FIRST)
        end = max((row.end for row in rows), default=FIRST)
        if first == FIRST and rows or end == LAST:
            raise Fault(f'--each {wanted.each}: some rows have no end, or no beginning: --in'
                        ' FIRST..LAST names the days')
    return [Window(one.name, period) for one in months(first, end, wanted.each)
            for period in within(one.period, wanted.within.period)]


def values_of(shown: Condition, of: str, different: str) -> dict[Values, DaysOf]:
    """The days of each list of values of the columns, for each of those who are asked about."""
    places, others = shown.table.places(of), shown.table.places(different or '')
    found = grouped(shown.rows(), lambda row: picked(row.values, places))
    return {who: stretches_by(rows, others) for who, rows in found.items()}


def lines(choice: Choice, found: Sequence[Window],
          wanted: argparse.Namespace) -> Iterator[list[str]]:
    """The lines about those who are chosen in each window."""
    for one in found:
        name = [one.name] * bool(wanted.each)
        for who in choice.among(one):
            if wanted.who:
                yield [*name, *who]
                continue
            for values, periods in choice.counted[who].items():
                for start, end in part_of(periods, one):
                    yield [*name, *who, *values, iso(start), iso(end)]


def chosen(wanted: argparse.Namespace, answers: Sequence[asked.Asked]) -> Table:
    """The table of those who are chosen."""
    ever = [condition(text, answers) for text in wanted.ever]
    never = [condition(text, answers) for text in wanted.never]
    choice = Choice([one.days(wanted.of) for one in ever], [one.days(wanted.of) for one in never],
                    values_of(ever[0], wanted.of, wanted.different),
                    wanted.least if wanted.different else 0)
    shown = ever[0].table
    places = shown.places(wanted.of)
    if wanted.different and not wanted.who:
        places += shown.places(wanted.different)
    each = [wanted.each.upper()] if wanted.each else []
    names = free_names([*each, *picked(shown.columns, places)])
    kinds = ['VARCHAR'] * len(each) + shown.kinds_at(places) if shown.kinds else []
    found = list(lines(choice, windows(wanted, [one.table for one in ever + never]), wanted))
    if wanted.who:
        table = Table(*shown.called, names, found, kinds)
        sort(table, names)
    else:
        table = Table.of_periods(shown, names, found, kinds)
        sort(table, [*names, 'day'])
    return table


def main(words: Sequence[str]) -> int:
    wanted = wanted_of(words)
    forms.judge(wanted)
    if wanted.least < 1:
        raise Fault('--least: write 1 or more')
    answers, status = asked.answers('ever', wanted)
    forms.write([chosen(wanted, answers)], wanted)
    return status
