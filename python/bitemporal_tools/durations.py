"""The numbers of days of the rows of an answer: in all, in a row, and the gaps between.

    ./bitemporal run x.sql | tools/durations x.sql --by ENO --as-of 2024-06-30

Rows that are alike in the columns of --by are a group; without --by these are all columns. Printed
are of each group the days on which it has a row (each day once), the number of its stretches (days
in a row), the days of the longest one, the first day, the last day, and the days of the gaps
between its stretches.

A row without an end holds until 9999-12-31, so its days can't be counted but by --as-of.
"""
import argparse
import sys
from collections.abc import Sequence
from typing import NamedTuple

from bitemporal_tools import options
from bitemporal_tools.command_line import Fault, counted
from bitemporal_tools.days.numbers import FIRST, LAST, iso, ordinal
from bitemporal_tools.days.rows import DayTable, Values, stretches_by
from bitemporal_tools.days.stretches import Period, days, gaps
from bitemporal_tools.days.windows import Window
from bitemporal_tools.reports import asked, forms
from bitemporal_tools.reports.answer_tables import Table, free_names, in_order

# The columns of a group after its values, and their types.
OF_GROUP = {'DAYS': 'INTEGER', 'STRETCHES': 'INTEGER', 'LONGEST': 'INTEGER', 'FIRST_DAY': 'DATE',
            'LAST_DAY': 'DATE', 'GAP_DAYS': 'INTEGER'}


class Duration(NamedTuple):
    """The output for some values: the number of days, and the rest of its line."""
    values: Values
    days: int
    rest: list[str]


def wanted_of(words: Sequence[str]) -> argparse.Namespace:
    parser = asked.parser('durations', __doc__, {
        **asked.OPTIONS_OF_ONE, '--by COLUMNS': 'the columns of a group: all',
        '--as-of DAY': 'the last day that is counted, for all rows',
        '--summary': 'one line about all that would be printed: how many, the days in all, on'
                     ' average (two digits, rounded), the fewest and the most'},
        'SCRIPT [REPORT] [--rows | --stretches | --gaps] [OPTIONS]')
    options.add(parser, {'--top N': 'the N longest'}, type=int)
    what = parser.add_mutually_exclusive_group()
    for name, words_of_help in (('rows', 'each row of the answer with its days'),
                                ('stretches', 'each stretch of days in a row of a group'),
                                ('gaps', 'each gap between two stretches')):
        what.add_argument(f'--{name}', dest='what', action='store_const', const=name,
                          help=words_of_help)
    forms.add_options(parser)
    return parser.parse_args(words)


def until(table: DayTable, as_of: str, what: str) -> DayTable:
    """The rows up to the last day that is counted."""
    if as_of:
        try:
            last = ordinal(as_of)
        except ValueError:
            raise Fault(f'--as-of {as_of}: write a day YYYY-MM-DD') from None
        return table.within(Window(as_of, (FIRST, min(last + 1, LAST))))
    is_open = sum(row.end == LAST for row in table.rows)
    if is_open and what != 'gaps':
        raise Fault(f'{counted(is_open, "row")} of answer {table.name} without an end: --as-of DAY'
                    ' names the last day that is counted')
    return table


def of_period(values: Values, period: Period) -> Duration:
    return Duration(values, days([period]), [iso(period[0]), iso(period[1])])


def of_group(values: Values, found: list[Period]) -> Duration:
    longest = max(end - start for start, end in found)
    rest = [len(found), longest, iso(found[0][0]), iso(found[-1][1] - 1), days(gaps(found))]
    return Duration(values, days(found), list(map(str, rest)))


def durations(table: DayTable, places: Sequence[int], what: str) -> list[Duration]:
    """The output: rows, stretches, gaps or groups."""
    if what == 'rows':
        return [of_period(row.values, (row.start, row.end)) for row in table.rows]
    groups = stretches_by(table.rows, places)
    if not what:
        return [of_group(values, found) for values, found in groups.items()]
    return [of_period(values, period) for values, found in groups.items()
            for period in (gaps(found) if what == 'gaps' else found)]


def longest(found: list[Duration], top: int) -> list[Duration]:
    """The longest, the longer first. Those that are left out and as long as the last are said."""
    ordered = sorted(found, key=lambda one: -one.days)
    alike = sum(one.days == ordered[top - 1].days for one in ordered[top:])
    if alike:
        print(f'durations: and {alike} more of {counted(ordered[top - 1].days, "day")}',
              file=sys.stderr)
    return ordered[:top]


def average(total: int, count: int) -> str:
    """A quotient with two digits, a half rounded up."""
    return forms.decimal(str((200 * total + count) // (2 * count)), 2)


def summary(table: DayTable, found: list[Duration]) -> Table:
    """One row about all of them."""
    lengths = [one.days for one in found]
    row = [len(lengths), sum(lengths), average(sum(lengths), len(lengths)), min(lengths),
           max(lengths)] if lengths else [0, 0, '', '', '']
    return Table(*table.called, ['COUNT', 'DAYS', 'AVERAGE', 'LEAST', 'MOST'],
                 [list(map(str, row))], ['INTEGER'] * len(row), scales={2: 2})


def main(words: Sequence[str]) -> int:
    wanted = wanted_of(words)
    forms.judge(wanted)
    if wanted.top is not None and wanted.top < 1:
        raise Fault('--top: write 1 or more')
    answer, status = asked.one('durations', wanted)
    table = until(answer, wanted.as_of, wanted.what)
    places = table.places(wanted.by) if wanted.by and wanted.what != 'rows' else \
        list(range(len(table.columns)))
    names = [table.columns[place] for place in places]
    found = durations(table, places, wanted.what)
    found = in_order(found, lambda one: one.values, range(len(names)))
    if wanted.top:
        found = longest(found, wanted.top)
    rows = [[*one.values, str(one.days), *one.rest] for one in found]
    if wanted.summary:
        shown = summary(table, found)
    elif wanted.what:
        shown = Table.of_periods(table, free_names([*names, 'DAYS']), rows,
                                 table.kinds_at(places, 'INTEGER'))
    else:
        shown = Table(*table.called, free_names([*names, *OF_GROUP]), rows,
                      table.kinds_at(places, *OF_GROUP.values()))
    forms.write([shown], wanted)
    return status
