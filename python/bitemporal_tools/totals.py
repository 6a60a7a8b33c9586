"""Counts and sums of an answer's rows on each day, as the fewest periods.

    ./bitemporal run x.sql | tools/totals x.sql --count

Rows that are alike in the columns of --by are a group; without --by all rows are one. Printed are
of each group the number of its rows and the sums of columns on each day. A period ends where one of
them changes. On days without a row a group has no line, but by --zero.

An answer has each row once: two workers with one pay in one department are one row of SELECT
DISTINCT DEPT, PAY. So the query that is counted names the key: SELECT DISTINCT ENO, DEPT, PAY.

The sums are exact, of whole numbers; --scale SUM_PAY=2 writes them with decimals. They are made by
this script, outside the proofs.
"""
import argparse
from collections.abc import Sequence

from bitemporal_tools import options
from bitemporal_tools.days.numbers import iso
from bitemporal_tools.days.rows import DayTable, picked
from bitemporal_tools.days.totals import totals
from bitemporal_tools.days.windows import WITHIN, window
from bitemporal_tools.reports import asked, forms
from bitemporal_tools.reports.answer_tables import Table, free_names, sort


def wanted_of(words: Sequence[str]) -> argparse.Namespace:
    parser = asked.parser('totals', __doc__, {
        **asked.OPTIONS_OF_ONE, '--count': 'how many rows',
        '--zero': '0 on days without a row, between two rows of a group'})
    options.add(parser, {'--by COLUMNS': 'the columns of a group',
                         '--sum COLUMNS': 'the sums of these columns'}, default='')
    options.add(parser, WITHIN, dest='within', type=window)
    forms.add_options(parser)
    return parser.parse_args(words)


def table_of(table: DayTable, wanted: argparse.Namespace) -> Table:
    """The table of the totals."""
    places = table.places(wanted.by)
    added, steps = totals(table.within(wanted.within), wanted.by, wanted.count, wanted.sum,
                          wanted.zero)
    names = free_names([*picked(table.columns, places), *added])
    rows = [[*step.group, *map(str, step.totals), iso(step.start), iso(step.end)]
            for step in steps]
    found = Table.of_periods(table, names, rows,
                             table.kinds_at(places, *['INTEGER'] * len(added)))
    sort(found, [*names[:len(places)], 'day'])
    return found


def main(words: Sequence[str]) -> int:
    wanted = wanted_of(words)
    forms.judge(wanted)
    answer, status = asked.one('totals', wanted)
    forms.write([table_of(answer, wanted)], wanted)
    return status
