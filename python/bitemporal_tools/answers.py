"""Takes the answers out of a report: a CSV file for each, a table for a terminal, or a web page.

    ./bitemporal run x.sql | tools/answers x.sql --into FOLDER

Answers of sequenced queries and the versions of stored queries are taken alike, each with a line of
names, also if another statement is refused.

--into FOLDER writes a file for each answer. Its name is the number of the statement and the comment
just above it: `3-departments-in-use.csv`. A line `-- name: staffed` there names it `staffed.csv`;
the first other line of the comment stays its title. Without --into, --table and --html one answer
is printed as CSV.

An answer is in the order of its values. `--by ENO,day` has the history of each ENO in the order of
time, `--by day` of all.

A text that a spreadsheet would take for a formula (it begins with = + - @, a tab or a line end)
gets an apostrophe before it, and control characters are shown as \\x1b. --raw leaves texts as they
are, but on a web page.
"""
import argparse
from collections.abc import Sequence

from bitemporal_tools.reports import asked, forms
from bitemporal_tools.reports.answer_tables import Table, by_name, sort


def wanted_of(words: Sequence[str]) -> argparse.Namespace:
    parser = asked.parser('answers', __doc__, {
        **asked.OPTIONS, '--only WHICH': 'these answers: numbers or names with commas between them',
        '--by COLUMNS': 'sort by these columns; day: the first day',
        '--witness': 'add the two columns held and absent'},
        'SCRIPT [REPORT] [--into FOLDER | --table | --html] [OPTIONS]')
    forms.add_options(parser)
    return parser.parse_args(words)


def main(words: Sequence[str]) -> int:
    wanted = wanted_of(words)
    forms.judge(wanted)
    statements, status = asked.read('answers', wanted)
    tables = [Table.of_statement(statement, wanted.witness) for statement in statements]
    if wanted.only is not None:
        tables = [by_name(tables, which) for which in wanted.only.split(',')]
    if wanted.by is not None:
        for table in tables:
            sort(table, wanted.by.split(','))
    forms.write(tables, wanted)
    return status
