"""Translates a script of `bitemporal` to one of psql that prints the same report.

    to_postgresql [FILE] > x.sql
    psql -qAtX -v ON_ERROR_STOP=1 -f x.sql

For PostgreSQL 14 or later. Without FILE it reads standard input. The tables are made in a schema
of their own, and all of it is rolled back at the end unless --keep is given. A table has one row
for each version: the value columns, the period as a daterange of the period's name, and the two
system columns as timestamps, the second 9999-12-31 23:59:59.999999 in current rows. With --bare
there is no report: only the tables, and of each query the plain SELECT, for data that PostgreSQL
has already.

The exit status is 0, or 2 if the script is refused as a whole (1 to 3), can't be read, or has
what PostgreSQL doesn't: texts with U+0000.
"""
import argparse

from bitemporal_scale.postgresql.translation import Options, translated
from bitemporal_scale.postgresql.words import NotTranslated
from bitemporal_tools import command_line
from bitemporal_tools.command_line import Fault
from bitemporal_tools.sql.lexis import decoded
from bitemporal_tools.sql.refusals import Refused


def words(arguments: list[str]) -> argparse.Namespace:
    parser = command_line.parser('to_postgresql', __doc__)
    parser.add_argument('file', nargs='?', metavar='FILE', help='the script')
    parser.add_argument('--bare', action='store_true', help='tables and queries, without a report')
    parser.add_argument('--keep', action='store_true', help='commit what the script made')
    parser.add_argument('--schema', default='bitemporal', metavar='NAME',
                        help='the schema of the tables, bitemporal if not named')
    parser.add_argument('--constraints', action='store_true',
                        help='an exclusion constraint for each key too (needs btree_gist)')
    return parser.parse_args(arguments)


def main(arguments: list[str]) -> int:
    options = words(arguments)
    try:
        given = command_line.read_bytes(options.file)
        chosen = Options(options.schema, options.bare, options.keep, options.constraints)
        made = ''.join(translated(decoded(given), chosen))
    except (Refused, NotTranslated) as fault:
        raise Fault(fault) from None
    command_line.write_output(made)
    return 0
