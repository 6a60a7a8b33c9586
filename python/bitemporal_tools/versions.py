"""Takes versions of rows to other databases, and their answers back to be judged.

    tools/versions ask SCRIPT > asked.sql
    ./bitemporal run asked.sql | tools/versions copy asked.sql --to DATABASE --into FOLDER
    tools/versions judge SCRIPT WHICH ANSWER.csv > judge.sql

ask prints the script and after it a query of all versions of each of its tables.

copy writes a CSV file for each table that a stored query of the report shows (if several show
one table, the last is taken), and load.sql, which makes the tables and loads the files. DATABASE
is postgresql, duckdb or sqlite3. The first lines of load.sql say how it is run. (What is written
for DuckDB follows its manual; no test runs it.)

judge makes a script of another database's answer to a sequenced query of SCRIPT. WHICH is the
number of its statement, or the name that a comment `-- name:` above it gives. ANSWER.csv has a line
of names, and then the columns of the query, the first day and the end (or one range such as
[2024-01-01,2024-02-01)). The rows may overlap or repeat, and may be cut as the database likes. The
script is SCRIPT up to that statement, their rows, and two queries:
what is in our answer and not in theirs, and the other way. If both have no row, the answers
agree on every day.

The exit status is 0; 1 if a line of ANSWER.csv is bad, the report has a refused statement, or
the database can't take a value; and 2 if the command line or a file is wrong.
"""
import argparse
import os
import sys
from collections.abc import Iterable, Sequence

from bitemporal_tools import command_line, databases, options
from bitemporal_tools.command_line import Fault
from bitemporal_tools.foreign_answer import JudgedTable
from bitemporal_tools.loading.csv_file import CsvFile
from bitemporal_tools.loading.script_writer import scripts
from bitemporal_tools.reports import report
from bitemporal_tools.reports.answer_tables import name_of
from bitemporal_tools.reports.listing import TABLES, named_catalog
from bitemporal_tools.sql.catalog import Catalog
from bitemporal_tools.sql.literals import FIRST_MOMENT, FOREVER
from bitemporal_tools.sql.refusals import Refused
from bitemporal_tools.sql.script import Statement, judge
from bitemporal_tools.sql.tree import Sequenced

ALL_VERSIONS = """
-- All versions of {name}
SELECT * FROM {name}
 FOR SYSTEM_TIME FROM TIMESTAMP '{start}' TO TIMESTAMP '{end}';
"""


def wanted_of(words: Sequence[str]) -> argparse.Namespace:
    parser = command_line.parser('versions', __doc__, 'COMMAND SCRIPT ..')
    commands = parser.add_subparsers(dest='command', metavar='COMMAND', required=True,
                                     prog=parser.prog)
    ask = commands.add_parser('ask', help='the script with queries of all versions')
    options.add(ask, {'SCRIPT': '', **TABLES})
    copy = commands.add_parser('copy', help='files for another database')
    options.add(copy, {'SCRIPT': '', '[REPORT]': '', **TABLES})
    copy.add_argument('--to', required=True, choices=list(databases.COMMANDS))
    copy.add_argument('--into', required=True, metavar='FOLDER')
    other = commands.add_parser('judge', help="a script that judges another's answer")
    options.add(other, {'SCRIPT': '', 'WHICH': 'the statement, by number or name', 'ANSWER.csv': '',
                        '--inclusive-to': 'the end is the last day on which a row holds',
                        '--output NAME.sql': 'the file to write'})
    return parser.parse_args(words)


def judged(path: str, catalog: Catalog) -> tuple[str, list[Statement]]:
    """The text of a script over these tables, and its statements."""
    text = command_line.read_text(path)
    try:
        return text, judge(text, catalog)
    except Refused as refused:
        raise Fault(f'{path} is refused as a whole: {refused}') from None


def catalog_after(statements: Iterable[Statement], before: Catalog) -> Catalog:
    """The tables that exist after these statements, which found the given ones."""
    catalog = before.copy()
    for statement in statements:
        if not statement.faults:
            catalog.take(statement.tree)
    return catalog


def ended(text: str, statements: Sequence[Statement]) -> str:
    """The text with a semicolon after its last statement, on a line of its own: after it there
    may be a comment."""
    return text.rstrip() + '\n;\n' if statements else text


def ask(wanted: argparse.Namespace) -> int:
    before = named_catalog(wanted.tables)
    text, statements = judged(wanted.script, before)
    tables = catalog_after(statements, before).tables
    if not tables:
        raise Fault(f'{wanted.script} makes no table; those of a store are named by --tables')
    queries = ''.join(ALL_VERSIONS.format(name=name, start=FIRST_MOMENT, end=FOREVER)
                      for name in tables)
    command_line.write_output(ended(text, statements) + queries)
    return 0


def copy(wanted: argparse.Namespace) -> int:
    statements = report.read(wanted.script, wanted.report, named_catalog(wanted.tables))
    status = report.tell_refused('versions', statements, wanted.script)
    if not databases.last_versions(statements):
        raise Fault('the report shows no versions: tools/versions ask adds queries of them')
    command_line.write_files(wanted.into, databases.Files(wanted.to, statements).files)
    return status


def statement_of(text: str, statements: Sequence[Statement],
                 wanted: argparse.Namespace) -> Statement:
    """The statement of this number, or of the name in the comment above it."""
    before = 0
    for statement in statements:
        comment = report.comment_above(text[before:statement.tokens[0].offset], before == 0)
        if wanted.which in (str(statement.number), name_of(comment)):
            return statement
        before = statement.tokens[-1].end
    raise Fault(f'{wanted.script} has {len(statements)} statements, and no {wanted.which}')


def judge_answer(wanted: argparse.Namespace) -> int:
    text, statements = judged(wanted.script, Catalog())
    statement = statement_of(text, statements, wanted)
    if not isinstance(statement.tree, Sequenced) or statement.faults:
        raise Fault(f'statement {statement.number} of {wanted.script} is no sequenced query that is'
                    ' answered')
    table = JudgedTable(statement.tree.query,
                        catalog_after(statements[:statement.number], Catalog()))
    file = CsvFile(wanted.answer)
    rows = table.rows(file, wanted.inclusive_to)
    if file.bad:
        for line in file.told():
            print(line, file=sys.stderr)
        return 1
    first, end = statement.tokens[0].offset, statement.tokens[-1].end
    found = list(scripts(ended(text[:end], statements),
                         [*table.statements(rows), *table.queries(text[first:end])]))
    if len(found) > 1:
        raise Fault('the script and the answer are more than one script of 4,194,304 bytes', 1)
    if wanted.output:
        command_line.write_files(os.path.dirname(wanted.output) or '.',
                                 {os.path.basename(wanted.output): found[0]})
    else:
        command_line.write_output(found[0])
    return 0


def main(words: Sequence[str]) -> int:
    wanted = wanted_of(words)
    return {'ask': ask, 'copy': copy, 'judge': judge_answer}[wanted.command](wanted)
