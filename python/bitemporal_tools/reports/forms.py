"""The forms in which tables are written: CSV, aligned text, a web page, and Parquet; numbers with
decimals, and ends as last days."""
import argparse
import pathlib
import re
from collections.abc import Sequence

from bitemporal_tools import command_line, options
from bitemporal_tools.command_line import Fault, Parser
from bitemporal_tools.days.numbers import day_before
from bitemporal_tools.reports import parquet
from bitemporal_tools.reports.answer_tables import Table, names_of
from bitemporal_tools.reports.answer_texts import as_csv, as_page, as_table
from bitemporal_tools.reports.report import LAST_DAY

BYTE_ORDER_MARK = '\ufeff'


def add_options(parser: Parser) -> None:
    group = parser.add_argument_group('how it is written')
    form = group.add_mutually_exclusive_group()
    options.add(form, {'--table': 'aligned tables', '--html': 'a web page',
                       '--into FOLDER': 'a CSV file for each table'})
    options.add(group, {'--scale COLUMN=DIGITS': 'a number with decimals: PAY=2 writes 310000 as'
                                                 ' 3100.00'}, action='append', default=[])
    options.add(group, {
        '--parquet': 'with --into: files of Parquet, where pyarrow is installed',
        '--inclusive': 'the last day on which a row holds, as last_day, in place of the end; an end'
                       ' that is open stays 9999-12-31',
        '--excel': 'a byte order mark, by which spreadsheets know UTF-8',
        '--raw': 'leave texts as they are'})


def judge(wanted: argparse.Namespace) -> None:
    """Turns away options that don't go together."""
    if wanted.parquet and not wanted.into:
        raise Fault('--parquet needs a folder for its files: --into FOLDER')
    if wanted.parquet and wanted.excel:
        raise Fault('--excel is for CSV: leave out --parquet')
    if wanted.excel and (wanted.table or wanted.html):
        raise Fault('--excel is for CSV: leave out --table and --html')


def scales(texts: Sequence[str]) -> dict[str, int]:
    """The digits after the point of each column that is named."""
    found = {}
    for text in texts:
        for pair in text.split(','):
            column, _, digits = pair.partition('=')
            if not column.strip() or not re.fullmatch('[0-9]|1[0-8]', digits):
                raise Fault(f'--scale {pair}: write COLUMN=DIGITS, with 0 to 18 digits')
            found[column.strip().upper()] = int(digits)
    return found


def decimal(number: str, digits: int) -> str:
    """A whole number of parts as a number with digits after the point: 310000 with 2 is
    3100.00."""
    if not digits:
        return number
    sign, figures = ('-', number[1:]) if number.startswith('-') else ('', number)
    figures = figures.rjust(digits + 1, '0')
    return f'{sign}{figures[:-digits]}.{figures[-digits:]}'


def scaled(tables: Sequence[Table], texts: Sequence[str]) -> None:
    """Writes the columns that are named with decimals. Each has to be in a table, and to have
    numbers alone."""
    for column, digits in scales(texts).items():
        found = [(table, place) for table in tables for place, name in enumerate(table.columns)
                 if name == column]
        if not found:
            names = sorted({name for table in tables for name in table.columns})
            raise Fault(f'--scale {column}: there is no such column (there are'
                        f' {", ".join(names) or "none"})')
        for table, place in found:
            if not table.is_number(place):
                raise Fault(f'--scale {column}: this column of {table.name} has no numbers alone')
            table.scales[place] = digits
            for row in table.rows:
                row[place] = decimal(row[place], digits)


def last_days(table: Table) -> None:
    """Puts the last day in the place of the end. What is open stays open."""
    if table.end is None:
        return
    table.columns[table.end] = 'last_day'
    for row in table.rows:
        if row[table.end] != LAST_DAY:
            row[table.end] = day_before(row[table.end])


def write(tables: Sequence[Table], wanted: argparse.Namespace) -> None:
    """Writes the tables as the options say."""
    scaled(tables, wanted.scale)
    if wanted.inclusive:
        for table in tables:
            last_days(table)
    mark = BYTE_ORDER_MARK if wanted.excel else ''
    if wanted.into:
        write_files(tables, wanted, mark)
    elif wanted.table:
        command_line.write_output('\n'.join(as_table(table, wanted.raw) for table in tables))
    elif wanted.html:
        title = pathlib.PurePath(wanted.script or tables[0].name).name
        command_line.write_output(as_page(tables, title))
    elif len(tables) == 1:
        command_line.write_output(mark + as_csv(tables[0], wanted.raw))
    else:
        raise Fault(f'{len(tables)} answers ({names_of(tables)}): choose one by --only, or name a'
                    ' folder by --into', status=1 if not tables else 2)


def write_files(tables: Sequence[Table], wanted: argparse.Namespace, mark: str) -> None:
    """Writes a file for each table."""
    if len({table.name for table in tables}) < len(tables):
        raise Fault('two answers have one name')
    if wanted.parquet:
        command_line.write_files(wanted.into, {f'{table.name}.parquet': parquet.file_of(table)
                                               for table in tables})
    else:
        command_line.write_files(wanted.into, {f'{table.name}.csv': mark + as_csv(table, wanted.raw)
                                               for table in tables})
