"""The answer of another database as rows of a table, and the two queries that judge it.

Each row gets a number of its own, which is the table's key: so rows that repeat or overlap are
taken too. `infinity`, an empty end and an end that a range leaves open are 9999-12-31.
"""
import datetime
import re
from collections.abc import Iterator
from typing import Any

from bitemporal_tools.loading import cells
from bitemporal_tools.loading.corrections import Fact
from bitemporal_tools.loading.csv_file import BadLine, CsvFile, Record
from bitemporal_tools.loading.fact_columns import in_columns
from bitemporal_tools.loading.script_writer import StatementWriter
from bitemporal_tools.reports.answer_tables import free_names
from bitemporal_tools.reports.report import FIRST_DAY, LAST_DAY
from bitemporal_tools.sql.catalog import Catalog, Table
from bitemporal_tools.sql.queries import columns_of
from bitemporal_tools.sql.refusals import MOST_COLUMNS
from bitemporal_tools.sql.script import judge
from bitemporal_tools.sql.tree import Create, Query, Value, selects

from .command_line import Fault

RANGE = re.compile(r'\[([^,]*),([^,]*)\)')
STARTS, ENDS = ('', '-infinity'), ('', 'infinity')
LONGEST = 1000
DATE = cells.date_pattern(cells.ISO)
TABLE = '''CREATE TABLE {name} (ROW_NUMBER INTEGER,
 {columns},
 S DATE, E DATE,
 SS TIMESTAMP GENERATED ALWAYS AS ROW START, SE TIMESTAMP GENERATED ALWAYS AS ROW END,
 PERIOD FOR P (S, E), PERIOD FOR SYSTEM_TIME (SS, SE),
 PRIMARY KEY (ROW_NUMBER, P WITHOUT OVERLAPS)) WITH SYSTEM VERSIONING'''


def value_of(cell: str, kind: str) -> Value:
    """The value of a cell. ValueError if it is none of this type."""
    if kind == 'VARCHAR':
        return cells.text(cell, LONGEST)
    return cells.date(cell, DATE) if kind == 'DATE' else cells.whole_number(cell)


class JudgedTable:
    """The table of another's answer to a query."""

    def __init__(self, query: Query, catalog: Catalog) -> None:
        self.kinds = [kind or '' for _, kind in columns_of(query, catalog)]
        # Apart from the values: the number, two days and two moments.
        if len(self.kinds) > MOST_COLUMNS - 5:
            raise Fault(f'the query has {len(self.kinds)} columns, and {MOST_COLUMNS - 5} are the'
                        ' most that can be judged')
        self.names = [f'C{number}' for number in range(1, len(self.kinds) + 1)]
        self.answer_names = [item.new_name or item.column.name
                             for item in selects(query)[0].items]
        *_, self.name = free_names([*catalog.tables, 'JUDGED'])

    def rows(self, file: CsvFile, is_inclusive: bool) -> list[Fact]:
        """The rows of the file, each with its number. What is bad is reported to it."""
        count = len(self.kinds)
        if len(file.header) not in (count + 1, count + 2, count + 4):
            raise Fault(f'{file.path}: {len(file.header)} columns, and the query has {count}: write'
                        ' them, and then the first day and the end, or one range of days', 1)
        found: list[Fact] = []
        for record in file.records:
            good: list[Any] = []
            for place, kind in enumerate([*self.kinds, 'days']):
                try:
                    good.append(self.days(record, is_inclusive) if place == count else
                                value_of(record.cells[place], kind))
                except ValueError as error:
                    file.bad.append(BadLine(record.line, place, str(error)))
            if len(good) == count + 1:
                number = len(found) + 1
                found.append(Fact(number, '', (number,), tuple(good[:-1]), *good[-1]))
        return found

    def days(self, record: Record, is_inclusive: bool) -> tuple[datetime.date, datetime.date]:
        place = len(self.kinds)
        start, end = (cell.strip() for cell in (*record.cells[place:place + 2], '')[:2])
        if len(record.cells) == place + 1:
            found = RANGE.fullmatch(start)
            if not found:
                raise ValueError(f'{cells.shown(start)} is no range [FIRST DAY,END)')
            start, end = found.groups()
        first = cells.date(FIRST_DAY if start in STARTS else start, DATE)
        last = cells.date(LAST_DAY if end in ENDS else end, DATE)
        if is_inclusive and last < cells.LAST_DAY:
            last += datetime.timedelta(1)
        if first >= last:
            raise ValueError(f'the period from {first} ends on {last}')
        return first, last

    def statements(self, rows: list[Fact]) -> Iterator[str]:
        """The statements that make the table and fill it."""
        types = {'VARCHAR': f'VARCHAR({LONGEST})'}
        columns = ', '.join(f'{name} {types.get(kind, kind)}'
                            for name, kind in zip(self.names, self.kinds))
        create = TABLE.format(name=self.name, columns=columns)
        yield create
        [made] = judge(create)
        assert isinstance(made.tree, Create)
        table = Table(made.tree)
        yield from StatementWriter(table).inserts(in_columns(table, rows))

    def queries(self, text: str) -> Iterator[str]:
        """The two queries, for the one of a statement `VALIDTIME query`."""
        query = re.sub('(?i)^VALIDTIME', '', text).strip()
        items = [f'{name} AS {answer_name}'
                 for name, answer_name in zip(self.names, self.answer_names)]
        theirs = f'SELECT DISTINCT {", ".join(items)} FROM {self.name}'
        # The line feed ends a comment at the query's end.
        yield f'\n-- In our answer, and not in theirs\nVALIDTIME ({query}\n) EXCEPT {theirs}'
        yield f'\n-- In their answer, and not in ours\nVALIDTIME {theirs} EXCEPT ({query}\n)'
