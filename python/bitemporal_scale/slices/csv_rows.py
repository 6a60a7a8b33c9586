"""The rows of CSV files, one after the other, so that a file need not fit into memory.

The first line names the columns; it has to name the table's, and may name more. A day is
written YYYY-MM-DD, and an empty end is 9999-12-31. Python's csv module reads the files.
"""
import csv
import datetime
import functools
from collections.abc import Callable, Iterator

from bitemporal_tools.loading import cells
from bitemporal_tools.sql.catalog import Table
from bitemporal_tools.sql.literals import literal
from bitemporal_tools.sql.refusals import MOST_TOKENS
from bitemporal_tools.sql.tree import Column

from .slice_file import Loaded, SliceFile
from .source import END, Places

DATE = cells.date_pattern(cells.ISO)
MOST_TOLD = 50
HEAD_TOKENS = 4  # INSERT INTO T VALUES
DIGITS_THAT_FIT = 19
DATE_IN_LITERAL = slice(len("DATE '"), -1)


@functools.lru_cache(100_000)
def date(cell: str) -> datetime.date:
    """The day of a cell. Files have the same days over and over."""
    return cells.date(cell, DATE)


@functools.lru_cache(100_000)
def day_literal(day: datetime.date) -> str:
    return literal(day)


def integer_literal(cell: str) -> str:
    if cell.isascii() and cell.isdigit() and len(cell) < DIGITS_THAT_FIT:
        return cell
    return literal(cells.whole_number(cell))


def text_literal(most: int, cell: str) -> str:
    return literal(cells.text(cell, most))


def date_literal(cell: str) -> str:
    return day_literal(date(cell))


class BadLines(Exception):
    """Lines of a file that are no rows of its table, printed one a line."""


class CsvRows:
    """The rows of a file as rows of a table."""

    def __init__(self, table: Table, path: str) -> None:
        self.table, self.path = table, path
        self.given = table.given
        names = [column.name for column in self.given]
        self.start, self.end = names.index(table.period.start), names.index(table.period.end)
        with open(path, encoding='utf-8-sig', newline='') as file:
            self.header = [name.strip().upper() for name in next(csv.reader(file), [])]
        missing = [name for name in names if self.header.count(name) != 1]
        if missing:
            raise BadLines(f'{path}:1: the header has to name {", ".join(missing)} once')
        self.places = [self.header.index(name) for name in names]
        self.makers = [self.maker(column) for column in self.given]
        # A number with a sign has two tokens, as a date has; with the commas and the parentheses.
        self.tokens = 2 + sum(2 if column.kind == 'VARCHAR' else 3 for column in self.given)

    def maker(self, column: Column) -> Callable[[str], str]:
        """The function that makes the literal of a cell of the column."""
        if column.kind == 'INTEGER':
            return integer_literal
        if column.kind == 'VARCHAR':
            return functools.partial(text_literal, column.number or 0)
        if column.name == self.table.period.end:
            return lambda cell: date_literal(cell if cell.strip() else str(END))
        return date_literal

    def rows(self) -> Iterator[tuple[datetime.date, datetime.date, list[str]]]:
        """The first day, the end and the literals of each row; a BadLines after the last line if
        some are bad."""
        bad: list[str] = []
        with open(self.path, encoding='utf-8-sig', newline='') as file:
            reader = csv.reader(file, strict=True)
            try:
                next(reader)
                for record in reader:
                    if record and len(bad) < MOST_TOLD:
                        yield from self.row(record, reader.line_num, bad)
            except (csv.Error, UnicodeDecodeError) as error:
                bad.append(f'{self.path}:{reader.line_num}: no CSV in UTF-8: {error}')
        if bad:
            raise BadLines('\n'.join(bad))

    def row(self, record: list[str], line: int,
            bad: list[str]) -> Iterator[tuple[datetime.date, datetime.date, list[str]]]:
        """The row of a record, or none and what is wrong with it."""
        if len(record) != len(self.header):
            bad.append(f'{self.path}:{line}: {len(record)} fields, and the header has'
                       f' {len(self.header)}')
            return
        values = []
        for make, place in zip(self.makers, self.places):
            try:
                values.append(make(record[place]))
            except ValueError as error:
                name = self.header[place]
                bad.append(f'{self.path}:{line}: column {place + 1} ({name}): {error}')
                return
        start, end = (date(values[place][DATE_IN_LITERAL]) for place in (self.start, self.end))
        if start >= end:
            bad.append(f'{self.path}:{line}: the start {start} is not before the end {end}')
            return
        yield start, end, values


def weight(values: list[str]) -> int:
    """The bytes of a row."""
    return len(','.join(values).encode()) + 4


class Inserts:
    """Rows of a slice as INSERTs, each of as many rows as a statement may have."""

    def __init__(self, source: CsvRows, part: SliceFile) -> None:
        self.source, self.part = source, part
        self.texts: list[str] = []

    def add(self, start: datetime.date, end: datetime.date, values: list[str]) -> None:
        if start < self.part.low or end > self.part.high:
            values = [*values]
            values[self.source.start] = day_literal(max(start, self.part.low))
            values[self.source.end] = day_literal(min(end, self.part.high))
        if len(self.texts) * self.source.tokens > MOST_TOKENS - HEAD_TOKENS - self.source.tokens:
            self.end()
        self.texts.append(f"({','.join(values)})")

    def end(self) -> None:
        """Writes the INSERT of the rows that are not yet written."""
        if self.texts:
            self.part.add(Loaded(self.source.path),
                          f'INSERT INTO {self.source.table.name} VALUES ' + ',\n'.join(self.texts))
        self.texts = []


def load(source: CsvRows, slices: list[SliceFile]) -> None:
    """Writes the rows of a file to the slices that have days of them."""
    inserts, places = [Inserts(source, part) for part in slices], Places(slices)
    for start, end, values in source.rows():
        for at in places.of(start, end):
            inserts[at].add(start, end, values)
    for insert in inserts:
        insert.end()
