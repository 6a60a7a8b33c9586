"""The history of a store as a folder of texts, and back.

    dump.csv     the version of this form, the clock, for each table its number, name, file and how
                 many versions it has, and the sum of the history, as --verify prints it
    tables.sql   the CREATE TABLE statements, in the order of the numbers
    NAME.csv     the versions of a table, as `SELECT *` through a window over all moments reports
                 them: the columns of CREATE TABLE in a first line, then a line for each version, in
                 the order of its values, first days and moments

The texts are UTF-8 and CSV as a report is. Equal histories make equal folders, byte for byte.
"""
import hashlib
import pathlib
from collections.abc import Callable, Iterator, Sequence
from typing import BinaryIO, NamedTuple

from bitemporal_tools.command_line import Fault, read_text
from bitemporal_tools.reports.records import BadRecord, record, records
from bitemporal_tools.sql.catalog import Table as Parsed
from bitemporal_tools.sql.refusals import Refused
from bitemporal_tools.sql.script import judge
from bitemporal_tools.sql.tree import Create
from bitemporal_tools.stores import spelling
from bitemporal_tools.stores.reading import Store, Version
from bitemporal_tools.stores.spelling import (DATE, EPOCH, FOREVER, INTEGER, bytes_of_value,
                                              cell_of, day_of, day_text, moment_of, moment_text,
                                              parts_of)
from bitemporal_tools.stores.tables import (KINDS, NO_PRECISION, ROW_END, ROW_START, VARCHAR,
                                            Column, Reference, Table, create_tables, definition)

FORMS = '1', '2'  # the first has no sum
HEAD, TABLES = 'dump.csv', 'tables.sql'
# A name of a file may be shorter than the name of a table.
LONGEST_NAME = 200


def file_name(number: int, table: Table) -> str:
    """The file of a table. No table has a name with - in it."""
    name = table.name
    return f'{name}.csv' if len(name) <= LONGEST_NAME else f'{name[:LONGEST_NAME]}-{number}.csv'


# Versions as lines.

class Cells:
    """The cells of the versions of a table, in the order of its columns."""

    def __init__(self, table: Table) -> None:
        self.places = list(map(table.fields.index, table.names))

    def of(self, version: Version) -> list[str]:
        cells = [*map(cell_of, parts_of(version.values)), day_text(version.start),
                 day_text(version.end), moment_text(version.since), moment_text(version.until)]
        return [cells[place] for place in self.places]

    def line(self, version: Version) -> bytes:
        return str(record(self.of(version))).encode('utf-8')


class Sum:
    """The sum of a history, to which its versions are added, after the number of each table's."""

    def __init__(self, clock: int, tables: Sequence[Table]) -> None:
        self.md5 = hashlib.md5()
        self.add(clock, len(tables), *(definition(table, tables) for table in tables))

    def add(self, *parts: 'int | bytes') -> None:
        for part in parts:
            if isinstance(part, bytes):
                self.md5.update(len(part).to_bytes(8, 'big') + part)
            else:
                self.md5.update(part.to_bytes(8, 'big', signed=True))

    def each(self, versions: Iterator[Version]) -> Iterator[Version]:
        for version in versions:
            self.add(*version)
            yield version


def lines(store: Store, number: int, total: Sum) -> Iterator[bytes]:
    """The file of a table: the names of its columns, and its versions, which the sum gets."""
    table = store.tables[number - 1]
    yield str(record(table.names)).encode('utf-8')
    yield from map(Cells(table).line, total.each(store.versions(number)))


def write(store: Store, folder: str) -> None:
    """Writes the history of a store into a folder that exists."""
    top, total = pathlib.Path(folder), Sum(store.clock, store.tables)
    head = [['bitemporal dump', FORMS[-1]], ['clock', moment_text(store.clock)]]
    for number, (table, count) in enumerate(zip(store.tables, store.counts()), 1):
        name = file_name(number, table)
        head.append(['table', str(number), table.name, name, str(count)])
        total.add(count)
        with open(top / name, 'wb') as file:
            file.writelines(lines(store, number, total))
    head.append(['sum', total.md5.hexdigest()])
    (top / TABLES).write_bytes(create_tables(store.tables).encode('utf-8'))
    (top / HEAD).write_bytes(''.join(map(record, head)).encode('utf-8'))


# And back.

class Listed(NamedTuple):
    """A table of a dump, its file, and how many versions this has."""
    table: Table
    path: pathlib.Path
    versions: int


class Dump:
    """A folder with a history."""

    def __init__(self, folder: str) -> None:
        self.folder = pathlib.Path(folder)
        self.head = str(self.folder / HEAD)
        try:
            (kind, form), (_, clock), *listed = records(read_text(self.head))
            word, self.sum = listed.pop() if form == FORMS[-1] else ['sum', '']
            if (kind, word) != ('bitemporal dump', 'sum'):
                raise ValueError
            if form not in FORMS:
                raise Fault(f'{self.head} is of the form {form}, and {FORMS[-1]} is the last known')
            tables = tables_of(self.folder / TABLES)
            if [row[2] for row in listed] != [table.name for table in tables]:
                raise Fault(f'{self.head} lists other tables than {self.folder / TABLES} has')
            self.tables = [Listed(table, self.folder / pathlib.Path(row[3]).name, int(row[4]))
                           for table, row in zip(tables, listed)]
        except (BadRecord, ValueError, IndexError):
            raise Fault(f'{self.head} is not the head of a dump') from None
        moment = moment_of(clock)
        if moment is None or moment == FOREVER:
            raise Fault(f'{self.head}: {clock!r} is no moment of a clock')
        self.clock: int = moment

    def versions(self) -> Iterator[tuple[int, Version]]:
        """All versions, with the numbers of their tables."""
        total = Sum(self.clock, [listed.table for listed in self.tables])
        for number, (table, path, count) in enumerate(self.tables, 1):
            found = 0
            total.add(count)
            for version in total.each(VersionFile(table, path, self.clock).versions()):
                found += 1
                yield number, version
            if found != count:
                raise Fault(f'{path} has {found} versions, and {self.head} says {count}')
        if self.sum not in ('', total.md5.hexdigest()):
            raise Fault(f'{self.folder} was edited: {self.head} says the sum {self.sum}, and that'
                        f' of the texts is {total.md5.hexdigest()}')


def tables_of(path: pathlib.Path) -> list[Table]:
    """The tables that a script of CREATE TABLE statements makes."""
    try:
        statements = judge(read_text(str(path)))
    except Refused as refused:
        raise Fault(f'{path}: {refused}') from None
    tables: list[Table] = []
    for statement in statements:
        if not isinstance(statement.tree, Create) or statement.faults:
            told = statement.faults[0].why if statement.faults else 'it is no CREATE TABLE'
            raise Fault(f'{path}: statement {statement.number}: {told}')
        tables.append(table_of(Parsed(statement.tree)))
    return tables


def table_of(parsed: Parsed) -> Table:
    """The table that a CREATE TABLE makes."""
    columns = tuple(
        Column(str(name), KINDS[kind], number or 0) if not generated else
        Column(str(name), ROW_START if generated == 'START' else ROW_END,
               NO_PRECISION if number is None else number)
        for name, kind, number, generated in parsed.columns)
    period = parsed.period
    return Table(str(parsed.name), columns, str(period.name), str(period.start), str(period.end),
                 tuple(map(str, parsed.key)), tuple(
                     Reference(str(one.table), tuple(map(str, one.columns)),
                               tuple(map(str, one.table_columns))) for one in parsed.references))


class BadCell(Exception):
    """A cell that is none of its column: why."""


class VersionFile:
    """The file of a table, read line by line."""

    def __init__(self, table: Table, path: pathlib.Path, clock: int) -> None:
        self.table, self.path, self.clock = table, path, clock
        self.readers = [reader_of(column) for column in table.values]
        self.places = list(map(table.names.index, table.fields))

    def versions(self) -> Iterator[Version]:
        try:
            with open(self.path, 'rb') as file:
                for line, cells in numbered_records(file):
                    if line == 1:
                        if cells != self.table.names:
                            raise Fault(f'{self.path}: the first line does not name the columns of'
                                        f' {self.table.name}: {",".join(self.table.names)}')
                        continue
                    try:
                        yield self.version(cells)
                    except BadCell as why:
                        raise Fault(f'{self.path}:{line}: {why}') from None
        except (BadRecord, UnicodeDecodeError):
            raise Fault(f'{self.path} is not CSV in UTF-8') from None
        except OSError as error:
            raise Fault(f'cannot read {self.path}: {error.strerror}') from None

    def version(self, cells: Sequence[str]) -> Version:
        if len(cells) != len(self.table.columns):
            raise BadCell(f'{len(cells)} cells, and {self.table.name} has'
                          f' {len(self.table.columns)} columns')
        cells = [cells[place] for place in self.places]
        values = b''.join([read(cell) for read, cell in zip(self.readers, cells)])
        start, end, since, until = cells[-4:]
        version = Version(values, day(start), day(end), moment(since), moment(until))
        if version.start >= version.end:
            raise BadCell(f'the period ends on {end}, and begins on {start}')
        if version.since >= version.until or version.since > self.clock or \
                self.clock < version.until < FOREVER:
            raise BadCell(f'no version is recorded from {since} to {until} where the clock is at'
                          f' {moment_text(self.clock)}')
        return version


def numbered_records(file: BinaryIO) -> Iterator[tuple[int, list[str]]]:
    """The records of a file, each with the number of the line in which it begins."""
    held, begins = b'', 1
    for line, data in enumerate(file, 1):
        held = held + data if held else data
        if held.count(b'"') % 2:
            continue
        if not held.endswith(b'\n'):
            break
        [cells] = records(held.decode('utf-8'))
        yield begins, cells
        held, begins = b'', line + 1
    if held:
        raise BadRecord(begins)


def reader_of(column: Column) -> Callable[[str], bytes]:
    """A function that makes the bytes of a cell of a value column."""
    def number(cell: str) -> bytes:
        try:
            value = int(cell)
        except ValueError:
            value = spelling.MOST_INTEGER + 1
        if str(value) != cell or not -2 ** 63 <= value < 2 ** 63:
            raise BadCell(f'{column.name}: {cell!r} is no whole number of 64 bits')
        return bytes_of_value(value)

    def text(cell: str) -> bytes:
        if len(cell) > column.number:
            raise BadCell(f'{column.name}: {cell[:40]!r} has {len(cell)} characters, and'
                          f' {column.type} takes {column.number}')
        return bytes_of_value(cell)

    def date(cell: str) -> bytes:
        return b'\3' + (day(cell) + EPOCH - 1).to_bytes(4, 'big')

    return {INTEGER: number, VARCHAR: text, DATE: date}[column.kind]


def day(cell: str) -> int:
    number = day_of(cell)
    if number is None:
        raise BadCell(f'{cell!r} is no date YYYY-MM-DD')
    return number


def moment(cell: str) -> int:
    number = moment_of(cell)
    if number is None:
        raise BadCell(f'{cell!r} is no moment YYYY-MM-DD HH:MM:SS')
    return number
