"""The definition of a table: as the bytes of a store, and as CREATE TABLE."""
from collections.abc import Sequence
from typing import NamedTuple

from bitemporal_tools.stores import spelling
from bitemporal_tools.stores.spelling import BadBytes, Value, bytes_of

INTEGER, VARCHAR, DATE, ROW_START, ROW_END = 1, 2, 3, 4, 5
NO_PRECISION = -1
KINDS = {'INTEGER': INTEGER, 'DATE': DATE, 'VARCHAR': VARCHAR}


class Column(NamedTuple):
    """`number` is the n of VARCHAR(n); of a system column the p of TIMESTAMP(p), or -1 if none
    was written; else 0."""
    name: str
    kind: int
    number: int = 0

    @property
    def is_system(self) -> bool:
        return self.kind in (ROW_START, ROW_END)

    @property
    def type(self) -> str:
        if self.is_system:
            precision = '' if self.number == NO_PRECISION else f'({self.number})'
            which = 'START' if self.kind == ROW_START else 'END'
            return f'TIMESTAMP{precision} GENERATED ALWAYS AS ROW {which}'
        return f'VARCHAR({self.number})' if self.kind == VARCHAR else \
            'INTEGER' if self.kind == INTEGER else 'DATE'


class Reference(NamedTuple):
    """The columns of a table, and in the same order the parent's to which they refer."""
    parent: str
    columns: tuple[str, ...]
    parent_columns: tuple[str, ...]

    def __str__(self) -> str:
        return f'{",".join(self.columns)}={self.parent}.{",".join(self.parent_columns)}'


class Table(NamedTuple):
    """A table by the names of its parts. The columns are in the order of CREATE TABLE."""
    name: str
    columns: tuple[Column, ...]
    period: str
    start: str
    end: str
    key: tuple[str, ...]
    references: tuple[Reference, ...] = ()

    @property
    def names(self) -> list[str]:
        return [column.name for column in self.columns]

    @property
    def values(self) -> list[Column]:
        """The value columns, whose values a version has in this order."""
        return [column for column in self.columns
                if not column.is_system and column.name not in (self.start, self.end)]

    @property
    def value_names(self) -> list[str]:
        return [column.name for column in self.values]

    @property
    def fields(self) -> list[str]:
        """The columns in the order in which a version has them."""
        return [*self.value_names, self.start, self.end, self.system(ROW_START),
                self.system(ROW_END)]

    def system(self, kind: int) -> str:
        """The name of the ROW START or the ROW END column."""
        [name] = [column.name for column in self.columns if column.kind == kind]
        return name

    def places(self, names: Sequence[str]) -> list[int]:
        """The places of value columns among these."""
        known = self.value_names
        return [known.index(name) for name in names]


# As bytes.

def definition(table: Table, tables: Sequence[Table]) -> bytes:
    """The bytes of a definition. The tables before it are those that it may refer to."""
    names = table.names
    values: list[Value] = [table.name, len(names)]
    for column in table.columns:
        values += [column.name, column.kind, column.number]
    values += [table.period, names.index(table.start), names.index(table.end), len(table.key)]
    values += map(names.index, table.key)
    values.append(len(table.references))
    for reference in table.references:
        number, parent = next((number, parent) for number, parent in enumerate(tables, 1)
                              if parent.name == reference.parent)
        values += [number, len(reference.columns), *map(names.index, reference.columns)]
        values += map(parent.names.index, reference.parent_columns)
    return bytes_of(values)


def table_of(data: bytes, tables: Sequence[Table]) -> Table:
    """The table of a definition, after those before it."""
    read = spelling.Reader(data)
    name = read.take(str)
    columns = tuple(Column(read.take(str), read.take(int), read.take(int))
                    for _ in range(read.take(int)))
    names = [column.name for column in columns]
    period = read.take(str)

    def named(among: Sequence[str]) -> str:
        place = read.take(int)
        if not 0 <= place < len(among):
            raise BadBytes
        return among[place]

    start, end = named(names), named(names)
    key = tuple(named(names) for _ in range(read.take(int)))
    references = []
    for _ in range(read.take(int)):
        number = read.take(int)
        if not 0 < number <= len(tables):
            raise BadBytes
        parent, count = tables[number - 1], read.take(int)
        own = tuple(named(names) for _ in range(count))
        references.append(Reference(parent.name, own,
                                    tuple(named(parent.names) for _ in range(count))))
    read.end()
    return Table(name, columns, period, start, end, key, tuple(references))


# As CREATE TABLE.

def elements(table: Table, tables: Sequence[Table]) -> list[str]:
    """The elements of the statement: the columns, the periods, the key and the references. The
    other tables are given for the names of their periods."""
    found = [f'{column.name} {column.type}' for column in table.columns]
    system = f'{table.system(ROW_START)}, {table.system(ROW_END)}'
    found.append(f'PERIOD FOR {table.period} ({table.start}, {table.end})')
    found.append(f'PERIOD FOR SYSTEM_TIME ({system})')
    found.append(f'PRIMARY KEY ({", ".join(table.key)}, {table.period} WITHOUT OVERLAPS)')
    periods = {parent.name: parent.period for parent in tables}
    found += [f'FOREIGN KEY ({", ".join(reference.columns)}, PERIOD {table.period}) REFERENCES'
              f' {reference.parent} ({", ".join(reference.parent_columns)}, PERIOD'
              f' {periods[reference.parent]})' for reference in table.references]
    return found


def create_table(table: Table, tables: Sequence[Table]) -> str:
    """The statement, with a semicolon and a line feed, and a line for each element."""
    lines = ',\n '.join(elements(table, tables))
    return f'CREATE TABLE {table.name} (\n {lines}) WITH SYSTEM VERSIONING;\n'


def create_tables(tables: Sequence[Table]) -> str:
    """The statements that make the tables, in the order of their numbers."""
    return ''.join(create_table(table, tables) for table in tables)
