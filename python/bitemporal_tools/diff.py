"""Says what one store has and another lacks: clock, tables and versions.

A line that begins with - is of OLD.store alone, and one with + of NEW.store alone:

    -clock,MOMENT                       the moment of the last AT
    -table,NAME                         a table
    -TABLE: NAME VARCHAR(30)            a column, a period, the key or a reference of a table
    -EMP,101,Ann,2024-01-01,..          a version, after the name of its table, its cells in the
                                        order of the columns

Tables are the same by name. If the columns of a table differ, its versions are compared by those
that both stores have. The last lines, on standard error, count the versions. No store is written.

The exit status is 0 if both have the same, 1 if they differ, and 2 if one can't be read.
"""
import sys
from collections.abc import Iterator, Sequence

from bitemporal_tools import command_line, options
from bitemporal_tools.reports.records import record
from bitemporal_tools.stores import reading
from bitemporal_tools.stores.comparing import difference, sort_key
from bitemporal_tools.stores.history_files import Cells
from bitemporal_tools.stores.reading import Store, Version
from bitemporal_tools.stores.spelling import moment_text
from bitemporal_tools.stores.states import Values
from bitemporal_tools.stores.tables import Table, elements

SIGNS = '-+'


def two_lists(first: Sequence[str], second: Sequence[str], head: str = '') -> Iterator[str]:
    """The lines that only one of two lists has."""
    for sign, lines, others in zip(SIGNS, (first, second), (second, first)):
        for line in lines:
            if line not in others:
                yield f'{sign}{head}{line}\n'


def projected(store: Store, name: str, columns: Sequence[str]) -> Iterator[Version]:
    """The versions of a table with the values of some columns alone, in their order."""
    number = store.number(name)
    table = store.tables[number - 1]
    if table.value_names == list(columns):
        return store.versions(number)
    values = Values(table, columns)
    return iter(sorted((version._replace(values=values.of(version))
                        for version in store.versions(number)), key=sort_key))


class Difference:
    """The lines about all that only one of two stores has, and counts of the versions."""

    def __init__(self, first: Store, second: Store) -> None:
        self.stores = first, second
        self.counts: dict[str, list[int]] = {}

    def lines(self) -> Iterator[str]:
        clocks = [f'clock,{moment_text(store.clock)}' for store in self.stores]
        yield from two_lists(clocks[:1], clocks[1:])
        first, second = ({table.name: table for table in store.tables} for store in self.stores)
        yield from two_lists([f'table,{name}' for name in first],
                             [f'table,{name}' for name in second])
        for name in {**first, **second}:
            if name in first and name in second:
                yield from self.of_tables(first[name], second[name])
            else:
                yield from self.of_one(first.get(name) or second[name], name in second)

    def of_one(self, table: Table, is_second: bool) -> Iterator[str]:
        """The versions of a table that one store alone has."""
        versions = projected(self.stores[is_second], table.name, table.value_names)
        return self.of_versions(table, ((is_second, version) for version in versions))

    def of_tables(self, first: Table, second: Table) -> Iterator[str]:
        """The lines about a table of both stores."""
        head = f'{first.name}: '
        found = [elements(table, store.tables)
                 for table, store in zip((first, second), self.stores)]
        yield from two_lists(found[0], found[1], head)
        common = [column.name for column in first.values if any(
            column.name == other.name and column.kind == other.kind for other in second.values)]
        gone = set(first.value_names) - set(common)
        shown = first._replace(columns=tuple(column for column in first.columns
                                             if column.name not in gone))
        yield from self.of_versions(shown, difference(*(
            projected(store, first.name, common) for store in self.stores)))

    def of_versions(self, table: Table, found: Iterator[tuple[bool, Version]]) -> Iterator[str]:
        cells = Cells(table)
        for is_second, version in found:
            self.counts.setdefault(table.name, [0, 0])[is_second] += 1
            yield f'{SIGNS[is_second]}{record([table.name, *cells.of(version)])}'


def main(arguments: Sequence[str]) -> int:
    parser = command_line.parser('diff', __doc__, 'OLD.store NEW.store')
    options.add(parser, {'OLD.store': '', 'NEW.store': ''})
    wanted = parser.parse_args(arguments)
    with reading.opened(wanted.old) as first, reading.opened(wanted.new) as second:
        found = Difference(first, second)
        is_other = False
        for line in found.lines():
            is_other = True
            sys.stdout.buffer.write(line.encode('utf-8'))
        sys.stdout.buffer.flush()
    for name, (old, new) in found.counts.items():
        print(f'diff: {name}: {command_line.counted(old, "version")} in {wanted.old} alone, {new}'
              f' in {wanted.new} alone', file=sys.stderr)
    return 1 if is_other else 0
