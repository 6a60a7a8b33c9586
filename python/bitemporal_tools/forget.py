"""Makes a new store of a store, without what is no longer to be stored.

    tools/forget STORE --to NEW.store [--before MOMENT] [--keys FILE ..] [--dry-run]

    --before MOMENT   drops the versions that ended at this moment or before it. What AS OF this
                      moment and later ones sees is unchanged. What AS OF an earlier moment sees is
                      of the versions that had not ended by MOMENT alone: it is no longer what was
                      recorded then.
    --keys FILE       drops all versions, current ones too, with the values of a line of FILE. FILE
                      is CSV, and its first line names columns of one table: EMP.ENO, or
                      PAY.ENO,PAY.MONTH. The rows of other tables that refer to a key of which no
                      version is left go with it.

The journal of what went is on standard output, as CSV with a line for each table and cause: the
table, `before` or `keys`, how many versions, and how many of them were current. It has no values.

STORE is never written, and nothing of it is in the bytes of NEW.store but what stays. What other
programs have in its file is not taken over: tables and columns. Copies, backups and logs of
STORE have what they had. The exit status is 0; 1 if the program refuses the new store, of which
the cause is reported; and 2 if a file can't be read or written, FILE names what STORE has not, or
NEW.store exists already.
"""
import argparse
from collections.abc import Iterator, Sequence
from typing import Optional

from bitemporal_tools import command_line, options
from bitemporal_tools.command_line import Fault, counted, read_text, write_output
from bitemporal_tools.history import moment_named
from bitemporal_tools.reports.records import BadRecord, record, records
from bitemporal_tools.stores import reading, writing
from bitemporal_tools.stores.history_files import BadCell, reader_of
from bitemporal_tools.stores.reading import Store, Version
from bitemporal_tools.stores.spelling import FIRST_MOMENT
from bitemporal_tools.stores.states import Values
from bitemporal_tools.stores.tables import Table

BEFORE, KEYS = 'before', 'keys'


class Lists(Values):
    """Lists of values of some columns of a table, and whether a version has one of them."""

    def __init__(self, table: Table, columns: Sequence[str], lists: set[bytes]) -> None:
        super().__init__(table, columns)
        self.lists = lists

    def has(self, version: Version) -> bool:
        return self.of(version) in self.lists


def values_of_file(store: Store, path: str) -> tuple[int, Lists]:
    """The number of the table that a file names, and the values in its lines."""
    try:
        names, *lines = records(read_text(path).replace('\r\n', '\n'))
    except (BadRecord, ValueError):
        raise Fault(f'{path} is not CSV with a line of names') from None
    halves = [name.strip().upper().partition('.') for name in names]
    tables = {table for table, _, _ in halves}
    if len(tables) != 1 or not all(sign for _, sign, _ in halves):
        raise Fault(f'{path}: the first line names columns of one table, as TABLE.COLUMN')
    number, columns = store.number(tables.pop()), [column for _, _, column in halves]
    table = store.tables[number - 1]
    for column in columns:
        if column not in table.value_names:
            raise Fault(f'{path}: {table.name} has no value column {column}')
    readers = [reader_of(table.values[place]) for place in table.places(columns)]
    lists = set()
    for line, cells in enumerate(lines, 2):
        try:
            if len(cells) != len(columns):
                raise BadCell(f'{counted(len(cells), "cell")} for'
                              f' {counted(len(columns), "column")}')
            lists.add(b''.join([read(cell) for read, cell in zip(readers, cells)]))
        except BadCell as why:
            raise Fault(f'{path}: record {line}: {why}') from None
    return number, Lists(table, columns, lists)


class Forgetting:
    """The versions of a store that go, and why each does."""

    def __init__(self, store: Store, before: int, files: Sequence[str]) -> None:
        self.store, self.before = store, before
        self.values: list[list[Lists]] = [[] for _ in store.tables]
        for path in files:
            number, values = values_of_file(store, path)
            self.values[number - 1].append(values)
        if files:
            for number in range(1, len(store.tables) + 1):
                self.follow(number)
        self.counts: dict[tuple[str, str], list[int]] = {}

    def cause(self, number: int, version: Version) -> Optional[str]:
        """Why a version is removed, or None if it stays."""
        if any(values.has(version) for values in self.values[number - 1]):
            return KEYS
        return BEFORE if version.until <= self.before else None

    def follow(self, number: int) -> None:
        """Has the rows go that refer to keys of this table of which no version is left. Tables
        come before those that refer to them."""
        table = self.store.tables[number - 1]
        if not self.values[number - 1]:
            return
        keys = Values(table, table.key)
        gone, kept = set[bytes](), set[bytes]()
        for version in self.store.versions(number):
            (gone if self.cause(number, version) == KEYS else kept).add(keys.of(version))
        gone -= kept
        for place, child in enumerate(self.store.tables):
            for reference in child.references:
                if reference.parent == table.name:
                    order = [reference.columns[reference.parent_columns.index(name)]
                             for name in table.key]
                    self.values[place].append(Lists(child, order, gone))

    def kept(self) -> Iterator[writing.Numbered]:
        """The versions that stay. What is removed is counted."""
        for number, table in enumerate(self.store.tables, 1):
            for version in self.store.versions(number):
                cause = self.cause(number, version)
                if cause is None:
                    yield number, version
                    continue
                count = self.counts.setdefault((table.name, cause), [0, 0])
                count[0] += 1
                count[1] += version.is_current

    def journal(self) -> str:
        rows = [['table', 'cause', 'versions', 'current']]
        rows += [[*named, *map(str, count)] for named, count in self.counts.items()]
        return ''.join(map(record, rows))


def forget(store: Store, wanted: argparse.Namespace, new: str) -> str:
    """Makes the new store, and gives the journal."""
    before = moment_named(wanted.before) if wanted.before else FIRST_MOMENT
    if before > store.clock:
        raise Fault(f'--before {wanted.before} is after the moment of the store\'s clock')
    forgetting = Forgetting(store, before, wanted.keys)
    writing.make(new, store.path, store.clock, store.tables, forgetting.kept())
    return forgetting.journal()


def main(arguments: Sequence[str]) -> int:
    parser = command_line.parser('forget', __doc__, 'STORE --to NEW.store [OPTIONS]')
    options.add(parser, {'STORE': '', '--to NEW.store': 'the store that is made',
                         '--before MOMENT': 'drop what ended by then'})
    options.add(parser, {'--keys FILE': 'drop all of these keys'}, action='append', default=[])
    options.add(parser, {'--dry-run': 'tell what would go, and leave no store'})
    wanted = parser.parse_args(arguments)
    if not wanted.before and not wanted.keys:
        raise Fault('--before MOMENT or --keys FILE says what goes')
    with writing.place(wanted) as new, reading.opened(wanted.store, wanted.to or '') as store:
        journal = forget(store, wanted, new)
    write_output(journal, '' if wanted.dry_run else wanted.to)
    return 0
