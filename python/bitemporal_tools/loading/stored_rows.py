"""A store into which a file is loaded, and the rows of a table of it for some keys: as it is now,
and all that was ever recorded."""
from __future__ import annotations

import datetime
from collections.abc import Collection, Iterable, Iterator, Sequence
from typing import NamedTuple, Optional

from bitemporal_tools.loading.corrections import Fact, TableDays, Values, first_day
from bitemporal_tools.loading.fact_columns import FactColumns
from bitemporal_tools.sql.catalog import Table
from bitemporal_tools.stores import spelling
from bitemporal_tools.stores.reading import Store, Version
from bitemporal_tools.stores.tables import create_tables

# With fewer keys than one of so many versions each is looked up by itself.
VERSIONS_OF_A_LOOK_UP = 20


class Recorded(NamedTuple):
    """A fact of a store, with the moments from which and to which it is recorded."""
    fact: Fact
    since: str
    until: str


class StoredTable:
    """A table of an open store."""

    def __init__(self, store: Store, table: Table) -> None:
        self.store, self.table = store, table
        self.number = store.number(table.name)
        self.kinds = [column.kind for column in table.values]
        self.key_places = [table.place(name) for name in table.key]
        self.other_places = [place for place in range(len(self.kinds))
                             if place not in self.key_places]
        self.days: dict[int, datetime.date] = {}

    def has(self, condition: str = '', bounds: Sequence[bytes] = ()) -> bool:
        """Whether a version of the table meets a condition with these values."""
        [(found,)] = self.store.connection.execute(
            f'SELECT EXISTS (SELECT 1 FROM bt_version WHERE tab = ? {condition})',
            [self.number, *bounds])
        return bool(found)

    def has_any(self, rows: FactColumns) -> bool:
        """Whether there may be a version of one of the keys of rows: of a table whose key is first,
        one with a value from the least to the greatest of these in its first column."""
        if self.key_places[0] != 0 or not self.has():
            return self.has()
        column = rows.values(self.table.key[0])
        return self.has('AND vals >= ? AND vals < ?', [
            spelling.bytes_of([min(column)]), spelling.bytes_of([max(column)]) + b'\xff'])

    def day(self, number: int) -> datetime.date:
        found = self.days.get(number)
        if found is None:
            found = self.days[number] = datetime.date.fromordinal(number + spelling.EPOCH)
        return found

    def current(self, keys: Optional[Collection[Values]]) -> TableDays:
        """The rows of some keys as they are now; without keys all rows."""
        found = TableDays()
        for fact, version in self.facts(keys):
            if version.until == spelling.FOREVER:
                found.facts.setdefault(fact.key, []).append(fact)
        for facts in found.facts.values():
            facts.sort(key=first_day)
        return found

    def history(self, keys: Collection[Values]) -> dict[Values, list[Recorded]]:
        """All versions of some keys."""
        found: dict[Values, list[Recorded]] = {}
        for fact, version in self.facts(keys):
            found.setdefault(fact.key, []).append(
                Recorded(fact, spelling.moment_text(version.since),
                         spelling.moment_text(version.until)))
        return found

    def facts(self, keys: Optional[Collection[Values]]) -> Iterator[tuple[Fact, Version]]:
        """The versions of some keys, or of all, as facts."""
        for version in self.versions(keys):
            values = self.values(version.values)
            key = tuple(values[place] for place in self.key_places)
            if keys is None or key in keys:
                yield Fact(0, '', key, tuple(values[place] for place in self.other_places),
                           self.day(version.start), self.day(version.end)), version

    def versions(self, keys: Optional[Collection[Values]]) -> Iterable[Version]:
        """Versions among which are all of some keys."""
        is_first = self.key_places == list(range(len(self.key_places)))
        count = self.store.counts()[self.number - 1]
        if keys is None or not is_first or len(keys) * VERSIONS_OF_A_LOOK_UP > count:
            return self.store.versions(self.number)
        return (version for key in keys for version in self.of_key(spelling.bytes_of(key)))

    def of_key(self, key: bytes) -> Iterator[Version]:
        """The versions whose values begin with these."""
        return map(Version._make, self.store.connection.execute(
            f'SELECT {self.store.columns} FROM bt_version WHERE tab = ? AND vals >= ? AND vals < ?',
            [self.number, key, key + b'\xff']))

    def values(self, data: bytes) -> list[spelling.Value]:
        """The values that these bytes spell, by the kinds of the columns."""
        found: list[spelling.Value] = []
        at = 1
        for kind in self.kinds:
            if kind == 'INTEGER':
                found.append(int.from_bytes(data[at:at + 8], 'big') - 2 ** 63)
                at += 9
            elif kind == 'DATE':
                found.append(self.day(int.from_bytes(data[at:at + 4], 'big') + 1 - spelling.EPOCH))
                at += 5
            else:
                end = data.index(b'\0\0', at)
                found.append(data[at:end].replace(b'\0\xff', b'\0').decode('utf-8'))
                at = end + 3
        return found


class LoadedStore:
    """A store that a file is loaded into: its clock, as reports print it, and the CREATE TABLEs of
    its tables."""

    def __init__(self, store: Store) -> None:
        self.store, self.clock = store, spelling.moment_text(store.clock)
        self.definitions = create_tables(store.tables)

    def table(self, table: Table) -> Optional[StoredTable]:
        """The table, if the store has it."""
        is_there = any(known.name == table.name for known in self.store.tables)
        return StoredTable(self.store, table) if is_there else None
