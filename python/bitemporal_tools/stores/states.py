"""The changes of tables, moment by moment."""
import heapq
import itertools
from collections.abc import Iterable, Iterator, Sequence
from typing import NamedTuple

from bitemporal_tools.stores.reading import Store, Version
from bitemporal_tools.stores.spelling import parts_of
from bitemporal_tools.stores.tables import Table


class KeyChange(NamedTuple):
    """The versions of one key that end at a moment, and those that begin then."""
    ended: list[Version]
    begun: list[Version]


class Segment(NamedTuple):
    """Days on which the values of a key differ after a moment: those before, and those after.
    More than one at once there are only if the table has a key that its history did not have."""
    start: int
    end: int
    before: tuple[bytes, ...]
    after: tuple[bytes, ...]


# The changes of a moment: by the number of the table, and the bytes of the key.
Changes = dict[int, dict[bytes, KeyChange]]


class Values:
    """The values of versions of a table in some columns, as bytes."""

    def __init__(self, table: Table, columns: Sequence[str]) -> None:
        self.places = table.places(columns)

    def of(self, version: Version) -> bytes:
        parts = parts_of(version.values)
        return b''.join([parts[place] for place in self.places])


def events(store: Store, number: int) -> Iterable[tuple[int, int, bool, Version]]:
    """The beginnings and ends of the versions of a table, by moment: moment, table, whether it is a
    beginning, version."""
    begun = ((version.since, number, True, version)
             for version in store.versions(number, 'ss, vals, s'))
    ended = ((version.until, number, False, version)
             for version in store.versions(number, 'se, vals, s, ss') if not version.is_current)
    return heapq.merge(begun, ended, key=lambda event: event[0])


def moments(store: Store, numbers: Sequence[int]) -> Iterator[tuple[int, Changes]]:
    """Each moment at which something changed in these tables, and what."""
    tables = {number: store.tables[number - 1] for number in numbers}
    keys = {number: Values(table, table.key) for number, table in tables.items()}
    merged = heapq.merge(*(events(store, number) for number in numbers),
                         key=lambda event: event[0])
    for moment, group in itertools.groupby(merged, key=lambda event: event[0]):
        changes: Changes = {number: {} for number in numbers}
        for _, number, is_begun, version in group:
            change = changes[number].setdefault(keys[number].of(version), KeyChange([], []))
            (change.begun if is_begun else change.ended).append(version)
        yield moment, changes


def segments(change: KeyChange) -> list[Segment]:
    """The days of a key on which its values differ before and after."""
    borders = sorted({day for rows in change for row in rows for day in (row.start, row.end)})
    # The days on which rows start or end, in turn, the ends of a day first.
    edges = [sorted(edge for row in rows for edge in (
        (row.start, True, row.values), (row.end, False, row.values))) for rows in change]
    places, held = [0, 0], (list[bytes](), list[bytes]())
    found: list[Segment] = []
    for start, end in zip(borders, borders[1:]):
        for side, rows in enumerate(held):
            while places[side] < len(edges[side]) and edges[side][places[side]][0] <= start:
                _, is_start, values = edges[side][places[side]]
                (rows.append if is_start else rows.remove)(values)
                places[side] += 1
        before, after = (tuple(sorted(rows)) for rows in held)
        if before != after:
            # A segment that meets the one before it with the same values is one with it.
            if found and found[-1].end == start and found[-1][2:] == (before, after):
                start = found.pop().start
            found.append(Segment(start, end, before, after))
    return found
