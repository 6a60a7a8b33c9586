"""Rows that follow each other within a group, such as the managers of a department, whatever the
key of their table is; and what their ends say: whether an end is the last day of a row or the first
one on which it no longer holds.

A group is some columns; rows with the same cells in them are compared, each with the one before it
by its first day. Rows follow each other if far more of them begin about the end of the one before
than within it.
"""
from __future__ import annotations

import datetime
import itertools
from collections.abc import Hashable, Iterable, Iterator, Mapping, Sequence
from typing import NamedTuple, Optional

# Groups are of at most so many columns, of the first so many; they are tried on so many rows.
MOST_COLUMNS, MOST_TRIED, MOST_SAMPLED = 2, 8, 5_000
FEWEST_HANDOVERS, HANDOVERS_OF_AN_OVERLAP = 2, 2
Lines = tuple[int, int]


class Handovers(NamedTuple):
    """Pairs of rows by the day on which the second begins: the end of the first, a day later, two
    days later, a day earlier, or still earlier. Each is the lines of the two rows."""
    meet: list[Lines]
    apart: list[Lines]
    two_apart: list[Lines]
    shared: list[Lines]
    overlap: list[Lines]

    @property
    def total(self) -> int:
        return len(self.meet) + len(self.apart) + len(self.shared)

    @property
    def follow(self) -> bool:
        """Whether rows of the group follow each other."""
        return self.total >= max(FEWEST_HANDOVERS, HANDOVERS_OF_AN_OVERLAP * len(self.overlap))

    @property
    def ends_are_last_days(self) -> bool:
        """Whether ends that are taken for first days without the row look like last ones."""
        return len(self.apart) > max(len(self.meet), len(self.two_apart), len(self.shared))

    @property
    def ends_are_too_late(self) -> bool:
        """Whether ends look a day late."""
        return len(self.shared) > max(len(self.meet), len(self.apart))


class GroupedRows:
    """Rows by their columns. Rows of one owner are not compared with each other."""

    def __init__(self, columns: Mapping[str, Sequence[Hashable]], days: Iterable[
            tuple[datetime.date, datetime.date]], owners: Iterable[Hashable],
            lines: Iterable[int]) -> None:
        known: dict[Hashable, int] = {}  # equal owners as equal numbers
        rows = sorted((start.toordinal(), end.toordinal(), known.setdefault(owner, len(known)),
                       line, place) for place, ((start, end), owner, line)
                      in enumerate(zip(days, owners, lines)))
        self.rows = [row[:4] for row in rows]
        self.columns = {name: [cells[row[4]] for row in rows] for name, cells in columns.items()}

    def handovers(self, group: Sequence[str]) -> Handovers:
        """The pairs of rows of a group that follow each other."""
        found = Handovers([], [], [], [], [])
        by_delay = {0: found.meet, 1: found.apart, 2: found.two_apart, -1: found.shared}
        groups = zip(*(self.columns[name] for name in group)) if group else itertools.repeat(())
        last: dict[tuple[Hashable, ...], tuple[int, int, int]] = {}  # of each group
        for cells, (start, end, owner, line) in zip(groups, self.rows):
            if cells in last:
                last_end, last_owner, last_line = last[cells]
                delay = start - last_end
                if owner != last_owner and delay <= 2:
                    by_delay.get(delay, found.overlap).append((last_line, line))
                if end < last_end:
                    continue
            last[cells] = end, owner, line
        return found

    def groups(self, key: Iterable[str]) -> Iterator[tuple[str, ...]]:
        """The groups that are tried. The rows of a whole key tell of themselves."""
        for count in range(MOST_COLUMNS + 1):
            for group in itertools.combinations(list(self.columns)[:MOST_TRIED], count):
                if not set(key) <= set(group):
                    yield group

    def best(self, key: Sequence[str]) -> Optional[tuple[str, ...]]:
        """The group in which the most rows follow each other, if there is one; of several the one
        of the fewest columns."""
        found = [(self.handovers(group), group) for group in self.groups(key)]
        following = [(handovers.total, group) for handovers, group in found if handovers.follow]
        return max(following, key=lambda pair: pair[0])[1] if following else None
