"""Facts column by column, as the cells of a file are read and as rows are written.

A file whose lines are new rows, all of them, needs no fact for each line: none of its keys is in
the store, and no two lines of a key say something of one day. Each line is then a row of an INSERT
at its moment.
"""
from __future__ import annotations

import bisect
import itertools
import operator
from collections.abc import Hashable, Iterator, Mapping, Sequence
from typing import Any, Callable, NamedTuple, Optional

from bitemporal_tools.loading.corrections import Fact, fact_of
from bitemporal_tools.sql.catalog import Table

# The keys of rows, their first days and their ends.
DaysOfKeys = tuple[Sequence[Hashable], Sequence[Any], Sequence[Any]]


class FactColumns(NamedTuple):
    """The fields of facts. `cells` has those of each value column of the table by its name.
    `written` has the texts of columns of dates and of numbers that are as literals have them, and
    then the cells of a column of numbers are these texts."""
    table: Table
    lines: Sequence[int]
    moments: Sequence[Any]
    cells: dict[str, Sequence[Any]]
    starts: Sequence[Any]
    ends: Sequence[Any]
    written: Mapping[str, Sequence[str]] = {}

    @property
    def others(self) -> list[str]:
        """The value columns that are not in the key."""
        return [name for name in self.table.value_names if name not in self.table.key]

    def values(self, name: str) -> Sequence[Any]:
        """The values of a value column."""
        is_text = name in self.written and any(
            column.name == name and column.kind == 'INTEGER' for column in self.table.values)
        return list(map(int, self.cells[name])) if is_text else self.cells[name]

    def keys(self) -> Sequence[Hashable]:
        """The cells of the key of each row; the only cell of a key of one column."""
        columns = [self.cells[name] for name in self.table.key]
        return columns[0] if len(columns) == 1 else list(zip(*columns))

    def facts(self, records: Iterator[tuple[str, ...]]) -> list[Fact]:
        """The facts, each a state of one of the records."""
        rest = [self.values(name) for name in self.others]
        return list(map(fact_of, zip(
            self.lines, self.moments, zip(*(self.values(name) for name in self.table.key)),
            zip(*rest) if rest else itertools.repeat(()), self.starts, self.ends, records,
            itertools.repeat(False))))

    def days(self) -> DaysOfKeys:
        """The key, the first day and the end of each row."""
        return self.keys(), self.starts, self.ends

    def some(self, pick: Callable[[Sequence[Any]], Sequence[Any]]) -> FactColumns:
        """The rows that `pick` gives of each column."""
        return FactColumns(self.table, pick(self.lines), pick(self.moments),
                           {name: pick(column) for name, column in self.cells.items()},
                           pick(self.starts), pick(self.ends),
                           {name: pick(column) for name, column in self.written.items()})

    def between(self, first: int, end: Optional[int]) -> FactColumns:
        return self.some(operator.itemgetter(slice(first, end)))

    def first(self, most: Optional[int]) -> FactColumns:
        """The first rows, at most so many, or all."""
        return self.between(0, most)

    def share_a_key(self) -> bool:
        """Whether two rows do."""
        return len(set(self.keys())) < len(self.lines)

    def share_a_day(self) -> bool:
        """Whether two rows of one key do."""
        keys = self.keys()
        last: dict[Hashable, Any] = {}
        for key, days in zip(keys, zip(self.starts, self.ends)):
            before = last.get(key)
            if before and days[0] < before[1]:
                if before[0] < days[1]:
                    return True
                break  # the rows of a key are in another order than their days
            last[key] = days
        else:
            return False
        rows = sorted(zip(keys, self.starts, self.ends))
        return any(key == other and end > start for (key, _, end), (other, start, _)
                   in zip(rows, itertools.islice(rows, 1, None)))

    def by_moment(self) -> Iterator[tuple[str, FactColumns]]:
        """The rows of each moment, in the order of the moments and of the lines."""
        count, columns = len(self.lines), self
        if any(map(operator.gt, self.moments, itertools.islice(self.moments, 1, None))):
            places = sorted(range(count), key=self.moments.__getitem__)
            columns = self.some(lambda column: [column[place] for place in places])
        first = 0
        while first < count:
            moment = columns.moments[first]
            end = bisect.bisect_right(columns.moments, moment, first)
            yield moment, columns.between(first, end)
            first = end


def in_columns(table: Table, facts: Sequence[Fact]) -> FactColumns:
    """Facts that have values, column by column."""
    lines, moments, keys, values, starts, ends = (column(facts, place) for place in range(6))
    columns = FactColumns(table, lines, moments, {}, starts, ends)
    columns.cells.update((str(name), column(keys, place)) for place, name in enumerate(table.key))
    columns.cells.update((name, column(values, place))
                         for place, name in enumerate(columns.others))
    return columns


def column(rows: Sequence[Sequence[Any]], place: int) -> list[Any]:
    """The part of each row at a place."""
    return list(map(operator.itemgetter(place), rows))
