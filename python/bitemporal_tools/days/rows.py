"""The rows of an answer, with days as numbers.

A stored query is taken too, if it shows what was known at one moment: then no key has two rows
on one day.
"""
import dataclasses
from collections.abc import Callable, Hashable, Iterable, Sequence
from typing import NamedTuple, Optional, TypeVar

from bitemporal_tools.reports.answer_tables import Called, called
from bitemporal_tools.command_line import Fault
from bitemporal_tools.days.numbers import ordinal
from bitemporal_tools.days.stretches import Period, stretches, within
from bitemporal_tools.days.windows import Window
from bitemporal_tools.reports.report import Answer, Statement, Versions

Values = tuple[str, ...]
Item = TypeVar('Item')
Group = TypeVar('Group', bound=Hashable)


class DayRow(NamedTuple):
    """Values that hold from day `start` on, and no longer on day `end`."""
    values: Values
    start: int
    end: int


@dataclasses.dataclass
class DayTable(Called):
    """The answer of a statement. `columns` are the values' names, and `kinds` their types, as far
    as they are known."""
    columns: list[str]
    kinds: list[str]
    rows: list[DayRow]

    def place(self, column: str) -> int:
        """The place of a column among the values."""
        name = column.strip().upper()
        if name not in self.columns:
            raise Fault(f'answer {self.name} has no column {column.strip()}'
                        f' (it has {", ".join(self.columns)})')
        return self.columns.index(name)

    def kinds_at(self, places: Sequence[int], *more: str) -> list[str]:
        """The types in some places and then more; none if they aren't known."""
        return [*picked(self.kinds, places), *more] if self.kinds else []

    def within(self, window: Optional[Window]) -> 'DayTable':
        """The rows on the days of a window alone."""
        if window is None:
            return self
        return dataclasses.replace(self, rows=[
            DayRow(row.values, *period) for row in self.rows
            for period in within((row.start, row.end), window.period)])

    def places(self, columns: str) -> list[int]:
        """The places of columns with commas between them."""
        return [self.place(column) for column in columns.split(',') if column.strip()]

    def numbers(self, place: int) -> list[int]:
        """The cells of a column as whole numbers."""
        try:
            return [int(row.values[place]) for row in self.rows]
        except ValueError:
            raise Fault(f'column {self.columns[place]} of answer {self.name} has texts or dates,'
                        ' and no numbers') from None


def grouped(items: Iterable[Item], key: Callable[[Item], Group]) -> dict[Group, list[Item]]:
    """Items by their group, in the order in which the groups come first."""
    found: dict[Group, list[Item]] = {}
    for item in items:
        found.setdefault(key(item), []).append(item)
    return found


def stretches_by(rows: Iterable[DayRow], places: Sequence[int]) -> dict[Values, list[Period]]:
    """The days of the rows that are alike in some places, as stretches."""
    return {values: stretches((row.start, row.end) for row in found)
            for values, found in grouped(rows, lambda row: picked(row.values, places)).items()}


def picked(values: Sequence[str], places: Sequence[int]) -> Values:
    return tuple(values[place] for place in places)


def day_table(statement: Statement) -> DayTable:
    """The table of a statement that answered."""
    outcome = statement.outcome
    if isinstance(outcome, Answer):
        rows = [DayRow(row.values, ordinal(row.start), ordinal(row.end)) for row in outcome.rows]
        return DayTable(*called(statement), list(outcome.names), list(outcome.kinds), rows)
    return DayTable(*called(statement), list(outcome.table.value_names),
                    [column.kind for column in outcome.table.values],
                    version_rows(statement, outcome))


def version_rows(statement: Statement, outcome: Versions) -> list[DayRow]:
    window = statement.tree.window
    if window is not None and window.kind != 'AS OF':
        raise Fault(f'statement {statement.number} shows what was known at several moments, so it'
                    ' may have two rows for a day: ask by AS OF, or without a window')
    return [DayRow(*version[:3]) for version in outcome.versions()]
