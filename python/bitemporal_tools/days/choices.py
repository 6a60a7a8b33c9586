"""Groups whose rows hold on some day of a window, and groups whose rows hold on none.

Whoever is asked about is a list of values, such as a number of a worker. A condition holds of it on
the days on which an answer has a row with these values, and with some more if it names them.
"""
import dataclasses
import re
from collections.abc import Iterable, Iterator, Sequence

from bitemporal_tools.command_line import Fault
from bitemporal_tools.days.rows import DayRow, DayTable, Values, stretches_by
from bitemporal_tools.days.stretches import Period, within
from bitemporal_tools.days.windows import Window
from bitemporal_tools.reports.answer_tables import by_name
from bitemporal_tools.reports.asked import Asked

PAIRS = re.compile(r',(?=\s*[A-Za-z_][A-Za-z0-9_]*=)')

# The days on which something holds of each list of values.
DaysOf = dict[Values, list[Period]]


@dataclasses.dataclass
class Condition:
    """An answer, and the values that its rows have to have in some places."""
    table: DayTable
    wanted: list[tuple[int, str]]

    def rows(self) -> Iterator[DayRow]:
        return (row for row in self.table.rows
                if all(row.values[place] == value for place, value in self.wanted))

    def days(self, columns: str) -> DaysOf:
        """The days of each list of values of the columns."""
        return stretches_by(self.rows(), self.table.places(columns))


def condition(text: str, answers: Sequence[Asked]) -> Condition:
    """A condition that is written as ANSWER or ANSWER:COLUMN=VALUE,COLUMN=VALUE."""
    which, _, pairs = text.partition(':')
    table = by_name(answers, which).days
    wanted = []
    for pair in PAIRS.split(pairs) if pairs else []:
        column, equals, value = pair.partition('=')
        if not equals:
            raise Fault(f'{text}: write ANSWER or ANSWER:COLUMN=VALUE')
        wanted.append((table.place(column), value))
    return Condition(table, wanted)


@dataclasses.dataclass
class Choice:
    """The choice of somebody in a window: whom each of `ever` holds of on some day of it, and none
    of `never` on any. With `least` the values that are counted have to be so many at least."""
    ever: Sequence[DaysOf]
    never: Sequence[DaysOf]
    counted: dict[Values, DaysOf]
    least: int = 0

    def among(self, window: Window) -> Iterator[Values]:
        for who in self.ever[0]:
            if all(some_of(days.get(who, ()), window) for days in self.ever) and \
                    not any(some_of(days.get(who, ()), window) for days in self.never) and \
                    (not self.least or self.values_in(who, window) >= self.least):
                yield who

    def values_in(self, who: Values, window: Window) -> int:
        """The number of the counted values that somebody has in a window."""
        return sum(some_of(periods, window) for periods in self.counted.get(who, {}).values())


def some_of(periods: Iterable[Period], window: Window) -> bool:
    """Whether a day of the periods is in the window."""
    return any(start < window.period[1] and window.period[0] < end for start, end in periods)


def part_of(periods: Iterable[Period], window: Window) -> Iterator[Period]:
    for period in periods:
        yield from within(period, window.period)
