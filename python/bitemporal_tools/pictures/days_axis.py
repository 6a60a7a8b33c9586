"""Days to places on a line, and which of them get a mark.

0001-01-01 as a start and 9999-12-31 as an end have no place of their own: what is open reaches to
the edge.
"""
import functools
from collections.abc import Callable, Iterable, Iterator, Sequence

from bitemporal_tools.days.numbers import FIRST, LAST, iso
from bitemporal_tools.days.stretches import Period
from bitemporal_tools.days.windows import first_of, month_of
from bitemporal_tools.pictures.text_room import room

MONTHS = (1, 2, 3, 6, *(12 * years for years in (
    1, 2, 5, 10, 20, 50, 100, 200, 500, 1000, 2000, 5000)))
GAP = 12
Mark = tuple[int, str]


def by_days(low: int, high: int, step: int) -> list[int]:
    return list(range(-(-low // step) * step, high + 1, step))


def by_months(low: int, high: int, step: int) -> list[int]:
    """The first days of every `step` months between two days."""
    months = range(month_of(low) // step * step, month_of(high) + 1, step)
    return [day for day in map(first_of, filter(lambda at: at >= 12, months)) if low <= day <= high]


class DaysAxis:
    """The line from place `left` to `right`, over all starts and ends and some days around them."""

    def __init__(self, periods: Iterable[Period], left: float, right: float) -> None:
        days = {day for period in periods for day in period} - {FIRST, LAST}
        low, high = min(days, default=738_886), max(days, default=739_252)
        around = max(2, (high - low) // 16)
        self.low, self.high = max(FIRST, low - around), min(LAST, high + around)
        self.left, self.right = left, right

    def place(self, day: int) -> float:
        part = (day - self.low) / (self.high - self.low)
        return self.left + (self.right - self.left) * min(1, max(0, part))

    def marks(self, size: float) -> list[Mark]:
        """Days with what is written at them in a font of this size: as many as have room."""
        for days, length, found in self.choices():
            if room('0' * length, size) * (self.high - self.low) > days * (self.right - self.left):
                continue  # there are too many, without a look at each
            marks = [(day, iso(day)[:length]) for day in found()]
            if self.fits(marks, size):
                return marks
        return []

    def choices(self) -> Iterator[tuple[int, int, Callable[[], list[int]]]]:
        """Distances of marks: some days, how much of a day is written, and what finds the days."""
        for step in (1, 2, 7, 14):
            yield step, 10, functools.partial(by_days, self.low, self.high, step)
        for step in MONTHS:
            yield step * 31, 4 if step >= 12 else 7, functools.partial(
                by_months, self.low, self.high, step)

    def fits(self, marks: Sequence[Mark], size: float) -> bool:
        """Whether marks are far enough apart."""
        return all(self.place(other) - self.place(day) >= room(words, size) + GAP
                   for (day, words), (other, _) in zip(marks, marks[1:]))
