"""The days on which slices end, so that each slice is small enough for a run.

A slice has the rows that begin in it, and those that go on into it over its border. So the bytes
of a slice are known from the bytes of the rows that begin and end on each day.
"""
import datetime


class TooManyRows(Exception):
    """The rows of one day are more than a run takes."""


class Weights:
    """The bytes of the rows that begin, and of those that end, on each day. Only the days from
    `first` on and before `last` count."""

    def __init__(self, first: datetime.date, last: datetime.date) -> None:
        self.first, self.last = first, last
        self.begin: dict[datetime.date, int] = {}
        self.end: dict[datetime.date, int] = {}
        self.total = 0

    def add(self, start: datetime.date, end: datetime.date, weight: int) -> None:
        start, end = max(start, self.first), min(end, self.last)
        if start >= end:
            return
        self.begin[start] = self.begin.get(start, 0) + weight
        self.end[end] = self.end.get(end, 0) + weight
        self.total += weight

    def cuts(self, count: int, most: int) -> list[datetime.date]:
        """Borders that make up to `count` slices with as many bytes that begin in each, and more of
        them if a slice would have more than `most`."""
        share = self.total / count
        # Of the slice: the bytes of the rows that begin in it, of all its rows, and of those that
        # go on after the day.
        cuts, begun, inside, going = list[datetime.date](), 0, 0, 0
        for day in sorted(self.begin.keys() | self.end.keys()):
            going -= self.end.get(day, 0)
            more = self.begin.get(day, 0)
            if self.first < day < self.last and (
                    begun >= share and len(cuts) < count - 1 or inside + more > most):
                cuts.append(day)
                begun, inside = 0, going
            if inside + more > most:
                raise TooManyRows(f'the rows of {day} have {inside + more} bytes, and a run takes'
                                  f' {most} of them')
            going += more
            begun += more
            inside += more
        return cuts


def slices_between(first: datetime.date, cuts: list[datetime.date],
                   last: datetime.date) -> list[tuple[datetime.date, datetime.date]]:
    """The first day and the end of each slice."""
    cuts = [day for day in cuts if first < day < last]
    return list(zip([first, *cuts], [*cuts, last]))
