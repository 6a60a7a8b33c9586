"""Versions over two axes: days go to the right, moments of recording upwards.

Each version is the rectangle of the days on which it holds and of the moments at which it was
recorded. Moments are at equal distances, since corrections come close together. Each value of one
column has a plane of its own. A red line is the moment of a query's AS OF: what it crosses is what
the query saw.
"""
from collections.abc import Iterable, Sequence
from typing import Optional

from bitemporal_tools.command_line import counted
from bitemporal_tools.days.numbers import iso
from bitemporal_tools.days.rows import grouped
from bitemporal_tools.pictures.canvas import SMALL, Canvas
from bitemporal_tools.pictures.days_axis import DaysAxis
from bitemporal_tools.pictures.text_room import cut
from bitemporal_tools.reports.report import Version, Versions
from bitemporal_tools.sql.literals import FIRST_MOMENT, FOREVER

BAND, LOW_BAND, MANY = 44, 26, 12


# The versions by a value, which is in a place of theirs.
PlaneOf = tuple[tuple[int, str], list[Version]]


def moments_of(versions: Iterable[Version]) -> list[str]:
    """The moments from which and to which they were recorded, without the open end."""
    return sorted({moment for version in versions for moment in (version.since, version.until)}
                  - {FOREVER})


def label_of(moment: str) -> str:
    return 'the start' if moment == FIRST_MOMENT else moment


def planes_of(outcome: Versions, place: Optional[int]) -> list[PlaneOf]:
    """The versions by their values in a place; of the first column of the key if there is
    none."""
    of = outcome.table.place(outcome.table.key[0]) if place is None else place
    return list(grouped(outcome.versions(), lambda one: (of, one.values[of])).items())


def pages_of(planes: Iterable[PlaneOf], most: int) -> list[list[PlaneOf]]:
    """The planes by pages, which have at most `most` levels of moments, or one plane."""
    pages: list[list[PlaneOf]] = [[]]
    levels = 0
    for plane in planes:
        count = min(most, len(moments_of(plane[1])))
        if pages[-1] and levels + count > most:
            pages.append([])
            levels = 0
        pages[-1].append(plane)
        levels += count
    return pages


def draw(canvas: Canvas, axis: DaysAxis, outcome: Versions, heading: str,
         planes: Sequence[PlaneOf], most: int, marks: Sequence[tuple[str, str]] = ()) -> None:
    """Draws these planes, at most `most` levels of moments of each. `marks` are pairs of a word and
    a moment."""
    canvas.heading(heading, counted(len(outcome.rows), 'version'))
    if not planes:
        canvas.note('no version')
    for (place, value), versions in planes:
        canvas.y += 16
        label = f'{outcome.table.value_names[place]} {value}'
        canvas.text(canvas.left, canvas.y, cut(label, canvas.right - canvas.left, SMALL), 'small')
        canvas.y += 8
        Plane(canvas, axis, versions, place, most).draw(marks)


class Plane:
    """The versions of one value, over the last moments, at most `most`."""

    def __init__(self, canvas: Canvas, axis: DaysAxis, versions: Sequence[Version], place: int,
                 most: int) -> None:
        self.canvas, self.axis, self.versions, self.place = canvas, axis, versions, place
        moments = moments_of(versions)
        self.left_out, self.moments = moments[:-most], moments[-most:]
        self.band = BAND if len(self.moments) <= MANY else LOW_BAND
        self.top, self.height = canvas.y, self.band * len(self.moments)
        # Texts are drawn after all lines.
        self.texts: list[tuple[float, float, str, str, str]] = []

    def level(self, moment: str) -> float:
        """The place of a moment; what was before the first that is shown is at the bottom."""
        if moment == FOREVER:
            return self.top
        number = self.moments.index(moment) if moment in self.moments else 0
        return self.top + self.height - self.band * number

    def draw(self, marks: Sequence[tuple[str, str]]) -> None:
        """Draws it."""
        for version in self.versions:
            self.version(version)
        canvas = self.canvas
        for moment in self.moments:
            y = self.level(moment)
            canvas.line(canvas.left - 4, y, canvas.right, y, 'level')
            canvas.text(canvas.left - 14, y + 4, label_of(moment), 'mark', 'end')
        for words, moment in marks:
            self.mark(words, moment)
        for text in self.texts:
            canvas.text(*text)
        canvas.y += self.height
        canvas.days(self.axis, self.top)
        if self.left_out:
            canvas.note(f'and {counted(len(self.left_out), "earlier moment")}')

    def version(self, version: Version) -> None:
        left, right = self.axis.place(version.start), self.axis.place(version.end)
        low, high = self.level(version.since), self.level(version.until)
        if low <= high:
            return  # ended before the moments that are shown
        values = tuple(value for place, value in enumerate(version.values) if place != self.place)
        is_current = version.until == FOREVER
        ended = '' if is_current else f' to {version.until}'
        self.canvas.box(left, high, right - left, low - high, self.canvas.colour(values),
                        f'{", ".join(version.values)}: from {iso(version.start)} on, no longer on'
                        f' {iso(version.end)}; recorded from {version.since}{ended}',
                        'current' if is_current else 'ended')
        middle = high + self.band / 2
        words = cut(', '.join(values), right - left - 12, SMALL)
        if words != '\u2026':
            self.texts.append(((left + right) / 2, middle + 4, words,
                               'inside' if is_current else 'ended-text', 'middle'))
        self.canvas.open_ends((version.start, version.end), left, right, middle)

    def mark(self, words: str, moment: str) -> None:
        """The red line of an AS OF, just above the last moment that isn't after it."""
        before = [at for at in self.moments if at <= moment]
        if before:
            y = self.level(before[-1]) - self.band / 4
            canvas = self.canvas
            canvas.line(canvas.left, y, canvas.right, y, 'past')
            canvas.text(canvas.right + 12, y + 4, words, 'past-text')
