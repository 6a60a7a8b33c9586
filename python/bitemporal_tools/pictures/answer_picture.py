"""The rows of an answer: a line for each list of values, a bar for each row.

The dot at the start of a bar is the witness `held`, the first day; the ring before it is the
witness `absent`, the day before. A triangle is an end that is open, or a start on the first of
all days.

By a column there is a lane for each value of it, with the other values in the bars. Rows of a lane
that share a day are on lines of their own.
"""
from collections.abc import Sequence
from typing import NamedTuple, Optional

from bitemporal_tools.command_line import counted
from bitemporal_tools.days.numbers import LAST, ordinal
from bitemporal_tools.days.rows import grouped
from bitemporal_tools.days.stretches import Period
from bitemporal_tools.pictures.canvas import LABEL, MOST_LABEL, SMALL, Canvas
from bitemporal_tools.pictures.days_axis import DaysAxis
from bitemporal_tools.pictures.text_room import cut, room
from bitemporal_tools.reports.answer_tables import in_order
from bitemporal_tools.reports.report import Answer, Row

LANE, BAR = 28, 16


class Line(NamedTuple):
    """A line of a picture: what is at its left, its rows in turn, and what the bar of each says,
    which is its days if that is None."""
    label: str
    rows: list[Row]
    said: list[Optional[str]]


def lines_of(answer: Answer, place: Optional[int] = None) -> list[Line]:
    """The lines of an answer: of each list of values, or with a place of a column each of
    its lanes' lines."""
    if place is None:
        return [Line(', '.join(values), rows, [None] * len(rows))
                for values, rows in grouped(answer.rows, lambda row: row.values).items()]
    by: int = place
    lanes = grouped(answer.rows, lambda row: row.values[by])
    return [line for value in in_order(list(lanes), lambda value: [value], [0])
            for line in lane(value, lanes[value], place)]


def lane(value: str, rows: Sequence[Row], place: int) -> list[Line]:
    """The lines of one lane: a row is on the first on which no earlier row shares a day with it."""
    lines: list[list[Row]] = []
    for row in in_order(rows, lambda row: [row.start], [0]):
        free = next((line for line in lines if line[-1].end <= row.start), None)
        if free is None:
            lines.append([row])
        else:
            free.append(row)
    return [Line('' if number else value, line, [others(row, place) for row in line])
            for number, line in enumerate(lines)]


def others(row: Row, place: int) -> str:
    """The values of a row but for its lane's."""
    return ', '.join((*row.values[:place], *row.values[place + 1:]))


def days_of(row: Row) -> Period:
    return ordinal(row.start), ordinal(row.end)


def draw(canvas: Canvas, axis: DaysAxis, answer: Answer, heading: str,
         lines: Sequence[Line]) -> None:
    """Draws these lines of an answer."""
    canvas.heading(heading, counted(len(answer.rows), 'row'))
    top = canvas.y
    for line in lines:
        middle = canvas.y + LANE / 2
        canvas.text(canvas.left - 14, middle + 4, cut(line.label, MOST_LABEL, LABEL), '', 'end')
        canvas.line(canvas.left, middle, canvas.right, middle, 'lane')
        for row, said in zip(line.rows, line.said):
            bar(canvas, axis, row, middle, said)
        canvas.y += LANE
    if lines:
        canvas.days(axis, top)
    else:
        canvas.note('no row')


def bar(canvas: Canvas, axis: DaysAxis, row: Row, middle: float, said: Optional[str]) -> None:
    period = days_of(row)
    left, right = map(axis.place, period)
    canvas.box(left, middle - BAR / 2, right - left, BAR,
               canvas.colour(row.values if said is None else said),
               f'{", ".join(row.values)}: from {row.start} on, no longer on {row.end};'
               f' held {row.held}, absent {row.absent}')
    words = f'{row.start} \u2013 {"open" if period[1] == LAST else row.end}' if said is None \
        else cut(said, right - left - 16, SMALL)
    if words != '\u2026' and right - left >= room(words, SMALL) + 16:
        canvas.text((left + right) / 2, middle + 4, words, 'inside', 'middle')
    if said is None:
        canvas.dot(left, middle, 'held')
        if row.absent != 'none':
            canvas.dot(left - 8, middle, 'absent')
    canvas.open_ends(period, left, right, middle)
