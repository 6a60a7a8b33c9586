"""Answers as time lines in letters, for a terminal."""
from collections.abc import Sequence
from typing import Union

from bitemporal_tools.days.numbers import FIRST, LAST
from bitemporal_tools.days.stretches import Period
from bitemporal_tools.pictures.answer_picture import Line, days_of
from bitemporal_tools.pictures.curve_picture import Curve
from bitemporal_tools.pictures.days_axis import DaysAxis
from bitemporal_tools.reports.report import Row
from bitemporal_tools.reports.shown import for_terminal, width

WIDTH, MOST_LABEL = 72, 24


def label_of(label: str) -> str:
    """A label in at most MOST_LABEL columns of a terminal."""
    text = for_terminal(label)
    if width(text) <= MOST_LABEL:
        return text
    while width(text) > MOST_LABEL - 1:
        text = text[:-1]
    return text + '\u2026'


def lane_of(axis: DaysAxis, rows: Sequence[Row]) -> str:
    """The bars of some rows as a line of letters."""
    lane = [' '] * (WIDTH + 1)
    for row in rows:
        start, end = days_of(row)
        left = round(axis.place(start))
        right = max(left + 1, round(axis.place(end)))
        lane[left:right + 1] = '|' + '=' * (right - left - 1) + '|'
        if start == FIRST:
            lane[left] = '<'
        if end == LAST:
            lane[right] = '>'
    return ''.join(lane[:WIDTH + 1]).rstrip()


def marks_of(axis: DaysAxis) -> str:
    """The line of days below: a mark begins below its day."""
    line = [' '] * (WIDTH + 12)
    for day, words in axis.marks(1.1):
        place = round(axis.place(day))
        if not ''.join(line[max(0, place - 2):place + len(words)]).strip():
            line[place:place + len(words)] = words
    return ''.join(line).rstrip()


def curve_of(axis: DaysAxis, steps: Sequence[tuple[int, Period]]) -> str:
    """The totals of a curve as a line of letters: each from its first day on, if it has room."""
    lane = [' '] * (WIDTH + 1)
    for total, (start, end) in steps:
        left, right = round(axis.place(start)), round(axis.place(end))
        lane[left] = '|'
        if right - left > len(str(total)):
            lane[left + 1:right] = str(total).ljust(right - left - 1)
    return ''.join(lane[:WIDTH + 1]).rstrip()


def drawn(heading: str, lines: Sequence[Union[Line, Curve]], periods: Sequence[Period],
          most: int) -> str:
    """Lines of an answer, or curves, as text: at most `most` of them above each line of days."""
    axis = DaysAxis(periods, 0, WIDTH - 1)
    labels = [label_of(line.label if isinstance(line, Line)
                       else ' '.join(filter(None, (line.label, line.name)))) for line in lines]
    room = max(map(width, labels), default=0)
    found = [for_terminal(heading)]
    for first in range(0, len(lines), most):
        for label, line in list(zip(labels, lines))[first:first + most]:
            found.append(label + ' ' * (room - width(label) + 2) + (
                lane_of(axis, line.rows) if isinstance(line, Line) else
                curve_of(axis, line.steps)))
        found.append(' ' * (room + 2) + marks_of(axis))
    return '\n'.join(found) + '\n'
