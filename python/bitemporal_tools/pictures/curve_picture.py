"""Totals of an answer as curves over days: a panel for each group and each total.

Panels of one total share their scale, so that groups can be compared. A total of 0 or no row is on
the line below.
"""
from collections.abc import Sequence
from typing import NamedTuple

from bitemporal_tools.command_line import counted
from bitemporal_tools.days.numbers import iso
from bitemporal_tools.days.rows import grouped
from bitemporal_tools.days.steps import Step, joined
from bitemporal_tools.days.stretches import Period
from bitemporal_tools.pictures.canvas import LABEL, MOST_LABEL, SMALL, Canvas
from bitemporal_tools.pictures.days_axis import DaysAxis
from bitemporal_tools.pictures.text_room import cut, room
from bitemporal_tools.reports.answer_tables import in_order

HEIGHT, GAP = 64, 14


class Curve(NamedTuple):
    """One total of one group: its label, its name, and its value in each step. Values go from
    `low` to `high` in all curves of this total."""
    label: str
    name: str
    steps: list[tuple[int, Period]]
    low: int
    high: int


def curves_of(steps: Sequence[Step], names: Sequence[str]) -> list[Curve]:
    """The curves of totals with these names: of each total in turn the curves of all groups."""
    groups = grouped(steps, lambda step: step.group)
    places = range(len(steps[0].group)) if steps else ()
    found = []
    for place, name in enumerate(names):
        values = [step.totals[place] for step in steps]
        low, high = min([0, *values]), max([0, *values])
        for group in in_order(list(groups), list, places):
            alone = (step._replace(totals=(step.totals[place],)) for step in groups[group])
            own = [(step.totals[0], (step.start, step.end)) for step in joined(alone)]
            found.append(Curve(', '.join(group), name, own, low, high))
    return found


def draw(canvas: Canvas, axis: DaysAxis, heading: str, curves: Sequence[Curve]) -> None:
    """Draws these curves below each other."""
    canvas.heading(heading, counted(len(curves), 'curve'))
    top = canvas.y
    for curve in curves:
        canvas.y += GAP
        panel(canvas, axis, curve)
        canvas.y += HEIGHT
    if curves:
        canvas.y += 4
        canvas.days(axis, top)
    else:
        canvas.note('no row')


def panel(canvas: Canvas, axis: DaysAxis, curve: Curve) -> None:
    """Draws one curve, as boxes between its line of 0 and its values."""
    top, span = canvas.y, (curve.high - curve.low) or 1

    def level(value: int) -> float:
        return top + HEIGHT * (curve.high - value) / span

    for value in sorted({0, curve.low, curve.high}):
        canvas.line(canvas.left, level(value), canvas.right, level(value), 'lane')
    canvas.text(canvas.left - 14, top + HEIGHT / 2 - 4, cut(curve.label, MOST_LABEL, LABEL), '',
                'end')
    canvas.text(canvas.left - 14, top + HEIGHT / 2 + 11, cut(curve.name, MOST_LABEL, SMALL), 'mark',
                'end')
    if curve.high:
        canvas.text(canvas.right + 4, top + 4, str(curve.high), 'mark')
    for value, period in curve.steps:
        left, right = map(axis.place, period)
        high, low = sorted((level(value), level(0)))
        canvas.box(left, high, right - left, low - high, canvas.colour(curve.name),
                   f'{", ".join(filter(None, (curve.label, curve.name)))} {value}: from'
                   f' {iso(period[0])} on, no longer on {iso(period[1])}')
        words = str(value)
        if right - left > room(words, SMALL) + 8 and low - high > SMALL + 4:
            canvas.text((left + right) / 2, high + SMALL + 2, words, 'inside', 'middle')
        if value:
            canvas.open_ends(period, left, right, (high + low) / 2)
