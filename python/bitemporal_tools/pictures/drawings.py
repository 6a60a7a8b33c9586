"""Drawings of statements, by pages, and pictures of them over one axis of days."""
import argparse
import dataclasses
from collections.abc import Callable, Sequence
from typing import Any, Optional

from bitemporal_tools.command_line import Fault
from bitemporal_tools.days.rows import day_table
from bitemporal_tools.days.totals import totals
from bitemporal_tools.pictures import answer_picture, curve_picture, version_picture
from bitemporal_tools.pictures.canvas import SMALL, WIDTH, Canvas, left_of
from bitemporal_tools.pictures.days_axis import DaysAxis
from bitemporal_tools.pictures.text_room import room
from bitemporal_tools.reports.answer_tables import called
from bitemporal_tools.reports.report import Answer, Statement, Versions
from bitemporal_tools.sql.tree import Sequenced, selects


@dataclasses.dataclass
class Drawing:
    """The drawing of a statement, by pages."""
    statement: Statement
    heading: str
    pages: list[list[Any]]
    periods: list[Any]
    labels: list[str]
    draw: Callable[[Canvas, DaysAxis, list[Any], Sequence[tuple[str, str]]], None]

    has_curves: bool = False
    right_labels: Sequence[str] = ()

    @property
    def has_versions(self) -> bool:
        return isinstance(self.statement.outcome, Versions)


def heading_of(statement: Statement) -> str:
    """The number of a statement, and its title, or its columns or table."""
    outcome = statement.outcome
    columns = ', '.join(outcome.names) if isinstance(outcome, Answer) else outcome.table.name
    return f'{statement.number}: {called(statement)[1] or columns}'


def place_of(statement: Statement, by: Optional[str]) -> Optional[int]:
    """The place of a column among the values of a statement."""
    if by is None:
        return None
    outcome, name = statement.outcome, by.strip().upper()
    names = outcome.names if isinstance(outcome, Answer) else outcome.table.value_names
    if name not in names:
        raise Fault(f'--by {by}: statement {statement.number} has no such column (it has'
                    f' {", ".join(names)}); --only names the statements that are drawn')
    return list(names).index(name)


def pages_of(lines: list[Any], most: int) -> list[list[Any]]:
    """Lines by pages of at most so many, one page at least."""
    return [lines[first:first + most] for first in range(0, max(1, len(lines)), most)]


def drawing_of(statement: Statement, how: argparse.Namespace) -> Drawing:
    """The drawing of a statement: totals, rows of an answer, or versions."""
    if how.count or how.sum:
        return totals_of(statement, how)
    outcome, heading = statement.outcome, heading_of(statement)
    place = place_of(statement, how.by)
    if isinstance(outcome, Answer):
        lines = answer_picture.lines_of(outcome, place)
        return Drawing(statement, heading, pages_of(lines, how.most),
                       list(map(answer_picture.days_of, outcome.rows)),
                       [line.label for line in lines],
                       lambda canvas, axis, page, _: answer_picture.draw(
                           canvas, axis, outcome, heading, page))
    planes = version_picture.planes_of(outcome, place)
    versions = list(outcome.versions())
    return Drawing(statement, heading, version_picture.pages_of(planes, how.most),
                   [(version.start, version.end) for version in versions],
                   list(map(version_picture.label_of, version_picture.moments_of(versions))),
                   lambda canvas, axis, page, marks: version_picture.draw(
                       canvas, axis, outcome, heading, page, how.most, marks))


def totals_of(statement: Statement, how: argparse.Namespace) -> Drawing:
    """Curves of the totals of an answer."""
    names, steps = totals(day_table(statement), how.by or '', how.count, how.sum)
    curves = curve_picture.curves_of(steps, names)
    heading = heading_of(statement) + (f', by {how.by.upper()}' if how.by else '')
    return Drawing(statement, heading, pages_of(curves, max(1, how.most // 3)),
                   [(step.start, step.end) for step in steps],
                   [label for curve in curves for label in (curve.label, curve.name)],
                   lambda canvas, axis, page, _: curve_picture.draw(
                       canvas, axis, heading, page),
                   has_curves=True, right_labels=[str(curve.high) for curve in curves])


def moments_of(statement: Statement) -> list[str]:
    """The moments of the AS OFs of a sequenced query."""
    if not isinstance(statement.tree, Sequenced):
        return []
    windows = [reference.window for select in selects(statement.tree.query)
               for reference in select.references if reference.window]
    return sorted({window.start.value for window in windows if window.kind == 'AS OF'})


def picture(drawings: Sequence[Drawing], page: int = 0, title: str = '') -> Canvas:
    """The canvas of a page of some drawings over one axis of days, versions first."""
    labels = [label for drawing in drawings for label in drawing.labels]
    marks = [(f'AS OF ({drawing.statement.number})', moment) for drawing in drawings
             if not drawing.has_versions for moment in moments_of(drawing.statement)]
    has_room = bool(marks) and any(drawing.has_versions for drawing in drawings)
    right = [room(label, SMALL) for drawing in drawings for label in drawing.right_labels]
    margin = max([100 if has_room else 50, *(14 + width for width in right)])
    canvas = Canvas(left_of(labels, size=SMALL + 1), WIDTH - margin)
    axis = DaysAxis([period for drawing in drawings for period in drawing.periods],
                    canvas.left + 12, canvas.right)
    canvas.title(title)
    for drawing in sorted(drawings, key=lambda one: not one.has_versions):
        count = len(drawing.pages)
        if page < count:
            canvas.of_pages = f', page {page + 1} of {count}' if count > 1 else ''
            drawing.draw(canvas, axis, drawing.pages[page], marks)
    return canvas


def page_count(drawings: Sequence[Drawing]) -> int:
    return max((len(drawing.pages) for drawing in drawings), default=1)
