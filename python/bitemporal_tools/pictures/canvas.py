"""An SVG picture that grows downwards: what is drawn next is put below what is drawn."""
from collections.abc import Hashable, Iterable

from bitemporal_tools.days.numbers import FIRST, LAST
from bitemporal_tools.days.stretches import Period
from bitemporal_tools.pictures.days_axis import DaysAxis
from bitemporal_tools.pictures.text_room import cut, room
from bitemporal_tools.reports.shown import for_page

WIDTH, EDGE = 1040, 10
LABEL, SMALL, BOLD, TITLE = 12, 11, 13.5, 17  # sizes of fonts; bold letters are broader
MOST_LABEL = 300  # points for the texts at the left
COLOURS = ('#0b6aa2', '#b34700', '#00785a', '#a0457b', '#7a5b00', '#4a56b0', '#6b2f77', '#555555')

STYLE = '''svg { background: #fff; font-family: "DejaVu Sans", Verdana, sans-serif }
text { font-size: 12px; fill: #222 } .head { font-weight: bold } .small { font-size: 11px }
.mark { font-size: 11px; fill: #555 } .inside { font-size: 11px; fill: #fff }
.grid { stroke: #ddd } .lane { stroke: #e8e8e8 } .level { stroke: #999; stroke-dasharray: 2 3 }
.held { fill: #111; stroke: #fff } .absent { fill: #fff; stroke: #111; stroke-width: 1.3 }
.open { fill: #111 } .current { stroke: #111; stroke-width: 1.4 }
.ended { fill-opacity: 0.35; stroke: #777 } .ended-text { font-size: 11px; fill: #222 }
.past { stroke: #c00000; stroke-width: 1.6; stroke-dasharray: 6 3 }
.past-text { font-size: 11px; fill: #c00000 } .title { font-size: 15px; font-weight: bold }'''


class Canvas:
    """Parts of the picture, the place `y` below them, and the colour of each value. `of_pages` is
    said after the counts of headings."""

    def __init__(self, left: float, right: float = WIDTH - 50) -> None:
        self.left, self.right = left, right
        self.parts: list[str] = []
        self.y: float = EDGE
        self.colours: dict[Hashable, str] = {}
        self.of_pages = ''

    def colour(self, values: Hashable) -> str:
        return self.colours.setdefault(values, COLOURS[len(self.colours) % len(COLOURS)])

    def text(self, x: float, y: float, words: str, kind: str = '',
             anchor: str = 'start') -> None:
        self.parts.append(f'<text x="{x:.1f}" y="{y:.1f}" class="{kind}" text-anchor="{anchor}">'
                          f'{for_page(words)}</text>')

    def line(self, x: float, y: float, other_x: float, other_y: float, kind: str) -> None:
        self.parts.append(f'<line x1="{x:.1f}" y1="{y:.1f}" x2="{other_x:.1f}" y2="{other_y:.1f}"'
                          f' class="{kind}"/>')

    def box(self, x: float, y: float, width: float, height: float, colour: str, said: str,
            kind: str = 'row') -> None:
        """A rectangle; `said` is shown where the pointer rests on it."""
        self.parts.append(f'<rect x="{x:.1f}" y="{y:.1f}" width="{max(width, 1.5):.1f}"'
                          f' height="{height:.1f}" fill="{colour}" class="{kind}">'
                          f'<title>{for_page(said)}</title></rect>')

    def dot(self, x: float, y: float, kind: str) -> None:
        self.parts.append(f'<circle cx="{x:.1f}" cy="{y:.1f}" r="3.5" class="{kind}"/>')

    def arrow(self, x: float, y: float, towards: int) -> None:
        """A triangle that says that the drawing continues: to the right (1) or to the left (-1)."""
        self.parts.append(f'<path d="M{x:.1f} {y - 6:.1f} l{8 * towards} 6 l{-8 * towards} 6 z"'
                          ' class="open"/>')

    def open_ends(self, period: Period, left: float, right: float, y: float) -> None:
        """The triangles of a period that has no end, or no beginning."""
        if period[1] == LAST:
            self.arrow(right, y, 1)
        if period[0] == FIRST:
            self.arrow(left, y, -1)

    def title(self, words: str) -> None:
        """Some words above all that is drawn."""
        if words:
            self.y += 20
            self.text(EDGE, self.y, cut(words, WIDTH - 2 * EDGE, TITLE), 'title')
            self.y += 6

    def heading(self, words: str, count: str) -> None:
        """Some words in bold, cut to the picture's width, and a count after them."""
        self.y += 18
        count += self.of_pages
        space = WIDTH - 2 * EDGE - room(f' ({count})', BOLD)
        self.text(EDGE, self.y, f'{cut(words, space, BOLD)} ({count})', 'head')
        self.y += 10

    def note(self, words: str) -> None:
        self.y += 16
        self.text(self.left, self.y, words, 'small')
        self.y += 4

    def days(self, axis: DaysAxis, top: float) -> None:
        """The marks of days below what was drawn from `top` on, with lines up to it."""
        marks = [(axis.place(day), words) for day, words in axis.marks(SMALL)]
        self.parts[:0] = [f'<line x1="{x:.1f}" y1="{top:.1f}" x2="{x:.1f}" y2="{self.y:.1f}"'
                          ' class="grid"/>' for x, _ in marks]
        for x, words in marks:
            self.text(x, self.y + 15, words, 'mark', 'middle')
        self.y += 24

    def svg(self, style: str = '') -> str:
        height = self.y + EDGE
        inside = f'<style>{style}</style>\n' if style else ''
        return (f'<svg xmlns="http://www.w3.org/2000/svg" viewBox="0 0 {WIDTH} {height:.0f}"'
                f' width="{WIDTH}" height="{height:.0f}">\n{inside}' + '\n'.join(self.parts) +
                '\n</svg>\n')


def left_of(labels: Iterable[str], size: float = LABEL, least: float = 60) -> float:
    """The place at which the lines begin, after labels at the left."""
    return EDGE + 14 + min(MOST_LABEL, max([least, *(room(words, size) for words in labels)]))
