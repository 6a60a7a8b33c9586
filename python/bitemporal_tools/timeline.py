"""Draws a report as time lines.

    ./bitemporal run x.sql | tools/timeline x.sql > x.html

Printed is a web page with a picture of each answer and each list of versions. It is one file,
without a script and with nothing from elsewhere.

An answer has a line for each list of values and a bar for each row. The dot at its start is the
witness `held`, the ring before it the witness `absent`. A triangle is an end that is open. With
--by DEPT, or --lane DEPT, it has a lane for each DEPT instead, with the other values in the bars;
rows that share a day are below each other.

--count and --sum draw totals as tools/totals counts them, a curve for each value of --by.

Versions of a stored query are rectangles over two axes: days go to the right, moments of recording
upwards. Each value of a column has a plane of its own: of the first column of the key, or of --by.

--only takes these statements and draws them in one picture over one axis of days. There a red line
through the versions is the moment of a query's AS OF: what it crosses is what the query saw.
"""
import argparse
import pathlib
from collections.abc import Sequence
from typing import Optional, Union

from bitemporal_tools import command_line, options
from bitemporal_tools.command_line import Fault, counted
from bitemporal_tools.pictures import drawings, letters, page, png
from bitemporal_tools.pictures.canvas import STYLE
from bitemporal_tools.reports import asked, report
from bitemporal_tools.reports.answer_tables import by_name


def wanted_of(words: Sequence[str]) -> argparse.Namespace:
    parser = asked.parser('timeline', __doc__, {
        **asked.OPTIONS, '--only WHICH': 'these statements, by number or name, in one picture',
        '--by --lane COLUMN': 'a lane, a curve or a plane for each value of this column',
        '--count': 'how many rows, as a curve', '--title TEXT': 'above all of it'},
        'SCRIPT [REPORT] [--svg | --png | --text] [OPTIONS]')
    options.add(parser.add_mutually_exclusive_group(), {
        '--svg': 'print one picture alone', '--png': 'print one picture as PNG, by'
        ' a converter that is installed, such as rsvg-convert',
        '--text': 'the answers in letters, for a terminal'})
    options.add(parser, {'--sum COLUMNS': 'the sums, as curves'}, default='')
    options.add(parser, {'--most N': 'lines, and moments of versions, of one picture: 60; more'
                ' are drawn as further pictures'}, type=int, default=60)
    options.add(parser, {'--page N': 'which page --svg and --png draw: 1'}, type=int, default=1)
    return parser.parse_args(words)


def chosen(found: Sequence[asked.Asked], only: Optional[str]) -> list[report.Statement]:
    """The statements that are named, in the order of the script."""
    wanted = [by_name(found, which) for which in only.split(',')] if only is not None else found
    return [one.statement for one in found if one in wanted]


def in_letters(drawn: Sequence[drawings.Drawing], most: int) -> str:
    """Answers and curves for a terminal."""
    found = []
    for drawing in drawn:
        lines = [line for lines in drawing.pages for line in lines]
        if drawing.has_versions and not drawing.has_curves:
            continue
        count = counted(len(lines), 'curve') if drawing.has_curves else \
            counted(sum(len(line.rows) for line in lines), 'row')
        found.append(letters.drawn(f'{drawing.heading} ({count})', lines, drawing.periods, most))
    return '\n'.join(found)


def drawn_page(drawn: Sequence[drawings.Drawing], wanted: argparse.Namespace) -> str:
    """One picture."""
    count = drawings.page_count(drawn)
    if not 1 <= wanted.page <= count:
        raise Fault(f'--page {wanted.page}: there are {counted(count, "page")}')
    return drawings.picture(drawn, wanted.page - 1, wanted.title or '').svg(STYLE)


def output(statements: Sequence[report.Statement], wanted: argparse.Namespace) -> Union[str, bytes]:
    drawn = [drawings.drawing_of(statement, wanted) for statement in statements]
    if wanted.text:
        return in_letters(drawn, wanted.most)
    if wanted.svg:
        return drawn_page(drawn, wanted)
    if wanted.png:
        return png.png_of(drawn_page(drawn, wanted))
    groups = [drawn] if wanted.only else [[drawing] for drawing in drawn]
    return page.page(groups, wanted.title or pathlib.PurePath(wanted.script).name)


def main(words: Sequence[str]) -> int:
    wanted = wanted_of(words)
    if wanted.most < 1:
        raise Fault('--most: write 1 or more')
    answers, status = asked.answers('timeline', wanted)
    command_line.write_output(output(chosen(answers, wanted.only), wanted))
    return status
