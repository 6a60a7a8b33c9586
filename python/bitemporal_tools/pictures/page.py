"""Pictures to a web page: one file, without any script, and nothing from elsewhere."""
from collections.abc import Sequence

from bitemporal_tools.pictures.canvas import STYLE, WIDTH
from bitemporal_tools.pictures.drawings import Drawing, page_count, picture
from bitemporal_tools.reports.shown import for_page

PAGE_STYLE = '''body { font: 14px sans-serif; margin: 24px; color: #222; background: #f4f4f4 }
section { background: #fff; border: 1px solid #ddd; padding: 10px 14px; margin: 0 0 22px;
 max-width: %dpx; overflow-x: auto }
pre { white-space: pre-wrap; overflow-wrap: anywhere; color: #444; margin: 6px 0 }
svg { max-width: 100%%; height: auto }
''' % (WIDTH + 4)
KEY = ('Dot: held, the first day of a row. Ring: absent, the day before. Triangle: open.'
       ' Versions: days to the right, moments of recording upwards; a dark outline is current,'
       ' pale has ended.')
MOST_TEXT = 1000


def shortened(text: str) -> str:
    """The lines of a statement for the page."""
    text = text if len(text) <= MOST_TEXT else text[:MOST_TEXT] + ' \u2026'
    return '\n'.join(map(for_page, text.splitlines()))


def page(groups: Sequence[Sequence[Drawing]], title: str) -> str:
    """The page with the pictures of each group of drawings, below the texts of their statements."""
    parts = ['<!DOCTYPE html>\n<html lang="en"><head><meta charset="utf-8">'
             f'<title>{for_page(title)}</title>\n<style>{PAGE_STYLE}{STYLE}</style></head>\n'
             f'<body>\n<h1>{for_page(title)}</h1>\n<p>{KEY}</p>\n']
    for drawings in groups:
        texts = '\n'.join(f'<pre>{shortened(drawing.statement.text)}</pre>' for drawing in drawings)
        pictures = '\n'.join(picture(drawings, number).svg()
                             for number in range(page_count(drawings)))
        parts.append(f'<section>\n{texts}\n{pictures}</section>\n')
    return ''.join(parts) + '</body></html>\n'
