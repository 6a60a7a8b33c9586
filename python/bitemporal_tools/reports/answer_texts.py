"""A table of answers as CSV, as aligned text, and as a web page."""
from collections.abc import Collection, Iterable, Sequence

from bitemporal_tools.command_line import counted
from bitemporal_tools.reports.answer_tables import Table
from bitemporal_tools.reports.records import record
from bitemporal_tools.reports.shown import for_page, for_spreadsheet, for_terminal, width

STYLE = '''body { font: 14px sans-serif; margin: 24px; color: #222; background: #fff }
table { border-collapse: collapse; margin: 8px 0 28px }
th, td { border: 1px solid #ccc; padding: 3px 9px; text-align: left; white-space: pre-wrap }
th { background: #f2f2f2 } .number { text-align: right } h2 { font-size: 15px }'''


def as_csv(table: Table, is_raw: bool = False) -> str:
    """The table with a line of names, by the rules of the report's CSV."""
    rows = table.rows
    if not is_raw:
        rows = [[for_spreadsheet(cell) for cell in row] for row in rows]
    return ''.join(map(record, [table.columns, *rows]))


def heading(table: Table) -> str:
    title = f'{table.number}: {table.title}' if table.title else str(table.number)
    return f'{title} ({counted(len(table.rows), "row")})'


def as_table(table: Table, is_raw: bool = False) -> str:
    """Aligned text: numbers to the right, other cells to the left."""
    title, rows = heading(table), table.rows
    if not is_raw:
        title, rows = for_terminal(title), [list(map(for_terminal, row)) for row in rows]
    numbers = [place for place in range(len(table.columns)) if rows and table.is_number(place)]
    return title + '\n' + aligned([table.columns, *rows], numbers)


def aligned(rows: Sequence[Sequence[str]], numbers: Collection[int] = ()) -> str:
    """Aligned text with a rule under the first row. Some places are to the right."""
    widths = [max(map(width, column)) for column in zip(*rows)]
    rule = ['-' * room for room in widths]
    lines = []
    for cells in [rows[0], rule, *rows[1:]]:
        spaces = [' ' * (room - width(cell)) for cell, room in zip(cells, widths)]
        lines.append('  '.join(space + cell if place in numbers else cell + space
                               for place, (cell, space) in enumerate(zip(cells, spaces))).rstrip())
    return '\n'.join(lines) + '\n'


def as_page(tables: Iterable[Table], title: str) -> str:
    """One page with all tables, without any script."""
    parts = ['<!DOCTYPE html>\n<html lang="en"><head><meta charset="utf-8">'
             f'<title>{for_page(title)}</title>\n<style>{STYLE}</style></head><body>\n']
    for table in tables:
        kinds = [' class="number"' if table.rows and table.is_number(place) else ''
                 for place in range(len(table.columns))]
        parts.append(f'<h2>{for_page(heading(table))}</h2>\n<table>\n<tr>')
        parts += [f'<th{kind}>{for_page(name)}</th>' for name, kind in zip(table.columns, kinds)]
        for row in table.rows:
            parts.append('</tr>\n<tr>')
            parts += [f'<td{kind}>{for_page(cell)}</td>' for cell, kind in zip(row, kinds)]
        parts.append('</tr>\n</table>\n')
    return ''.join(parts) + '</body></html>\n'
