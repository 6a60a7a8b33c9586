"""Says what changed in a table of a store, and when.

There is a line for each moment, key and stretch of days on which something differed after the
moment: the moment, the columns of the key, the first day and the end, and what changed: `new:` with
the values, `COLUMN: OLD -> NEW`, or `gone:` with the values that no longer hold.

STORE is never written. The exit status is 0, or 2 if STORE can't be read or has no such table.
"""
import sys
from collections.abc import Iterator, Sequence

from bitemporal_tools import command_line, options
from bitemporal_tools.command_line import Fault, counted, pairs, write_output
from bitemporal_tools.reports.answer_texts import aligned
from bitemporal_tools.reports.records import record
from bitemporal_tools.reports.shown import for_spreadsheet, for_terminal
from bitemporal_tools.stores import reading
from bitemporal_tools.stores.reading import Store
from bitemporal_tools.stores.spelling import (FIRST_MOMENT, cell_of, day_text, moment_of,
                                              moment_text, parts_of)
from bitemporal_tools.stores.states import KeyChange, moments, segments
from bitemporal_tools.stores.tables import Table


class Shown:
    """The lines of a table's history. `wanted` has the values that some columns are to have."""

    def __init__(self, table: Table, wanted: dict[str, str]) -> None:
        self.table = table
        for name in wanted:
            if name not in table.value_names:
                raise Fault(f'{table.name} has no value column {name}; its value columns are'
                            f' {", ".join(table.value_names)}')
        self.wanted = wanted
        self.others = [name for name in table.value_names if name not in table.key]

    @property
    def columns(self) -> list[str]:
        return ['recorded', *self.table.key, 'valid_from', 'valid_to', 'change']

    def cells(self, values: bytes) -> dict[str, str]:
        return dict(zip(self.table.value_names, map(cell_of, parts_of(values))))

    def rows(self, moment: int, change: KeyChange) -> Iterator[list[str]]:
        """The lines of a key at a moment."""
        for segment in segments(change):
            before, after = (list(map(self.cells, values))
                             for values in (segment.before, segment.after))
            if not any(self.wanted.items() <= cells.items() for cells in before + after):
                continue
            for key, what in self.changes(before, after):
                yield [moment_text(moment), *key, day_text(segment.start), day_text(segment.end),
                       what]

    def changes(self, before: list[dict[str, str]], after: list[dict[str, str]]) \
            -> Iterator[tuple[list[str], str]]:
        """The changes of some days, each with its key, from the values before and after."""
        if len(before) == len(after) == 1:
            [old], [new] = before, after
            yield self.key(new), ', '.join(f'{name}: {old[name]} -> {new[name]}'
                                           for name in self.others if old[name] != new[name])
            return
        for what, sides, others in (('gone', before, after), ('new', after, before)):
            for cells in sides:
                if cells not in others:
                    yield self.key(cells), f'{what}: {self.said(cells)}'

    def key(self, cells: dict[str, str]) -> list[str]:
        return [cells[name] for name in self.table.key]

    def said(self, cells: dict[str, str]) -> str:
        return ', '.join(f'{name} {cells[name]}' for name in self.others) or 'the row'


def history(store: Store, name: str, wanted: dict[str, str], since: int) -> Iterator[list[str]]:
    """The names of the columns, and the lines."""
    number = store.number(name)
    shown = Shown(store.tables[number - 1], wanted)
    yield shown.columns
    for moment, changes in moments(store, [number]):
        if moment >= since:
            for change in changes[number].values():
                yield from shown.rows(moment, change)


def moment_named(text: str) -> int:
    """The moment of a word of the command line. A date alone is its first moment."""
    moment = moment_of(text if len(text) > len('YYYY-MM-DD') else f'{text} 00:00:00')
    if moment is None:
        raise Fault(f'{text!r} is no moment YYYY-MM-DD HH:MM:SS')
    return moment


def main(arguments: Sequence[str]) -> int:
    parser = command_line.parser('history', __doc__, 'STORE TABLE [OPTIONS]')
    options.add(parser, {'STORE': '', 'TABLE': '', '--raw': 'CSV with each text as it is',
                         '--csv': 'CSV in place of an aligned table; no cell of it is a formula',
                         '--since MOMENT': 'only what was recorded at this moment or later'})
    options.add(parser, {'--key COLUMN=VALUE': 'only rows with this value, of as many columns as'
                                               ' are named'}, action='append', default=[])
    wanted = parser.parse_args(arguments)
    since = moment_named(wanted.since) if wanted.since else FIRST_MOMENT
    with reading.opened(wanted.store) as store:
        rows = history(store, wanted.table.upper(), pairs(wanted.key, '--key'), since)
        if wanted.raw or wanted.csv:
            for row in rows:
                line = record(row if wanted.raw else map(for_spreadsheet, row))
                sys.stdout.buffer.write(line.encode('utf-8'))
            sys.stdout.buffer.flush()
        else:
            lines = [list(map(for_terminal, row)) for row in rows]
            write_output(f'{wanted.table.upper()}: {counted(len(lines) - 1, "change")}\n'
                         f'{aligned(lines)}')
    return 0
