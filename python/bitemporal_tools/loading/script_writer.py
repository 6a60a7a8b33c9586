"""Changes to statements, and statements to scripts within the limits of docs/PROFILE.md section
8."""
from __future__ import annotations

from collections.abc import Iterable, Iterator, Sequence
from typing import Any

from bitemporal_tools.loading.corrections import Change, Fact
from bitemporal_tools.loading.fact_columns import FactColumns, in_columns
from bitemporal_tools.sql.catalog import Table
from bitemporal_tools.sql.refusals import MOST_BYTES, MOST_TOKENS

MOST_BYTES_OF_AN_INSERT = 262_144
# The form of a literal of each kind in a row, the number of its tokens, and the most bytes of its
# value, if they are few.
FORMS = {'INTEGER': ('%s', 1, 20), 'VARCHAR': ("'%s'", 1, 0), 'DATE': ("DATE '%s'", 2, 10)}
TOKENS_OF_A_HEAD, TOKENS_OF_A_ROW = 3, 2
BETWEEN_ROWS = ',\n '
BYTES_OF_A_CHARACTER = 4  # at most


def size_of(text: str) -> int:
    """The number of bytes of a text."""
    return len(text) if text.isascii() else len(text.encode('utf-8'))


def written(column: Sequence[Any], kind: str) -> Sequence[str]:
    """The texts of a column's values in the form of their kind."""
    if kind == 'INTEGER':
        return list(map(str, column))
    if kind == 'DATE':
        shown = {day: day.isoformat() for day in set(column)}
        return list(map(shown.__getitem__, column))
    return [text.replace("'", "''") for text in column] if "'" in ''.join(column) else column


def longest(column: Sequence[str], kind: str) -> int:
    """A number of bytes that no value of a column has more of."""
    return FORMS[kind][2] or max(map(len, column)) * (
        1 if ''.join(column).isascii() else BYTES_OF_A_CHARACTER)


class RowWriter:
    """Writes facts as the rows of INSERTs into a table, column by column."""

    def __init__(self, table: Table) -> None:
        self.kinds = [(str(column.name), column.kind) for column in table.given]
        self.days = table.period.start, table.period.end
        self.form = '(' + ', '.join(FORMS[kind][0] for _, kind in self.kinds) + ')'
        self.tokens = TOKENS_OF_A_ROW + sum(1 + FORMS[kind][1] for _, kind in self.kinds)
        self.size = len(self.form) - 2 * len(self.kinds) + len(BETWEEN_ROWS)

    def texts_of(self, columns: FactColumns) -> tuple[list[Sequence[str]], list[int]]:
        """The texts of each column as they are in a row, and how many signs are before the numbers
        of each row, if any are."""
        cells = {**columns.cells, **dict(zip(self.days, (columns.starts, columns.ends)))}
        texts: list[Sequence[str]] = []
        signs: list[int] = []
        for name, kind in self.kinds:
            column = columns.written.get(name) or written(cells[name], kind)
            if kind == 'INTEGER' and '-' in ''.join(column):
                signs = [count + text.startswith('-')
                         for count, text in zip(signs or [0] * len(column), column)]
            texts.append(column)
        return texts, signs

    def runs(self, texts: list[Sequence[str]], signs: list[int]) -> Iterator[tuple[int, int]]:
        """The first row and the end of each INSERT."""
        count = len(texts[0])
        most = (MOST_TOKENS - TOKENS_OF_A_HEAD) // self.tokens
        size = self.size + sum(longest(text, kind) for text, (_, kind) in zip(texts, self.kinds))
        if not signs and most * size <= MOST_BYTES_OF_AN_INSERT:
            for first in range(0, count, most):
                yield first, min(first + most, count)
            return
        first, tokens, size = 0, TOKENS_OF_A_HEAD, 0
        for place, row in enumerate(zip(*texts)):
            need = self.tokens + (signs[place] if signs else 0)
            bytes_ = self.size + sum(map(size_of, row))
            if place > first and (tokens + need > MOST_TOKENS
                                  or size + bytes_ > MOST_BYTES_OF_AN_INSERT):
                yield first, place
                first, tokens, size = place, TOKENS_OF_A_HEAD, 0
            tokens += need
            size += bytes_
        yield first, count

    def rows(self, columns: FactColumns) -> Iterator[str]:
        """The rows of each INSERT, as many as a statement may have."""
        texts, signs = self.texts_of(columns)
        head, *between, tail = self.form.split('%s')
        # The signs after each text of a row, each after an empty place for that text.
        behind = [sign for after in [*between, f'{tail}{BETWEEN_ROWS}{head}']
                  for sign in ('', after)]
        for first, end in self.runs(texts, signs):
            parts = behind * (end - first)
            for place, text in enumerate(texts):
                parts[2 * place::len(behind)] = text[first:end]
            yield f'{head}{"".join(parts[:-1])}{tail}'


class StatementWriter:
    """Writes changes of one table as statements."""

    def __init__(self, table: Table) -> None:
        self.table, self.rows = table, RowWriter(table)
        self.others = [name for name in table.value_names if name not in table.key]
        self.forms: dict[tuple[str, tuple[int, ...]], str] = {}

    def change(self, change: Change) -> str:
        """An UPDATE or a DELETE of a portion."""
        values = [change.values[place] for place in change.places]
        return self.form(change.kind, tuple(change.places)) % (
            change.start, change.end,
            *[value.replace("'", "''") if isinstance(value, str) else value
              for value in (*values, *change.key)])

    def form(self, kind: str, places: tuple[int, ...]) -> str:
        """The text that changes of one kind have alike, with the forms of their values."""
        if (kind, places) not in self.forms:
            name, period = self.table.name, self.table.period.name
            forms = {column.name: f'{column.name} = {FORMS[column.kind][0]}'
                     for column in self.table.values}
            day = FORMS['DATE'][0]
            portion = f'{name} FOR PORTION OF {period} FROM {day} TO {day}\n '
            sets = ', '.join(forms[self.others[place]] for place in places)
            where = 'WHERE ' + ' AND '.join(forms[column] for column in self.table.key)
            self.forms[kind, places] = f'DELETE FROM {portion}{where}' if kind == 'delete' else \
                f'UPDATE {portion}SET {sets} {where}'
        return self.forms[kind, places]

    def inserts(self, columns: FactColumns) -> Iterator[str]:
        """INSERTs of as many rows each as a statement may have."""
        if columns.lines:
            for rows in self.rows.rows(columns):
                yield f'INSERT INTO {self.table.name} VALUES\n {rows}'

    def statements(self, changes: list[Change], new: Sequence[Fact]) -> Iterator[str]:
        """The statements of the changes of one moment: days that go, that differ, that are new."""
        for kind in ('delete', 'update'):
            yield from (self.change(change) for change in changes if change.kind == kind)
        yield from self.inserts(in_columns(self.table, new))


def scripts(head: str, statements: Iterable[str]) -> Iterator[str]:
    """The texts of scripts: a head, and then the statements in turn, as many in each as it takes.
    The head is in the first alone."""
    parts, size = [head], size_of(head)
    for statement in statements:
        text = statement + ';\n'
        need = size_of(text)
        if size + need > MOST_BYTES:
            yield ''.join(parts)
            parts, size = [], 0
        parts.append(text)
        size += need
    yield ''.join(parts)
