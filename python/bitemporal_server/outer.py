"""Outer queries: the engine answers each query in parentheses, and sqlite in memory the rest.

    SELECT DEPT, COUNT(*) FROM (VALIDTIME SELECT DISTINCT ..) AS a GROUP BY DEPT ORDER BY 2 DESC
    SELECT "source"."DEPT", COUNT(*) FROM "public"."EMP" AS "source" GROUP BY "source"."DEPT"

A table that is named as tools name it, in double quotes or after `public.`, has its current rows
there, as of SELECT * FROM table. What sqlite computes is outside the proofs.
"""
import contextlib
import re
import sqlite3
import sys
from typing import Any, Callable, Iterator, NamedTuple, Optional, Sequence

from bitemporal_tools.sql.catalog import Catalog
from bitemporal_tools.sql.lexis import Token

from . import dialect, lexis, totals, values
from .answer_tables import MOST_STEPS, SCHEMA, VALUE, Bounds, cells_of, fill, kind_of, opened, shown
from .lexis import taken
from .moments import AS_MOMENT
from .problems import SYNTAX, Problem
from .translation import translated, without_conditions
from .wire import Column

MARKS = re.compile(re.escape(AS_MOMENT) + r'|[\[\]]')  # of ours, in the name of a column
# Names of sqlite's for the number of a row, which no table here has, and what it takes for itself.
ROWS, REFUSED = ('ROWID', '_ROWID_', 'OID'), ('[', ']')
# A cell of each type, by which the types of an outer query's columns are found.
CELLS = {'INTEGER': 1, 'VARCHAR': 'x', 'DATE': '2000-01-01', 'TIMESTAMP': '2000-01-01 00:00:00'}
FEW_STEPS = 100  # of sqlite, in ten thousands
MOST_INNER = 64  # queries in parentheses


class Inner(NamedTuple):
    """A query in parentheses, and the name of the table of its answer."""
    name: str
    prepared: dialect.Prepared


class Outer:
    """A query over the answers of other queries."""

    def __init__(self, tokens: 'list[Token]', inner: 'list[Inner]',
                 bounds: Callable[[int], Bounds]) -> None:
        self.inner, self.bounds, self.word = inner, bounds, 'SELECT'
        tokens, self.totals = totals.calls(tokens, [it.prepared.columns or [] for it in inner])
        known = {column.name.upper(): column for _, columns in self.tables() for column in columns}
        for token in tokens:
            if token.word in REFUSED or lexis.name_of(token) in ROWS and \
                    lexis.name_of(token) not in known:
                raise Problem('42703', f'{self.name()}: there is no {token.text}',
                              position=token.offset)
        self.parts = translated(tokens, {
            name for name, column in known.items()
            if column.kind in (values.DATE, values.TIMESTAMP)})
        self.count = values.count_of(int(it.text[1:]) for it in tokens if it.kind == 'parameter')
        self.columns = self.find_columns(known)

    def name(self) -> str:
        """The name in an error or a notice."""
        is_of_tables = all(inner.name.startswith(SCHEMA) for inner in self.inner)
        return 'the query around the ' + ('tables' if is_of_tables else 'parentheses')

    def parameters(self, declared: Sequence[int]) -> 'list[int]':
        """The type numbers of the parameters: the inner queries' know theirs."""
        found = [values.TEXT.oid] * self.count
        for inner in self.inner:
            own = inner.prepared.parameters(declared)
            found += [values.TEXT.oid] * (len(own) - len(found))
            for hole in inner.prepared.holes:
                if hole.number:
                    found[hole.number - 1] = own[hole.number - 1]
        return values.oids(declared, found)

    def find_columns(self, known: 'dict[str, Column]') -> 'list[Column]':
        """The columns, with the types that they have over one row of each table: with all
        conditions, or if no row meets them, without."""
        try:
            names, row = self.sample(True)
        except Problem as problem:
            if problem.state != VALUE:
                raise  # of a function, which the sample's values may not be good for
            names, row = self.sample(False)
        return [self.column(name, cell, known)
                for name, cell in zip(names, row or [None] * len(names))]

    def sample(self, has_rows: bool) -> 'tuple[list[str], Sequence[Any] | None]':
        """The names of the columns, and a row of one row of each table, or of none."""
        bounds, given = self.bounds(MOST_STEPS), [None] * self.count
        with bounds.telling(self.name(), SYNTAX), opened(bounds) as database:
            for name, columns in self.tables():
                fill(database, name, columns,
                     [[CELLS[column.kind.name] for column in columns]] if has_rows else [])
            found = bounds.run(database, ''.join(self.parts), given)
            row = found.fetchone()
            names = [MARKS.sub('', it[0]) for it in found.description]
            if row is None:
                bounds.steps = FEW_STEPS
                with contextlib.suppress(sqlite3.Error):
                    row = bounds.run(database, ''.join(without_conditions(self.parts)),
                                     given).fetchone()
        return names, row if row and len(row) == len(names) else None

    def tables(self) -> 'Iterator[tuple[str, Sequence[Column]]]':
        """The tables that sqlite gets, with their columns."""
        for inner in self.inner:
            yield inner.name, inner.prepared.columns or []
        for call in self.totals:
            yield call.name, call.columns()

    def column(self, name: str, cell: Any, known: 'dict[str, Column]') -> Column:
        """A column of this name, of which this is a cell."""
        named = known.get(name.upper())
        if named and (cell is None or isinstance(cell, str) and named.kind is values.VARCHAR):
            return values.column(name, named.kind)
        return values.column(name, kind_of(name, cell))

    def answer(self, given: Sequence[values.Value], most_rows: int,
               run: 'Callable[[dialect.Prepared], Iterator[Sequence[Any]]]',
               end_turn: Callable[[], None]) -> 'tuple[list[list[str | None]], Bounds]':
        """The rows, given the parameters and how an inner query is run, and what holds their bytes.
        When all inner queries are run, the turn at the engine is ended."""
        cells = values.all_around(given, self.count)
        bounds, kinds = self.bounds(MOST_STEPS), [column.kind for column in self.columns]
        rows: 'list[list[str | None]]' = []
        with bounds.telling(self.name(), VALUE), opened(bounds) as database:
            self.fill(database, bounds, run)
            end_turn()
            for row in bounds.run(database, ''.join(self.parts), cells):
                rows.append([shown(cell, kind) for cell, kind in zip(row, kinds)])
                bounds.add(sum(map(sys.getsizeof, rows[-1])))
                if len(rows) > most_rows:
                    raise Problem('54000', f'the answer has more than {most_rows} rows')
        return rows, bounds

    def fill(self, database: sqlite3.Connection, bounds: Bounds,
             run: 'Callable[[dialect.Prepared], Iterator[Sequence[Any]]]') -> None:
        """Gives an sqlite the rows of all tables."""
        answers: 'dict[int, list[Sequence[Any]]]' = {call.place: [] for call in self.totals}
        for place, inner in enumerate(self.inner):
            columns, rows = inner.prepared.columns or [], run(inner.prepared)
            if place in answers:
                for row in rows:
                    answers[place].append(row)
                    bounds.add(sum(map(sys.getsizeof, row)))
            fill(database, inner.name, columns, cells_of(columns, answers.get(place, rows)))
        for call in self.totals:
            columns = call.columns()
            fill(database, call.name, columns, cells_of(columns, call.rows(answers[call.place])))


def inner_queries(text: str, tokens: 'list[Token]',
                  catalog: Catalog) -> 'Iterator[tuple[int, int, dialect.Prepared]]':
    """The queries in parentheses, each with the places of these, without those within them."""
    open_at: 'list[int]' = []
    pairs, at = [], 0
    for place, token in enumerate(tokens):
        if token.word == '(':
            open_at.append(place)
        elif token.word == ')' and open_at:
            pairs.append((open_at.pop(), place))
    for begin, end in sorted(pairs):
        if begin < at or not (taken(tokens, begin + 1, 'VALIDTIME')
                              or taken(tokens, begin + 1, 'SELECT', '*', 'FROM')):
            continue
        try:
            prepared = dialect.Prepared(text, dialect.tokens_of(text, tokens[begin + 1:end]),
                                        catalog)
        except Problem:  # of a token that is not the profile's
            continue
        if prepared.columns is not None:
            yield begin, end, prepared
            at = end + 1


def outer_of(text: str, tokens: 'list[Token]', catalog: Catalog,
             bounds: Callable[[int], Bounds]) -> Optional[Outer]:
    """The outer query that the tokens of a text are; None if they are none. `bounds` gives the
    bounds of a run of so many steps."""
    inner: 'list[Inner]' = []
    rest, at = [], 0
    for begin, end, prepared in inner_queries(text, tokens, catalog):
        inner.append(Inner(f'answer_{len(inner) + 1}', prepared))
        rest += [*tokens[at:begin], Token('answer', inner[-1].name, tokens[begin].offset, '')]
        at = end + 1
    rest += tokens[at:]
    named = [it for it in lexis.references([it for it in rest if it.kind != 'blank'])
             if it.schema in ('', 'PUBLIC') and not it.is_call]
    if any(it.schema or it.is_quoted and it.name in catalog.tables for it in named):
        for name in dict.fromkeys(it.name for it in named if it.name in catalog.tables):
            query = f'SELECT * FROM {name}'
            inner.append(Inner(f'{SCHEMA}."{name}"',
                               dialect.Prepared(query, dialect.lexed(query), catalog)))
    elif not inner:
        return None
    if len(inner) > MOST_INNER:
        raise Problem('54000', f'a query has more than {MOST_INNER} queries in it')
    return Outer(rest, inner, bounds)


def hint(tokens: 'list[Token]', catalog: Catalog) -> str:
    """A hint that a query which the profile does not have may be one that sqlite computes."""
    name = next((it.word for it in tokens if it.word in catalog.tables), None)
    return f'Or write "{name}" in double quotes: sqlite then computes the query over its current' \
           ' rows, outside the proofs.' if name and tokens[0].word in ('SELECT', 'WITH') else ''
