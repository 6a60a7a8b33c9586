"""Questions of PostgreSQL's own tables, which programs ask by themselves: psql's \\d, SQLAlchemy.

They are answered by an sqlite in memory that knows the store's tables by PostgreSQL's names, and
has no row of the store. It has the tables, columns and functions that are listed here and in
system_rows: any other is an error each time, and noted in the log.
"""
import re
import sqlite3
import sys
import threading
from typing import TYPE_CHECKING, Any, Callable, Iterable, NoReturn, Sequence

from bitemporal_tools.sql.catalog import Catalog
from bitemporal_tools.sql.lexis import Token

from . import values
from .answer_tables import fill
from .lexis import references
from .problems import Problem
from .system_rows import COLUMNS, tables_of
from .system_texts import REFUSED, functions, respelled
from .wire import Column, Kind

if TYPE_CHECKING:
    from .statements import Runner

SCHEMAS = ('PG_CATALOG', 'INFORMATION_SCHEMA')
CALLS = ('UNNEST', 'GENERATE_SERIES', 'GENERATE_SUBSCRIPTS', 'STRING_TO_ARRAY')
BOOLEANS = re.compile('rel(has|is|row|force).*|att(notnull|isdropped|hasdef)|typnotnull|indis.*|'
                      '.*_is_visible|rolsuper|datallowconn|is_.*|non_unique|'
                      'update|select|insert|delete|'
                      r'.*\?|database-(?:required|is-auto-increment)', re.I)
MOST_ROWS, MOST_STEPS = 10_000, 1000
MOST_LETTERS = 20_000  # of a question


class Question:
    """A query of PostgreSQL's own tables, or of none."""
    columns = None
    word = 'SELECT'

    def __init__(self, tokens: 'list[Token]') -> None:
        if tokens[-1].end - tokens[0].offset > MOST_LETTERS:
            raise Problem('54000', 'a query of PostgreSQL\'s own tables, or of none, has at most'
                          f' {MOST_LETTERS:,} letters')
        self.text, self.count = respelled(tokens), values.count_of(
            int(it.text[1:]) for it in tokens if it.kind == 'parameter')
        # Without its texts, for the log.
        self.bare = ' '.join(it.text for it in tokens
                             if it.kind not in ('blank', 'text', 'escaped'))

    def parameters(self, declared: Sequence[int]) -> 'list[int]':
        """The type numbers of the parameters: texts, if they are not declared."""
        return values.oids(declared, [values.TEXT.oid] * self.count)


def is_question(tokens: 'list[Token]', catalog: Catalog) -> bool:
    """Whether each table that a query names is PostgreSQL's own, not the store's."""
    return all(it.schema in SCHEMAS or not it.schema and (
        it.is_call and it.name in CALLS or it.name.startswith('PG_') and
        (it.is_call or it.name not in catalog.tables)) for it in references(tokens))


class SystemTables:
    """PostgreSQL's tables about the tables of a store."""

    def __init__(self, user: str, note: Callable[[str], None]) -> None:
        self.lock, self.user, self.note = threading.Lock(), user, note
        self.version = -1

    def answer(self, question: Question, given: Sequence[values.Value],
               runner: 'Runner') -> 'tuple[list[Column], list[list[str | None]]]':
        """The columns and the rows that a question of a client has."""
        cells = values.all_around(given or [values.Value(None, None)] * question.count,
                                  question.count)
        engine = runner.engine
        with self.lock:
            self.runner, self.bounds = runner, runner.bounds(MOST_STEPS)
            try:
                with self.bounds.telling('this query of PostgreSQL\'s own tables, or of none, is'
                                         ' not understood here', '0A000'):
                    if self.version != engine.version:
                        self.version = engine.version
                        self.make(engine.catalog.copy())
                    found = self.bounds.run(self.database, question.text, cells)
                    rows = found.fetchmany(MOST_ROWS + 1)
            except Problem as problem:
                self.note(f'a question is refused ({problem.message}): {question.bare}'[:2000])
                raise
        if len(rows) > MOST_ROWS:
            raise Problem('54000', f'the answer has more than {MOST_ROWS} rows')
        columns = [values.column(it[0], kind_of(it[0], [row[at] for row in rows]))
                   for at, it in enumerate(found.description)]
        return columns, [[None if cell is None else 'ft'[cell] if column.kind is values.BOOLEAN else
                          str(cell) for cell, column in zip(row, columns)] for row in rows]

    def refuse(self, problem: Problem) -> NoReturn:
        """Refuses what a function is given, or the function."""
        self.bounds.problem = problem
        raise problem

    def setting(self, name: str, is_optional: Any = 0) -> Any:
        """A setting of the client that asks."""
        settings = self.runner.session.settings
        if name.lower() not in settings and not is_optional:
            self.refuse(Problem('42704', f'there is no setting {name} here'))
        return settings.get(name.lower())

    def may(self, *given: Any) -> int:
        """Whether the client that asks has one of the privileges of tables that are given last."""
        held = ['SELECT']
        if self.runner.rights().may_write:
            held += ['INSERT', 'UPDATE', 'DELETE']
        return int(any(it.strip().upper() in held for it in str(given[-1]).split(',')))

    def make(self, catalog: Catalog) -> None:
        """Makes the tables anew."""
        self.database = sqlite3.connect(':memory:', check_same_thread=False, isolation_level=None)
        if sys.version_info >= (3, 11):
            self.database.setlimit(sqlite3.SQLITE_LIMIT_LENGTH, 1_000_000)
        for name, rows in tables_of(catalog, self.user).items():
            fill(self.database, name, [values.column(it, values.NUMERIC) for it in COLUMNS[name]],
                 [list({**COLUMNS[name], **row}.values()) for row in rows])
        known: 'dict[str, Callable[..., Any]]' = {
            **functions(self.database, self.refuse), 'current_setting': self.setting,
            **dict.fromkeys(('current_user', 'session_user', 'pg_get_userbyid'),
                            lambda *_: self.user),
            'pg_backend_pid': lambda: self.runner.client.number,
            **dict.fromkeys(('has_table_privilege', 'has_any_column_privilege'), self.may),
            **{it: lambda *_, it=it: self.refuse(Problem('0A000', f'no {it}', REFUSED[it]))
               for it in REFUSED}}
        for name, function in known.items():
            self.database.create_function(name, -1, function)


def kind_of(name: str, cells: Iterable[Any]) -> Kind:
    """The type of a column with these cells."""
    given = [cell for cell in cells if cell is not None]
    if name in ('conkey', 'confkey'):
        return values.PLACES
    if BOOLEANS.fullmatch(name) and all(cell in (0, 1) for cell in given):
        return values.BOOLEAN
    if given and all(type(cell) is int for cell in given):
        return values.INTEGER
    return values.TEXT
