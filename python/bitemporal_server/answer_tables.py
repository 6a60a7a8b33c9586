"""An sqlite in memory that has answers as its tables, and the cells that it computes."""
import contextlib
import re
import sqlite3
import sys
import time
from typing import Any, Iterable, Iterator, Optional, Sequence

from . import moments, values
from .engine import CANCELLED, Held, Share, Waiting
from .problems import Problem
from .wire import Column, Kind

SCHEMA = 'public'
DECLARED = {'INTEGER': 'INTEGER', 'NUMERIC': 'NUMERIC',
            **dict.fromkeys(('DATE', 'TIMESTAMP'), 'TEXT COLLATE moment')}
DAY = re.compile(r'[0-9]{4}-[0-9]{2}-[0-9]{2}')
MOMENT = re.compile(DAY.pattern + r' [0-9:.]{8,15}')
MOST_LENGTH = 10_000_000  # of a cell
MOST_STEPS = 100_000      # of sqlite for a query, in ten thousands
READING = (sqlite3.SQLITE_SELECT, sqlite3.SQLITE_READ, sqlite3.SQLITE_FUNCTION,
           sqlite3.SQLITE_RECURSIVE)
VALUE = '22000'
STATES = {'column': '42703', 'table': '42P01', 'function': '42883',
          'user-defined function raised exception': VALUE}
LACK = re.compile(r'no such (column|table|function): (?:public\.)?(.*)', re.DOTALL)


class Bounds:
    """The time, the steps and the bytes that a query of sqlite may take, and why it was ended."""

    def __init__(self, client: Waiting, seconds: float, held: Held, steps: int) -> None:
        self.client, self.seconds, self.steps = client, seconds, steps
        self.began, self.share = time.monotonic(), Share(held)
        self.problem: Optional[Problem] = None

    def stops(self) -> bool:
        """Whether the query is to end, as sqlite asks from time to time."""
        self.steps -= 1
        if self.client.is_cancelled:
            self.problem = Problem(*CANCELLED)
        elif self.steps < 0 or time.monotonic() - self.began > self.seconds:
            self.problem = Problem('57014', 'the query takes too long for sqlite')
        return self.problem is not None

    def add(self, count: int) -> None:
        """Counts bytes that are held, or refuses them."""
        try:
            self.share.add(count)
        except Problem as problem:
            self.problem = problem
            raise

    def run(self, database: sqlite3.Connection, text: str, given: 'Sequence[Any]') -> Any:
        """Begins a text that only reads, over tables that exist."""
        database.set_progress_handler(self.stops, 10_000)
        database.set_authorizer(lambda action, *_: sqlite3.SQLITE_OK if action in READING else
                                sqlite3.SQLITE_DENY)  # no file, no pragma and no change
        return database.execute(text, given)

    @contextlib.contextmanager
    def telling(self, name: str, state: str) -> Iterator[None]:
        """Reports an error of sqlite to a client, with this SQLSTATE if it has none."""
        try:
            yield
        except MemoryError:
            raise Problem('53200', 'sqlite has not enough memory for this query', '',
                          'Ask for less, or start the server with a greater --memory.') from None
        except (sqlite3.Error, sqlite3.Warning) as error:
            lack = LACK.fullmatch(str(error))
            state = STATES.get(lack[1] if lack else str(error), state)
            problem, self.problem = self.problem, None
            raise problem or Problem(state, f'{name}: {error}',
                                     hint='It is computed by sqlite.') from None


@contextlib.contextmanager
def opened(bounds: Bounds) -> Iterator[sqlite3.Connection]:
    """An sqlite in memory, with a schema for the store's own tables, to the end of its use."""
    with contextlib.closing(sqlite3.connect(':memory:')) as database, \
            contextlib.closing(sqlite3.connect(':memory:')) as other:
        database.execute(f"ATTACH ':memory:' AS {SCHEMA}")
        database.execute('PRAGMA temp_store = MEMORY')  # no row of a store is written to a file
        if sys.version_info >= (3, 11):
            database.setlimit(sqlite3.SQLITE_LIMIT_LENGTH, MOST_LENGTH)
        moments.teach(database, other, bounds.add)
        yield database


def fill(database: sqlite3.Connection, name: str, columns: 'Sequence[Column]',
         rows: Iterable[Any]) -> None:
    """Makes the table of an answer."""
    database.execute(f'CREATE TABLE {name} (' + ', '.join(
        f'"{column.name}" {DECLARED.get(column.kind.name, "TEXT")}' for column in columns) + ')')
    database.executemany(f'INSERT INTO {name} VALUES ({", ".join("?" * len(columns))})', rows)


def cells_of(columns: 'Sequence[Column]', rows: 'Iterable[Sequence[str]]') -> 'Iterator[list[Any]]':
    """The rows of an answer as sqlite keeps them."""
    kinds = [column.kind for column in columns]
    for row in rows:
        yield [int(text) if kind is values.INTEGER else
               None if kind is values.DATE and text == 'none' else text
               for text, kind in zip(row, kinds)]


def is_of(cell: Any, kind: Kind) -> bool:
    """Whether a cell is of a type, as sqlite keeps it."""
    if kind is values.INTEGER or kind is values.REAL:
        return isinstance(cell, int if kind is values.INTEGER else (int, float))
    if kind is values.DATE or kind is values.TIMESTAMP:
        pattern, read = (DAY, values.days) if kind is values.DATE else (MOMENT, values.microseconds)
        with contextlib.suppress(ValueError):
            return isinstance(cell, str) and bool(pattern.fullmatch(cell)) and read(cell) < 2 ** 63
        return False
    return isinstance(cell, (str, int, float))


def kind_of(name: str, cell: Any) -> Kind:
    """The type of a cell; of none the one that the name suggests."""
    for kind in (values.INTEGER, values.REAL, values.DATE, values.TIMESTAMP):
        if is_of(cell, kind):
            return kind
    if cell is None and re.match(r'(?:count|sum|min|max|total)\b', name, re.I):
        return values.INTEGER
    return values.REAL if cell is None and re.match(r'avg\b', name, re.I) else values.TEXT


def shown(cell: Any, kind: Kind) -> Optional[str]:
    """A cell as the text of its column's type."""
    if cell is None:
        return None
    if not is_of(cell, kind):
        raise Problem('42804', f'{str(cell)[:100]!r} is no {kind.name}, as the other cells of its'
                      ' column are', hint='Write CAST(.. AS TEXT) around the column.')
    return str(cell).replace('inf', 'Infinity') if isinstance(cell, float) else str(cell)
