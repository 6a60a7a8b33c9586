"""A DB-API 2.0 module (PEP 249) over a session of `bitemporal_file`, without a server.

    connection = bitemporal_tools.connect('pay.store')
    cursor = connection.cursor()
    cursor.execute('SELECT * FROM PAY WHERE ENO = ?', (101,))

Each statement is a transaction of its own and is in the store when `execute` returns: `commit` has
nothing to do, and `rollback` after a change raises NotSupportedError. A change is recorded at the
time of the machine; with `script_clock=True` AT sets the clock. A store whose clock is ahead of the
machine's time is refused, unless `clock_ahead=True`. One program at a time has a store open.
"""
import datetime
import itertools
import socket
import threading
import time
from typing import (Any, ContextManager, FrozenSet, Iterator, Mapping, NamedTuple, Optional,
                    Sequence, Union)

from bitemporal_tools import program
from bitemporal_tools.engine_session import NAME, Ended
from bitemporal_tools.sql.lexis import pieces

from . import dialect, engine, lexis, values
from .problems import Problem
from .rights import Rights
from .wire import Column, Kind

apilevel, threadsafety, paramstyle = '2.0', 1, 'qmark'  # pylint: disable=invalid-name


class Warning(Exception):  # pylint: disable=redefined-builtin
    """A notice. None is given."""


class Error(Exception):
    """An error. `sqlstate` is PostgreSQL's code of it, `detail` the cause, `hint` what to do."""
    sqlstate = detail = hint = ''


class InterfaceError(Error):
    """A fault of how the module is used."""


class DatabaseError(Error):
    """A refusal or a fault of the database."""


class DataError(DatabaseError):
    """A value is not of its column's type, or too large."""


class OperationalError(DatabaseError):
    """The store, its disk or the memory is at fault, or the program ended."""


class IntegrityError(DatabaseError):
    """A key or a reference would be broken."""


class InternalError(DatabaseError):
    """The program and this module do not agree."""


class ProgrammingError(DatabaseError):
    """The statement is wrong: its syntax, or a name."""


class NotSupportedError(DatabaseError):
    """The database has no such thing."""


# The error of each class of SQLSTATE, by its first two characters.
ERRORS = {'22': DataError, '23': IntegrityError, '42': ProgrammingError, '54': OperationalError,
          '55': OperationalError, '57': OperationalError, '0A': NotSupportedError}


class TypeObject(FrozenSet[int]):
    """A kind of columns: equal to the type code of each column of it."""

    def __eq__(self, other: object) -> bool:
        return other in self

    __hash__ = frozenset.__hash__


STRING, NUMBER = TypeObject([values.VARCHAR.oid, values.TEXT.oid]), TypeObject([values.INTEGER.oid])
DATETIME = TypeObject([values.DATE.oid, values.TIMESTAMP.oid])
BINARY, ROWID = TypeObject(), TypeObject()

Date, Time, Timestamp, Binary = datetime.date, datetime.time, datetime.datetime, bytes
# The local day and moment of seconds from 1970-01-01 on.
DateFromTicks, TimestampFromTicks = Date.fromtimestamp, Timestamp.fromtimestamp


def TimeFromTicks(ticks: float) -> datetime.time:  # pylint: disable=invalid-name
    """The local time of seconds from 1970-01-01 on."""
    return Time(*time.localtime(ticks)[3:6])


class Described(NamedTuple):
    """A column of an answer, as `description` has it. No column holds NULL but the witness's."""
    name: str
    type_code: int
    display_size: None
    internal_size: int
    precision: None
    scale: None
    null_ok: bool


# The type of a parameter, by the first of these of which it is.
KINDS: 'tuple[tuple[Any, str], ...]' = (
    (int, 'INTEGER'), (Timestamp, 'TIMESTAMP'), (Date, 'DATE'), (str, 'VARCHAR'))


def error_of(problem: Problem) -> DatabaseError:
    """The error of a problem."""
    found: DatabaseError = ERRORS.get(problem.state[:2], OperationalError)(problem.message)
    found.sqlstate, found.detail, found.hint = problem.state, problem.detail, problem.hint
    return found


def value_of(given: Any, number: int) -> values.Value:
    """A parameter."""
    if isinstance(given, bool) or given is None:
        raise DataError(f'parameter {number} is {given}: no column holds it')
    if isinstance(given, datetime.datetime) and given.tzinfo is not None:
        raise DataError(f'parameter {number} has a time zone: give it in the time of the clock')
    for kind, name in KINDS:
        if isinstance(given, kind):
            return values.Value(given if kind is str else str(given), name)
    raise DataError(f'parameter {number} is a {type(given).__name__}: there are int, str, date and'
                    ' datetime')


def cell(text: str, kind: Kind) -> Any:
    """The Python value of a cell: int, str, date or datetime; None for a witness that is none."""
    if kind is values.INTEGER:
        return int(text)
    if kind is values.DATE:
        return None if text == 'none' else datetime.date.fromisoformat(text)
    return datetime.datetime.fromisoformat(text) if kind is values.TIMESTAMP else text


class Connection(ContextManager['Connection']):
    """A store that is open, until `close`."""
    Warning, Error, InterfaceError, DatabaseError = Warning, Error, InterfaceError, DatabaseError
    DataError, OperationalError, IntegrityError = DataError, OperationalError, IntegrityError
    InternalError, ProgrammingError = InternalError, ProgrammingError
    NotSupportedError = NotSupportedError

    def __init__(self, store: str, script_clock: bool, clock_ahead: bool) -> None:
        self.rights, self.lock = Rights(sets_clock=script_clock), threading.Lock()
        self.is_open = self.has_changed = False
        # Nobody cancels a query: its client is never seen to go.
        self.connection, self.other = socket.socketpair()
        self.is_cancelled = False
        try:
            self.engine = engine.Engine(program.path(NAME), store, float('inf'), 10 ** 12,
                                        *['--now'][:not script_clock],
                                        *['--clock-ahead'][:clock_ahead])
        except (Ended, OSError, ValueError):
            self.connection.close()
            self.other.close()
            raise OperationalError(f'{store} is not opened') from None
        self.is_open = True

    def cursor(self) -> 'Cursor':
        """A new cursor."""
        self.check()
        return Cursor(self)

    def check(self) -> None:
        """Refuses what is done over a closed connection."""
        if not self.is_open:
            raise InterfaceError('the connection is closed')

    def commit(self) -> None:
        """Does nothing more: each statement is committed as it is done."""
        self.check()
        self.has_changed = False

    def rollback(self) -> None:
        """Refuses to take back a change: each is committed as it is done."""
        self.check()
        if self.has_changed:
            raise NotSupportedError('changes since the last commit() stay: each statement is a'
                                    ' transaction of its own')

    def close(self) -> None:
        """Closes the store."""
        if self.is_open:
            self.is_open = False
            self.connection.close()
            self.other.close()
            if self.engine.close() not in (0, 1):
                raise OperationalError('the store was not closed')

    def __exit__(self, *_: object) -> None:
        self.close()

    def run(self, text: str, given: Sequence[Any]) -> 'tuple[engine.Outcome, list[Column] | None]':
        """The outcome of a statement, and the columns of its answer."""
        with self.lock:
            self.check()
            try:
                found = [dialect.Prepared(text, piece, self.engine.catalog)
                         for piece in pieces(dialect.lexed(text))]
                if len(found) != 1:
                    raise Problem('42601', f'{len(found)} statements in place of one')
                statement = found[0].bound([value_of(it, number)
                                            for number, it in enumerate(given, 1)])
                outcome = self.engine.run(statement, self.rights, self, text)
                self.has_changed = self.has_changed or outcome.kind == 'done'
                return outcome, dialect.columns_of(statement.tree, self.engine.catalog)
            except Problem as problem:
                raise error_of(problem) from None
            except UnicodeEncodeError:
                raise DataError('a text has half of a surrogate pair') from None


class Cursor(ContextManager['Cursor']):
    """Runs statements, and has the answer of the last one."""

    def __init__(self, connection: Connection) -> None:
        self.connection, self.arraysize = connection, 1
        self.description: 'list[Described] | None' = None
        self.rowcount, self.lastrowid, self.is_open = -1, None, True
        self.rows: Optional[Iterator[Sequence[Any]]] = None

    def check(self) -> None:
        """Refuses what is done with a closed cursor."""
        self.connection.check()
        if not self.is_open:
            raise InterfaceError('the cursor is closed')

    def execute(self, operation: str,
                parameters: Union[Sequence[Any], Mapping[str, Any]] = ()) -> 'Cursor':
        """Runs a statement, with values in the place of its question marks."""
        self.check()
        if isinstance(parameters, (Mapping, str)):
            raise ProgrammingError('parameters are a sequence, one for each ?')
        numbers = itertools.count(1)  # of marks, which are in no other token
        text = ''.join(f'${next(numbers)}' if it.text == '?' else it.text
                       for it in lexis.lexed(operation))
        self.description, self.rows, self.rowcount = None, None, -1
        outcome, columns = self.connection.run(text, list(parameters))
        self.rowcount = outcome.number if outcome.kind == 'answer' or outcome.what in (
            'insert', 'update', 'delete') else -1
        if columns is not None:
            self.description = [Described(it.name, it.kind.oid, None, it.kind.size, None, None,
                                          it.name in ('held', 'absent')) for it in columns]
            kinds = [it.kind for it in columns]
            self.rows = (tuple(map(cell, row, kinds)) for row in engine.rows_of(outcome))
        return self

    def executemany(self, operation: str, seq_of_parameters: Sequence[Sequence[Any]]) -> 'Cursor':
        """Runs a statement with each list of values, each a transaction of its own."""
        count = 0
        for parameters in seq_of_parameters:
            self.execute(operation, parameters)
            count += max(self.rowcount, 0)
            if self.rows is not None:
                raise ProgrammingError('executemany is for statements without an answer')
        self.rowcount = count
        return self

    def answer(self) -> 'Iterator[Sequence[Any]]':
        """The rows that are left."""
        self.check()
        if self.rows is None:
            raise ProgrammingError('there is no answer to fetch from')
        return self.rows

    __iter__ = answer

    def fetchone(self) -> Optional[Sequence[Any]]:
        """The next row, or None."""
        return next(self.answer(), None)

    def fetchmany(self, size: Optional[int] = None) -> 'list[Sequence[Any]]':
        """The next rows, `arraysize` of them unless a size is given."""
        rows = self.answer()
        return [row for _, row in zip(range(self.arraysize if size is None else size), rows)]

    def fetchall(self) -> 'list[Sequence[Any]]':
        """All rows that are left."""
        return list(self.answer())

    def setinputsizes(self, sizes: Sequence[Any]) -> None:
        """Does nothing: values have their types."""

    def setoutputsize(self, size: int, column: Optional[int] = None) -> None:
        """Does nothing: texts come whole."""

    def close(self) -> None:
        """Gives up the answer."""
        self.is_open, self.rows = False, None

    def __exit__(self, *_: object) -> None:
        self.close()


def connect(store: str, script_clock: bool = False, clock_ahead: bool = False) -> Connection:
    """Opens a store, which is made if there is none."""
    return Connection(str(store), script_clock, clock_ahead)
