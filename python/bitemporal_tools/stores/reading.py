"""A store that exists: its clock, its tables and its versions.

The file is never written, and nothing is made next to it. While it is read a shared lock of sqlite
is held, so no program has it open. If its log holds changes, a copy of both files is opened by
the program first, which takes them in.
"""
import contextlib
import os
import pathlib
import shutil
import sqlite3
import tempfile
import urllib.parse
from collections.abc import Iterator
from typing import BinaryIO, NamedTuple

from bitemporal_tools.command_line import Fault
from bitemporal_tools.stores.spelling import FOREVER, MICROSECONDS, BadBytes
from bitemporal_tools.stores.tables import Table, table_of

try:
    import fcntl
except ImportError:  # there are no such locks here
    fcntl = None  # type: ignore[assignment]

# A reader of sqlite locks so many bytes of a file from this place on.
SHARED_FIRST, SHARED_SIZE = 0x40000002, 510
# The head of a log and the head of one page in it: a log of fewer bytes has no change.
LOG_OF_NOTHING = 32 + 24
FORMS = (1, 2)
FOREVER_IN_SECONDS = 253402300799
SELECT = 'SELECT {} FROM bt_version WHERE tab = ? ORDER BY {}'


class Version(NamedTuple):
    """Values as bytes, the first day and the end, the moment since which and that until which the
    version is recorded."""
    values: bytes
    start: int
    end: int
    since: int
    until: int

    @property
    def is_current(self) -> bool:
        return self.until == FOREVER


class Store:
    """An open store."""

    def __init__(self, path: str, connection: sqlite3.Connection) -> None:
        self.path, self.connection = path, connection
        self.tables: list[Table] = []
        try:
            [(number, self.form, clock)] = connection.execute('SELECT id, form, clock FROM bt_meta')
            for place, (number, data) in enumerate(connection.execute(
                    'SELECT id, def FROM bt_table ORDER BY id'), 1):
                if number != place:
                    raise BadBytes
                self.tables.append(table_of(data, self.tables))
            if self.form not in FORMS:
                raise Fault(f'{path} is a store of form {self.form}, and forms 1 and 2 are known')
            [(count,)] = connection.execute(
                'SELECT (SELECT count(*) FROM bt_version WHERE tab < 1)'
                ' + (SELECT count(*) FROM bt_version WHERE tab > ?)', [len(self.tables)])
        except (BadBytes, ValueError, sqlite3.Error) as error:
            raise not_good(path, error) from None
        if count:
            raise Fault(f'{path} holds no good store: it has versions of no table')
        self.clock: int = clock * MICROSECONDS if self.form == 1 else clock
        until = 'se' if self.form == 2 else \
            f'CASE se WHEN {FOREVER_IN_SECONDS} THEN {FOREVER} ELSE se * {MICROSECONDS} END'
        since = 'ss' if self.form == 2 else f'ss * {MICROSECONDS}'
        self.columns = f'vals, s, e, {since}, {until}'

    @property
    def mode(self) -> int:
        """The rights of the file."""
        return os.stat(self.path).st_mode & 0o777

    @property
    def size(self) -> int:
        """The number of bytes of the file."""
        [(pages,)] = self.connection.execute('PRAGMA page_count')
        [(size,)] = self.connection.execute('PRAGMA page_size')
        return int(pages * size)

    def number(self, table: str) -> int:
        """The number of a table, from 1. A fault if there is none of this name."""
        for number, known in enumerate(self.tables, 1):
            if known.name == table:
                return number
        names = ', '.join(known.name for known in self.tables)
        raise Fault(f'{self.path} has no table {table}. ' + (
            f'Its tables are {names}.' if names else 'It has no tables.'))

    def versions(self, number: int, order: str = 'vals, s, ss') -> Iterator[Version]:
        """The versions of a table, in the order of their values, first days and moments."""
        try:
            for row in self.connection.execute(SELECT.format(self.columns, order), [number]):
                yield Version(*row)
        except sqlite3.Error as error:
            raise not_good(self.path, error) from None

    def current(self, number: int) -> Iterator[Version]:
        """The rows of a table as it is now."""
        return (version for version in self.versions(number) if version.is_current)

    def counts(self) -> list[int]:
        """The number of versions of each table."""
        found = dict(self.connection.execute('SELECT tab, count(*) FROM bt_version GROUP BY tab'))
        return [found.get(number, 0) for number in range(1, len(self.tables) + 1)]


def not_good(path: str, error: Exception) -> Fault:
    why = f': {error}' if isinstance(error, sqlite3.Error) else ''
    return Fault(f'{path} holds no good store{why}')


@contextlib.contextmanager
def opened(path: str, beside: str = '') -> Iterator[Store]:
    """The store in a file. A copy of it that is made meanwhile is next to a file that is named."""
    with contextlib.ExitStack() as stack:
        try:
            lock = stack.enter_context(open(path, 'rb'))
        except OSError as error:
            raise Fault(f'cannot read {path}: {error.strerror}') from None
        lock_shared(lock, path)
        file, log = path, f'{path}-wal'
        if os.path.exists(log) and os.path.getsize(log) > LOG_OF_NOTHING:
            folder = tempfile.TemporaryDirectory(
                '.part', dir=os.path.dirname(os.path.abspath(beside)) if beside else None)
            file = copied(path, lock, stack.enter_context(folder))
        connection = stack.enter_context(contextlib.closing(connected(file)))
        yield Store(path, connection)


def lock_shared(file: BinaryIO, path: str) -> None:
    """Locks a file as a reader of sqlite does, as long as it is open."""
    if fcntl is None:
        return
    try:
        fcntl.lockf(file, fcntl.LOCK_SH | fcntl.LOCK_NB, SHARED_SIZE, SHARED_FIRST)
    except OSError:
        raise Fault(f'another program has {path} open') from None


def copied(path: str, file: BinaryIO, folder: str) -> str:
    """A copy of a store with the changes of its log taken in, by the program. The open file of the
    store is read, since its lock ends with any that is closed."""
    from bitemporal_tools.stores import asking  # few runs of a tool come here
    copy = str(pathlib.Path(folder, 'store'))
    try:
        with open(copy, 'wb') as other:
            shutil.copyfileobj(file, other)
        shutil.copyfile(f'{path}-wal', f'{copy}-wal')
    except OSError as error:
        raise Fault(f'cannot copy {path} and its log: {error.strerror}') from None
    why = asking.refusal_to_open(copy)
    if why:
        raise Fault(f'{path} with {path}-wal beside it is refused: {why}')
    return copy


def connected(path: str) -> sqlite3.Connection:
    """A connection that only reads, and takes no locks of its own."""
    quoted = urllib.parse.quote(os.path.abspath(path))
    return sqlite3.connect(f'file:{quoted}?mode=ro&immutable=1', uri=True)
