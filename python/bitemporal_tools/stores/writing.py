"""A new store. It is written under another name next to its own, judged by the program, and gets
its name once it is good. A run that is killed leaves no file of the new name."""
import argparse
import contextlib
import os
import shutil
import sqlite3
import tempfile
from collections.abc import Iterable, Iterator, Sequence

from bitemporal_tools.command_line import Fault
from bitemporal_tools.stores import asking
from bitemporal_tools.stores.judgement import causes, refused_definition, shown_row
from bitemporal_tools.stores.reading import Store, Version, connected
from bitemporal_tools.stores.tables import Table, definition

SCHEMA = '''CREATE TABLE bt_meta (id INTEGER PRIMARY KEY, form INTEGER NOT NULL,
  clock INTEGER NOT NULL) STRICT;
CREATE TABLE bt_table (id INTEGER PRIMARY KEY, def BLOB NOT NULL) STRICT;
CREATE TABLE bt_version (tab INTEGER NOT NULL, vals BLOB NOT NULL,
  s INTEGER NOT NULL, e INTEGER NOT NULL, ss INTEGER NOT NULL,
  se INTEGER NOT NULL, PRIMARY KEY (tab, vals, s, ss)) STRICT;
'''
FORM = 2
STRICT_SINCE = (3, 37)
BESIDE = ('', '-wal')

# The number of a table, from 1, and one of its versions.
Numbered = tuple[int, Version]


class NewStore:
    """A store under the name of a part."""

    def __init__(self, path: str, part: str) -> None:
        self.path, self.part = path, part
        self.last: Numbered = (0, Version(b'', 0, 0, 0, 0))

    def write(self, clock: int, tables: Sequence[Table], versions: Iterable[Numbered]) -> None:
        """Writes all that a store has. The versions come table by table."""
        refused = refused_definition(tables)
        if refused:
            raise Fault(refused, 1)
        try:
            with contextlib.closing(sqlite3.connect(self.part)) as connection:
                connection.executescript('PRAGMA journal_mode = OFF; PRAGMA synchronous = OFF;'
                                         + SCHEMA)
                connection.execute('INSERT INTO bt_meta VALUES (1, ?, ?)', [FORM, clock])
                connection.executemany('INSERT INTO bt_table VALUES (?, ?)', [
                    (number, definition(table, tables)) for number, table in enumerate(tables, 1)])
                connection.executemany('INSERT INTO bt_version VALUES (?, ?, ?, ?, ?, ?)',
                                       self.rows(versions))
                connection.commit()
        except sqlite3.IntegrityError:
            number, version = self.last
            table = tables[number - 1]
            raise Fault(f'{table.name}: two versions would have the same values, first day and'
                        f' moment:\n  {shown_row(table, version)}', 1) from None
        except sqlite3.Error as error:
            raise Fault(f'cannot write {self.path}: {error}') from None

    def rows(self, versions: Iterable[Numbered]) -> Iterator[tuple[object, ...]]:
        for self.last in versions:
            yield (self.last[0], *self.last[1])

    def judge(self) -> None:
        """Has the program open the store, and says why it refuses it."""
        refusal = asking.refusal_to_open(self.part)
        if refusal != asking.BAD_STORE:
            if refusal:
                raise Fault(f'{self.path} could not be judged: {refusal}')
            return
        with contextlib.closing(connected(self.part)) as connection:
            found = causes(Store(self.path, connection))
        raise Fault('\n'.join(found) or f'the program refuses {self.path}: {refusal}', 1)


def put_in_place(part: str, path: str) -> None:
    """Gives a file its name, for good, if there is no file of this name yet."""
    sync(part)
    try:
        os.link(part, path)
    except FileExistsError:
        raise Fault(f'{path} is there already') from None
    except OSError:  # a file system without a second name for a file
        refuse_what_is_there(path)
        os.rename(part, path)
    sync(os.path.dirname(path) or '.')


def sync(path: str) -> None:
    """Waits until a file, or the names in a folder, are on the disk."""
    descriptor = os.open(path, os.O_RDONLY)
    try:
        os.fsync(descriptor)
    finally:
        os.close(descriptor)


def refuse_what_is_there(path: str) -> None:
    for end in BESIDE:
        if os.path.lexists(path + end):
            raise Fault(f'{path}{end} is there already')


@contextlib.contextmanager
def part_of(path: str) -> Iterator[str]:
    """A folder next to a path, for what gets this name when it is whole. It is removed with all
    that is in it."""
    folder, name = os.path.split(os.path.abspath(path))
    try:
        with tempfile.TemporaryDirectory('.part', f'{name[:100]}.', folder) as part:
            yield part
    except OSError as error:
        raise Fault(f'cannot write {path}: {error.strerror}') from None


@contextlib.contextmanager
def place(wanted: argparse.Namespace) -> Iterator[str]:
    """The path of the new store: that of --to, or with --dry-run one that is thrown away."""
    if wanted.dry_run:
        with tempfile.TemporaryDirectory() as folder:
            yield os.path.join(folder, 'store')
    elif wanted.to:
        yield wanted.to
    else:
        raise Fault('--to NEW.store names the store that is made')


def make(path: str, like: str, clock: int, tables: Sequence[Table],
         versions: Iterable[Numbered]) -> None:
    """Makes a store with these contents, if the program opens it. It has the rights of the file
    that it is like, if one is named."""
    if sqlite3.sqlite_version_info < STRICT_SINCE:
        raise Fault(f'the sqlite of this Python is {sqlite3.sqlite_version}, and a store needs'
                    ' 3.37 or later')
    refuse_what_is_there(path)
    with part_of(path) as folder:
        store = NewStore(path, os.path.join(folder, 'store'))
        store.write(clock, tables, versions)
        store.judge()
        if like:
            shutil.copymode(like, store.part)
        put_in_place(store.part, path)
