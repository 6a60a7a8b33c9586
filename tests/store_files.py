"""Stores in files, by Python's own sqlite3, as section 11 of docs/PROFILE.md describes them.

A version is written here with its moments in whole seconds from 1970-01-01 00:00:00 on, and None as
the open end. A form says how a store counts them.
"""
from __future__ import annotations

import datetime
import pathlib
import sqlite3
from collections.abc import Iterable, Sequence
from typing import Any, NamedTuple, Union

FIRST, LAST = datetime.date.min, datetime.date.max
FIRST_SECOND = -62135596800  # 0001-01-01 00:00:00

File = Union[str, pathlib.Path]
Value = Union[int, str, datetime.date]
Day = Union[str, datetime.date]
Row = tuple[Any, ...]


class Form(NamedTuple):
    """A form's number, the number of moments of a second, and the number of the open end."""
    number: int
    second: int
    forever: int


SECONDS, MICROSECONDS = Form(1, 1, 253402300799), Form(2, 1000000, 253402300799999999)

TABLES = """CREATE TABLE bt_meta (id INTEGER PRIMARY KEY, form INTEGER NOT NULL,
  clock INTEGER NOT NULL) STRICT;
CREATE TABLE bt_table (id INTEGER PRIMARY KEY, def BLOB NOT NULL) STRICT;
CREATE TABLE bt_version (tab INTEGER NOT NULL, vals BLOB NOT NULL,
  s INTEGER NOT NULL, e INTEGER NOT NULL, ss INTEGER NOT NULL,
  se INTEGER NOT NULL, PRIMARY KEY (tab, vals, s, ss)) STRICT;
"""


class Version(NamedTuple):
    """A version of a table of this number."""
    table: int
    values: Sequence[Value]
    start: Day
    end: Day
    since: int
    until: int | None


def version(table: int, values: Sequence[Value], start: Day, end: Day, since: int,
            until: int | None = None) -> Version:
    return Version(table, values, start, end, since, until)


def bytes_of(values: Iterable[Value]) -> bytes:
    """The bytes of a list of numbers, texts and dates."""
    return b''.join(map(bytes_of_value, values))


def bytes_of_value(value: Value) -> bytes:
    if isinstance(value, int):
        return b'\1' + (value + 2 ** 63).to_bytes(8, 'big')
    if isinstance(value, str):
        return b'\2' + value.encode().replace(b'\0', b'\0\xff') + b'\0\0'
    return b'\3' + (value.toordinal() - FIRST.toordinal()).to_bytes(4, 'big')


def number(day: Day) -> int:
    """The number of a day, written YYYY-MM-DD or a date."""
    date = datetime.date.fromisoformat(str(day))
    return (date - datetime.date(1970, 1, 1)).days


def row_of(it: Version, form: Form) -> Row:
    """A version as a row of bt_version: table, bytes, start, end, since, until."""
    return (it.table, bytes_of(it.values), number(it.start), number(it.end), it.since * form.second,
            form.forever if it.until is None else it.until * form.second)


def rows_of(versions: Iterable[Version], form: Form) -> list[Row]:
    """The rows of versions in the order of their keys."""
    return sorted((row_of(it, form) for it in versions),
                  key=lambda row: (row[0], row[1], row[2], row[4]))


def make(file: File, form: Form, clock: int, definitions: Iterable[Sequence[Value]] = (),
         versions: Iterable[Version] = ()) -> None:
    """A new store in a file. `clock` is in seconds, as the moments of the versions are."""
    connection = sqlite3.connect(file)
    connection.executescript(TABLES)
    connection.execute('INSERT INTO bt_meta VALUES (1, ?, ?)', [form.number, clock * form.second])
    connection.executemany('INSERT INTO bt_table VALUES (?, ?)',
                           enumerate(map(bytes_of, definitions), 1))
    connection.executemany('INSERT INTO bt_version VALUES (?, ?, ?, ?, ?, ?)',
                           rows_of(versions, form))
    connection.commit()
    connection.close()


def change(file: File, sql: str) -> None:
    """Does something to the store in a file."""
    connection = sqlite3.connect(file)
    connection.executescript(sql)
    connection.close()


def read(file: File, *queries: str) -> list[list[Row]]:
    """The rows that sqlite3 reads in a file."""
    connection = sqlite3.connect(file)
    answers = [connection.execute(query).fetchall() for query in queries]
    connection.close()
    return answers


def dump(file: File) -> list[str]:
    """All that is in a file, as SQL."""
    connection = sqlite3.connect(file)
    text = '\n'.join(connection.iterdump())
    connection.close()
    return [text]


def contents(file: File) -> list[list[Row]]:
    """The rows of the three tables."""
    return read(file, 'SELECT * FROM bt_meta', 'SELECT * FROM bt_table ORDER BY id',
                'SELECT * FROM bt_version ORDER BY tab, vals, s, ss')


def moved(store: list[list[Row]]) -> list[list[Row]]:
    """The contents of a store as they are when it has been opened: contents of form 1 are moved."""
    [(_, form, clock)], tables, versions = store
    if form == MICROSECONDS.number:
        return store
    return [[(1, MICROSECONDS.number, 1000000 * clock)], tables, [
        (*row, 1000000 * since,
         MICROSECONDS.forever if until == SECONDS.forever else 1000000 * until)
        for *row, since, until in versions]]
