#!/usr/bin/env python3
"""Tests the DB-API module point by point, as PEP 249 has them.

The program is the built one, or the one that the variable BITEMPORAL names.
"""
import datetime
import os
import pathlib
import random
import tempfile
import unittest
from typing import Any

import support

import bitemporal_tools
from bitemporal_server import dbapi

CREATE = support.create_table('PAY', 'ENO INTEGER, NAME VARCHAR(20), BORN DATE', 'ENO', 'EP')
INSERT = 'INSERT INTO PAY VALUES (?, ?, ?, ?, ?)'
BORN, START, END = (datetime.date(1980, 2, 29), datetime.date(2024, 1, 1),
                    datetime.date(9999, 12, 31))


class Module(unittest.TestCase):
    """The module's globals, constructors, types and errors."""

    def test_globals(self) -> None:
        found = dbapi.apilevel, dbapi.threadsafety, dbapi.paramstyle
        self.assertEqual(found, ('2.0', 1, 'qmark'))

    def test_errors(self) -> None:
        self.assertTrue(issubclass(dbapi.Warning, Exception))
        self.assertTrue(issubclass(dbapi.InterfaceError, dbapi.Error))
        for name in ('DataError', 'OperationalError', 'IntegrityError', 'InternalError',
                     'ProgrammingError', 'NotSupportedError'):
            self.assertTrue(issubclass(getattr(dbapi, name), dbapi.DatabaseError))
            self.assertIs(getattr(dbapi.Connection, name), getattr(dbapi, name))
        self.assertTrue(issubclass(dbapi.DatabaseError, dbapi.Error))

    def test_types(self) -> None:
        self.assertEqual(dbapi.Date(2024, 1, 2), datetime.date(2024, 1, 2))
        self.assertEqual(dbapi.Timestamp(2024, 1, 2, 3, 4, 5),
                         datetime.datetime(2024, 1, 2, 3, 4, 5))
        self.assertEqual(dbapi.Time(1, 2, 3), datetime.time(1, 2, 3))
        self.assertEqual(dbapi.Binary(b'x'), b'x')
        moment = 1_700_000_000
        self.assertEqual(dbapi.TimestampFromTicks(moment), datetime.datetime.fromtimestamp(moment))
        self.assertEqual(dbapi.DateFromTicks(moment), datetime.date.fromtimestamp(moment))
        self.assertEqual(dbapi.TimeFromTicks(moment),
                         datetime.datetime.fromtimestamp(moment).time())
        self.assertNotEqual(dbapi.STRING, dbapi.NUMBER)


class Connections(unittest.TestCase):
    """Connections and cursors over a new store."""

    def setUp(self) -> None:
        folder = tempfile.TemporaryDirectory()
        self.addCleanup(folder.cleanup)
        self.store = os.path.join(folder.name, 'pay.store')
        self.connection: Any = bitemporal_tools.connect(self.store)
        self.addCleanup(self.connection.close)
        self.cursor = self.connection.cursor()
        self.cursor.execute(CREATE)

    def fill(self, count: int) -> None:
        self.cursor.executemany(INSERT, [(number, f'n{number}', BORN, START, END)
                                         for number in range(count)])

    def test_execute(self) -> None:
        self.assertEqual(self.cursor.rowcount, -1)
        self.assertIsNone(self.cursor.description)
        self.assertIs(self.cursor.execute(INSERT, (1, "O'Neil; -- ?", BORN, START, END)),
                      self.cursor)
        self.assertEqual(self.cursor.rowcount, 1)
        self.cursor.execute("SELECT * FROM PAY WHERE NAME = ? AND NAME <> '?'", ["O'Neil; -- ?"])
        self.assertEqual(self.cursor.rowcount, 1)
        [row] = self.cursor.fetchall()
        self.assertEqual(row[:5], (1, "O'Neil; -- ?", BORN, START, END))
        self.assertIsInstance(row[5], datetime.datetime)
        self.assertLess(abs(row[5] - datetime.datetime.utcnow()), datetime.timedelta(minutes=1))

    def test_description(self) -> None:
        self.cursor.execute('VALIDTIME SELECT DISTINCT NAME, ENO, BORN FROM PAY')
        self.assertEqual([len(it) for it in self.cursor.description], [7] * 7)
        self.assertEqual([it[0] for it in self.cursor.description],
                         ['NAME', 'ENO', 'BORN', 'valid_from', 'valid_to', 'held', 'absent'])
        codes = [it[1] for it in self.cursor.description]
        self.assertEqual(codes[:4], [dbapi.STRING, dbapi.NUMBER, dbapi.DATETIME, dbapi.DATETIME])
        self.assertEqual([it.null_ok for it in self.cursor.description], [False] * 5 + [True] * 2)

    def test_fetching(self) -> None:
        self.fill(10)
        self.assertEqual(self.cursor.rowcount, 10)
        with self.assertRaises(dbapi.ProgrammingError):
            self.cursor.fetchone()
        self.cursor.execute('VALIDTIME SELECT DISTINCT ENO FROM PAY')
        self.assertEqual(self.cursor.fetchone(),
                         (0, START, END, START, datetime.date(2023, 12, 31)))
        self.assertEqual(len(self.cursor.fetchmany()), 1)
        self.cursor.arraysize = 3
        self.assertEqual(len(self.cursor.fetchmany()), 3)
        self.assertEqual(len(self.cursor.fetchmany(2)), 2)
        self.assertEqual([row[0] for row in self.cursor], [7, 8, 9])
        self.assertEqual((self.cursor.fetchall(), self.cursor.fetchone()), ([], None))
        self.cursor.execute('SELECT * FROM PAY WHERE ENO = 100')
        self.assertEqual((self.cursor.rowcount, self.cursor.fetchall()), (0, []))

    def test_refusals(self) -> None:
        self.fill(1)
        for text, given, error, state in (
                ('SELECT WAGE FROM PAY', (), dbapi.ProgrammingError, '42601'),
                ('SELECT * FROM PAYS', (), dbapi.ProgrammingError, '42P01'),
                (INSERT, (0, 'x', BORN, START, END), dbapi.IntegrityError, '23P01'),
                (INSERT, (1, 'x' * 21, BORN, START, END), dbapi.DataError, '22001'),
                (INSERT, (1, 2, BORN, START, END), dbapi.ProgrammingError, '42804'),
                (INSERT, (1, None, BORN, START, END), dbapi.DataError, ''),
                (INSERT, (1, 2.5, BORN, START, END), dbapi.DataError, ''),
                (INSERT, (1, 'x'), dbapi.ProgrammingError, '42P02'),
                ("AT TIMESTAMP '2030-01-01 00:00:00'", (), dbapi.NotSupportedError, '0A000'),
                ('SELECT * FROM PAY; SELECT * FROM PAY', (), dbapi.ProgrammingError, '42601')):
            with self.subTest(text=text, given=given), self.assertRaises(error) as caught:
                self.cursor.execute(text, given)
            self.assertEqual(caught.exception.sqlstate, state)
        self.cursor.execute('SELECT * FROM PAY')
        self.assertEqual(self.cursor.rowcount, 1)

    def test_rollback(self) -> None:
        """A change that is done is not said to be taken back."""
        self.connection.commit()
        self.cursor.execute('SELECT * FROM PAY')
        with self.assertRaises(dbapi.DataError):
            self.cursor.execute(INSERT, (1, 'x' * 21, BORN, START, END))
        self.connection.rollback()  # nothing was changed
        self.fill(1)
        for _ in range(2):
            with self.assertRaises(dbapi.NotSupportedError):
                self.connection.rollback()
        with self.assertRaises(dbapi.IntegrityError):
            self.cursor.executemany(INSERT, [(number, 'x', BORN, START, END)
                                             for number in (5, 6, 5, 7)])
        with self.assertRaises(dbapi.NotSupportedError):
            self.connection.rollback()
        self.cursor.execute('SELECT * FROM PAY')
        self.assertEqual([row[0] for row in self.cursor.fetchall()], [0, 5, 6])
        self.connection.commit()
        self.connection.rollback()

    def test_marks(self) -> None:
        """A question mark in a token is none of a parameter, however the token is written."""
        texts = (r"E'it\'s ok?'", "'it''s ok?'", r"e'\'\\?\''", "'a?' /* ? it's */",
                 "'b?' -- ?\n")
        for number, text in enumerate(texts):
            self.cursor.execute(f'INSERT /* ? */ INTO "PAY" VALUES (?, {text}, ?, ?, ?)',
                                (number, BORN, START, END))
        self.cursor.execute('SELECT * FROM PAY')
        self.assertEqual([row[1] for row in sorted(self.cursor.fetchall())],
                         ["it's ok?", "it's ok?", "'\\?'", 'a?', 'b?'])
        for text in ('a\nb', 'a\0b', "a'b", "a\\'b", '\u2028', '?', '$1', 'x\n.backup y\n',
                     "'; --"):
            self.cursor.execute('UPDATE PAY SET NAME = ? WHERE ENO = 1', (text,))
            self.cursor.execute('SELECT * FROM PAY WHERE NAME = ?', (text,))
            self.assertEqual([row[1] for row in self.cursor.fetchall()], [text])
        for text in ('\ud800', '.tables', ".x 'y\nDELETE FROM PAY;\n--'"):
            with self.subTest(text=text), self.assertRaises(dbapi.Error):
                self.cursor.execute(*((text,) if text[0] == '.' else (
                    'UPDATE PAY SET NAME = ?', (text,))))
        self.cursor.execute('SELECT * FROM PAY')
        self.assertEqual(self.cursor.rowcount, len(texts))

    def test_clock_ahead(self) -> None:
        """A store whose clock is ahead is opened if that is asked for, and keeps what it has."""
        store = f'{self.store}.ahead'
        with bitemporal_tools.connect(store, script_clock=True) as connection:
            cursor = connection.cursor()
            cursor.execute(CREATE)
            cursor.execute("AT TIMESTAMP '2062-01-01 00:00:00'")
            cursor.execute(INSERT, (1, 'Ann', BORN, START, END))
        with self.assertRaises(dbapi.OperationalError):
            bitemporal_tools.connect(store)
        with bitemporal_tools.connect(store, clock_ahead=True) as connection:
            cursor = connection.cursor()
            with self.assertRaises(dbapi.OperationalError) as caught:
                cursor.execute('DELETE FROM PAY')
            self.assertEqual(caught.exception.sqlstate, '55000')
            cursor.execute(INSERT, (2, 'Max', BORN, START, END))
            self.assertEqual(len(cursor.execute('SELECT * FROM PAY').fetchall()), 2)

    def test_closing(self) -> None:
        self.fill(1)
        self.connection.commit()
        self.connection.rollback()
        self.cursor.close()
        with self.assertRaises(dbapi.InterfaceError):
            self.cursor.execute('SELECT * FROM PAY')
        self.connection.close()
        self.connection.close()
        for call in (self.connection.cursor, self.connection.commit, self.connection.rollback):
            with self.assertRaises(dbapi.InterfaceError):
                call()
        with bitemporal_tools.connect(self.store) as again:
            self.assertEqual(len(again.cursor().execute('SELECT * FROM PAY').fetchall()), 1)

    def test_stores(self) -> None:
        """One that is open, and a file that is none."""
        with self.assertRaises(dbapi.OperationalError):
            bitemporal_tools.connect(self.store)
        bad = pathlib.Path(self.store).with_name('bad')
        bad.write_text('no store')
        with self.assertRaises(dbapi.OperationalError):
            bitemporal_tools.connect(str(bad))

    def test_script_clock(self) -> None:
        self.connection.close()
        with bitemporal_tools.connect(self.store, script_clock=True) as scripted:
            cursor = scripted.cursor()
            cursor.execute('AT TIMESTAMP ?', (datetime.datetime(2030, 1, 1, 0, 0, 0, 7),))
            cursor.execute(INSERT, (1, 'Ann', BORN, START, END))
            [row] = cursor.execute('SELECT * FROM PAY').fetchall()
            self.assertEqual(row[5], datetime.datetime(2030, 1, 1, 0, 0, 0, 7))

    def test_random_values(self) -> None:
        """Any values come back as they went in."""
        chosen = random.Random(1)
        letters = "a'\"\\;-?$\n\t\r \u00e4\u4e2d\U0001f600"
        for number in range(50):
            name = ''.join(chosen.choice(letters) for _ in range(chosen.randint(0, 20)))
            day = datetime.date.fromordinal(chosen.randint(1, datetime.date.max.toordinal()))
            key = chosen.randint(-2 ** 63, 2 ** 63 - 1)
            self.cursor.execute(INSERT, (key, name, day, START, END))
            self.cursor.execute('SELECT * FROM PAY WHERE ENO = ? AND NAME = ? AND BORN = ?',
                                (key, name, day))
            found = [row[:3] for row in self.cursor.fetchall()]
            self.assertEqual(found, [(key, name, day)], number)


if __name__ == '__main__':
    support.run_cases()
