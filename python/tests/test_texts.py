#!/usr/bin/env python3
"""Tests what a text of a client is, what is said yes to, and the bounds of what it may cost.

The program is the built one, or the one that the variable BITEMPORAL names.
"""
import contextlib
import io
import struct
import time
import unittest
from typing import Any, Sequence

import support
from test_server import CREATE, INSERT, connected, served
from wire_client import Answer, Refused, WireClient

from bitemporal_server import lexis, wire
from bitemporal_server.problems import Problem
from bitemporal_server.settings import Session, seconds_of

READ_ONLY = ('SET SESSION CHARACTERISTICS AS TRANSACTION READ ONLY',
             'SET default_transaction_read_only = on',
             "SET default_transaction_read_only TO 'true'", 'BEGIN READ ONLY',
             'START TRANSACTION ISOLATION LEVEL READ COMMITTED, READ ONLY',
             'BEGIN; SET TRANSACTION READ ONLY', 'BEGIN; SET LOCAL transaction_read_only = on')


class Case(unittest.TestCase):
    """A server of a table with a row, and a client of it."""

    def setUp(self) -> None:
        stack = contextlib.ExitStack()
        self.addCleanup(stack.close)
        self.server: Any = stack.enter_context(served())
        self.client: WireClient = stack.enter_context(connected(self.server))
        self.client.query(f'{CREATE}; {INSERT.format(1, "Ann")}')

    def told(self, text: str) -> 'list[list[str | None]] | str':
        """The rows of the last answer to a text, its tag if it has no rows, or its SQLSTATE."""
        try:
            found = self.client.query(text)
        except Refused as refused:
            return refused.state
        return found[-1].tag if found[-1].columns is None else found[-1].rows

    def expect(self, *cases: 'tuple[str, object]') -> None:
        """Asks texts in turn, each with what is told of it."""
        for text, wanted in cases:
            with self.subTest(text=text[:200]):
                self.assertEqual(self.told(text), wanted)

    def rows(self) -> 'list[str | None]':
        """The numbers of the table's rows."""
        return [row[0] for row in self.client.query('SELECT * FROM PAY')[0].rows]

    def pipeline(self, texts: Sequence[str]) -> 'list[Answer]':
        """The answers to texts by the extended protocol, with one Sync behind them."""
        for text in texts:
            self.client.send(b'P', b'\0', wire.text(text), b'\0\0')
            self.client.send(b'B', b'\0\0\0\0\0\0\0\0')
            self.client.send(b'E', b'\0\0\0\0\0')
        self.client.send(b'S')
        return self.client.answers()


class Lexis(unittest.TestCase):
    """Tokens and pieces."""

    def test_tokens(self) -> None:
        text = "SELECT/* a /* b */ ; */E'it\\'s;', 'x;''y', \"a;\"\"b\"::int, $1 -- ;\n <> 1.5e+3"
        found = list(lexis.lexed(text))
        self.assertEqual(''.join(it.text for it in found), text)
        self.assertEqual([(it.kind, lexis.text_of(it)) for it in found if it.kind != 'blank'], [
            ('word', 'SELECT'), ('escaped', "it's;"), ('symbol', ','), ('text', "x;'y"),
            ('symbol', ','), ('quoted', 'a;"b'), ('symbol', '::'), ('word', 'int'), ('symbol', ','),
            ('parameter', '$1'), ('symbol', '<>'), ('number', '1.5e+3')])
        self.assertEqual(len(list(lexis.pieces_of(text + '; -- x\n ; SELECT 1'))), 2)
        for text in ('SELECT \u017f', "SELECT 'a", 'SELECT "a', '/* /* */ SELECT', "E'\\'", '?'):
            self.assertEqual([it.kind for it in lexis.lexed(text)][-1], 'bad', text)
        with self.assertRaises(Problem):
            lexis.text_of(next(lexis.lexed("E'\\x41'")))

    def test_references(self) -> None:
        for text, wanted in (
                ('SELECT 1', []), ('SELECT EXTRACT(year FROM x)', []),
                ('SELECT a FROM b, (c JOIN "d" ON e = f), LATERAL g(h) i WHERE j IN (SELECT k FROM'
                 ' public.l m)', ['B', 'C', 'D', 'G', 'L']),
                ('WITH a (b) AS (SELECT 1 FROM c) SELECT * FROM a, d', ['C', 'D']),
                ('SELECT a IS DISTINCT FROM b FROM c GROUP BY d, e', ['C']),
                ("SELECT substring(a from 1), trim(both ' ' from b) FROM (SELECT * FROM c) d, e",
                 ['C', 'E']), ('SELECT a FROM', ['']), ('SELECT a FROM WHERE b', [''])):
            tokens = [it for it in lexis.lexed(text) if it.kind != 'blank']
            self.assertEqual([it.name for it in lexis.references(tokens)], wanted, text)


class Texts(Case):
    """Each piece of a message is what it is by its tokens, and is never lost."""

    def test_pieces(self) -> None:
        self.assertEqual([it.tag for it in self.client.query(
            f'SELECT pg_backend_pid(); {INSERT.format(2, "x")} /* by pg_job */; SET jit = off')],
            ['SELECT 1', 'INSERT 0 1', 'SET'])
        self.assertEqual(self.rows(), ['1', '2'])
        self.expect((". 'x\nDELETE FROM PAY;\n--'", '42601'), ('.tables', '42601'),
                    ('SELECT * FROM PAY\n.tables', '42601'), ('COPY PAY TO STDOUT', '0A000'),
                    (f'{INSERT.format(3, "x")}; COPY PAY FROM STDIN', '0A000'),
                    (f'COPY PAY FROM STDIN; {INSERT.format(3, "x")}', '0A000'),
                    ('\u017fELECT * FROM PAY', '42601'),
                    ('SELECT * FROM PAY WHERE \u212a = 1', '42601'),
                    ("SELECT * FROM PAY WHERE NAME = E'\\x41'", '0A000'),
                    ("SELECT * FROM PAY WHERE NAME = 'Anna'::varchar(3)", '42601'))
        self.assertEqual(self.rows(), ['1', '2'])

    def test_questions(self) -> None:
        """Comments, texts and columns decide nothing. What is unknown is an error, always."""
        self.client.query(CREATE.replace('TABLE PAY', 'TABLE PG_T').replace('NAME', 'PG_LEVEL'))
        self.client.query(INSERT.format(5, 'x').replace('PAY', 'PG_T'))
        row = [['1']]
        for _ in range(2):
            self.expect(
                ('SELECT COUNT(*) AS pg_count FROM "PAY" /* pg_class */ -- pg_x', row),
                ("SELECT * FROM PAY WHERE NAME = 'pg_class' -- what's", []),
                ('SELECT COUNT(*) FROM "PG_T" WHERE "PG_LEVEL" = \'x\'', row),
                ('SELECT COUNT(*) AS n FROM pg_class WHERE relname = \'PAY\'', row),
                ("SELECT 'pg_a' AS \"a]\"", '0A000'),
                ("SELECT 'pg_a::int b[1] ILIKE' AS \"a::b\"", [['pg_a::int b[1] ILIKE']]),
                ('SELECT * FROM pg_stat_nothing', '42P01'), ('SELECT * FROM PAYS', '42P01'),
                ('SELECT * FROM information_schema.nothing', '42P01'),
                ('SELECT * FROM pg_class, PAY', '42601'),
                ('SELECT * FROM pg_class, "PAY"', '42P01'),
                ('SELECT missing FROM pg_class', '42703'),
                ('SELECT "nothing" FROM pg_class', '42703'),
                ('SELECT nosuch(1)', '42883'), ('SELECT pg_nosuch(1)', '42883'),
                ('SELECT now()', '42883'), ('SELECT rowid FROM "PAY"', '42703'),
                ("SELECT 'nothing'::regclass", '42P01'), ("SELECT '2024-01-01'::date + 1", '0A000'),
                ("SELECT current_setting('nothing')", '42704'),
                ('SELECT pg_advisory_lock(1)', '0A000'),
                ('SELECT pg_try_advisory_lock(1)', '0A000'),
                ('SELECT pg_sleep(2)', '0A000'), ('SELECT pg_terminate_backend(1)', '0A000'),
                ("SELECT set_config('x', 'y', false)", '0A000'), ('SELECT * FROM', '42601'),
                ('SELECT pg_advisory_unlock_all(); CLOSE ALL; UNLISTEN *; RESET ALL;', 'RESET'))
        self.assertEqual(self.told('SELECT pg_backend_pid()'),
                         [[str(struct.unpack('!i', self.client.key[:4])[0])]])
        self.assertNotIn('ILIKE', self.server.log.getvalue())

    def test_a_new_store(self) -> None:
        """PostgreSQL's tables are known before there is a table of the store."""
        with served() as store, connected(store) as client:
            for name in ('pg_class', 'pg_attribute', 'pg_constraint', 'pg_index',
                         'information_schema.columns'):
                self.assertEqual(client.query(f'SELECT * FROM {name}')[0].rows, [])

    def test_outer_queries(self) -> None:
        """A query is refused that sqlite would take otherwise than PostgreSQL."""
        self.expect(('SELECT "ENO"[1] FROM "PAY"', '42703'),
                    ('SELECT "ENO"::box FROM "PAY"', '42704'),
                    ('SELECT CAST("ENO" AS BOX) FROM "PAY"', '42704'),
                    ('SELECT "NAME"::varchar(2) FROM "PAY"', '42704'),
                    ('SELECT CAST("ENO" AS NUMERIC(5, 2)) FROM "PAY"', '42704'),
                    ("SELECT CAST(x'41' AS BLOB) FROM \"PAY\"", '42704'),
                    ('SELECT zeroblob(3) FROM "PAY"', '42804'),
                    ("SELECT 'totals(answer_1, ''--x'')' FROM (SELECT * FROM PAY) AS a",
                     [["totals(answer_1, '--x')"]]))

    def test_half_way(self) -> None:
        """The hint says how many changes before an error are done, by both protocols."""
        texts = [INSERT.format(number, 'x') for number in (5, 6, 5, 7)]
        for is_extended in (True, False):
            with self.assertRaises(Refused) as caught:
                if is_extended:
                    self.pipeline(texts)
                self.client.query('; '.join(texts))
            self.assertEqual(caught.exception.state, '23P01')
            self.assertIn('2 before it are done', caught.exception.fields['H'])
            self.assertEqual(self.rows(), ['1', '5', '6'])
            self.client.query('DELETE FROM PAY WHERE ENO > 1')
        with self.assertRaises(Refused) as caught:
            self.pipeline([INSERT.format(1, 'x')])
        self.assertNotIn('before it', caught.exception.fields['H'])


class Settings(Case):
    """A setting is kept, or refused by name."""

    def test_read_only(self) -> None:
        change = INSERT.format(9, 'x')
        for text in READ_ONLY:
            with self.subTest(text=text):
                self.client.query(text)
                self.assertEqual(self.told('SHOW transaction_read_only'), [['on']])
                self.assertEqual(self.told(change), '25006')
                self.told('ROLLBACK')
                self.told('RESET ALL')
                self.assertEqual(self.told('SHOW transaction_read_only'), [['off']])
        self.expect(('SET default_transaction_read_only = on', 'SET'),
                    ('BEGIN READ WRITE', 'BEGIN'), ('SHOW transaction_read_only', [['off']]),
                    ('COMMIT', 'COMMIT'), (change, '25006'), ('DISCARD ALL', 'DISCARD ALL'),
                    ('BEGIN; SET default_transaction_read_only = on; ROLLBACK', 'ROLLBACK'),
                    (change, 'INSERT 0 1'))

    def test_blocks(self) -> None:
        self.expect(('SET LOCAL jit = on', '25P01'), ('SET TRANSACTION READ ONLY', '25P01'),
                    ('BEGIN; SET application_name = a; SET LOCAL jit = on; COMMIT', 'COMMIT'),
                    ('SHOW application_name', [['a']]), ('SHOW jit', [['off']]),
                    ('BEGIN; SET application_name = b; RESET bytea_output; ROLLBACK', 'ROLLBACK'),
                    ('SHOW application_name', [['a']]), ('BEGIN; DISCARD ALL', '25001'),
                    ('SHOW jit', '25P02'), ('LISTEN x', '25P02'), ('COMMIT', 'ROLLBACK'),
                    ('COMMIT AND CHAIN', '0A000'), ("COMMIT PREPARED 'x'", '0A000'),
                    ('ROLLBACK TO SAVEPOINT x', '0A000'), ('START', '42601'),
                    ('BEGIN ISOLATION LEVEL SERIALIZABLE', '0A000'),
                    ('BEGIN ISOLATION LEVEL READ UNCOMMITTED, READ WRITE, NOT DEFERRABLE', 'BEGIN'),
                    ('SET TRANSACTION ISOLATION LEVEL REPEATABLE READ', '0A000'),
                    ('ABORT', 'ROLLBACK'))

    def test_copy(self) -> None:
        """COPY is refused before a byte is asked for, and kept as it is said."""
        for before, state in (('BEGIN', '0A000'), ('BEGIN; LISTEN x', '25P02'),
                              ('SET default_transaction_read_only = on', '25006')):
            self.told(before)
            with self.assertRaises(Refused) as caught:
                self.client.copy('COPY PAY FROM STDIN', [b'9\tx\t1\t2024-01-01\t2025-01-01\n'])
            self.assertEqual(caught.exception.state, state)
            self.client.query('ROLLBACK; RESET ALL')
        for options in ("ENCODING 'latin1'", 'HEADER match', "QUOTE ''''", 'CSV FORCE_NULL (ENO)'):
            with self.assertRaises(Refused) as caught:
                self.client.copy(f'COPY PAY FROM STDIN WITH {options}', [])
            self.assertEqual(caught.exception.state, '0A000')
        with self.assertRaises(Refused) as caught:
            self.client.copy('COPY PAY FROM STDIN', [b'9\ta\\x41\t1\t2024-01-01\t2025-01-01\n'])
        self.assertEqual(self.rows(), ['1'])

    def test_values(self) -> None:
        """Fixed settings may be what they are; others are kept, or refused by name."""
        self.expect(*((f'SET {text}', 'SET') for text in (
            "client_encoding TO 'utf-8'", "NAMES 'UTF8'", 'DateStyle = ISO, MDY', 'TIME ZONE UTC',
            "TimeZone TO 'Etc/UTC'", 'TIME ZONE LOCAL', 'search_path = "$user", public', 'jit = on',
            'extra_float_digits = -3', 'SESSION geqo TO DEFAULT', 'IntervalStyle = postgres',
            'lock_timeout = 0', "default_transaction_isolation = 'read committed'")))
        self.expect(*((f'SET {text}', state) for text, state in (
            ("client_encoding TO 'latin1'", '0A000'), ('DateStyle = German', '0A000'),
            ("TIME ZONE 'Europe/Berlin'", '0A000'), ("search_path TO ''", '0A000'),
            ('search_path TO private, public', '0A000'), ('lock_timeout = 5', '0A000'),
            ('nothing = 1', '42704'), ('nothing.x = 1', '42704'), ('ROLE x', '0A000'),
            ('standard_conforming_strings = off', '0A000'), ('server_version = 12', '0A000'),
            ("default_transaction_isolation TO 'serializable'", '0A000'), ('jit', '0A000'),
            ('statement_timeout = soon', '22023'), ('jit = $1', '42601'), ('', '42601'),
            ('default_transaction_read_only = perhaps', '22023'))))
        self.expect(*((text, '0A000') for text in (
            'LISTEN x', "NOTIFY x, 'y'", 'LOCK TABLE PAY', 'SAVEPOINT x', 'DECLARE c CURSOR FOR'
            ' SELECT 1', 'FETCH c', 'PREPARE x AS SELECT 1', 'EXECUTE x', 'VACUUM',
            'DROP TABLE PAY', 'TRUNCATE PAY', 'EXPLAIN SELECT 1')),
            ('CLOSE c', '34000'), ('RESET nothing', '42704'),
            ('SHOW nothing', '42704'), ('DISCARD SEQUENCES', 'DISCARD SEQUENCES'),
            ('SET client_min_messages = warning', 'SET'), ('SELECT COUNT(*) FROM "PAY"', [['1']]))
        self.assertEqual(self.client.notices, [])

    def test_start(self) -> None:
        """The first message has settings too, by the same rules. It may name any time zone."""
        session = Session()
        session.start({'user': 'x', 'client_encoding': "'utf-8'", 'TimeZone': 'Europe/Berlin',
                       'DateStyle': 'ISO', 'options': '-c statement_timeout=5s'
                       ' -capplication_name=a\\ b --default-transaction-read-only=on'})
        self.assertEqual((session.settings['timezone'], session.settings['application_name'],
                          session.seconds, session.settings['transaction_read_only']),
                         ('UTC', 'a b', 5.0, 'on'))
        for given, state in (({'options': '-c nothing=1'}, '42704'), ({'options': '-x'}, '0A000'),
                             ({'client_encoding': 'latin1'}, '0A000'), ({'nothing': '1'}, '42704')):
            with self.assertRaises(Problem) as caught:
                Session().start(given)
            self.assertEqual(caught.exception.state, state)
        self.assertEqual([seconds_of(it) for it in ('0', '500', '5s', '2 min')], [0, 0.5, 5, 120])

    def test_statement_timeout(self) -> None:
        """The limit ends queries of the engine and of sqlite, and what waits for its turn."""
        self.client.query('SET statement_timeout = 300')
        began = time.monotonic()
        text = ('WITH RECURSIVE c(x) AS (SELECT 1 UNION ALL SELECT x + 1 FROM c)'
                ' SELECT COUNT(*) FROM c')
        for asked in (f'{text}, (SELECT * FROM PAY) AS a', text):
            with self.assertRaises(Refused) as caught:
                self.client.query(asked)
            self.assertEqual(caught.exception.state, '57014')
            self.assertIn('statement_timeout', caught.exception.fields['H'])
        with connected(self.server) as other, self.server.engine.turns.turn(self.server):
            self.assertEqual(self.told(INSERT.format(7, 'x')), '57014')
            self.assertEqual(other.query('SHOW statement_timeout; SET jit = on')[0].rows, [['0']])
        self.assertLess(time.monotonic() - began, 20)
        self.expect(('SET statement_timeout TO DEFAULT', 'SET'),
                    (INSERT.format(7, 'x'), 'INSERT 0 1'))

    def test_prepared_statements(self) -> None:
        """DEALLOCATE and DISCARD ALL give up prepared statements, and give back their bytes."""
        for number in range(30):
            self.client.send(b'P', wire.text(f's{number % 20}'), wire.text('SELECT 1'), b'\0\0')
        self.client.send(b'S')
        self.client.answers()
        self.assertEqual(len(next(iter(self.server.clients.values())).session.statements), 20)
        self.assertGreater(self.server.engine.held.bytes, 20_000)
        self.expect(('DEALLOCATE S1', 'DEALLOCATE'), ('DEALLOCATE PREPARE "s2"', 'DEALLOCATE'),
                    ('DEALLOCATE s1', '26000'), ('DEALLOCATE ALL', 'DEALLOCATE ALL'),
                    ('DEALLOCATE s3', '26000'))
        self.assertEqual(self.server.engine.held.bytes, 0)
        self.client.send(b'P', wire.text('s'), wire.text('SELECT 1'), b'\0\0')
        self.expect(('DISCARD ALL', 'DISCARD ALL'), ('DEALLOCATE s', '26000'))


class Bounds(Case):
    """No text costs more than its length, and what is held is counted."""

    def test_patterns(self) -> None:
        texts = {
            'COPY PAY FROM STDIN a{}b': ' ', 'SELECT {}a': 'a.', 'SELECT "({}': '/*',
            'SELECT {}': '(', 'SELECT {}1': 'a[', 'SELECT 1 FROM pg_class WHERE {}': '= ANY(ARRAY[',
            'SELECT 1 FROM pg_class WHERE {}x': '(select case when trim(s[i])',
            'SELECT 1 FROM {}': 'generate_series(1,', 'SELECT {}1 FROM "PAY"': '"S" + 1 AS a, ',
            "SELECT '{}": "''", "SELECT E'{}": "\\'", 'SELECT "ENO"{} FROM "PAY"': '::int',
            'WITH {}b AS (SELECT 2) SELECT 1 FROM b': 'a AS (SELECT 1),',
            'SELECT * FROM {}x': '(SELECT * FROM (a', '{}': ';', 'BEGIN {}': 'READ ONLY, '}
        for size, most in ((16_000, 2), (1_000_000, 10)):  # seconds, on a busy machine
            for text, part in texts.items():
                began = time.monotonic()
                with self.subTest(text=text, size=size), contextlib.suppress(Refused):
                    self.client.query(text.format(part * (size // len(part))))
                self.assertLess(time.monotonic() - began, most, text)
            self.told('ROLLBACK')
        self.expect(('SELECT ' + '(' * 33 + '1' + ')' * 33, '54001'),
                    ('SELECT ' + '(' * 33 + '"S"' + ')' * 33 + ' FROM "PAY"', '54001'),
                    ("SELECT '" + 'x' * 20_001 + "'", '54000'))

    def test_bytes(self) -> None:
        """Prepared texts, values and rows of sqlite count, and are given back."""
        held = self.server.engine.held
        held.most = 3_000_000
        many = 'WITH RECURSIVE c(x) AS (SELECT 1.5 UNION ALL SELECT x + 1 FROM c LIMIT {})'
        inner = 'FROM c, (SELECT * FROM PAY) AS a'
        self.expect((many.format(50) + f"SELECT printf('%.500000c', 'x') {inner}", '53200'),
                    (many.format(200_000) + 'SELECT percentile_cont(0.5) WITHIN GROUP (ORDER BY x)'
                     + inner, '53200'))
        for number in range(4):
            self.client.send(b'P', wire.text(f's{number}'), wire.text(
                f"SELECT * FROM PAY WHERE NAME = '{'x' * 900_000}'"), b'\0\0')
            self.client.send(b'S')
            with self.subTest(number=number), contextlib.ExitStack() as stack:
                caught = stack.enter_context(self.assertRaises(Refused)) if number == 3 else None
                self.client.answers()
            self.assertEqual(caught and caught.exception.state, '53200' if number == 3 else None)
        self.client.query('DISCARD ALL')
        self.assertEqual(held.bytes, 0)


class Values(Case):
    """A value that is none of its type is the client's error, and the connection stays."""

    def test_parameters(self) -> None:
        around = 'SELECT "NAME" FROM "PAY" WHERE "ENO" = $1'
        plain = 'SELECT * FROM PAY WHERE ENO = $1'
        for text, value, kind, form, state in (
                (around, b'abc', 23, 0, '22P02'), (around, b'9' * 20, 20, 0, '22003'),
                (around, b'1_0', 23, 0, '22P02'), (around, b'', 16, 0, '22P02'),
                (around, b'nan', 701, 0, '22003'), (around, b'Infinity', 1700, 0, '22003'),
                (around, struct.pack('!d', float('nan')), 701, 1, '22003'),
                ('SELECT $1', b'abc', 23, 0, '22P02'), (plain, b'', 16, 1, '22P03'),
                (plain, b'abc', 23, 0, '22P02'), (plain, b'\0', 23, 1, '22P03'),
                (plain, b'\xed\xa0\x80', 25, 0, '22021'),
                ('SELECT \'2024-02-30\' AS d FROM "PAY" WHERE $1', b'1', 25, 0, ''),
                ("SELECT MAX('2024-02-30', \"S\") FROM \"PAY\" WHERE $1", b'1', 25, 0, '42804')):
            self.client.send(b'P', b'\0', wire.text(text), struct.pack('!Hi', 1, kind))
            self.client.send(b'B', b'\0\0', struct.pack('!HHHi', 1, form, 1, len(value)), value,
                             struct.pack('!HH', 1, 1))
            self.client.send(b'D', b'P\0')
            self.client.send(b'E', b'\0\0\0\0\0')
            self.client.send(b'S')
            try:
                self.client.answers()
                found = ''
            except Refused as refused:
                found = refused.state
            with self.subTest(text=text, value=value, kind=kind):
                self.assertEqual(found, state)
        self.assertEqual(self.rows(), ['1'])

    def test_own_faults(self) -> None:
        """A fault of the server is told by XX000, and the connection stays."""
        own = self.server.tables.answer
        self.server.tables.answer = None
        with contextlib.redirect_stderr(io.StringIO()):
            self.assertEqual(self.told('SELECT 1'), 'XX000')
        self.server.tables.answer = own
        self.assertEqual(self.told('SELECT 1'), [['1']])


if __name__ == '__main__':
    support.run_cases()
