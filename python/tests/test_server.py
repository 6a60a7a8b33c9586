#!/usr/bin/env python3
"""Tests the server by a client of its own, and by psql if it is installed.

The program is the built one, or the one that the variable BITEMPORAL names.
"""
import base64
import contextlib
import csv
import io
import os
import pathlib
import random
import re
import shutil
import signal
import socket
import ssl
import struct
import subprocess
import sys
import tempfile
import threading
import time
import unittest
from typing import Any, Callable, Iterator, Optional

from folders import ROOT
import program
import random_scripts
import support
from wire_client import Answer, Refused, WireClient

from bitemporal_server import accounts, copying, scram, server, values, wire
from bitemporal_server.engine import Engine
from bitemporal_tools.sql.lexis import lexed
from bitemporal_tools.sql.parts import parts_of

CREATE = support.create_table('PAY', 'ENO INTEGER, NAME VARCHAR(20), CENTS INTEGER', 'ENO', 'EP')
INSERT = "INSERT INTO PAY VALUES ({}, '{}', 300000, DATE '2024-01-01', DATE '2024-07-01')"
TAGS = {'CREATE TABLE': 'create,0', 'AT': 'at,0'}


@contextlib.contextmanager
def served(**how: Any) -> Iterator[Any]:
    """A server of a new store in a thread, on a Unix socket or, if users are named, by TCP. Its
    `address` says where."""
    options, memory = {'has_clock': False, **how.pop('options', {})}, how.pop('memory', 0)
    with tempfile.TemporaryDirectory() as folder:
        store = how.pop('store', None) or f'{folder}/a.store'
        listener = server.tcp_listener('127.0.0.1:0', True) if how else \
            server.unix_listener(f'{folder}/socket')
        engine = Engine(program.PROGRAM, store, options.pop('seconds', 60),
                        options.get('most_rows', 1_000_000), *['--now'][:options['has_clock']],
                        most_bytes=memory * 2 ** 20)
        log = io.StringIO()
        found: Any = server.Server(engine, server.Options(**options), listener.socket,
                                   accounts.Accounts(log), **how)
        found.address, found.log, found.store = listener.socket.getsockname(), log, store
        listener.socket.listen(16)
        thread = threading.Thread(target=found.run)
        thread.start()
        try:
            yield found
        finally:
            found.end()
            thread.join(30)
            listener.socket.close()


@contextlib.contextmanager
def connected(found: Any, **how: Any) -> Iterator[WireClient]:
    client = WireClient(found.address, **how)
    try:
        yield client
    finally:
        client.close()


def line(*fields: Any) -> str:
    output = io.StringIO()
    csv.writer(output, lineterminator='\n').writerow(fields)
    return output.getvalue()


def records(number: int, answer: Optional[Answer], refused: Optional[Refused]) -> str:
    """The records of a statement as a report has them, from what a client gets."""
    if refused:
        found = re.match(r'(\d+) (\w+)(?: on ([0-9-]+))?', refused.fields['M'])
        assert found, refused.fields
        return line('refused', number, found[1], found[2], found[3] or '')
    assert answer
    if answer.columns is None:
        kind, *count = answer.tag.lower().split()
        what = TAGS.get(answer.tag) or f'{kind},{count[-1]}'
        return line('done', number, *what.split(','))
    is_sequenced = answer.columns[-2:] == ['held', 'absent']
    kind, row, shown = ('answer', 'row', 4) if is_sequenced else ('versions', 'version', 0)
    rows = [line(row, number, *('none' if cell is None else cell for cell in cells))
            for cells in answer.rows]
    return line(kind, number, len(answer.columns) - shown, len(answer.rows)) \
        + line('columns', number, *answer.columns) + ''.join(rows)


def statements(script: bytes) -> 'list[str]':
    """The statements of a script, without empty ones."""
    return [part.strip().rstrip(';') for part in parts_of(script.decode('utf-8') + ';')
            if part.strip().strip(';').strip()]


class Scripts(unittest.TestCase):
    """Each script gives its report, statement by statement, by both query protocols."""

    def report(self, texts: 'list[str]', is_extended: bool) -> str:
        found = ''
        with served() as store, connected(store) as client:
            for number, text in enumerate(texts, 1):
                answer = refused = None
                try:
                    answer = client.ask(text) if is_extended else client.query(text)[0]
                except Refused as problem:
                    refused = problem
                found += records(number, answer, refused)
        return found

    def compare(self, script: pathlib.Path) -> None:
        texts = statements(script.read_bytes())
        wanted = script.with_suffix('.report').read_text('utf-8')
        for is_extended in (False, True):
            with self.subTest(script=script.name, is_extended=is_extended):
                self.assertEqual(self.report(texts, is_extended), wanted)

    def test_examples(self) -> None:
        for script in sorted((ROOT / 'examples').glob('*.sql')):
            if script.with_suffix('.report').exists():
                self.compare(script)

    def test_scripts(self) -> None:
        """Some of each folder, or COUNT: those that the program runs whole, with tokens alone that
        drivers write as the profile does."""
        most = support.chosen('COUNT', 3)
        for folder in sorted((ROOT / 'tests/scripts').iterdir()):
            chosen = [script for script in sorted(folder.glob('*.sql')) if is_plain(script)
                      and not asks_nothing(statements(script.read_bytes()))]
            for script in random.Random(folder.name).sample(chosen, min(most, len(chosen))):
                self.compare(script)

    def test_parameters(self) -> None:
        """Random statements with their literals as parameters give the report of the script."""
        for seed in range(300, 312):
            script = random_scripts.run_script(2 * seed)  # one that is written plainly
            status, report, _ = program.got(['run'], script)
            if status == 2:
                continue
            found = ''
            with served() as store, connected(store) as client:
                for number, text in enumerate(statements(script), 1):
                    answer = refused = None
                    try:
                        answer = client.ask(*with_parameters(text))
                    except Refused as problem:
                        refused = problem
                    found += records(number, answer, refused)
            self.assertEqual(found, report.decode('utf-8'), f'seed {seed}')


def is_plain(script: pathlib.Path) -> bool:
    """Whether a script is run whole, by `run` alone, and has a report to compare with. No message
    of the protocol has a zero byte within a text."""
    arguments = script.with_suffix('.args')
    status = script.with_suffix('.status')
    return script.with_suffix('.report').exists() \
        and (not arguments.exists() or arguments.read_text().split() == ['run']) \
        and (not status.exists() or status.read_text().strip() != '2') \
        and script.stat().st_size < 20_000 \
        and b'\0' not in script.with_suffix('.report').read_bytes()


def asks_nothing(texts: 'list[str]') -> bool:
    """Whether some statement is a query without a table, which a client gets an answer to."""
    return any(re.match(r'(?:--[^\n]*\n|\s)*SELECT\b', text, re.I)
               and not re.search(r'\bFROM\b', text, re.I)
               for text in texts)


def with_parameters(text: str) -> 'tuple[str, list[str], list[int]]':
    """A statement with parameters in the place of its texts and of its dates and moments, with
    their values and types. Whole numbers stay, since a number may be the length of a type."""
    given: 'list[str]' = []
    types: 'list[int]' = []
    parts, at = [], 0
    tokens = lexed(text)
    for before, token in zip([None, *tokens], tokens):
        if token.kind != 'text' or before and before.word == 'AT':
            continue
        begin = token.offset
        if before and before.word in ('DATE', 'TIMESTAMP'):
            begin = before.offset
        given.append(token.text[1:-1].replace("''", "'"))
        word = before.word if before else ''
        types.append(values.KINDS[word if word in values.KINDS else 'VARCHAR'].oid)
        parts += [text[at:begin], f'${len(given)}']
        at = token.offset + len(token.text)
    return ''.join([*parts, text[at:]]), given, types


class Clients(unittest.TestCase):
    """Values, blocks, refusals, settings, COPY, outer queries."""

    def setUp(self) -> None:
        stack = contextlib.ExitStack()
        self.addCleanup(stack.close)
        self.server = stack.enter_context(served())
        self.client = stack.enter_context(connected(self.server))
        self.client.query(CREATE)

    def test_texts(self) -> None:
        """Any text comes back as it was given, and is never SQL."""
        chosen = random.Random(1)
        letters = "a'\"\\;-$%\n\t\r \u00e4\u4e2d\U0001f600"
        for number in range(60):
            text = ''.join(chosen.choice(letters) for _ in range(chosen.randint(0, 20)))
            self.client.ask('INSERT INTO PAY VALUES ($1, $2, 1, $3, $4)',
                            [str(number), text, '2024-01-01', 'infinity'])
            found = self.client.ask('SELECT * FROM PAY WHERE NAME = $1 AND ENO = $2',
                                    [text, str(number)])
            self.assertEqual([row[1] for row in found.rows], [text])
            self.assertEqual(found.rows[0][4], '9999-12-31')

    def test_refusals(self) -> None:
        self.client.query(INSERT.format(1, 'Ann'))
        for text, state, position in (
                (INSERT.format(1, 'Max'), '23P01', 1), ('SELECT WAGE FROM PAY', '42601', 8),
                ('VALIDTIME SELECT DISTINCT WAGE FROM PAY', '42703', 27),
                ('SELECT * FROM PAYS', '42P01', 15),
                ("SELECT * FROM PAY WHERE ENO = 'x'", '42804', 29),
                ('SELECT ? FROM PAY', '42601', 8)):
            with self.subTest(text=text), self.assertRaises(Refused) as caught:
                self.client.query(text)
            self.assertEqual(caught.exception.state, state, caught.exception.fields)
            self.assertTrue(caught.exception.fields['D'])
            self.assertEqual(int(caught.exception.fields['P']), position)
        with self.assertRaises(Refused) as caught:
            self.client.ask('INSERT INTO PAY VALUES (2, $1, 3, $2, $3)', [None, 'x', 'y'])
        self.assertEqual(caught.exception.state, '23502')

    def test_blocks(self) -> None:
        """A block has queries; a change in it is refused before it is made."""
        self.assertEqual(self.client.query('BEGIN; SELECT * FROM PAY; COMMIT')[1].rows, [])
        self.client.query('BEGIN')
        with self.assertRaises(Refused) as caught:
            self.client.query(INSERT.format(1, 'Ann'))
        self.assertEqual(caught.exception.state, '0A000')
        with self.assertRaises(Refused) as caught:
            self.client.query('SELECT * FROM PAY')
        self.assertEqual(caught.exception.state, '25P02')
        self.assertEqual(self.client.query('ROLLBACK')[0].tag, 'ROLLBACK')
        self.assertEqual(self.client.query('SELECT * FROM PAY')[0].rows, [])

    def test_several_statements(self) -> None:
        """Statements before a refused one are done, and the error says how many."""
        with self.assertRaises(Refused) as caught:
            self.client.query('; '.join([INSERT.format(1, 'Ann'), INSERT.format(2, 'Max'),
                                         INSERT.format(1, 'Eve'), INSERT.format(3, 'Tom')]))
        self.assertIn('2 before it', caught.exception.fields['H'])
        self.assertEqual([row[0] for row in self.client.query('SELECT * FROM PAY')[0].rows],
                         ['1', '2'])

    def test_settings(self) -> None:
        self.assertEqual(self.client.query('SHOW server_version')[0].rows, [['9.6.0']])
        self.client.query("SET bitemporal.witness = off; SET client_encoding TO 'UTF8'")
        self.client.query(INSERT.format(1, 'Ann'))
        found = self.client.query('VALIDTIME SELECT DISTINCT ENO FROM PAY')[0]
        self.assertEqual(found.columns, ['ENO', 'valid_from', 'valid_to'])
        counts = {row[0]: row[1] for row in self.client.query('SHOW bitemporal.stats')[0].rows}
        self.assertEqual(counts['changes'], '2')
        self.assertIn('INSERT', self.server.log.getvalue())
        self.assertNotIn('Ann', self.server.log.getvalue())

    def test_tables(self) -> None:
        """PostgreSQL's own tables list the store's."""
        found = self.client.query(
            "SELECT column_name, data_type FROM information_schema.columns"
            " WHERE table_name = 'PAY' ORDER BY ordinal_position")[0]
        self.assertEqual(found.rows[1], ['NAME', 'character varying'])
        self.assertEqual(self.client.query('SELECT 1 + 1')[0].rows, [['2']])

    def test_patterns_that_take_long(self) -> None:
        began = time.monotonic()
        for pattern in ('^(a+)+$', '^(a|a)*$', '.*.*.*.*.*b'):
            text = "SELECT 1 WHERE '" + 40 * 'a' + f"!' ~ '{pattern}'"
            with self.subTest(text=text), self.assertRaises(Refused) as caught:
                self.client.query(text)
            self.assertEqual(caught.exception.state, '0A000')
        self.assertEqual(self.client.query("SELECT 1 WHERE 'abc' ~ '^(a.*c)$'")[0].rows, [['1']])
        self.assertLess(time.monotonic() - began, 20)

    def test_outer_queries(self) -> None:
        for number, (name, cents) in enumerate([('a', 5), ('a', 7), ('b', 11)]):
            self.client.query(f"INSERT INTO PAY VALUES ({number}, '{name}', {cents},"
                              " DATE '2024-01-01', DATE '2024-07-01')")
        text = ('SELECT NAME, COUNT(*), SUM(CENTS), MIN(valid_from) FROM (VALIDTIME SELECT DISTINCT'
                ' ENO, NAME, CENTS FROM PAY WHERE CENTS > $1) AS a GROUP BY NAME'
                ' ORDER BY 2 DESC, 1')
        found = self.client.ask(text, ['6'])
        self.assertEqual(found.rows, [['a', '1', '7', '2024-01-01'],
                                      ['b', '1', '11', '2024-01-01']])
        self.assertEqual(self.client.types, [1043, 20, 20, 1082])
        self.assertIn('outside the proofs', self.client.notices[0]['M'])
        found = self.client.query('SELECT a.ENO, b.ENO FROM (SELECT * FROM PAY) a LEFT JOIN ('
                                  "SELECT * FROM PAY WHERE NAME = 'b') b ON a.ENO = b.ENO"
                                  ' ORDER BY 1')[0]
        self.assertEqual(found.rows, [['0', None], ['1', None], ['2', '2']])
        found = self.client.query("SELECT * FROM totals((VALIDTIME SELECT DISTINCT ENO, NAME, CENTS"
                                  " FROM PAY), '--by NAME --count --sum CENTS')"
                                  ' WHERE COUNT > 1')[0]
        self.assertEqual(found.rows, [['a', '2', '12', '2024-01-01', '2024-07-01']])
        self.assertEqual(self.client.types, [1043, 20, 20, 1082, 1082])
        for text in ('SELECT missing(ENO) FROM (SELECT * FROM PAY) a',
                     'SELECT * FROM (SELECT * FROM PAYS) a',
                     "SELECT * FROM totals((SELECT * FROM PAY), '--count')",
                     "SELECT * FROM totals((VALIDTIME SELECT DISTINCT ENO FROM PAY), '--all')",
                     "SELECT * FROM totals((VALIDTIME SELECT DISTINCT ENO FROM PAY), '')"):
            with self.assertRaises(Refused):
                self.client.query(text)
        self.assertEqual(self.client.query("SELECT '(SELECT * FROM PAY)'")[0].rows,
                         [['(SELECT * FROM PAY)']])

    @unittest.skipUnless(shutil.which('psql'), 'apt-get install postgresql-client')
    def test_commands_of_psql(self) -> None:
        """The questions that psql asks by its commands are understood, each of them."""
        commands = ('d', 'dS', 'd+', 'd PAY', 'd+ PAY', 'd pay', 'd PAY_pkey', 'dt+', 'di+', 'dn+',
                    'l', 'du', 'df', 'dv', 'ds', 'dp', 'dT', 'dx', 'dy', 'db', 'dd', 'do', 'dE',
                    'dm', 'da', 'dL', 'dC', 'dO', 'sf none', 'conninfo')
        for command in commands:
            done = subprocess.run(
                ['psql', '-X', '-h', str(pathlib.Path(self.server.address).parent), '-c',
                 f'\\{command}', 'store'], capture_output=True, check=False)
            with self.subTest(command=command):
                self.assertNotIn(b'ERROR', done.stderr.replace(b'ERROR:  function', b''))
                self.assertNotIn('is refused', self.server.log.getvalue())
                if command == 'd+ PAY':
                    self.assertRegex(done.stdout.decode(), r'NAME +\| character varying\(20\) +\|'
                                     r'.*extended')

    def test_tables_as_tools_name_them(self) -> None:
        """In double quotes or after the schema a table has its current rows, for sqlite; a query
        that the profile has is the engine's, and one by plain names is refused, with a hint."""
        for number in range(3):
            self.client.query(INSERT.format(number, 'Ann'))
        self.client.query(f'DELETE FROM public."PAY" WHERE "ENO" = 0; {INSERT.format(3, "Max")}'
                          .replace('INTO PAY', 'INTO "public"."PAY"'))
        found = self.client.query('SELECT p."NAME", COUNT(*) AS n, MIN("S"::timestamp) AS first'
                                  ' FROM public.pay p GROUP BY 1 ORDER BY n DESC')[0]
        self.assertEqual((found.columns, found.rows), (['NAME', 'n', 'first'], [
            ['Ann', '2', '2024-01-01 00:00:00'], ['Max', '1', '2024-01-01 00:00:00']]))
        self.assertEqual(self.client.types, [1043, 20, 1114])
        self.assertIn('outside the proofs', self.client.notices.pop()['M'])
        self.assertEqual(len(self.client.query('SELECT * FROM "PAY"')[0].rows), 3)
        self.assertEqual(self.client.notices, [])
        for text, state in (('SELECT "NONE" FROM "PAY"', '42703'),
                            ('SELECT * FROM "PAYS"', '42P01'),
                            ('SELECT x."ENO" FROM public."PAYS" x', '42P01'),
                            ('SELECT none("ENO") FROM "PAY"', '42883'),
                            ('SELECT "ENO" FROM "PAY" WHERE', '42601'),
                            ("SELECT date_trunc('eon', \"S\") FROM \"PAY\"", '22000'),
                            ('SELECT date_trunc(\'day\', "NAME") FROM "PAY"', '22000'),
                            ('SELECT COUNT(*) FROM PAY', '42601')):
            with self.subTest(text=text), self.assertRaises(Refused) as caught:
                self.client.query(text)
            self.assertEqual(caught.exception.state, state)
        self.assertIn('"PAY" in double quotes', caught.exception.fields['H'])

    def test_dates_of_outer_queries(self) -> None:
        """A date is the moment at its midnight, however it is written."""
        self.client.query("AT TIMESTAMP '2024-03-01 00:00:00'; " + INSERT.format(1, 'Ann'))
        for condition in ("\"S\" = '2024-01-01T00:00:00Z'",
                          "\"S\" < TIMESTAMP '2024-01-01 00:00:01'",
                          "\"S\" >= timestamp with time zone '2024-01-01 00:00:00.000Z'",
                          "\"SS\" = DATE '2024-03-01'", "\"SS\" BETWEEN '2024-03-01' AND"
                          " '2024-03-01 00:00:00+00'", "\"SS\"::date = '2024-03-01'",
                          "date_trunc('quarter', \"SS\") = '2024-01-01 00:00:00'",
                          'extract(dow from "SS") = 5', "to_char(\"SS\", 'YYYY/MM') = '2024/03'",
                          "\"SS\" - INTERVAL '1 month 1 day' = '2024-01-31'",
                          '"E" - "S" = 182', '"E" - 1 = DATE \'2024-06-30\'', '1 + "S" < "E"',
                          '"E" - "S" - "ENO" * 2 = 180', "\"SS\"::date - DATE '2024-02-01' = 29",
                          '(SELECT MAX("E") - MIN("S") AS d FROM "PAY") = 182',
                          "EXTRACT(EPOCH FROM \"SS\" - TIMESTAMP '2024-02-28') = 172800",
                          "\"SS\" - TIMESTAMP '2024-03-02 12:00:00' = '-1 days -12:00:00'",
                          '"CENTS" - 1 < "CENTS"', "\"E\" = '2024-07-01 +00'",
                          '"NAME" ILIKE \'ann%\'',
                          '"NAME" LIKE \'An_\'', '"NAME" NOT LIKE \'an%\'',
                          'greatest("CENTS", 3, NULL) > least(7, "CENTS")'):
            with self.subTest(condition=condition):
                found = self.client.query(f'SELECT "ENO" FROM "PAY" WHERE {condition}')[0]
                self.assertEqual(found.rows, [['1']])
        found = self.client.ask('SELECT "ENO" FROM "PAY" WHERE "S" = $1 AND "CENTS" > $2',
                                ['2024-01-01 +00', '2.5'], [0, 701])
        self.assertEqual(found.rows, [['1']])

    def test_copy(self) -> None:
        rows = ''.join(f'{number},"Ann, {number}",5,2024-01-01,2024-07-01\n'
                       for number in range(2500))
        data = ('eno,name,cents,s,e\n' + rows).encode()
        chunks = [data[at:at + 1000] for at in range(0, len(data), 1000)]
        told = self.client.copy('COPY PAY FROM STDIN WITH (FORMAT csv, HEADER true)', chunks)
        self.assertEqual(told, 'COPY 2500')
        with self.assertRaises(Refused) as caught:
            self.client.copy('COPY pay (name, eno, cents, s, e) FROM STDIN',
                             [b'a\\tb\t9000\t1\t2024-01-01\t2024-07-01\n',
                              b'x\t9001\t1\t2024-01-01\t2024-07-01\n',
                              b'x\t7\t1\t2024-01-01\t2024-07-01\n',
                              b'x\t9002\t1\t2024-01-01\t2024-07-01\n'])
        self.assertEqual(caught.exception.state, '23P01')
        self.assertIn('line 3', caught.exception.fields['M'])
        self.assertIn('2 rows', caught.exception.fields['H'])
        found = self.client.query("SELECT * FROM PAY WHERE ENO >= 9000")[0]
        self.assertEqual([row[1] for row in found.rows], ['a\tb', 'x'])
        refused: 'list[tuple[str, list[bytes], str]]' = [
            ('COPY PAY FROM STDIN', [b'1\t2\n'], '22P04'),
            ('COPY PAY FROM STDIN', [b'\\N\ta\t1\t2024-01-01\t2024-07-01\n'], '23502'),
            ('COPY PAYS FROM STDIN', [], '42P01'),
            ('COPY PAY (ENO) FROM STDIN', [], '42601'),
            ('COPY PAY FROM STDIN WITH (FORMAT binary)', [], '0A000')]
        for text, lines, state in refused:
            with self.subTest(text=text, lines=lines), self.assertRaises(Refused) as caught:
                self.client.copy(text, lines)
            self.assertEqual(caught.exception.state, state)
        found = self.client.query('SELECT * FROM PAY WHERE ENO = 1')[0]
        self.assertEqual(found.rows[0][1], 'Ann, 1')

    def test_limits(self) -> None:
        with served(options={'most_rows': 2, 'most_clients': 2}) as store:
            with connected(store) as client:
                client.query(CREATE)
                for number in range(3):
                    client.query(INSERT.format(number, 'Ann'))
                with self.assertRaises(Refused) as caught:
                    client.query('SELECT * FROM PAY')
                self.assertEqual(caught.exception.state, '54000')
                self.assertEqual(len(client.query('SELECT * FROM PAY WHERE ENO < 2')[0].rows), 2)
                with connected(store):
                    with self.assertRaises(Refused) as caught:
                        WireClient(store.address)
                self.assertEqual(caught.exception.state, '53300')

    def test_numbers_of_parameters(self) -> None:
        for text in ('SELECT * FROM PAY WHERE ENO = $999999999', 'SELECT $999999999',
                     'SELECT $999999999 FROM "PAY"'):
            with self.subTest(text=text), self.assertRaises(Refused) as caught:
                self.client.send(b'P', b'\0', wire.text(text), b'\0\0')
                self.client.send(b'D', b'S\0')
                self.client.send(b'S')
                self.client.answers()
            self.assertEqual(caught.exception.state, '54000')

    def test_read_only(self) -> None:
        with served(options={'is_read_only': True}) as store, connected(store) as client:
            with self.assertRaises(Refused) as caught:
                client.query(CREATE)
            self.assertEqual(caught.exception.state, '42501')

    def test_a_slow_client(self) -> None:
        """A client that does not read its answer keeps no other from its own, and gets it whole."""
        rows = ', '.join(INSERT.format(number, 'x' * 20)[23:] for number in range(150))
        self.client.query('INSERT INTO PAY VALUES ' + rows)
        text = 'SELECT a.* FROM (SELECT * FROM PAY) AS a, (SELECT * FROM PAY) AS b'
        with connected(self.server) as slow, connected(self.server) as other:
            slow.send(b'Q', wire.text(text))
            time.sleep(0.5)
            self.assertEqual(len(other.query('SELECT * FROM PAY')[0].rows), 150)
            self.assertEqual(len(slow.answers()[0].rows), 150 * 150)
        self.assertEqual(self.server.engine.held.bytes, 0)

    def test_states(self) -> None:
        """The SQLSTATE of each refusal of a script that has them all is as in docs/SERVER.md, and
        each has a place in its own text."""
        page = (ROOT / 'docs/SERVER.md').read_text('utf-8')
        wanted: 'dict[int, str]' = {}
        for states, codes in re.findall(r'^\| ([0-9A-Z, ]{5,}) \| ([0-9].*?) \|$', page, re.M):
            numbers = [[int(it) for it in re.findall(r'[0-9]+', part)]
                       for part in re.split(r', ', codes.split(';')[0])]
            listed = states.split(', ')
            for place, part in enumerate(numbers):
                wanted.update((code, listed[min(place, len(listed) - 1)]) for code in part)
        script = ROOT / 'python/tests/explain_cases/refusals.sql'
        found = set()
        with served() as store, connected(store) as client:
            for text in statements(script.read_bytes()):
                with contextlib.suppress(Refused):
                    try:
                        client.query(text)
                    except Refused as refused:
                        code = int(refused.fields['M'].split()[0])
                        found.add(code)
                        self.assertEqual(refused.state, wanted.get(code, refused.state), text)
                        self.assertLessEqual(int(refused.fields['P']), len(text) + 1)
                        raise
        self.assertGreater(len(found & set(wanted)), 8)

    def test_memory_of_answers(self) -> None:
        """Answers that are held for clients have bytes that are counted, and given back."""
        rows = ', '.join(INSERT.format(number, 'x' * 20)[23:] for number in range(200))
        self.client.query('INSERT INTO PAY VALUES ' + rows)
        self.server.engine.held.most = 20_000
        with self.assertRaises(Refused) as caught:
            self.client.query('SELECT * FROM PAY')
        self.assertEqual(caught.exception.state, '53200')
        self.assertIn('--memory', caught.exception.fields['H'])
        for _ in range(20):
            self.assertEqual(len(self.client.query('SELECT * FROM PAY WHERE ENO < 50')[0].rows), 50)
        self.assertEqual(self.server.engine.held.bytes, 0)

    def test_memory_of_the_program(self) -> None:
        """The program has no more memory than it may: a statement is refused, and the next is run.
        """
        text = INSERT.format('{}', 'x' * 1000)[23:]
        with served(memory=40) as store, connected(store) as client:
            client.query(CREATE.replace('(20)', '(1000)'))
            state, done = '', 0
            while not state and done < 1000:
                rows = ', '.join(text.format(100 * done + number) for number in range(100))
                try:
                    client.query('INSERT INTO PAY VALUES ' + rows)
                    done += 1
                except Refused as refused:
                    state = refused.state
            self.assertEqual(state, '53200')
            found = client.query('SELECT * FROM PAY WHERE ENO = 7')[0].rows
            self.assertEqual([row[0] for row in found], ['7'])
        self.assertEqual(store.status, 0)

    def test_clock(self) -> None:
        """With the server's clock each change is recorded at its time, and AT is refused."""
        with served(options={'has_clock': True}) as store, connected(store) as client:
            client.query(CREATE)
            client.query(INSERT.format(1, 'Ann'))
            start = client.query('SELECT * FROM PAY')[0].rows[0][5]
            now = time.strftime('%Y-%m-%d %H:%M:%S', time.gmtime(time.time() + 1))
            before = time.strftime('%Y-%m-%d %H:%M:%S', time.gmtime(time.time() - 60))
            self.assertTrue(before < (start or '') < now, start)
            with self.assertRaises(Refused):
                client.query("AT TIMESTAMP '2031-01-01 00:00:00'")


class Safety(unittest.TestCase):
    """Users, TLS, garbage, clients and programs that die."""

    def test_scram_example(self) -> None:
        """The example of RFC 7677, section 3."""
        verifier = scram.verifier('pencil', base64.b64decode('W22ZaJ0SNY7soEsUEjb6gQ=='))
        exchange = scram.Exchange(verifier, 'user', '%hvYDpWUa2RaTCAfuxFIlj)hNlF$k0')
        self.assertEqual(exchange.first(b'n,,n=user,r=rOprNGfwEbeRWgbNEkqO'),
                         b'r=rOprNGfwEbeRWgbNEkqO%hvYDpWUa2RaTCAfuxFIlj)hNlF$k0,'
                         b's=W22ZaJ0SNY7soEsUEjb6gQ==,i=4096')
        self.assertEqual(exchange.last(
            b'c=biws,r=rOprNGfwEbeRWgbNEkqO%hvYDpWUa2RaTCAfuxFIlj)hNlF$k0,'
            b'p=dHzbZapWIk4jUhN+Ute9ytag9zjfMHgsqmmiz7AndVQ='),
            b'v=6rriTRBi23WpRR/wtup+mMhUZUn/dB5nLTJRsjl95G4=')

    def test_users(self) -> None:
        users = {'ann': scram.User('write', scram.verifier('right')),
                 'max': scram.User('read', scram.verifier('other'))}
        with served(users=users) as store:
            with connected(store, user='ann', password='right') as client:
                client.query(CREATE)
            with connected(store, user='max', password='other') as client:
                self.assertEqual(client.query('SELECT * FROM PAY')[0].rows, [])
                with self.assertRaises(Refused) as caught:
                    client.query(INSERT.format(1, 'Ann'))
                self.assertEqual(caught.exception.state, '42501')
            for user, password in (('ann', 'wrong'), ('eve', 'right'), ('ann', '')):
                began = time.monotonic()
                with self.assertRaises(Refused) as caught:
                    WireClient(store.address, user, password)
                self.assertEqual(caught.exception.state, '28P01')
                self.assertGreater(time.monotonic() - began, 0.9)

    def test_users_that_change(self) -> None:
        """The file of users is read again when it has changed, and if it cannot be, the users stay.
        """
        notes: 'list[str]' = []
        with tempfile.TemporaryDirectory() as folder:
            file = pathlib.Path(folder, 'users')
            file.write_text('ann write ' + scram.verifier('x') + '\n')
            file.chmod(0o600)
            with served(users=scram.Users(str(file), notes.append)) as store:
                with connected(store, user='ann', password='x') as client:
                    client.query(CREATE)
                with self.assertRaises(Refused):
                    WireClient(store.address, 'max', 'y')
                file.write_text('max read ' + scram.verifier('y') + '\n')
                with connected(store, user='max', password='y') as client:
                    self.assertEqual(client.query('SELECT * FROM PAY')[0].rows, [])
                with self.assertRaises(Refused):
                    WireClient(store.address, 'ann', 'x')
                spoils: 'list[Callable[[], object]]' = [
                    lambda: file.write_text('max own'), lambda: file.chmod(0o644), file.unlink]
                for spoil in spoils:
                    spoil()
                    for _ in range(2):
                        with connected(store, user='max', password='y'):
                            pass
        self.assertIn('read again', notes[0])
        self.assertEqual(len(notes), 4)

    def test_files_of_users(self) -> None:
        with tempfile.TemporaryDirectory() as folder:
            file = pathlib.Path(folder, 'users')
            file.write_text('ann write ' + scram.verifier('x') + '\n\n')
            file.chmod(0o644)
            with self.assertRaisesRegex(ValueError, 'chmod 600'):
                scram.read_users(str(file))
            file.chmod(0o600)
            self.assertEqual(scram.read_users(str(file))['ann'].rights, 'write')
            file.write_text('ann own x')
            with self.assertRaisesRegex(ValueError, 'line 1'):
                scram.read_users(str(file))

    def test_listeners(self) -> None:
        with self.assertRaisesRegex(Exception, 'open to others'):
            server.tcp_listener('0.0.0.0:5432', False)
        with self.assertRaisesRegex(Exception, 'no address'):
            server.tcp_listener('localhost', False)
        with tempfile.TemporaryDirectory() as folder:
            pathlib.Path(folder).chmod(0o755)
            with self.assertRaisesRegex(Exception, 'chmod 700'):
                server.unix_listener(folder)

    @unittest.skipUnless(shutil.which('openssl'), 'apt-get install openssl')
    def test_tls(self) -> None:
        with tempfile.TemporaryDirectory() as folder:
            file = f'{folder}/both.pem'
            subprocess.run(['openssl', 'req', '-x509', '-newkey', 'rsa:2048', '-nodes', '-days',
                            '2', '-subj', '/CN=localhost', '-keyout', file, '-out',
                            f'{folder}/c.pem'], check=True, capture_output=True)
            with open(file, 'a', encoding='ascii') as both:
                both.write(pathlib.Path(folder, 'c.pem').read_text('ascii'))
            context = ssl.SSLContext(ssl.PROTOCOL_TLS_SERVER)
            context.load_cert_chain(file)
            with served(certificates=context) as store:
                with self.assertRaises(Refused) as caught:
                    WireClient(store.address)
                self.assertEqual(caught.exception.state, '28000')
                with socket.create_connection(store.address) as plain:
                    plain.sendall(struct.pack('!ii', 8, 80877103))
                    self.assertEqual(plain.recv(1), b'S')
                    client = ssl.create_default_context(cafile=f'{folder}/c.pem')
                    with client.wrap_socket(plain, server_hostname='localhost') as safe:
                        data = struct.pack('!i', 196608) + b'user\0x\0\0'
                        safe.sendall(struct.pack('!i', len(data) + 4) + data)
                        self.assertEqual(safe.recv(1), b'R')

    def test_garbage(self) -> None:
        """Bytes that are no message end their connection, and no other."""
        start = struct.pack('!ii', 15, 196608) + b'user\0x\0\0'[:7]
        with served() as store:
            for data in (b'', b'GET / HTTP/1.1\r\n\r\n', b'\0' * 100, b'\xff' * 100,
                         struct.pack('!i', 2 ** 31 - 1), struct.pack('!ii', 8, 3), start[:7],
                         struct.pack('!ii', 16, 80877102) + b'12345678',
                         struct.pack('!i', 9) + struct.pack('!i', 196608) + b'\0' + b'Q\0\0\0\2',
                         struct.pack('!i', 9) + struct.pack('!i', 196608) + b'\0' + b'Q\x7f\0\0\0',
                         struct.pack('!i', 9) + struct.pack('!i', 196608) + b'\0Q\0\0\0\x09abcd'):
                with self.subTest(data=data[:20]), socket.socket(socket.AF_UNIX) as plain:
                    plain.settimeout(30)
                    plain.connect(store.address)
                    plain.sendall(data)
                    plain.shutdown(socket.SHUT_WR)
                    while plain.recv(4096):
                        pass
            with connected(store) as client:
                client.query(CREATE)
                client.send(b'?', b'x')
                client.send(b'S')
                with self.assertRaises(Refused):
                    client.answers()
                self.assertEqual(client.query('SELECT * FROM PAY')[0].rows, [])
            for _ in range(50):
                if not store.clients:
                    break
                time.sleep(0.1)
            self.assertEqual(store.clients, {})

    def test_killed_program(self) -> None:
        """If the program dies in a change, the client learns that it is not known whether the
        change is done, and the store is opened again for the next statement."""
        with served() as store, connected(store) as client:
            client.query(CREATE)
            client.query(INSERT.format(1, 'Ann'))
            store.engine.session.process.send_signal(signal.SIGSTOP)
            threading.Timer(0.3, store.engine.session.process.kill).start()
            with self.assertRaises(Refused) as caught:
                client.query(INSERT.format(2, 'Max'))
            self.assertEqual(caught.exception.state, '40003')
            self.assertIn(len(client.query('SELECT * FROM PAY')[0].rows), (1, 2))
        self.assertEqual(store.status, 0)

    def test_slow_queries(self) -> None:
        """A query that takes too long, or that its client cancels, is ended. The next is run."""
        with served(options={'seconds': 1}) as store, connected(store) as client:
            client.query(CREATE)
            client.query(INSERT.format(1, 'Ann'))
            store.engine.session.process.send_signal(signal.SIGSTOP)
            with self.assertRaises(Refused) as caught:
                client.query('SELECT * FROM PAY')
            self.assertEqual(caught.exception.state, '57014')
            store.engine.most_seconds = 60  # on a busy machine a query may take a second
            self.assertEqual(len(client.query('SELECT * FROM PAY')[0].rows), 1)
            store.engine.session.process.send_signal(signal.SIGSTOP)
            threading.Timer(0.5, self.cancel, [store, client.key]).start()
            with self.assertRaises(Refused) as caught:
                client.query('SELECT * FROM PAY')
            self.assertEqual(caught.exception.state, '57014')
            self.assertEqual(len(client.query('SELECT * FROM PAY')[0].rows), 1)

    def test_slow_outer_queries(self) -> None:
        """A query that sqlite computes keeps no other client waiting, and is ended as queries
        are."""
        text = ('SELECT COUNT(*) FROM "PAY" a, "PAY" b, "PAY" c, "PAY" d, "PAY" e'
                ' WHERE a."ENO" + b."ENO" + c."ENO" + d."ENO" + e."ENO" < 0')
        with served() as store, connected(store) as client, connected(store) as other:
            rows = ', '.join(INSERT.format(number, 'Ann')[23:] for number in range(150))
            client.query(f'{CREATE}; INSERT INTO PAY VALUES {rows}')
            threading.Timer(1, self.cancel, [store, client.key]).start()
            client.send(b'Q', wire.text(text))
            time.sleep(0.5)
            self.assertEqual(other.query(INSERT.format(1000, 'Max'))[0].tag, 'INSERT 0 1')
            with self.assertRaises(Refused) as caught:
                client.answers()
            self.assertEqual(caught.exception.state, '57014')
            store.engine.most_seconds = 0.5
            with self.assertRaises(Refused) as caught:
                client.query(text)
            self.assertEqual(caught.exception.state, '57014')
            store.engine.most_seconds = 60
            self.assertEqual(client.query('SELECT COUNT(*) FROM "PAY"')[0].rows, [['151']])

    def cancel(self, store: Any, key: bytes) -> None:
        with socket.socket(socket.AF_UNIX) as plain:
            plain.connect(store.address)
            plain.sendall(struct.pack('!ii', 16, 80877102) + key)

    def test_many_clients(self) -> None:
        """Clients that write at once, some of which die: what was called done is in the store."""
        told: 'list[int]' = []

        def work(first: int) -> None:
            chosen = random.Random(first)
            with contextlib.suppress(OSError, wire.Gone), connected(store) as client:
                for number in range(first, first + 40):
                    client.query(INSERT.format(number, 'Ann'))
                    told.append(number)
                    if chosen.random() < 0.02:
                        client.send(b'Q', wire.text(INSERT.format(number + 5000, 'Max')))
                        return

        with served() as store, connected(store) as client:
            client.query(CREATE)
            threads = [threading.Thread(target=work, args=[100 * number]) for number in range(8)]
            for thread in threads:
                thread.start()
            for thread in threads:
                thread.join(60)
            found = {int(row[0] or 0) for row in client.query('SELECT * FROM PAY')[0].rows}
            self.assertLessEqual(set(told), found)


class Command(unittest.TestCase):
    """The command itself: its start, its end, `--check`, and psql."""

    def test_command(self) -> None:
        with tempfile.TemporaryDirectory() as folder:
            words = [sys.executable, str(ROOT / 'tools/serve'), '--folder',
                     f'{folder}/socket']
            with subprocess.Popen([*words, f'{folder}/a.store'], stderr=subprocess.PIPE) as process:
                assert process.stderr is not None
                told = process.stderr.readline().decode()
                self.assertIn('is served', told)
                check = subprocess.run([*words, '--check'], capture_output=True, check=False)
                self.assertEqual((check.returncode, check.stdout.split()[0]), (0, b'seconds'))
                self.psql(f'{folder}/socket')
                process.send_signal(signal.SIGTERM)
                self.assertEqual(process.wait(30), 0)
                self.assertFalse(pathlib.Path(folder, 'socket', server.SOCKET).exists())
            check = subprocess.run([*words, '--check'], capture_output=True, check=False)
            self.assertEqual(check.returncode, 2)
            pathlib.Path(folder, 'bad').write_text('no store')
            bad = subprocess.run([*words, f'{folder}/bad'], capture_output=True, check=False)
            self.assertEqual(bad.returncode, 2)

    @unittest.skipUnless(shutil.which('psql'), 'apt-get install postgresql-client')
    def test_page(self) -> None:
        """The sessions of psql that docs/SERVER.md shows are what one gets."""
        page = (ROOT / 'docs/SERVER.md').read_text('utf-8')
        shown = re.findall(r'^\$ (psql [^\n]*)\n(.*?)(?=^\$ |^```)', page, re.M | re.S)
        self.assertGreater(len(shown), 2)
        with tempfile.TemporaryDirectory() as folder:
            pathlib.Path(folder, 'examples').symlink_to(ROOT / 'examples')
            with subprocess.Popen([sys.executable, str(ROOT / 'tools/serve'), 'pay.store',
                                   '--folder', 'run'], stderr=subprocess.PIPE,
                                  cwd=folder) as process:
                assert process.stderr is not None
                told = process.stderr.readline().decode()
                self.assertIn(told.replace(folder, '/srv/pay'), page)
                for command, wanted in shown:
                    done = subprocess.run(['bash', '-c', command], cwd=folder, check=False,
                                          stdout=subprocess.PIPE, stderr=subprocess.STDOUT)
                    self.assertEqual(done.stdout.decode(), wanted, command)
                process.send_signal(signal.SIGTERM)
                self.assertEqual(process.wait(30), 0)

    def test_end_within_a_change(self) -> None:
        """SIGTERM ends the server when the change that runs is done and answered."""
        with tempfile.TemporaryDirectory() as folder:
            words = [sys.executable, str(ROOT / 'tools/serve'), '--folder', f'{folder}/socket',
                     f'{folder}/a.store']
            address = f'{folder}/socket/{server.SOCKET}'
            for number in range(2):
                with subprocess.Popen(words, stderr=subprocess.PIPE) as process:
                    assert process.stderr is not None
                    process.stderr.readline()
                    with contextlib.closing(WireClient(address)) as client:
                        if number:
                            self.assertEqual(len(client.query('SELECT * FROM PAY')[0].rows), 1)
                        else:
                            client.query(CREATE)
                            engine = int(pathlib.Path(
                                f'/proc/{process.pid}/task/{process.pid}/children').read_text())
                            os.kill(engine, signal.SIGSTOP)
                            client.send(b'Q', wire.text(INSERT.format(1, 'Ann')))
                            time.sleep(0.3)
                        process.send_signal(signal.SIGTERM)
                        if not number:
                            time.sleep(0.3)
                            os.kill(engine, signal.SIGCONT)
                            self.assertEqual(client.answers()[0].tag, 'INSERT 0 1')
                    self.assertEqual(process.wait(30), 0)

    def test_memory(self) -> None:
        """With --memory what sqlite computes is limited too."""
        text = ("WITH RECURSIVE c (n) AS (SELECT 1 UNION ALL SELECT n + 1 FROM c WHERE n < {})"
                " SELECT COUNT(*) FROM (SELECT DISTINCT printf('%0500d', n) FROM c), (SELECT *"
                " FROM PAY) AS p")
        with tempfile.TemporaryDirectory() as folder:
            with subprocess.Popen([sys.executable, str(ROOT / 'tools/serve'), '--folder',
                                   f'{folder}/socket', f'{folder}/a.store', '--memory', '48'],
                                  stderr=subprocess.PIPE) as process:
                assert process.stderr is not None
                process.stderr.readline()
                with contextlib.closing(WireClient(f'{folder}/socket/{server.SOCKET}')) as client:
                    client.query(CREATE)
                    client.query(INSERT.format(1, 'Ann'))
                    with self.assertRaises(Refused) as caught:
                        client.query(text.format(300_000))
                    self.assertEqual(caught.exception.state, '53200')
                    self.assertEqual(client.query(text.format(300))[0].rows, [['300']])
                process.send_signal(signal.SIGTERM)
                self.assertEqual(process.wait(30), 0)

    def psql(self, folder: str) -> None:
        """The clients' own program, if it exists."""
        if not shutil.which('psql'):
            return
        rows = pathlib.Path(folder, 'rows.csv')
        rows.write_text('2,"Max, M.",5,2024-01-01,2024-07-01\n')
        done = subprocess.run(
            ['psql', '-h', folder, '-X', '-A', '-t', '-c', CREATE, '-c', INSERT.format(1, 'Ann'),
             '-c', f'\\copy PAY FROM {rows} WITH CSV', '-c', 'SELECT * FROM PAY', '-c', '\\d',
             '-c', '\\dt', '-c', '\\d PAY', 'store'], capture_output=True, check=True)
        self.assertIn(b'1|Ann|300000|2024-01-01|2024-07-01', done.stdout)
        self.assertIn(b'2|Max, M.|5|2024-01-01|2024-07-01', done.stdout)
        self.assertIn(b'public|PAY|table', done.stdout)


class Pieces(unittest.TestCase):
    """Smaller things: lines of a COPY, cells, parameters."""

    def test_lines(self) -> None:
        form = copying.Format()
        found = list(copying.lines_of(iter([b'a\\tb\tc\nd\\\\', b'\te\n\\.\nnot read\n']), form))
        self.assertEqual([line.cells for line in found], [['a\tb', 'c'], ['d\\', 'e']])
        form = copying.Format(True, True, ';', '')
        found = list(copying.lines_of(iter([b'x;y\n"a\nb";c\n', b'd;"e""f"']), form))
        self.assertEqual([tuple(it) for it in found], [(2, ['a\nb', 'c']), (4, ['d', 'e"f'])])

    def test_cells(self) -> None:
        for text, kind, form, data in (
                ('7', values.INTEGER, 1, struct.pack('!q', 7)), ('7', values.INTEGER, 0, b'7'),
                ('2000-01-02', values.DATE, 1, struct.pack('!i', 1)),
                ('1999-12-31 23:59:59.999999', values.TIMESTAMP, 1, struct.pack('!q', -1)),
                ('x', values.VARCHAR, 1, b'x'), ('2.5', values.REAL, 1, struct.pack('!d', 2.5))):
            self.assertEqual(values.cell(text, kind, form), data)
        self.assertEqual(values.parameter(struct.pack('!i', 366), 1082, 1, 1).text, '2001-01-01')


if __name__ == '__main__':
    support.run_cases()
