#!/usr/bin/env python3
"""Attacks on a served store, each of which stopped the server once, or took or kept something
from somebody. (Those on who may change what are in test_rights.py, those on tools in
test_attacked_tools.py.)

The program is the built one, or the one that the variable BITEMPORAL names.
"""
import contextlib
import os
import pathlib
import re
import shutil
import signal
import socket
import struct
import subprocess
import sys
import threading
import time
import unittest
from typing import Any, Callable

import served
import support
from served import CREATE, INSERT, Served, keys, reset, said
from wire_client import Refused, WireClient

from bitemporal_server import wire
from bitemporal_server.page import answers

ONE = 'SELECT * FROM PAY WHERE ENO = 1'
# A text that was a line of its own for the engine, up to its line feed.
ESCAPE = ". 'x\n{};\n--'"
NEW = INSERT.format(100_000, 'new')
# The most seconds that a client waits while another one's text is read.
MOST_WAIT = 1.0
SLOW_PROGRAM = '#!/bin/bash\nsleep {}\nexec -a bitemporal_file "{}" "$@"\n'


def state(told: Any) -> str:
    """The SQLSTATE that a client was told, or that it was an answer, or how it ended."""
    return told[:5] if isinstance(told, str) else 'done'


def waits_of(client: WireClient, is_over: Callable[[], bool]) -> 'list[float]':
    """The seconds that each statement of a client took until it is over."""
    found = []
    while not is_over():
        began = time.monotonic()
        client.query('SELECT 1')
        found.append(time.monotonic() - began)
        time.sleep(0.01)
    return found


class Attacks(support.Case):
    """Tests with one or two servers each."""

    def served(self, *options: str, **how: Any) -> Served:
        """A server, until the test ends."""
        found = Served(*options, **how)
        self.addCleanup(found.__exit__)
        return found.waited()

    def client(self, store: Served, *words: Any, **how: Any) -> WireClient:
        """A client of it, until the test ends."""
        found = store.client(*words, **how)
        self.addCleanup(found.close)
        return found

    def ends(self, store: Served) -> None:
        """The server ends by SIGTERM, and says that all was well."""
        self.equal('the status of the server', store.end(), 0)

    def refusal(self, found: Callable[[], object]) -> Refused:
        """The refusal that a call gets."""
        with self.assertRaises(Refused) as caught:
            found()
        return caught.exception


class Texts(Attacks):
    """Texts that the engine, or a guess, took for something else."""

    def test_dot(self) -> None:
        """A dot is no statement: nothing behind it is run, and no answer is left unread."""
        store = self.served('--read-only', '--script-clock', count=1800, text='x' * 100)
        client, other = self.client(store), self.client(store)
        copy = f'{store.top}/stolen.store'
        for text in ('DELETE FROM PAY WHERE ENO = 1', f'.backup {copy}', 'SELECT * FROM PAY'):
            self.equal(text, state(said(client, ESCAPE.format(text))), '42601')
            self.equal('another client', said(other, ONE)[0][1][0][0], '1')
        for text in ('.tables', '.x', f'{ONE};\n.x', f'{ONE}\n.x', f'.backup {copy}'):
            self.equal(text, state(said(client, text)), '42601')
        self.equal('rows', keys(client, ' WHERE ENO < 3'), [0, 1, 2])
        self.equal('a copy', os.path.exists(copy), False)
        self.equal('restarts of the engine', served.counters(client).get('restarts'), '0')
        self.ends(store)

    def test_dot_on_the_page(self) -> None:
        store = self.served('--page', count=3)
        for text in ('DELETE FROM PAY WHERE ENO = 1', ESCAPE.format('DELETE FROM PAY')):
            [found] = store.post('/ask', text=text)[1]['results']
            self.equal(text, found['kind'], 'refused')
        [found] = store.post('/ask', text='SELECT * FROM PAY')[1]['results']
        self.equal('rows', sorted(row[0] for row in found['rows']), ['0', '1', '2'])
        moment = "2020-01-01 00:00:00'; SELECT * FROM PAY; SELECT * FROM PAY WHERE NAME = 'x"
        status, _ = store.post('/changes', table='PAY', first=moment, second='2020-01-01 00:00:00')
        self.equal('/changes', status, 400)
        self.ends(store)

    @unittest.skipUnless(shutil.which('psql'), 'apt-get install postgresql-client')
    def test_dot_by_psql(self) -> None:
        """A user who may only read, over TCP with a password."""
        store = self.served('--listen', '127.0.0.1:0', count=2, users=[('ann', 'read')])
        host, port = store.address

        def psql(text: str) -> str:
            done = subprocess.run(
                ['psql', '-X', '-A', '-t', '-h', host, '-p', str(port), '-U', 'ann', '-c', text,
                 'store'], env={**os.environ, 'PGPASSWORD': served.PASSWORD}, check=False,
                stdout=subprocess.PIPE, stderr=subprocess.STDOUT)
            return done.stdout.decode()

        self.holds('DELETE', 'only read' in psql('DELETE FROM PAY'))
        told = psql("SELECT has_table_privilege('PAY', 'SELECT'), has_table_privilege('PAY',"
                    " 'INSERT, DELETE')")
        self.equal('privileges', told, '1|0\n')
        copy = f'{store.top}/stolen.store'
        for text in ('DELETE FROM PAY', f'.backup {copy}'):
            self.holds(text, 'Syntax' in psql(ESCAPE.format(text)), psql(ESCAPE.format(text)))
        self.equal('rows', len(psql('SELECT * FROM PAY').splitlines()), 2)
        self.equal('a copy', os.path.exists(copy), False)
        self.ends(store)

    def test_page_without_an_engine(self) -> None:
        """The page answers after its engine was killed."""
        store = self.served('--page', count=1)
        os.kill(store.engine(), signal.SIGKILL)
        time.sleep(0.2)
        store.post('/tables')  # this one may say that the engine ended
        status, found = store.post('/tables')
        self.equal('tables', (status, [it['name'] for it in found.get('tables', [])]),
                   (200, ['PAY']))
        self.holds('a traceback', 'Traceback' not in store.told(), store.told())

    def test_guesses(self) -> None:
        """No comment, alias or column makes a query one of PostgreSQL's own tables."""
        store = self.served(count=3)
        client = self.client(store)
        for text in ('SELECT * FROM PAY /* pg_hint: x */', 'SELECT * FROM PAY -- see pg_dump',
                     'SELECT * FROM PAY WHERE ENO < 9 -- pg_x',
                     '/* pg_catalog.pg_class */ SELECT * FROM PAY'):
            self.equal(text, len(said(client, text)[0][1]), 3)
        client.query(CREATE.replace('TABLE PAY', 'TABLE T').replace('NAME', 'PG_LEVEL'))
        client.query(INSERT.format(1, 'x').replace('PAY', 'T'))
        for text, count in (('SELECT * FROM T', 1), ("SELECT * FROM T WHERE PG_LEVEL = 'x'", 1),
                            ("SELECT * FROM PAY WHERE NAME = 'Ann' -- what's", 3),
                            ('VALIDTIME SELECT DISTINCT PG_LEVEL FROM T', 1)):
            self.equal(text, len(said(client, text)[0][1]), count)
        self.equal('an alias', said(client, 'SELECT COUNT(*) AS pg_count FROM "PAY"'),
                   [('SELECT 1', [['3']])])
        for text in ('SELECT nosuch(1)', 'SELECT nosuch(1)', 'SELECT nosuch(1) AS pg_x'):
            self.equal('an unknown function', state(said(client, text)), '42883')
        self.ends(store)

    def test_statements_that_were_lost(self) -> None:
        """A change behind a question of PostgreSQL's own tables is done or refused, and never
        passed over."""
        store = self.served(count=1)
        client = self.client(store)
        for number, text in ((7, 'SELECT pg_backend_pid(); {}'), (8, 'SELECT version(); {}'),
                             (9, 'SELECT * FROM PAY; {} /* by pg_job */'),
                             (10, 'SELECT relname FROM pg_class; {}')):
            told = said(client, text.format(INSERT.format(number, 'x')))
            is_done = isinstance(told, list) and [tag for tag, _ in told][1:] == ['INSERT 0 1']
            self.holds(text, is_done or state(told) not in ('done', 'XX000'), told)
            self.equal(text, keys(client, f' WHERE ENO = {number}'), [number] * is_done)
        self.ends(store)

    def test_copy_in_a_failed_block(self) -> None:
        store = self.served(count=1)
        client = self.client(store)
        for text in ('BEGIN', 'SELECT nonsense FROM'):
            said(client, text)
        refused = self.refusal(lambda: client.copy('COPY PAY FROM STDIN', [
            b'9\tx\t2024-01-01\t2025-01-01\n']))
        self.equal('COPY', refused.state, '25P02')
        self.equal('ROLLBACK', said(client, 'ROLLBACK'), [('ROLLBACK', [])])
        self.equal('rows', keys(client), [0])

    def test_letters_of_other_alphabets(self) -> None:
        """Letters that are A to Z when their case is set aside are none of them; what is no
        statement is an error, of the client's connection and of no other."""
        store = self.served('--log', '-', count=3)
        client = self.client(store)
        for text in ('\u017fELECT * FROM PAY WHERE ENO = 1', 'SELECT * FROM PAY WHERE \u0131NO = 1',
                     'SELECT * FROM PAY WHERE \u212a = 1', "ATTACH 'x' AS y",
                     'PRAGMA database_list', 'WITH x AS (SELECT 1) DELETE FROM "PAY"'):
            self.equal(text, state(said(client, text)), '42601')
        for text in ("SELECT load_extension('x')", 'SELECT * FROM pragma_database_list',
                     "SELECT writefile('x', 'y') FROM (SELECT * FROM PAY) AS a"):
            self.holds(text, state(said(client, text)) in ('42883', '42P01', '42601', '0A000'),
                       said(client, text))
        for text in (';;;', '', '-- nothing'):
            self.equal(text, said(client, text), [])
        self.equal('rows', keys(client), [0, 1, 2])
        self.holds('a traceback', 'Traceback' not in store.told(), store.told())


# A statement, a parameter, its type, the form of the answer, and what the client is told.
AROUND = 'SELECT COUNT(*) FROM (SELECT * FROM PAY) AS a WHERE a.ENO = $1'
BY_NAME = 'SELECT * FROM PAY WHERE NAME = $1'
VALUES: 'list[tuple[str, bytes, int, int, tuple[str, ...]]]' = [
    (AROUND, b'abc', 23, 0, ('22P02',)), (AROUND, b'9' * 20, 20, 0, ('22003',)),
    ('SELECT $1', b'abc', 23, 0, ('22P02',)), (AROUND, b'x', 1700, 0, ('22P02',)),
    (AROUND, b'', 16, 0, ('22P02',)), ('SELECT * FROM PAY WHERE ENO = $1', b'', 16, 0, ('42804',)),
    (AROUND, b'1', 23, 0, ('done',)),
    ("SELECT '2024-02-30' AS d FROM (SELECT * FROM PAY) AS a WHERE a.NAME = $1", b'Ann', 25, 1,
     ('22007', '22008', 'done')),
    ('SELECT 1e400 AS d FROM (SELECT * FROM PAY) AS a WHERE a.NAME = $1', b'Ann', 25, 1,
     ('22003', 'done')),
    (BY_NAME, b'a\0b', 25, 0, ('22021', '42601', 'done')),
    (BY_NAME, b'\xed\xa0\x80', 25, 0, ('22021', '22P03')),
    (BY_NAME, '\u2028;\n.tables\n'.encode(), 25, 0, ('done',)),
    (BY_NAME, b"x\n.backup no.copy\n'; DELETE FROM PAY;--", 25, 0, ('done',)),
    (BY_NAME, b"';DELETE FROM PAY;--", 25, 0, ('done',)),
    (BY_NAME, b"\\' OR ENO = 1 --", 25, 0, ('done',)),
    ('SELECT * FROM PAY WHERE S = $1', b"2024-01-01' OR ENO = 1 --", 1082, 0, ('22007',))]


def asked(client: WireClient, text: str, value: bytes, oid: int, form: int) -> str:
    """The outcome of a statement with one parameter, as `state` has it."""
    client.send(b'P', b'\0', wire.text(text), struct.pack('!Hi', 1, oid))
    client.send(b'B', b'\0\0\0\0', struct.pack('!Hi', 1, len(value)), value,
                struct.pack('!HH', 1, form))
    client.send(b'D', b'P\0')
    client.send(b'E', b'\0\0\0\0\0')
    client.send(b'S')
    refused = None
    while True:
        kind, fields = wire.received(client.stream)
        if kind == b'E':
            refused = str(re.findall(rb'C([0-9A-Z]{5})\0', fields.data)[0].decode())
        if kind == b'Z':
            return refused or 'done'


class Values(Attacks):
    """Values that the server took for its own fault."""

    def test_values(self) -> None:
        """Each is an error of its kind, and the connection stays."""
        store = self.served('--log', '-', count=3)
        client = self.client(store)
        for text, value, oid, form, wanted in VALUES:
            try:
                told = asked(client, text, value, oid, form)
            except served.GONE as error:
                told, client = f'the connection ended: {error}', self.client(store)
            self.holds(f'{text} with {value!r}', told in wanted, told)
        self.equal('rows', keys(client), [0, 1, 2])
        self.equal('files', [it.name for it in store.here.iterdir()], [])
        self.holds('a traceback', 'Traceback' not in store.told(), store.told())


class Ends(Attacks):
    """Connections that end at the wrong moment, signals, and too many of them."""

    def test_resets(self) -> None:
        """A client whose connection is reset while its query runs: the others are told of their
        own statements."""
        for what, wanted in ((ONE, 'SELECT 1'), (NEW, 'INSERT 0 1')):
            store = self.served('--listen', '127.0.0.1:0', count=1800, text='x' * 100)
            first, second = store.client(), self.client(store)
            with store.stopped():
                first.send(b'Q', wire.text('SELECT * FROM PAY'))
                time.sleep(0.3)
                reset(first)
                time.sleep(0.3)
            self.equal(what, [tag for tag, _ in said(second, what)], [wanted])
            self.equal(what, keys(second, ' WHERE ENO = 100000'), [100_000] * (what == NEW))
            self.ends(store)

    def test_kills(self) -> None:
        """A client with a Unix socket that is killed with an answer unread and a query running."""
        store = self.served(count=1800, text='x' * 100)
        second = self.client(store)
        program = ('import folders, sys, time\nfrom wire_client import WireClient, wire\n'
                   f'client = WireClient({store.address!r})\n'
                   "client.send(b'Q', wire.text('SELECT 1'))\ntime.sleep(0.3)\n"
                   "client.send(b'Q', wire.text('SELECT * FROM PAY'))\n"
                   "print('sent', flush=True)\ntime.sleep(60)")
        with subprocess.Popen([sys.executable, '-B', '-c', program], stdout=subprocess.PIPE,
                              cwd=pathlib.Path(__file__).parent) as child:
            assert child.stdout
            time.sleep(0.2)
            with store.stopped():
                child.stdout.readline()
                time.sleep(0.3)
                child.kill()
                child.wait()
                time.sleep(0.3)
            self.equal('another client', said(second, NEW), [('INSERT 0 1', [])])
        self.ends(store)

    def test_changes_that_wait(self) -> None:
        """The change of another client, which waits behind a connection that is reset."""
        store = self.served('--listen', '127.0.0.1:0', count=1800, text='x' * 100)
        first, second = store.client(), self.client(store)
        with store.stopped():
            first.send(b'Q', wire.text(ONE))
            time.sleep(0.2)
            second.send(b'Q', wire.text(NEW))
            time.sleep(0.2)
            reset(first)
            time.sleep(0.3)
        self.equal('INSERT', [answer.tag for answer in second.answers()], ['INSERT 0 1'])
        self.ends(store)
        self.holds('the row', b'100000' in support.run(
            ['bash', '-c', 'exec -a bitemporal_file "$BITEMPORAL" "$0"', store.store],
            b'SELECT * FROM PAY WHERE ENO = 100000;\n')[1])

    def test_sigterm_of_a_group(self) -> None:
        """SIGTERM to server and engine, as an init system sends it: the change is done, and
        told."""
        for is_group in (False, True):
            store = self.served(count=1)
            client = self.client(store)
            with store.stopped() as engine:
                client.send(b'Q', wire.text(NEW))
                time.sleep(0.3)
                os.kill(store.process.pid, signal.SIGTERM)
                if is_group:
                    os.kill(engine, signal.SIGTERM)
                time.sleep(0.1)
            self.equal(f'group: {is_group}', client.answers()[0].tag, 'INSERT 0 1')
            self.equal(f'group: {is_group}', store.process.wait(30), 0)

    def test_flood(self) -> None:
        """Connections of nobody, more than the server has descriptors."""
        store = self.served('--clients', '5', count=1, files=64)
        held: 'list[socket.socket]' = []
        end = time.monotonic() + 3
        while len(held) < 90 and time.monotonic() < end:
            it = socket.socket(socket.AF_UNIX)
            it.setblocking(False)
            try:
                it.connect(store.address)
                held.append(it)
            except OSError:  # the server has not accepted those before it
                it.close()
                time.sleep(0.01)
        time.sleep(0.5)
        self.equal('the server runs', store.process.poll(), None)
        for it in held:
            it.close()
        self.equal('a client', keys(self.client_at_last(store)), [0])
        self.ends(store)

    def client_at_last(self, store: Served) -> WireClient:
        """A client, when there is room for it again."""
        for _ in range(100):
            with contextlib.suppress(Refused, *served.GONE):
                return self.client(store)
            time.sleep(0.1)
        return self.client(store)

    def test_names_in_the_log(self) -> None:
        """No name of a user makes a line of the log."""
        store = self.served('--log', '-', count=1)
        with contextlib.suppress(Refused):
            client = self.client(store, 'x/1 SELECT 0.000001 0 ok\n2026-01-01T00:00:00Z admin/7'
                                 ' DELETE 0.000001 5 ok\nx')
            client.query('SELECT * FROM PAY')
        self.ends(store)
        lines = [line for line in store.told().splitlines() if not line.startswith('serve: ')]
        self.holds('lines', all(re.match(r'20\d\d-\d\d-\d\dT\d\d:\d\d:\d\dZ ', line)
                                for line in lines), lines)
        self.equal('forged', [line for line in lines if line.startswith('2026-01-01')], [])

    @unittest.skipUnless(os.path.exists('/dev/full'), 'there is no /dev/full here')
    def test_a_log_that_cannot_be_written(self) -> None:
        """A log that fails is told once, and cuts nobody."""
        store = self.served('--log', '/dev/full', count=1)
        client = self.client(store)
        for number in range(3):
            self.equal('a change', said(client, INSERT.format(100 + number, 'x')),
                       [('INSERT 0 1', [])])
        self.ends(store)
        self.equal('told', len(store.told().splitlines()), 2)

    def test_a_log_that_is_moved(self) -> None:
        """SIGHUP opens the log again, and ends nothing."""
        store = self.served('--log', '../log', count=1)
        client, log = self.client(store), pathlib.Path(store.top, 'log')
        client.query('SELECT * FROM PAY')
        moved = log.rename(log.with_name('log.1'))
        store.process.send_signal(signal.SIGHUP)
        time.sleep(0.3)
        client.query('VALIDTIME SELECT DISTINCT ENO FROM PAY')
        self.holds('the new log', log.exists() and 'VALIDTIME' in log.read_text('utf-8'))
        self.equal('the old log', 'VALIDTIME' in moved.read_text('utf-8'), False)
        self.ends(store)

    def test_two_servers_of_a_folder(self) -> None:
        """The second is refused, also while the first one opens its store, and takes nothing
        away."""
        top = self.files.folder.name
        slow = self.files.write('slow', SLOW_PROGRAM.format(2, os.environ['BITEMPORAL']))
        os.chmod(slow, 0o755)
        first = Served(count=1, program=slow, top=top)
        self.addCleanup(first.__exit__)
        for _ in range(300):
            if os.path.exists(first.address):
                break
            time.sleep(0.1)
        second = Served(count=2, top=top, name='b.store')
        self.addCleanup(second.__exit__)
        self.equal('the second', second.process.wait(30), 2)
        self.equal('the first', keys(self.client(first.waited())), [0])
        third = Served(count=2, top=top, name='b.store')
        self.addCleanup(third.__exit__)
        self.equal('the third', third.process.wait(30), 2)
        self.equal('the first', keys(self.client(first)), [0])
        self.ends(first)

    def test_database_of_another_name(self) -> None:
        store = self.served(count=1)
        for name in ('store', 'a.store', 'a'):
            self.equal(name, keys(self.client(store, database=name)), [0])
        refused = self.refusal(lambda: self.client(store, database='payroll_2023'))
        self.equal('payroll_2023', refused.state, '3D000')


# Texts of so many bytes, which patterns took quadratic time for.
LONG: 'dict[str, Callable[[int], str]]' = {
    'COPY': lambda n: 'COPY PAY FROM STDIN a' + ' ' * n + 'b',
    'a.a': lambda n: 'SELECT ' + 'a.' * (n // 2) + 'a', '[': lambda n: 'SELECT ' + 'a[' * (n // 2),
    '/*': lambda n: 'SELECT "(' + '/*' * (n // 2), '(': lambda n: 'SELECT ' + '(' * n,
    '()': lambda n: 'SELECT * FROM "PAY" WHERE ' + '(' * (n // 2) + ')' * (n // 2),
    "'": lambda n: "SELECT '" + "''" * (n // 2), '--': lambda n: 'SELECT ' + '--\n' * (n // 3),
    '"': lambda n: 'SELECT ' + '"a"' * (n // 3), '::': lambda n: 'SELECT 1' + '::int' * (n // 5),
    '(SELECT': lambda n: 'SELECT * FROM ' + '(SELECT ' * (n // 8),
    ';': lambda n: 'SELECT pg_x' + ';' * n, 'pg': lambda n: 'SELECT ' + 'pg_a, ' * (n // 6) + '1'}


class Bounds(Attacks):
    """Time, memory and places that one client may take from the others."""

    def test_patterns(self) -> None:
        """No text keeps the others waiting."""
        store = self.served(count=1)
        client, other = self.client(store, seconds=120), self.client(store, seconds=120)
        for name, made in LONG.items():
            for size in (64_000, 1_000_000):
                for _ in range(3):  # the machine may be busy
                    told: 'list[Any]' = []
                    thread = threading.Thread(
                        target=lambda: told.append(said(client, made(size))))  # noqa: B023
                    thread.start()
                    waits = waits_of(other, lambda: not thread.is_alive())  # noqa: B023
                    if max(waits, default=0) < MOST_WAIT:
                        break
                self.holds(f'{name}, {size} bytes', max(waits, default=0) < MOST_WAIT, waits)
                self.holds(f'{name}, {size} bytes', re.match('[0-9A-Z]{5} ', str(told[0])), told)
        self.ends(store)

    def test_cancel_without_a_place(self) -> None:
        """With all places taken a client can be cancelled; a server whose engine works is busy and
        not broken."""
        store = self.served('--clients', '2', count=3)
        first, second = self.client(store), self.client(store)
        with store.stopped():
            first.send(b'Q', wire.text('SELECT * FROM PAY'))
            time.sleep(0.2)
            with socket.socket(socket.AF_UNIX) as plain:
                plain.connect(store.address)
                plain.sendall(struct.pack('!ii', 16, 80877102) + first.key)
                plain.settimeout(10)
                self.equal('the answer to a cancel', plain.recv(100), b'')
            self.equal('the query', self.refusal(first.answers).state, '57014')
        self.equal('the next', keys(first), [0, 1, 2])
        self.equal('--check', store.check().returncode, 0)
        with store.stopped():
            first.send(b'Q', wire.text('SELECT * FROM PAY'))
            time.sleep(0.2)
            found = store.check()
            self.equal('--check of a busy server', (found.returncode, 'busy' in found.stdout),
                       (0, True))
            self.equal('SHOW', said(second, 'SHOW server_encoding'), [('SHOW', [['UTF8']])])
        first.answers()
        self.ends(store)

    def test_broken_engine(self) -> None:
        """A server whose engine is gone and cannot be started is not said to be well."""
        store = self.served(count=1)
        with store.stopped() as engine:
            pathlib.Path(store.store).rename(store.store + '.gone')
            pathlib.Path(store.store).mkdir()
            os.kill(engine, signal.SIGKILL)
        time.sleep(0.2)
        with contextlib.suppress(Refused, *served.GONE):
            said(self.client(store), 'SELECT * FROM PAY')
        self.equal('--check', store.check().returncode, 2)

    def test_slow_bytes(self) -> None:
        """One deadline for whoever has proved nothing, however few bytes it sends; and it keeps no
        place from the others."""
        store = self.served('--clients', '1', count=1, begin=FIRST_SECONDS)
        with socket.socket(socket.AF_UNIX) as slow:
            began = time.monotonic()
            slow.connect(store.address)
            slow.sendall(struct.pack('!i', 9000)[:3])
            self.equal('another client', keys(self.client(store)), [0])
            with self.assertRaises(OSError):
                while time.monotonic() - began < 8:
                    slow.sendall(b'x')
                    time.sleep(0.2)
            self.holds('the deadline', 1.5 < time.monotonic() - began < 6)
        self.ends(store)

    def test_prepared_statements(self) -> None:
        """Statements that are given up, by DEALLOCATE, DISCARD, Close or another of their name,
        leave room for others."""
        store = self.served(count=1)
        client = self.client(store)
        for first in range(0, 1100, 50):
            for number in range(first, first + 50):
                client.send(b'P', wire.text(f'_pg3_{number}'), wire.text(ONE), b'\0\0')
                client.send(b'S')
                client.send(b'Q', wire.text(f'DEALLOCATE _pg3_{number}'))
            tags = [client.answers() for _ in range(100)]
            self.equal('tags', {answers[0].tag for answers in tags[1::2]}, {'DEALLOCATE'})
        for number in range(1100):
            client.send(b'P', wire.text('again'), wire.text(ONE), b'\0\0')
        client.send(b'S')
        client.answers()
        for text in ('DISCARD ALL', 'DEALLOCATE ALL', 'DEALLOCATE PREPARE again'):
            client.send(b'P', wire.text('again'), wire.text(ONE), b'\0\0')
            client.send(b'S')
            client.answers()
            client.query(text)
            client.send(b'D', b'Sagain\0')
            client.send(b'S')
            self.equal(text, self.refusal(client.answers).state, '26000')
        self.equal('none', state(said(client, 'DEALLOCATE nothing')), '26000')
        self.ends(store)

    def test_memory_of_outer_queries(self) -> None:
        """Rows that sqlite computes are held within --memory."""
        store = self.served('--memory', '50', count=40)
        client = self.client(store, seconds=60)
        before = store.memory('VmHWM')
        text = ('SELECT hex(zeroblob(500000)) AS t FROM (SELECT * FROM PAY) AS a,'
                ' (SELECT * FROM PAY) AS b LIMIT 500')
        self.equal('500 MB', state(said(client, text)), '53200')
        self.holds('the peak', store.memory('VmHWM') < before + 200, store.memory('VmHWM'))
        text = ('WITH RECURSIVE c(x) AS (SELECT 1.5 UNION ALL SELECT x + 1 FROM c LIMIT 3000000)'
                ' SELECT percentile_cont(0.5, x) AS p FROM c, (SELECT * FROM PAY WHERE ENO = 1) a')
        said(client, text)
        self.holds('the peak', store.memory('VmHWM') < before + 250, store.memory('VmHWM'))
        self.equal('the next', keys(client, ' WHERE ENO < 2'), [0, 1])
        self.ends(store)

    def test_memory_of_unread_answers(self) -> None:
        """Answers that nobody reads are held within --memory, for all clients together."""
        store = self.served('--memory', '50', count=4000, text='x' * 200)
        before, held = store.memory('VmHWM'), []
        text = 'SELECT * FROM PAY; ' * 20
        for _ in range(6):
            held.append(self.client(store))
            held[-1].send(b'Q', wire.text(text))
        time.sleep(3)
        self.holds('the peak', store.memory('VmHWM') < before + 250, store.memory('VmHWM'))
        for it in held:
            it.close()
        self.equal('the next', keys(self.client(store), ' WHERE ENO < 2'), [0, 1])
        self.ends(store)

    def test_memory_of_prepared_texts(self) -> None:
        """Prepared statements are counted by what they take."""
        store = self.served('--memory', '50', count=1)
        client = self.client(store, seconds=120)
        before, told = store.memory('VmRSS'), []
        for number in range(4):
            text = 'SELECT * FROM PAY WHERE ' + '(' * 1_500_000 * (number == 0) \
                + ' OR '.join(f'ENO = {it}' for it in range(40_000)) * (number > 0)
            client.send(b'P', wire.text(f's{number}'), wire.text(text), b'\0\0')
            client.send(b'S')
            try:
                client.answers()
                told.append('done')
            except Refused as refused:
                told.append(refused.state)
        self.holds('told', set(told) <= {'done', '53200', '54000', '54001', '42601'}, told)
        self.holds('the memory', store.memory('VmRSS') < before + 150, store.memory('VmRSS'))
        self.equal('the next', keys(client, ' WHERE ENO < 2'), [0])
        self.ends(store)

    def test_comparison_of_the_page(self) -> None:
        """The time to compare two states of a table grows as their rows."""
        class Fake(answers.Asker):
            """The states of a table that is not."""

            def __init__(self) -> None:  # pylint: disable=super-init-not-called
                pass

            def state(self, name: str, moment: Any, day: Any) -> 'dict[str, Any]':
                return {'columns': [], 'rows': [[str(number), 'Ann', '2024-01-01', moment]
                                                for number in range(20_000)]}
        began = time.monotonic()
        found = Fake().changes('T', 'a', 'b')
        self.equal('rows', (len(found['gone']), len(found['new'])), (20_000, 20_000))
        self.holds('seconds', time.monotonic() - began < 5)


# A line of Python by which the first messages have little time.
FIRST_SECONDS = 'from bitemporal_server import greeting; greeting.FIRST_SECONDS = 2'


class Promises(Attacks):
    """Statements that were answered and not kept."""

    def test_read_only(self) -> None:
        store = self.served(count=1)
        number = 10
        for text in ('SET SESSION CHARACTERISTICS AS TRANSACTION READ ONLY',
                     'SET default_transaction_read_only = on',
                     "SET default_transaction_read_only TO 'true'",
                     'SET SESSION default_transaction_read_only = 1', 'BEGIN READ ONLY',
                     'START TRANSACTION READ ONLY', 'BEGIN TRANSACTION READ ONLY',
                     'BEGIN; SET TRANSACTION READ ONLY', 'BEGIN; SET transaction_read_only = on'):
            client, number = self.client(store), number + 1
            client.query(text)
            self.equal(text, state(said(client, INSERT.format(number, 'x'))), '25006')
            client.query('ROLLBACK')
            if 'BEGIN' not in text and 'START' not in text:
                self.equal(text, said(client, 'SHOW default_transaction_read_only')[0][1], [['on']])
                self.equal(text, said(client, 'SHOW transaction_read_only')[0][1], [['on']])
                client.query('SET default_transaction_read_only = off')
            self.equal(text, said(client, INSERT.format(number, 'x')), [('INSERT 0 1', [])])
            client.close()
        client = self.client(store, options='-c default_transaction_read_only=on')
        self.equal('options', state(said(client, NEW)), '25006')
        self.refuses_a_copy(client)
        client = self.client(store, default_transaction_read_only='on')
        self.equal('a parameter of the start', state(said(client, NEW)), '25006')
        self.ends(store)

    def refuses_a_copy(self, client: WireClient) -> None:
        refused = self.refusal(lambda: client.copy('COPY PAY FROM STDIN', [
            b'9\tx\t2024-01-01\t2025-01-01\n']))
        self.equal('COPY', refused.state, '25006')

    def test_settings(self) -> None:
        """A setting that is kept is reset; one that is not known is refused."""
        store = self.served(count=1)
        client = self.client(store)
        for text in ('RESET ALL', 'RESET bitemporal.witness', 'DISCARD ALL',
                     'SET bitemporal.witness TO DEFAULT'):
            client.query('SET bitemporal.witness = off')
            self.equal('off', said(client, 'SHOW bitemporal.witness')[0][1], [['off']])
            client.query(text)
            self.equal(text, said(client, 'SHOW bitemporal.witness')[0][1], [['on']])
        for text in ('SET nosuch = 1', 'SET bitemporal.nosuch = 1', 'SET enable_nosuch TO off',
                     'RESET nosuch', 'SHOW nosuch'):
            self.equal(text, state(said(client, text)), '42704')
        for text in ('BEGIN ISOLATION LEVEL SERIALIZABLE', 'LISTEN x', 'NOTIFY x',
                     'BEGIN ISOLATION LEVEL REPEATABLE READ',
                     'SELECT pg_advisory_lock(1)', 'SELECT pg_try_advisory_lock(1)',
                     'SELECT pg_sleep(2)', 'SAVEPOINT a', 'PREPARE x AS SELECT * FROM PAY'):
            found = state(said(client, text))
            self.holds(text, found in ('0A000', '42883', '42601'), found)
            self.equal('no block', said(client, 'SHOW server_encoding')[0][1], [['UTF8']])
        for text, tag in (('SET client_encoding TO UTF8', 'SET'), ('BEGIN', 'BEGIN'),
                          ('COMMIT', 'COMMIT'), ('BEGIN ISOLATION LEVEL READ COMMITTED', 'BEGIN'),
                          ('ROLLBACK', 'ROLLBACK'), ('UNLISTEN *', 'UNLISTEN')):
            self.equal(text, said(client, text), [(tag, [])])

    def test_statement_timeout(self) -> None:
        store = self.served(count=1)
        client, other = self.client(store), self.client(store)
        began = time.monotonic()
        for text in ('SET statement_timeout = 300', "SET statement_timeout = '300ms'"):
            client.query(text)
            with store.stopped():
                self.equal(text, state(said(client, 'SELECT * FROM PAY')), '57014')
        self.equal('another client', keys(other), [0])
        client.query('SET statement_timeout = 0')
        with store.stopped():
            client.send(b'Q', wire.text('SELECT * FROM PAY'))
            time.sleep(0.5)
        self.equal('without', len(client.answers()[0].rows), 1)
        client = self.client(store, options='-c statement_timeout=300')
        with store.stopped():
            self.equal('options', state(said(client, 'SELECT * FROM PAY')), '57014')
        self.holds('seconds', time.monotonic() - began < 30)
        self.ends(store)

    def test_pipelines(self) -> None:
        """A message up to Sync that fails says how many of its changes are done; what follows is
        not begun."""
        store = self.served(count=1)
        client = self.client(store)
        for number in (20, 21, 20, 22):
            client.send(b'P', b'\0', wire.text(INSERT.format(number, 'x')), b'\0\0')
            client.send(b'B', b'\0\0\0\0\0\0\0\0')
            client.send(b'E', b'\0\0\0\0\0')
        client.send(b'S')
        refused = self.refusal(client.answers)
        self.equal('state', refused.state, '23P01')
        self.holds('hint', re.search(r'\b2 before it', refused.fields.get('H', '')), refused.fields)
        self.equal('rows', keys(client), [0, 20, 21])
        refused = self.refusal(lambda: client.query('; '.join(
            INSERT.format(number, 'x') for number in (30, 31, 30, 32))))
        self.holds('hint', re.search(r'\b2 before it', refused.fields.get('H', '')), refused.fields)
        self.equal('rows', keys(client), [0, 20, 21, 30, 31])
        self.ends(store)


if __name__ == '__main__':
    support.run_cases()
