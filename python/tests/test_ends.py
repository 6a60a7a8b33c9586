#!/usr/bin/env python3
"""Tests the ends of the server: who is let in, checks, its log, how it starts, and how it ends.

The program is the built one, or the one that the variable BITEMPORAL names.
"""
import contextlib
import errno
import grp
import http.client
import io
import os
import pathlib
import shutil
import signal
import socket
import ssl
import struct
import subprocess
import sys
import tempfile
import threading
import time
import unittest
from typing import Any, Iterator, Optional
from unittest import mock

from folders import ROOT
import support
from test_server import CREATE, INSERT, connected, served
from wire_client import Refused, WireClient, fields_of

from bitemporal_server import accounts, greeting, probe, scram, serve, server, wire
from bitemporal_tools.command_line import Fault

SERVE = [sys.executable, str(ROOT / 'tools/serve')]


class Started:
    """A server by its command, in a folder of its own."""

    def __init__(self, *words: str, files: int = 0, store: str = '') -> None:
        self.folder = tempfile.TemporaryDirectory()
        self.run = f'{self.folder.name}/run'
        self.store = store or f'{self.folder.name}/a.store'
        limit = ['sh', '-c', f'ulimit -n {files}; exec "$@"', 'sh'] if files else []
        self.process = subprocess.Popen(
            [*limit, *SERVE, self.store, '--folder', self.run, *words], stderr=subprocess.PIPE,
            text=True, cwd=self.folder.name)
        assert self.process.stderr is not None
        self.errors = self.process.stderr
        self.first = self.errors.readline()

    @property
    def address(self) -> str:
        return f'{self.run}/{server.SOCKET}'

    def engine(self) -> int:
        """The number of the process that the server has."""
        threads = pathlib.Path(f'/proc/{self.process.pid}/task').glob('*/children')
        [found] = ''.join(file.read_text() for file in threads).split()
        return int(found)

    def end(self) -> 'tuple[int, str]':
        """Ends the server. Gives its status, and what it said after its first line."""
        self.process.terminate()
        try:
            self.process.wait(60)
            told = self.errors.read()
        finally:
            self.process.kill()
            self.errors.close()
            self.folder.cleanup()
        return self.process.returncode, told


@contextlib.contextmanager
def started(*words: str, **how: Any) -> Iterator[Started]:
    found = Started(*words, **how)
    try:
        yield found
    finally:
        if not found.errors.closed:
            found.end()


@contextlib.contextmanager
def strangers(address: Any, count: int) -> 'Iterator[list[socket.socket]]':
    """Connections that say nothing."""
    with contextlib.ExitStack() as stack:
        found = []
        for _ in range(count):
            plain = stack.enter_context(socket.socket(socket.AF_UNIX))
            plain.settimeout(30)
            plain.connect(address)
            found.append(plain)
        yield found


def is_closed(plain: socket.socket) -> bool:
    """Whether the server has closed a connection."""
    try:
        return plain.recv(1) == b''
    except ConnectionResetError:
        return True


def check(*words: str) -> 'tuple[int, dict[str, str]]':
    """The status of a check, and what it says."""
    done = subprocess.run([*SERVE, '--check', *words], stdout=subprocess.PIPE, text=True,
                          check=False)
    return done.returncode, dict(line.split(' ', 1) for line in done.stdout.splitlines())


def cancel(address: Any, key: bytes) -> None:
    with socket.socket(socket.AF_UNIX) as plain:
        plain.connect(address)
        plain.sendall(struct.pack('!ii', 16, greeting.CANCEL) + key)
        is_closed(plain)


class Doors(unittest.TestCase):
    """Connections that have proved nothing, and those that have."""

    def test_one_deadline(self) -> None:
        """All first messages together have a deadline, however often a byte comes."""
        with mock.patch.object(greeting, 'FIRST_SECONDS', 1.5), \
                served(options={'most_clients': 1}) as store, strangers(store.address, 1) as [slow]:
            began = time.monotonic()
            slow.sendall(struct.pack('!i', 9000))
            with contextlib.suppress(OSError):
                while time.monotonic() - began < 20:
                    with connected(store) as client:  # meanwhile the only place is free
                        self.assertEqual(client.query('SELECT 1')[0].rows, [['1']])
                    slow.sendall(b'x')
                    time.sleep(0.2)
            self.assertTrue(is_closed(slow))
            self.assertLess(time.monotonic() - began, 10)

    def test_too_many_strangers(self) -> None:
        """Of those who prove nothing the newest is closed, and those who are in are served."""
        with mock.patch.object(server, 'MOST_STRANGERS', 3), served() as store, \
                connected(store) as client, strangers(store.address, 5) as silent:
            self.assertTrue(is_closed(silent[-1]))
            self.assertEqual(client.query('SELECT 1')[0].rows, [['1']])
            for plain in silent[:2]:
                plain.close()
            time.sleep(0.3)
            with connected(store) as other:
                self.assertEqual(other.query('SELECT 1')[0].rows, [['1']])
            self.assertEqual(store.log.getvalue().count('too many have proved nothing'), 1)

    def test_flood(self) -> None:
        """More connections than there are descriptors leave the server as it is."""
        with started('--clients', '5', files=64) as store:
            with contextlib.closing(WireClient(store.address)) as client:
                client.query(CREATE)
                with contextlib.ExitStack() as stack:
                    for _ in range(80):
                        plain = stack.enter_context(socket.socket(socket.AF_UNIX))
                        with contextlib.suppress(OSError):
                            plain.connect(store.address)
                    self.assertEqual(client.query(INSERT.format(1, 'Ann'))[0].tag, 'INSERT 0 1')
                time.sleep(0.5)
                with contextlib.closing(WireClient(store.address)) as other:
                    self.assertEqual(len(other.query('SELECT * FROM PAY')[0].rows), 1)
            self.assertEqual(store.end()[0], 0)

    def test_faults_of_accept(self) -> None:
        """Nothing but its end ends the server: neither descriptors nor threads that lack."""
        faults = [OSError(number, os.strerror(number)) for number in (
            errno.EMFILE, errno.ENFILE, errno.ECONNABORTED, errno.ENOBUFS, errno.ENOMEM)]
        with served() as store:
            real = store.listener

            def accept() -> Any:
                if faults:
                    raise faults.pop()
                return real.accept()

            store.listener = mock.Mock(accept=accept, shutdown=real.shutdown)
            with connected(store) as client:  # it was waited for already
                self.assertEqual(client.query('SELECT 1')[0].rows, [['1']])
            with connected(store) as client:
                self.assertEqual(client.query('SELECT 1')[0].rows, [['1']])
            with mock.patch.object(threading.Thread, 'start', side_effect=RuntimeError('none')), \
                    strangers(store.address, 1) as [plain]:
                self.assertTrue(is_closed(plain))
            with connected(store) as client:
                self.assertEqual(client.query('SELECT 1')[0].rows, [['1']])
        self.assertEqual((faults, store.status), ([], 0))
        self.assertIn('is not served', store.log.getvalue())

    def test_proved_ones(self) -> None:
        """The limit of clients is of those who are proved: wrong passwords hold no place."""
        users = {'ann': scram.User('write', scram.verifier('right'))}
        with served(users=users, options={'most_clients': 1}) as store:
            wrong = threading.Thread(target=self.refused, args=[store, 'wrong', '28P01'])
            wrong.start()
            time.sleep(0.3)
            with connected(store, user='ann', password='right'):
                self.refused(store, 'right', '53300')
                self.assertEqual(store.accounts.shown()[1], ['clients', '1'])
            wrong.join()

    def refused(self, store: Any, password: str, state: str) -> None:
        with self.assertRaises(Refused) as caught:
            WireClient(store.address, 'ann', password)
        self.assertEqual(caught.exception.state, state)

    def test_later_protocols(self) -> None:
        """A later version 3 is told that this is version 3.0, an earlier one is refused."""
        for code, kind in ((3 << 16 | 2, b'v'), (2 << 16, b'E')):
            with served() as store, strangers(store.address, 1) as [plain]:
                plain.sendall(struct.pack('!ii', 16, code) + b'user\0x\0\0')
                found, fields = wire.received(plain.makefile('rb'))
                self.assertEqual(found, kind)
                if kind == b'v':
                    self.assertEqual(fields.number(), greeting.PROTOCOL)

    def test_databases(self) -> None:
        for name, is_let_in in (('store', True), ('a', True), ('a.store', True), ('b', False)):
            with served() as store, socket.socket(socket.AF_UNIX) as plain:
                plain.connect(store.address)
                data = struct.pack('!i', 196608) + f'user\0x\0database\0{name}\0\0'.encode()
                plain.sendall(struct.pack('!i', len(data) + 4) + data)
                self.assertEqual(plain.recv(1), b'R' if is_let_in else b'E', name)

    def test_names_take_equal_time(self) -> None:
        """An unknown user costs no more than a known one, and gets the same salt each time."""
        with mock.patch('hashlib.pbkdf2_hmac', side_effect=AssertionError):
            salts = {scram.Exchange(None, 'eve').salt for _ in range(2)}
        self.assertEqual(len(salts), 1)

    def test_private_files(self) -> None:
        """A key, or a list of users, that others may read is refused, and so is no verifier."""
        with tempfile.TemporaryDirectory() as folder:
            file = pathlib.Path(folder, 'key')
            file.write_text('ann write SCRAM-SHA-256$4096:x$y:z\n')
            file.chmod(0o640)
            with self.assertRaisesRegex(ValueError, 'chmod 600'):
                serve.certificates_of(str(file))
            file.chmod(0o600)
            with self.assertRaisesRegex(Fault, 'key'):
                serve.certificates_of(str(file))
            with self.assertRaisesRegex(ValueError, 'line 1'):
                scram.read_users(str(file))

    def test_passwords(self) -> None:
        for given, wanted in (([''], 'empty'), (['a', 'b'], 'differ'), (['a', 'a'], None)):
            output = io.StringIO()
            with mock.patch('getpass.getpass', side_effect=given), \
                    contextlib.redirect_stdout(output):
                if wanted:
                    with self.assertRaisesRegex(Fault, wanted):
                        serve.main(['--password', 'ann'])
                else:
                    self.assertEqual(serve.main(['--password', 'ann']), 0)
            self.assertEqual(output.getvalue().startswith('ann write SCRAM'), wanted is None)
        with self.assertRaisesRegex(Fault, 'blanks'):
            serve.main(['--password', 'ann b'])


class Checks(unittest.TestCase):
    """A check and a cancel, also with all places taken."""

    def test_states(self) -> None:
        with started('--clients', '1') as store:
            with contextlib.closing(WireClient(store.address)) as client:
                client.query(CREATE)
                status, found = check('--folder', store.run)
                self.assertEqual((status, found['engine'], found['clients']), (0, 'ready', '1'))
                self.assertTrue(int(found['bytes']) > 0 and found['clock'], found)
                os.kill(store.engine(), signal.SIGSTOP)
                client.send(b'Q', wire.text('SELECT * FROM PAY'))
                time.sleep(0.3)
                status, found = check('--folder', store.run)
                self.assertEqual((status, found['engine']), (0, 'busy'))
                cancel(store.address, client.key)
                with self.assertRaises(Refused) as caught:
                    client.answers()
                self.assertEqual(caught.exception.state, '57014')
                os.kill(store.engine(), signal.SIGSTOP)
                status, found = check('--folder', store.run)
                self.assertEqual((status, found['engine']), (2, 'broken'))
                status, found = check('--folder', store.run)
                self.assertEqual((status, found['engine'], found['restarts'],
                                  found['clients_total']), (0, 'ready', '2', '1'))
        self.assertEqual(check('--folder', '/nowhere'), (2, {}))

    def test_what_others_are_told(self) -> None:
        """By TCP, where users prove themselves, a check says how the engine is, and no more."""
        with served(users={}) as store:
            host, port = store.address
            self.assertEqual(check('--listen', f'{host}:{port}'), (0, {'engine': 'ready'}))
        with served() as store, mock.patch.object(store.engine, 'state', return_value='broken'):
            with contextlib.redirect_stdout(io.StringIO()):
                self.assertEqual(probe.check(os.path.dirname(store.address), None), 2)

    def test_other_servers(self) -> None:
        """A server of another kind gives no answer."""
        with socket.create_server(('127.0.0.1', 0)) as other:
            def answer() -> None:
                with other.accept()[0] as plain:
                    plain.recv(100)
                    plain.sendall(b'EFATAL')
            thread = threading.Thread(target=answer)
            thread.start()
            self.assertEqual(check('--listen', f'127.0.0.1:{other.getsockname()[1]}'), (2, {}))
            thread.join()


class Logs(unittest.TestCase):
    """The lines of a log, and logs that cannot be written."""

    def test_forged_lines(self) -> None:
        name = 'x/1 SELECT 0.1 0 ok\n2026-01-01T00:00:00Z admin/7 DELETE 0.1 5 ok\u2028' + 'y' * 99
        with served() as store, connected(store, user=name) as client:
            client.query('SELECT 1')
        lines = store.log.getvalue().splitlines()
        self.assertEqual([len(line.split(' ')) for line in lines], [6])
        self.assertLess(len(lines[0]), 150)
        log = io.StringIO()
        accounts.Accounts(log).note('a\nb\u2028c\0\u00e4')
        self.assertEqual(log.getvalue()[21:], 'a\\nb\\u2028c\\x00\u00e4\n')

    def test_a_full_disk(self) -> None:
        """A log that cannot be written cuts nobody. It is told once."""
        with started('--log', '/dev/full') as store:
            with contextlib.closing(WireClient(store.address)) as client:
                client.query(CREATE)
                self.assertEqual(client.query(INSERT.format(1, 'Ann'))[0].tag, 'INSERT 0 1')
                self.assertEqual(len(client.query('SELECT * FROM PAY')[0].rows), 1)
            status, told = store.end()
        self.assertEqual((status, told.count('lines of the log are lost')), (0, 1))

    def test_lost_lines(self) -> None:
        """A log that works again is told too, and a line that was cut is ended."""
        with tempfile.TemporaryDirectory() as folder:
            log = accounts.Log(f'{folder}/log')
            own = accounts.Accounts(log)
            real, errors = os.write, io.StringIO()

            def cut(number: int, data: bytes) -> int:
                return real(number, data[:25])

            with contextlib.redirect_stderr(errors):
                own.note('one')
                with mock.patch('os.write', cut):
                    own.note('two two two')
                with mock.patch('os.write', side_effect=OSError(errno.EIO, 'gone')):
                    own.note('three')
                own.note('four')
            lines = pathlib.Path(folder, 'log').read_text().splitlines()
        self.assertEqual([line[21:] for line in lines], ['one', 'two ', 'four'])
        self.assertEqual(errors.getvalue().splitlines(), [
            'serve: lines of the log are lost: [Errno 28] No space left on device',
            'serve: the log is written again'])

    def test_hangup(self) -> None:
        """SIGHUP opens the log again, by its name, and ends nothing without a log."""
        for words in ((), ('--log', 'log')):
            with started(*words) as store:
                log, old = (pathlib.Path(store.folder.name, name) for name in ('log', 'old'))
                with contextlib.closing(WireClient(store.address)) as client:
                    client.query('SELECT 1')
                    if words:
                        log.rename(old)
                    store.process.send_signal(signal.SIGHUP)
                    time.sleep(0.5)
                    client.query('SELECT 1')
                if words:
                    self.assertEqual([len(file.read_text().splitlines()) for file in (log, old)],
                                     [1, 1])
                    log.unlink()
                    log.mkdir()  # a log that cannot be opened again leaves the old one
                    store.process.send_signal(signal.SIGHUP)
                    with contextlib.closing(WireClient(store.address)) as client:
                        client.query('SELECT 1')
                self.assertEqual(store.end()[0], 0)


class Folders(unittest.TestCase):
    """One folder has one server. Its owner enters it, or a group."""

    def test_one_server(self) -> None:
        with tempfile.TemporaryDirectory() as folder:
            first = server.unix_listener(f'{folder}/run')
            with self.assertRaisesRegex(Fault, 'is served already'):  # before the first listens
                server.unix_listener(f'{folder}/run')
            first.socket.close()
            assert first.lock is not None
            os.close(first.lock)  # as of a server that was killed: its socket stays
            second = server.unix_listener(f'{folder}/run')
            second.socket.listen(1)
            self.assertEqual(os.listdir(f'{folder}/run'), [server.SOCKET])
            second.socket.close()
            second.remove()
            self.assertEqual(os.listdir(f'{folder}/run'), [])

    def test_second_start(self) -> None:
        with started() as first, contextlib.closing(WireClient(first.address)) as client:
            second = subprocess.run([*SERVE, f'{first.folder.name}/b.store', '--folder', first.run],
                                    stderr=subprocess.PIPE, text=True, check=False)
            self.assertEqual(second.returncode, 2)
            self.assertIn('is served already', second.stderr)
            self.assertFalse(os.path.exists(f'{first.folder.name}/b.store'))
            client.query(CREATE)
            WireClient(first.address).close()
            third = subprocess.run([*SERVE, first.store, '--folder', f'{first.folder.name}/other'],
                                   stderr=subprocess.PIPE, text=True, check=False)
            self.assertEqual(third.stderr.splitlines(), [
                'bitemporal_file: another program has the store open, perhaps an idle sqlite3',
                'serve: the server does not start'])

    def test_groups(self) -> None:
        own = grp.getgrgid(os.getgid()).gr_name
        with tempfile.TemporaryDirectory() as folder:
            path = pathlib.Path(folder, 'run')
            path.mkdir()
            path.chmod(0o750)
            listener = server.unix_listener(str(path), own)
            modes = [file.stat().st_mode & 0o777 for file in (path, path / server.SOCKET)]
            self.assertEqual(modes, [0o750, 0o660])
            listener.socket.close()
            listener.remove()
            for mode, group, why in (
                    (0o750, None, 'chmod 700'), (0o755, own, 'chmod 750'),
                    (0o770, own, 'chmod 750'), (0o700, own, 'chmod 750'),
                    (0o750, 'no-such-group', 'no group'), (0o755, None, 'chmod 700')):
                path.chmod(mode)
                with self.subTest(mode=mode, group=group), self.assertRaisesRegex(Fault, why):
                    server.unix_listener(str(path), group)


class Ends(unittest.TestCase):
    """The start and the end of a server."""

    def test_what_runs_at_the_end(self) -> None:
        """A query that runs and a change that waits are ended, and who is idle is told."""
        with started() as store, contextlib.ExitStack() as stack:
            reader, writer, idle = (stack.enter_context(contextlib.closing(
                WireClient(store.address))) for _ in range(3))
            reader.query(CREATE)
            os.kill(store.engine(), signal.SIGSTOP)
            reader.send(b'Q', wire.text('SELECT * FROM PAY'))
            time.sleep(0.3)
            writer.send(b'Q', wire.text(INSERT.format(1, 'Ann')))
            time.sleep(0.3)
            store.process.send_signal(signal.SIGTERM)
            for client, state in ((reader, '57014'), (writer, '57014'), (idle, '57P01')):
                with self.assertRaises(Refused) as caught:
                    while True:
                        kind, fields = wire.received(client.stream)
                        if kind == b'E':
                            raise Refused(fields_of(fields))
                self.assertEqual(caught.exception.state, state)
            self.assertEqual(store.process.wait(60), 0)

    @unittest.skipUnless(shutil.which('openssl'), 'apt-get install openssl')
    def test_end_under_tls(self) -> None:
        """A client under TLS is answered under TLS also at the end."""
        with tempfile.TemporaryDirectory() as folder:
            file = pathlib.Path(folder, 'both.pem')
            subprocess.run(['openssl', 'req', '-x509', '-newkey', 'rsa:2048', '-nodes', '-subj',
                            '/CN=localhost', '-keyout', file, '-out', f'{folder}/certificate'],
                           check=True, capture_output=True)
            file.write_text(file.read_text() + pathlib.Path(folder, 'certificate').read_text())
            with served(certificates=serve.certificates_of(str(file))) as store, \
                    socket.create_connection(store.address, 30) as plain:
                plain.sendall(struct.pack('!ii', 8, greeting.SSL))
                self.assertEqual(plain.recv(1), b'S')
                context = ssl.create_default_context(cafile=f'{folder}/certificate')
                with context.wrap_socket(plain, server_hostname='localhost') as safe:
                    safe.sendall(struct.pack('!ii', 16, greeting.PROTOCOL) + b'user\0x\0\0')
                    stream = safe.makefile('rb')
                    while wire.received(stream)[0] != b'Z':
                        pass
                    store.engine.session.process.send_signal(signal.SIGSTOP)
                    safe.sendall(wire.message(b'Q', wire.text(CREATE)))
                    time.sleep(0.3)
                    store.end()
                    time.sleep(0.3)
                    store.engine.session.process.send_signal(signal.SIGCONT)
                    self.assertEqual(wire.received(stream)[1].text(), b'CREATE TABLE')

    def test_one_deadline_for_all(self) -> None:
        """Clients that do not read hold the end for one time of grace, not for one each."""
        with mock.patch.object(server, 'GRACE_SECONDS', 1.5), served() as store:
            with connected(store) as client:
                client.query(CREATE)
                for start in range(0, 3000, 300):
                    client.query('INSERT INTO PAY VALUES ' + ', '.join(
                        INSERT.format(number, 20 * 'x')[23:]
                        for number in range(start, start + 300)))
            with contextlib.ExitStack() as stack:
                for _ in range(4):
                    slow = stack.enter_context(connected(store))
                    slow.send(b'Q', wire.text('SELECT * FROM PAY; SELECT * FROM PAY'))
                time.sleep(1.5)
                began = time.monotonic()
                store.end()
                while store.engine.session.process.returncode is None \
                        and time.monotonic() - began < 30:
                    time.sleep(0.1)
                self.assertLess(time.monotonic() - began, 5)

    def test_read_only(self) -> None:
        """A store that another program has open is read as it was at the start."""
        with started() as store, contextlib.closing(WireClient(store.address)) as writer:
            writer.query(f'{CREATE}; {INSERT.format(1, "Ann")}')
            with started('--read-only', store=store.store) as other, \
                    contextlib.closing(WireClient(other.address)) as reader:
                self.assertIn('is served', other.first)
                writer.query(INSERT.format(2, 'Max'))
                self.assertEqual(len(reader.query('SELECT * FROM PAY')[0].rows), 1)
                with self.assertRaises(Refused) as caught:
                    reader.query(INSERT.format(3, 'Eve'))
                self.assertEqual(caught.exception.state, '42501')
            page = subprocess.Popen([*SERVE, store.store, '--page'], stderr=subprocess.PIPE,
                                    text=True)
            assert page.stderr is not None
            address = page.stderr.readline().split()[-1]
            page.send_signal(signal.SIGHUP)
            connection = http.client.HTTPConnection(address.split('/')[2], timeout=30)
            connection.request('POST', '/state' + address[address.index('?'):],
                               '{"table": "PAY"}', {'Content-Type': 'application/json'})
            self.assertIn(b'Ann', connection.getresponse().read())
            connection.close()
            page.terminate()
            page.communicate(timeout=30)
            self.assertEqual(page.returncode, 0)

    def test_faults_of_the_start(self) -> None:
        with tempfile.TemporaryDirectory() as folder:
            bad = pathlib.Path(folder, 'bad')
            bad.write_text('no store')
            for words, told in (
                    ([str(bad)], 'bitemporal_file: 60 BadStore\nserve: the server does not start'),
                    ([str(bad), '--write'], 'serve: --write is not for the protocol'),
                    ([str(bad), '--page', '--users', 'x'], 'serve: --users is not for the page'),
                    ([str(bad), '--clients', '0'], 'serve: --clients has to be above 0'),
                    ([str(bad), '--memory', '-5'], 'serve: --memory has to be above 0'),
                    ([f'{folder}/a', '--clients', '99999999'], 'serve: 99999999 clients need'),
                    ([str(bad), '--listen', '127.0.0.1:99999'], 'serve: 127.0.0.1:99999 is no'),
                    ([str(bad), '--group', 'x', '--listen', 'y'], 'serve: argument')):
                done = subprocess.run([*SERVE, '--folder', f'{folder}/run', *words], check=False,
                                      stderr=subprocess.PIPE, text=True)
                with self.subTest(words=words):
                    self.assertEqual(done.returncode, 2)
                    self.assertIn(told, done.stderr)
            self.assertEqual(bad.read_text(), 'no store')

    def test_open_to_each_user(self) -> None:
        """TCP without --users says at the start that each user of the machine may connect."""
        with started('--listen', '127.0.0.1:0') as store:
            self.assertIn('each user of this machine', store.end()[1])

    def test_memory(self) -> None:
        found: Optional[int] = serve.parser().parse_args(['x']).memory
        whole = os.sysconf('SC_PAGE_SIZE') * os.sysconf('SC_PHYS_PAGES')
        self.assertEqual(found, whole // 2 ** 22)


if __name__ == '__main__':
    support.run_cases()
