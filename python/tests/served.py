"""Served stores for tests: `tools/serve` in a process of its own, and what its clients are told."""
import contextlib
import http.client
import json
import os
import pathlib
import re
import shlex
import signal
import socket
import struct
import subprocess
import sys
import tempfile
import time
from typing import Any, Dict, Iterator, Optional, Sequence, Tuple

from folders import ROOT
import store_samples
import support
from wire_client import Refused, WireClient

from bitemporal_server import scram, wire
from bitemporal_tools.program import VARIABLE

CREATE = support.create_table('PAY', 'ENO INTEGER, NAME VARCHAR(200)', 'ENO', 'EP')
INSERT = "INSERT INTO PAY VALUES ({}, '{}', DATE '2024-01-01', DATE '9999-12-31')"
ROWS_OF_AN_INSERT = 700
PASSWORD = 'secret'
# The server's own main, for a process that runs a line of Python before it.
MAIN = 'from bitemporal_tools.__main__ import main; main()'
# The end of a connection, as a client meets it.
GONE = (OSError, wire.Gone, EOFError)


def rows(first: int, count: int, text: str = 'Ann') -> str:
    """An INSERT of rows of consecutive keys."""
    return 'INSERT INTO PAY VALUES ' + ', '.join(
        INSERT.format(number, text)[len('INSERT INTO PAY VALUES '):]
        for number in range(first, first + count))


def script(count: int = 0, text: str = 'Ann') -> str:
    """A script that makes the table with so many rows, of the keys from 0 on."""
    parts = [rows(first, min(ROWS_OF_AN_INSERT, count - first), text)
             for first in range(0, count, ROWS_OF_AN_INSERT)]
    return ''.join(f'{part};\n' for part in [CREATE, *parts])


def folder_of_tests() -> 'Optional[str]':
    """A folder in memory for stores, if there is one: each change waits for the disk."""
    memory = store_samples.MEMORY
    return memory if os.access(memory, os.W_OK) else None


class Served:
    """A store that is served by a process, until the block of `with` ends. `program` is what is
    run in place of the program; `begin` is a line of Python that runs before the server."""

    def __init__(self, *options: str, count: int = 0, text: str = 'Ann',
                 users: Sequence[Tuple[str, str]] = (), files: int = 0, program: str = '',
                 begin: str = '', top: str = '', name: str = 'a.store') -> None:
        support.build()
        self.own = None if top else tempfile.TemporaryDirectory(dir=folder_of_tests())
        self.top = top or self.own.name if self.own else top
        self.store, self.folder = f'{self.top}/{name}', f'{self.top}/run'
        self.here = pathlib.Path(self.top, 'here')  # the server's own folder
        self.here.mkdir(exist_ok=True)
        if not os.path.exists(self.store):
            store_samples.answered(self.store, script(count, text))
        self.is_page, self.is_tcp = '--page' in options, '--listen' in options
        self.errors = pathlib.Path(self.top, f'{name}.stderr')
        begun = ['-c', f'{begin}; {MAIN}', 'serve'] if begin else [str(ROOT / 'tools/serve')]
        words = [sys.executable, '-B', *begun, self.store, *options, *self.words_of(users)]
        if files:
            words = ['sh', '-c', f'ulimit -n {files}; exec {shlex.join(words)}']
        environment = {**os.environ, 'PYTHONPATH': str(ROOT / 'python'),
                       **({VARIABLE: program} if program else {})}
        with self.errors.open('wb') as errors:
            self.process = subprocess.Popen(words, stderr=errors, cwd=self.here, env=environment)

    def words_of(self, users: Sequence[Tuple[str, str]]) -> 'list[str]':
        """The words for the folder of the socket and for the users, each with a right."""
        words = [] if self.is_page else ['--folder', self.folder]
        if users:
            file = pathlib.Path(self.top, 'users')
            file.write_text(''.join(f'{name} {right} {scram.verifier(PASSWORD)}\n'
                                    for name, right in users))
            file.chmod(0o600)
            words += ['--users', str(file)]
        return words

    def __enter__(self) -> 'Served':
        try:
            return self.waited()
        except BaseException:
            self.__exit__()
            raise

    def __exit__(self, *_: object) -> None:
        self.end()
        if self.own:
            self.own.cleanup()

    def waited(self, seconds: float = 60) -> 'Served':
        """The server, when it serves."""
        end = time.monotonic() + seconds
        while not re.search(r'is (served|shown): ', self.told()):
            if self.process.poll() is not None or time.monotonic() > end:
                raise AssertionError('the server does not serve: ' + self.told())
            time.sleep(0.02)
        return self

    def told(self) -> str:
        """All that standard error got."""
        return self.errors.read_text('utf-8', 'replace')

    @property
    def address(self) -> Any:
        """The address of the protocol's socket: a file, or a host and a port."""
        if self.is_tcp:
            found = re.search(r'-p (\d+)', self.told())
            assert found, self.told()
            return '127.0.0.1', int(found[1])
        return f'{self.folder}/.s.PGSQL.5432'

    def client(self, user: str = 'test', seconds: float = 30, **given: str) -> WireClient:
        """A client of the protocol, which waits so many seconds for an answer."""
        found = WireClient(self.address, user, PASSWORD, **given)
        found.socket.settimeout(seconds)
        return found

    def post(self, path: str, **given: object) -> 'Tuple[int, Dict[str, Any]]':
        """The status of an answer of the page, and its values."""
        found = re.search(r'http://([^/]+)/\?token=(\S+)', self.told())
        assert found, self.told()
        connection = http.client.HTTPConnection(found[1], timeout=60)
        with contextlib.closing(connection):
            connection.request('POST', f'{path}?token={found[2]}', json.dumps(given),
                               {'Content-Type': 'application/json'})
            response = connection.getresponse()
            text = response.read()
        is_json = response.getheader('Content-Type', '').startswith('application/json')
        return response.status, json.loads(text) if is_json else {'text': text.decode()}

    def engine(self) -> int:
        """The number of the engine's process, or 0."""
        with contextlib.suppress(OSError):  # it may end meanwhile
            for thread in pathlib.Path(f'/proc/{self.process.pid}/task').iterdir():
                for word in (thread / 'children').read_text().split():
                    return int(word)
        return 0

    @contextlib.contextmanager
    def stopped(self) -> 'Iterator[int]':
        """The engine stands still meanwhile, as if a statement took long."""
        engine = self.engine()
        os.kill(engine, signal.SIGSTOP)
        try:
            yield engine
        finally:
            with contextlib.suppress(ProcessLookupError):
                os.kill(engine, signal.SIGCONT)

    def memory(self, which: str) -> int:
        """The megabytes that the server has (VmRSS), or had at most (VmHWM)."""
        status = pathlib.Path(f'/proc/{self.process.pid}/status').read_text('utf-8')
        found = re.search(rf'^{which}:\s+(\d+) kB', status, re.M)
        return int(found[1]) // 1024 if found else 0

    def check(self) -> 'subprocess.CompletedProcess[str]':
        """The run of `serve --check` for this server."""
        return subprocess.run([sys.executable, '-B', str(ROOT / 'tools/serve'), '--check',
                               '--folder', self.folder], capture_output=True, text=True,
                              check=False)

    def verified(self) -> bytes:
        """The words of `--verify` on a copy of the store and its log, while no statement runs."""
        with tempfile.TemporaryDirectory(dir=self.top) as folder:
            for end in ('', '-wal'):
                with contextlib.suppress(FileNotFoundError):
                    pathlib.Path(folder, 'a' + end).write_bytes(
                        pathlib.Path(self.store + end).read_bytes())
            return store_samples.verified(f'{folder}/a')

    def end(self, seconds: float = 30) -> 'Optional[int]':
        """Ends the server by SIGTERM. Gives its status; None if it had to be killed."""
        if self.process.poll() is None:
            engine = self.engine()
            self.process.send_signal(signal.SIGTERM)
            try:
                self.process.wait(seconds)
            except subprocess.TimeoutExpired:
                for number in filter(None, (engine, self.process.pid)):
                    with contextlib.suppress(ProcessLookupError):
                        os.kill(number, signal.SIGKILL)
                self.process.wait()
                return None
        return self.process.returncode


def reset(client: WireClient) -> None:
    """Ends a connection by a reset, with all unread."""
    client.socket.setsockopt(socket.SOL_SOCKET, socket.SO_LINGER, struct.pack('ii', 1, 0))
    client.close()


def said(client: WireClient, text: str) -> Any:
    """The tags and rows that a client is answered, or the SQLSTATE with the message, or how the
    connection ended."""
    try:
        return [(answer.tag, answer.rows) for answer in client.query(text)]
    except Refused as refused:
        return f"{refused.state} {refused.fields['M']}"
    except GONE as error:
        return f'{type(error).__name__}: {error}'


def counters(client: WireClient) -> 'dict[str, str]':
    """The counters of the server."""
    return {row[0] or '': row[1] or '' for row in client.query('SHOW bitemporal.stats')[0].rows}


def keys(client: WireClient, where: str = '') -> 'list[int]':
    """The keys of the rows of the table."""
    return sorted(int(row[0] or 0) for row in client.query(f'SELECT * FROM PAY{where}')[0].rows)
