"""The program as a process: a session of `bitemporal_file`, or a run by one of its two names to its
end. Each tool begins the program here."""
import collections
import contextlib
import os
import resource
import select
import signal
import subprocess
import time
from collections.abc import Sequence
from typing import IO, Any, Optional, Union

from bitemporal_tools import program
from bitemporal_tools.command_line import Fault
from bitemporal_tools.reports.records import records

NAME = 'bitemporal_file'
CLOSE_SECONDS = 60     # until a program whose input has ended is killed
CHUNK = 65536          # bytes that are read or written at once
MOST_MILLISECONDS = 2 ** 31 - 1  # of one wait
GONE = select.POLLRDHUP | select.POLLHUP | select.POLLERR | select.POLLNVAL


class Ended(Exception):
    """The program has ended."""


class Late(Exception):
    """The program gave no whole record in time."""


class Left(Exception):
    """The client that is waited for has ended its connection."""


class EngineSession:
    """A session: what is sent to it, and the records that it reports. `until` is the moment of
    time.monotonic() at which a call is `Late`, `client` the descriptor of a connection whose end
    makes it `Left`. After either, and after any other fault within a statement, what the session
    reports next is of that statement: `kill` it."""

    def __init__(self, words: Sequence[str], path: Optional[str] = None,
                 most_bytes: int = 0) -> None:
        # SIGTERM of a group, and Ctrl-C on its terminal, are for whoever has begun the session: its
        # end is that of its input, between two statements. (A mask stays in what is executed.)
        mask = signal.pthread_sigmask(signal.SIG_BLOCK, [signal.SIGTERM])
        try:
            self.process = subprocess.Popen(
                [NAME, *words], executable=path or program.path(NAME), stdin=subprocess.PIPE,
                stdout=subprocess.PIPE, bufsize=0, start_new_session=True)
        finally:
            signal.pthread_sigmask(signal.SIG_SETMASK, mask)
        if most_bytes:
            with contextlib.suppress(ProcessLookupError):
                resource.prlimit(self.process.pid, resource.RLIMIT_AS, 2 * (most_bytes,))
        assert self.process.stdin is not None and self.process.stdout is not None
        self.input, self.output = self.process.stdin, self.process.stdout
        os.set_blocking(self.input.fileno(), False)
        self.whole: 'collections.deque[bytes]' = collections.deque()
        self.rest = b''

    def wait(self, file: IO[bytes], event: int, until: Optional[float],
             client: Optional[int]) -> None:
        """Waits until one of the two pipes is ready."""
        poll = select.poll()
        poll.register(file, event)
        if client == -1:  # closed already
            raise Left
        if client is not None:
            poll.register(client, GONE)
        ready = poll.poll(None if until is None else
                          min(MOST_MILLISECONDS, max(0, until - time.monotonic()) * 1000))
        if not ready:
            raise Late
        if file.fileno() not in dict(ready):
            raise Left

    def send(self, data: bytes, until: Optional[float] = None,
             client: Optional[int] = None) -> None:
        """Sends bytes."""
        view = memoryview(data)
        try:
            while view:
                self.wait(self.input, select.POLLOUT, until, client)
                with contextlib.suppress(BlockingIOError):
                    view = view[os.write(self.input.fileno(), view[:CHUNK]):]
        except BrokenPipeError:
            raise Ended from None

    def read(self, until: Optional[float] = None, client: Optional[int] = None) -> None:
        """Reads what the program has written, at least a byte."""
        self.wait(self.output, select.POLLIN, until, client)
        data = os.read(self.output.fileno(), CHUNK)
        if not data:
            raise Ended
        *lines, self.rest = (self.rest + data).split(b'\n')
        self.whole.extend(lines)

    def lines(self, count: int, until: Optional[float] = None,
              client: Optional[int] = None) -> 'list[bytes]':
        """The lines of the next records, so many: the texts of one may have line feeds."""
        found: 'list[bytes]' = []
        is_open = False
        while count:
            while not self.whole:
                self.read(until, client)
            line = self.whole.popleft() + b'\n'
            if b'"' in line:
                is_open ^= line.count(b'"') % 2 == 1
            count -= not is_open
            found.append(line)
        return found

    def record(self, until: Optional[float] = None, client: Optional[int] = None) -> 'list[str]':
        """The fields of the next record."""
        [found] = records(b''.join(self.lines(1, until, client)).decode('utf-8'))
        return found

    def command(self, line: str, until: Optional[float] = None) -> 'list[list[str]]':
        """The records of a command between two statements. The last one says how it ended."""
        self.send(f'\n{line}\n'.encode('utf-8', 'surrogateescape'), until)
        found = [self.record(until)]
        while found[-1][0] != 'command':
            found.append(self.record(until))
        return found

    def kill(self) -> int:
        """Ends the program at once, and gives its status."""
        self.process.kill()
        return self.reap()

    def close(self, seconds: float = CLOSE_SECONDS) -> int:
        """Ends the input, so that the store is closed, and gives the program's status. A program
        that takes longer than so many seconds is killed."""
        with contextlib.suppress(OSError):
            self.input.close()
        try:
            while not self.output.closed:
                self.read(time.monotonic() + seconds)
        except Late:
            self.process.kill()
        except Ended:
            pass
        return self.reap()

    def reap(self) -> int:
        status = self.process.wait()
        for file in (self.input, self.output):
            with contextlib.suppress(OSError):
                file.close()
        return status


def ran(called: str, words: Sequence[Any], given: Union[bytes, IO[bytes]] = b'',
        path: Optional[str] = None, **files: Any) -> 'subprocess.CompletedProcess[bytes]':
    """A run of the program by one of its names, over bytes or a file. Its output and standard error
    are in the result, unless `stdout` and `stderr` say where they go."""
    path = path or program.path(called)
    how: 'dict[str, Any]' = {'stdout': subprocess.PIPE, 'stderr': subprocess.PIPE, **files}
    how['input' if isinstance(given, bytes) else 'stdin'] = given
    try:
        done: 'subprocess.CompletedProcess[bytes]' = subprocess.run(
            [called, *words], executable=path, check=False, **how)
    except OSError as error:
        raise Fault(f'cannot run {path}: {error.strerror}') from None
    return done
