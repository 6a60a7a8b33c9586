"""The accounts of a server: its counters, and a line of its log for each statement."""
import contextlib
import errno
import os
import sys
import threading
import time
from typing import IO, Callable, Union

FLAGS = os.O_WRONLY | os.O_APPEND | os.O_CREAT | os.O_NONBLOCK
MOST_FIELD = 63  # characters of a field that a client chose


class Log:
    """A file to which each line is added at once, without waiting for who may read it."""

    def __init__(self, path: str) -> None:
        self.path, self.number, self.begin = path, os.open(path, FLAGS, 0o666), b''

    def reopen(self) -> None:
        """Opens the file of this name, also if it is a new one. A signal may come to this at any
        time: the number stays, and no lock is taken."""
        new = os.open(self.path, FLAGS, 0o666)
        os.dup2(new, self.number, inheritable=False)
        os.close(new)

    def write(self, text: str) -> None:
        """Adds a line, and ends one before it that was cut."""
        data = self.begin + text.encode('utf-8')
        count = os.write(self.number, data)
        self.begin = b'\n' if count < len(data) else b''
        if self.begin:
            raise OSError(errno.ENOSPC, os.strerror(errno.ENOSPC))


def tell(text: str) -> None:
    """A line on standard error, if that is there."""
    with contextlib.suppress(OSError, ValueError, RuntimeError):  # of a signal within another line
        print(f'serve: {text}', file=sys.stderr, flush=True)


def field(text: str) -> str:
    """A text of a client as one field of a line: without blanks, in ASCII, and not long."""
    return ascii(text)[1:-1].replace(' ', r'\x20')[:MOST_FIELD] or '-'


class Accounts:
    """The counters of a server since it began, and its log. No value of a statement is written.
    `present` has the numbers that are as they are now."""

    def __init__(self, log: Union[Log, IO[str], None] = None) -> None:
        self.log, self.lock, self.begun = log, threading.Lock(), time.monotonic()
        self.is_lost, self.warned = False, 0.0
        self.present: 'dict[str, Callable[[], int]]' = {}
        self.counts = dict.fromkeys(('clients_total', 'statements', 'rows', 'changes', 'refusals',
                                     'cancelled', 'wrong_passwords'), 0)

    def add(self, name: str, count: int = 1) -> None:
        """Raises a counter."""
        with self.lock:
            self.counts[name] += count

    def note(self, text: str) -> None:
        """Writes a line of the log, with the time. If that fails, nobody waits for it: standard
        error is told once, and again when lines are written."""
        if self.log is None:
            return
        text = ''.join(it if it.isprintable() else ascii(it)[1:-1] for it in text)
        with self.lock:
            try:
                self.log.write(time.strftime('%Y-%m-%dT%H:%M:%SZ ', time.gmtime()) + text + '\n')
                lost = ''
            except (OSError, ValueError) as error:
                lost = str(error)
            if bool(lost) != self.is_lost:
                self.is_lost = bool(lost)
                tell(f'lines of the log are lost: {lost}' if lost else 'the log is written again')

    def warn(self, text: str) -> None:
        """Notes trouble, at most once in a second; on standard error, if there is no log."""
        now = time.monotonic()
        if now - self.warned >= 1:
            self.warned = now
            (self.note if self.log else tell)(text)

    def reopen(self) -> None:
        """Opens the log again, by its name."""
        try:
            if isinstance(self.log, Log):
                self.log.reopen()
        except OSError as error:
            tell(f'the log is not opened again: {error}')

    def statement(self, client: str, word: str, began: float, rows: int, state: str) -> None:
        """Counts a statement, and writes its line: who, what, how long, how many rows, and how it
        ended: ok, or the SQLSTATE of its refusal."""
        self.add('statements')
        self.add('rows', rows)
        self.add('refusals', state != 'ok')
        name = '/'.join(map(field, client.rsplit('/', 1)))
        self.note(f'{name} {field(word)} {time.monotonic() - began:.6f} {rows} {state}')

    def shown(self) -> 'list[list[str | None]]':
        """The counters as rows of a name and a number."""
        present = {name: give() for name, give in self.present.items()}
        with self.lock:
            counts = {'seconds': int(time.monotonic() - self.begun), **present, **self.counts}
        return [[name, str(count)] for name, count in counts.items()]
