"""The one session of `bitemporal_file` over the store, and whose turn it is to use it."""
import collections
import contextlib
import datetime
import socket
import sys
import threading
import time
from typing import Callable, Iterator, NamedTuple, Optional, Protocol

from bitemporal_tools.engine_session import Ended, EngineSession, Late, Left
from bitemporal_tools.reports.listing import catalog_of
from bitemporal_tools.reports.records import record, records
from bitemporal_tools.sql.lexis import lexed
from bitemporal_tools.sql.script import Statement
from bitemporal_tools.sql.tree import Delete, Sequenced, Stored, Update

from .problems import Problem, refusal
from .rights import Rights, allow

CLOCK_AHEAD = '--clock-ahead'
MOST_STARTS = 3    # of an engine that is killed as it opens the store
WAIT_SECONDS = 10  # for another program that has the store, before it cannot be opened again
CHUNK = 1024  # lines that are held or given up at once
MOST_BYTES = 4_194_304  # of a statement

CANCELLED = '57014', 'the query was cancelled'
LEFT = '57014', 'the query was ended: its client has left, or the server ends'
ENDED = ('58000', 'the engine ended while the query ran', 'Nothing is changed. It needed more'
         ' memory than there is, or was killed. The store is opened again.')
UNKNOWN = ('40003', 'the engine ended within the change', 'Whether the change is done is not'
           ' known. What was done before it is there.', 'Look at the table.')
NOT_BEGUN = ('57P02', 'the engine has ended, and the store cannot be opened again',
             'This statement was not begun: nothing of it is done.')
TOO_MUCH = ('53200', 'the bytes that are held for clients are too many', '',
            'Ask for less, or start the server with a greater --memory.')
REPLACES = ('55000', 'the change would replace a version that was recorded at this very moment',
            'The clock of the store is ahead of the time of the machine. Of a version that is'
            ' replaced at the moment of its recording the history keeps nothing.',
            'tools/alter STORE --to NEW --clock-now makes a store whose clock is not ahead.')


class Held:
    """The number of bytes that are held for clients, and of those that may be (0: any number)."""

    def __init__(self, most: int) -> None:
        # A share may be dropped within another call of the same thread.
        self.most, self.lock, self.bytes = most, threading.RLock(), 0


class Share:
    """The bytes of those that are held for one client, until it is dropped."""

    def __init__(self, held: Held) -> None:
        self.held, self.bytes = held, 0

    def add(self, count: int) -> None:
        """Adds so many bytes, or refuses them."""
        with self.held.lock:
            if self.held.most and self.held.bytes + count > self.held.most:
                raise Problem(*TOO_MUCH)
            self.held.bytes += count
            self.bytes += count

    def drop(self) -> None:
        """Gives all back."""
        with self.held.lock:
            self.held.bytes -= self.bytes
            self.bytes = 0

    def __del__(self) -> None:
        self.drop()


class Outcome(NamedTuple):
    """The result of a statement: done (`what`, and the number of rows), refused (`code`, and the
    day), or an answer (the number of rows, the lines of their records, what its audit says, and
    what holds the bytes of the lines)."""
    kind: str
    what: str = ''
    number: int = 0
    code: int = 0
    day: str = ''
    rows: 'list[bytes]' = []
    audit: 'tuple[str, ...]' = ()
    share: Optional[Share] = None


class Waiting(Protocol):
    """A client that waits for its turn."""
    is_cancelled: bool
    connection: socket.socket


class Turns:
    """One client after the other, in the order in which they asked."""

    def __init__(self) -> None:
        self.changed = threading.Condition()
        self.waiting: 'collections.deque[object]' = collections.deque()

    @contextlib.contextmanager
    def turn(self, client: Waiting, seconds: Optional[float] = None) -> Iterator[None]:
        """The turn of a client, which waits for those before it, for so many seconds."""
        place = object()
        until = None if seconds is None else time.monotonic() + seconds
        with self.changed:
            self.waiting.append(place)
            try:
                while self.waiting[0] is not place:
                    left = None if until is None else until - time.monotonic()
                    if client.is_cancelled:
                        raise Problem('57014', 'cancelled before it was begun')
                    if left is not None and left <= 0:
                        raise Problem('57014', f'not begun in {seconds:g} seconds: others run')
                    self.changed.wait(left)
            except BaseException:
                self.waiting.remove(place)
                self.changed.notify_all()
                raise
        try:
            yield
        finally:
            with self.changed:
                self.waiting.popleft()
                self.changed.notify_all()


class Engine:
    """The program that runs. Its calls are made by the client whose turn it is, but for `cancel`
    and `state`. After any fault between a statement and its last record the program is killed and
    begun anew, so that nobody reads the answer of another."""

    def __init__(self, program: str, store: str, most_seconds: float, most_rows: int,
                 *options: str, most_bytes: int = 0) -> None:
        self.program, self.store, self.options = program, store, options
        self.has_clock, self.is_read_only = '--now' in options, '--read-only' in options
        self.most_seconds, self.most_rows = most_seconds, most_rows
        self.most_bytes, self.held = most_bytes, Held(most_bytes)
        self.turns = Turns()
        self.version = self.restarts = 0
        self.reader: Optional[Waiting] = None
        self.is_killed = self.is_broken = False
        self.when_broken: Callable[[], None] = lambda: None
        self.start(options)

    def start(self, options: 'tuple[str, ...]') -> None:
        """Begins a session, and lists the tables. `Ended` if the store is not opened."""
        self.session = EngineSession([self.store, *options], self.program, self.most_bytes)
        self.number, self.is_killed = 0, False
        try:
            *listed, _ = self.session.command('.tables')
            self.catalog = catalog_of(''.join(map(record, listed)))
            # No version was recorded later than this.
            self.last = self.catalog.clock
        except BaseException:
            self.session.kill()
            raise
        self.version += 1

    def restart(self) -> None:
        """Begins a session anew. A store that cannot be opened again is not served any more."""
        with self.turns.changed:
            self.reader = None  # a cancel that comes now is of what has ended
        # Another program may have waited for the store meanwhile, and the machine's time may have
        # been set back.
        ahead = [CLOCK_AHEAD] if self.has_clock and CLOCK_AHEAD not in self.options else []
        for _ in range(MOST_STARTS):
            self.session.kill()
            self.restarts += 1
            try:
                self.start((*self.options, *ahead, '--wait', str(WAIT_SECONDS)))
                return
            except (Ended, OSError, ValueError):
                if self.session.process.returncode >= 0:  # it has said why; else it was killed
                    break
        self.is_broken = True
        self.when_broken()

    def revive(self) -> None:
        """Begins a session anew if it has ended between two statements."""
        if not self.is_broken and (self.is_killed or self.session.process.poll() is not None):
            self.restart()
        if self.is_broken:
            raise Problem(*NOT_BEGUN)

    def command(self, line: str, seconds: Optional[float] = None) -> 'list[list[str]]':
        """The records of a command of the session, without the one that ends it."""
        self.revive()
        try:
            *found, last = self.session.command(
                line, None if seconds is None else time.monotonic() + seconds)
        except BaseException as error:
            self.restart()
            if isinstance(error, (Ended, Late)):
                raise Problem(*ENDED) from None
            raise
        if last[2:] != ['done']:
            raise Problem('58000', f'the engine refused {line}: {" ".join(last[2:])}')
        return found

    def clock(self) -> str:
        """The moment of the clock."""
        [[_, moment]] = self.command('.clock')
        return moment

    def state(self, client: Waiting, seconds: float) -> str:
        """The state of the engine: ready, busy with statements, or broken, which it is too if it
        says nothing in so many seconds."""
        try:
            with self.turns.turn(client, seconds):
                self.command('.clock', seconds)
        except Problem as problem:
            return 'busy' if problem.state == '57014' else 'broken'
        return 'ready'

    def cancel(self, client: Waiting) -> None:
        """Cancels what the client waits for, or its query that runs. No change is ended."""
        with self.turns.changed:
            client.is_cancelled = True
            self.turns.changed.notify_all()
            if self.reader is client:
                self.is_killed = True
                self.session.process.kill()

    def run(self, statement: Statement, rights: Rights, client: Waiting, text: str = '',
            seconds: Optional[float] = None) -> Outcome:
        """Runs a statement of a text, a query for so many seconds at most. What has no tree, and
        what the client may not do, is refused before a byte is sent."""
        if statement.tree is None:
            raise refusal(text, statement, self.catalog, statement.syntax_refusal, '')
        allow(statement.tree, rights)
        data = part_of(statement)
        self.revive()
        if isinstance(statement.tree, (Sequenced, Stored)):
            outcome = self.query(data, client, min(self.most_seconds, seconds or self.most_seconds))
        else:
            if isinstance(statement.tree, (Update, Delete)):
                self.keep_versions(statement, client)
            outcome = self.reported(data, None, None, lambda _: Problem(*UNKNOWN))
        if outcome.kind == 'refused':
            raise refusal(text, statement, self.catalog, outcome.code, outcome.day)
        if outcome.kind == 'done':
            self.last = max(self.last, machine_time())
            self.catalog.take(statement.tree)
            self.version += outcome.what == 'create'
        return outcome

    def query(self, data: bytes, client: Waiting, seconds: float) -> Outcome:
        """Runs a query. It is ended if its client leaves, cancels it, or it takes too long."""
        def cause(error: BaseException) -> Problem:
            if client.is_cancelled:
                return Problem(*CANCELLED)
            if isinstance(error, Late):
                return Problem('57014', f'the query took longer than {seconds:g} seconds')
            return Problem(*LEFT) if isinstance(error, Left) else Problem(*ENDED)

        until = time.monotonic() + seconds
        with self.turns.changed:
            if client.is_cancelled:
                raise Problem(*CANCELLED)
            self.reader = client  # it may be cancelled
        try:
            return self.reported(data, until, client.connection.fileno(), cause)
        finally:
            with self.turns.changed:
                self.reader = None

    def reported(self, data: bytes, until: Optional[float], client: Optional[int],
                 cause: Callable[[BaseException], Problem]) -> Outcome:
        """The report of a part. A client is told the cause of a fault before its last record."""
        self.number += 1
        try:
            self.session.send(data, until, client)
            found = self.outcome(until, client)
        except BaseException as error:
            self.restart()
            if isinstance(error, (Ended, Late, Left, ValueError, MemoryError)):
                raise cause(error) from None
            raise
        if isinstance(found, Problem):
            raise found
        return found

    def outcome(self, until: Optional[float], client: Optional[int]) -> 'Outcome | Problem':
        """The result that the program reports next, whose last record is read."""
        kind, number, *fields = self.session.record(until, client)
        if number != str(self.number):
            raise Ended
        if kind == 'done':
            return Outcome(kind, what=fields[0], number=int(fields[1]))
        if kind == 'refused':
            return Outcome(kind, code=int(fields[0]), day=fields[2])
        self.session.lines(1, until, client)  # the columns, which the statement has too
        count, share = int(fields[1]), Share(self.held)
        found: 'list[bytes]' = []
        fault = None if count <= self.most_rows else Problem(
            '54000', f'the answer has {count} rows, and {self.most_rows} are the most',
            hint='Ask for less, or start the server with a greater --rows.')
        for done in range(0, count, CHUNK):
            lines = self.session.lines(min(CHUNK, count - done), until, client)
            try:
                share.add(0 if fault else sum(map(sys.getsizeof, lines)))
                found += lines
            except Problem as problem:
                fault = problem
            if fault:
                found.clear()
        has_audit = kind == 'answer' and '--audit' in self.options
        audit = tuple(self.session.record(until, client)[2:] if has_audit else ())
        return fault or Outcome('answer', kind, count, rows=found, audit=audit, share=share)

    def keep_versions(self, statement: Statement, client: Waiting) -> None:
        """Refuses a change that replaces versions of the moment at which it would be recorded. That
        may be so only if the clock is ahead of the machine's time."""
        if not self.has_clock or machine_time() > self.last:
            return
        clock = self.clock()
        if machine_time() > clock:
            return
        table = self.catalog.tables.get(getattr(statement.tree, 'table', ''))
        tokens, words = statement.tokens, [token.word for token in statement.tokens]
        touched = Statement(1, [
            *lexed('SELECT * FROM'), tokens[words.index('FROM') + 1 if words[0] == 'DELETE' else 1],
            *(tokens[words.index('WHERE'):] if 'WHERE' in words else [])])
        if table is None or touched.tree is None:
            return
        outcome = self.query(part_of(touched), client, self.most_seconds)
        names = [column.name for column in table.columns]
        began = [column.generated for column in table.columns].index('START')
        start, end = names.index(table.period.start), names.index(table.period.end)
        portion = getattr(statement.tree, 'portion', None)
        first, last = (str(portion.start.value), str(portion.end.value)) if portion else ('', '~')
        if any(row[began] == clock and row[start] < last and first < row[end]
               for row in rows_of(outcome)):
            raise Problem(*REPLACES)

    def close(self) -> int:
        """Ends the input, so that the store is closed. Gives the program's status."""
        with contextlib.suppress(Problem):
            self.revive()  # one that was killed has not closed it
        return self.session.close()


def machine_time() -> str:
    """The time of the machine, as the clock has moments."""
    return datetime.datetime.now(datetime.timezone.utc).strftime('%Y-%m-%d %H:%M:%S.%f')


def part_of(statement: Statement) -> bytes:
    """The part of a session that has a statement: its tokens, behind a blank, so that no line of it
    is a command."""
    assert statement.tree is not None
    data = b' ' + ' '.join(it.word or it.text for it in statement.tokens).encode('utf-8') + b';\n'
    if len(data) > MOST_BYTES:
        raise Problem('54000', f'the statement has more than {MOST_BYTES:,} bytes')
    return data


def rows_of(outcome: Outcome) -> 'Iterator[list[str]]':
    """The rows of an answer, each a list of texts. Its lines are given up as they go."""
    lines = outcome.rows
    lines.reverse()
    while lines:
        chunk = b''.join(lines.pop() for _ in range(min(len(lines), CHUNK)))
        while chunk.count(b'"') % 2:  # a text continues in the next line
            chunk += lines.pop()
        yield from (fields[2:] for fields in records(chunk.decode('utf-8')))
