"""One connection: from the end of its first messages to its last."""
import itertools
import secrets
import struct
import time
import traceback
from typing import TYPE_CHECKING, Any, Callable, Iterator, NamedTuple, Optional, Sequence

from bitemporal_tools.sql.script import Statement as Judged
from bitemporal_tools.sql.tree import Insert, Name

from . import copying, values, wire
from .engine import TOO_MUCH, Share
from .lexis import TOKEN_BYTES
from .problems import Problem
from .rights import allow
from .settings import TOLD, Command, Result
from .statements import Runner, Statement
from .system_tables import Question

if TYPE_CHECKING:
    from .greeting import Greeted
    from .server import Server

MOST_PREPARED = 1000
LEAST_BYTES = 1000    # that a prepared statement or a portal takes
PENDING_BYTES = 65536  # that are sent at once


class Prepared(NamedTuple):
    """A prepared statement, None if its text was empty, with the types that were declared."""
    statement: Optional[Statement]
    declared: 'list[int]'
    share: Share

    def oids(self) -> 'list[int]':
        """The type numbers of the parameters."""
        return self.statement.parameters(self.declared) if self.statement else []


class Portal:
    """A statement with its values, run at its first Execute."""

    def __init__(self, statement: Optional[Statement], given: Sequence[values.Value],
                 formats: Sequence[int], share: Share) -> None:
        self.statement, self.given, self.formats = statement, given, formats
        self.result: Optional[Result] = None
        self.share = share


def formats_of(formats: Sequence[int], count: int) -> Sequence[int]:
    """The format of each of so many columns: all of one, or one for each."""
    return formats if len(formats) == count else (list(formats) or [0])[:1] * count


class Client:
    """A client, in a thread of its own."""

    def __init__(self, server: 'Server', greeted: 'Greeted') -> None:
        self.server, self.engine, self.greeted = server, server.engine, greeted
        self.connection, self.stream = greeted.connection, greeted.stream
        self.number: int = secrets.randbits(31)
        self.secret, self.skips = secrets.randbits(31), False
        self.is_cancelled: bool = False
        self.runner = Runner(server, self, greeted.may_write, f'{greeted.user}/{self.number}')
        self.session = self.runner.session
        self.pending: 'list[bytes]' = []
        self.pending_bytes = 0

    # Messages to the client.

    def put(self, data: bytes) -> None:
        self.pending.append(data)
        self.pending_bytes += len(data)
        if self.pending_bytes > PENDING_BYTES:
            self.flush()

    def flush(self) -> None:
        data, self.pending, self.pending_bytes = b''.join(self.pending), [], 0
        self.connection.sendall(data)

    def tell(self, problem: Problem, severity: str = 'ERROR', note: str = '') -> None:
        """Sends an error."""
        self.put(wire.response(b'E', problem.fields(severity, note)))
        if self.session.block == 'T':
            self.session.block = 'E'

    def ready(self) -> None:
        self.put(wire.message(b'Z', self.session.block.encode()))
        self.flush()
        self.runner.changes = 0

    # Requests of the client.

    def serve(self) -> None:
        """Serves the client until it leaves, and answers each message."""
        try:
            self.session.start(self.greeted.given)
            self.put(wire.message(b'R', struct.pack('!i', 0)))
            for name in TOLD:
                self.put(wire.message(b'S', wire.text(name),
                                      wire.text(self.session.settings[name.lower()])))
            self.put(wire.message(b'K', struct.pack('!ii', self.number, self.secret)))
            self.ready()
            while not self.server.is_ending:
                kind, fields = wire.received(self.stream)
                if kind == b'X':
                    return
                self.answer(kind, fields)
            raise Problem('57P01', 'the server ends')
        except Problem as problem:
            self.tell(problem, 'FATAL')
            self.flush()

    def answer(self, kind: bytes, fields: wire.Fields) -> None:
        """Answers a message."""
        self.is_cancelled = False
        if kind in (b'd', b'c', b'f'):  # of a COPY that has failed
            return
        if kind == b'H':
            self.flush()
            return
        is_last = kind in (b'Q', b'S')
        if self.skips and not is_last:
            return
        self.skips = False
        try:
            if kind not in MESSAGES:
                raise Problem('08P01', f'no message begins with {kind!r}')
            MESSAGES[kind](self, fields)
        except (OSError, wire.Gone):
            raise
        except Exception as error:  # pylint: disable=broad-except
            count = self.runner.changes
            self.tell(self.problem_of(error), note=f'{count} before it are done, and stay done:'
                      ' each change is a transaction of its own.' if count else '')
            self.skips = not is_last
        finally:
            self.runner.end_turn()
        if is_last:
            self.ready()

    def problem_of(self, error: Exception) -> Problem:
        """The report of an error to the client: its cause, or that the server has a fault."""
        trace = error.__traceback__
        error.__traceback__ = error.__context__ = None  # they hold what was computed
        if isinstance(error, Problem):
            if error.state == '57014' and self.session.seconds and not self.is_cancelled:
                error.hint += f'statement_timeout is {self.session.settings["statement_timeout"]}.'
            return error
        if isinstance(error, MemoryError):
            return Problem(*TOO_MUCH)
        self.server.accounts.note(f'{self.runner.name} met a fault of the server:'
                                  f' {type(error).__name__}')
        traceback.print_exception(type(error), error, trace)
        return Problem('XX000', 'the server has a fault of its own')

    def sync(self, _: wire.Fields) -> None:
        """Sync: outside of a block no portal stays."""
        if self.session.block == 'I':
            self.session.portals.clear()

    def query(self, fields: wire.Fields) -> None:
        """A simple query: its statements are run without one of another client between them."""
        results: 'list[Result]' = []
        failure: Optional[Problem] = None
        try:
            for statement in self.runner.statements(fields.text()):
                if isinstance(statement, copying.Copy):
                    self.copy(statement)
                    return
                results.append(self.runner.result(statement, []))
        except Problem as problem:
            failure = problem
        self.runner.end_turn()
        for result in results:
            self.send(result, [])
        if failure:
            raise failure
        if not results:
            self.put(wire.message(b'I'))

    # COPY.

    def copy(self, copy: copying.Copy) -> None:
        """COPY table FROM STDIN."""
        allow(Insert(Name(copy.table.name), None, []), self.runner.rights())
        count, done = len(copy.columns), 0
        self.put(wire.message(b'G', struct.pack(f'!bH{count}h', 0, count, *[0] * count)))  # as text
        self.flush()
        try:
            for rows in copying.batches(copying.lines_of(self.copied(), copy.form), copy):
                count, refused = copying.insert(rows, lambda part: self.insert(part, copy))
                done += count
                if refused:
                    raise refused
            self.put(wire.message(b'C', wire.text(f'COPY {done}')))
        except Problem as problem:
            self.tell(problem, note=f'{done} rows of the lines before it are stored, and stay'
                      ' stored. Lines after it are not read.')

    def copied(self) -> 'Iterator[bytes]':
        """The bytes that the client sends to a COPY."""
        while True:
            kind, fields = wire.received(self.stream)
            if kind == b'd':
                yield fields.data
            elif kind == b'c':
                return
            elif kind == b'f':
                raise Problem('57014', 'the client ended the COPY')
            elif kind not in (b'H', b'S'):
                raise wire.Gone('a message within a COPY')

    def insert(self, rows: 'list[copying.Row]', copy: copying.Copy) -> None:
        """Inserts rows."""
        statement = Judged(1, copying.statement_of(rows, copy))
        try:
            self.runner.take_turn()
            self.engine.run(statement, self.runner.rights(), self)
        finally:
            self.runner.end_turn()
        self.server.accounts.add('changes')

    # Answers.

    def shown(self, columns: Sequence[wire.Column]) -> Sequence[wire.Column]:
        """The columns that are sent: without the witness, if the client has said so."""
        is_sequenced = [column.name for column in columns[-2:]] == ['held', 'absent']
        hides = is_sequenced and not self.session.is_on('bitemporal.witness')
        return columns[:-2] if hides else columns

    def describe(self, columns: Optional[Sequence[wire.Column]], formats: Sequence[int]) -> None:
        """Sends the columns of an answer, or that there are none."""
        if columns is None:
            self.put(wire.message(b'n'))
            return
        columns = self.shown(columns)
        self.put(wire.row_description(columns, formats_of(formats, len(columns))))

    def send(self, result: Result, formats: Sequence[int]) -> None:
        """Sends an answer whole, after its columns."""
        if result.columns is not None:
            self.describe(result.columns, formats)
            self.rows(result, formats, None)
        self.notice(result)
        self.put(wire.message(b'C', wire.text(result.tag)))

    def notice(self, result: Result) -> None:
        least = self.session.settings['client_min_messages'].lower()
        if result.notice and least not in ('warning', 'error'):
            self.put(wire.response(b'N', {'S': 'NOTICE', 'V': 'NOTICE', 'C': '00000',
                                          'M': result.notice}))

    def rows(self, result: Result, formats: Sequence[int], most: Optional[int]) -> int:
        """Sends the next rows of an answer, at most so many. Gives their number."""
        kinds = [column.kind for column in self.shown(result.columns or [])]
        forms, sent = formats_of(formats, len(kinds)), 0
        for row in itertools.islice(result.rows, most):
            self.put(wire.data_row([
                None if text is None or text == 'none' and kind is values.DATE else
                values.cell(text, kind, form) for text, kind, form in zip(row, kinds, forms)]))
            sent += 1
        return sent

    # The extended protocol.

    def parse(self, fields: wire.Fields) -> None:
        """Parse: a prepared statement, in the place of one that has its name."""
        name, data = fields.text(), fields.text()
        declared = fields.numbers('!i')
        self.session.statements.pop(name, None)
        if len(self.session.statements) >= MOST_PREPARED:
            raise Problem('54000', f'more than {MOST_PREPARED} prepared statements')
        share, found = Share(self.engine.held), None
        for statement in self.runner.statements(data):
            if found:
                raise Problem('42601', 'several statements in one prepared statement')
            if isinstance(statement, copying.Copy):
                allow(None, self.runner.rights())
                raise Problem('0A000', 'COPY is for the simple protocol alone')
            found = statement
            share.add(LEAST_BYTES + len(data) + TOKEN_BYTES * self.runner.count)
        self.session.statements[name] = Prepared(found, declared, share)
        self.put(wire.message(b'1'))

    def bind(self, fields: wire.Fields) -> None:
        """Bind: a portal of a prepared statement, with its values."""
        portal, prepared = fields.text(), self.named(b'S', fields.text())
        numbers = fields.numbers('!h')
        data = [fields.value() for _ in range(fields.number('!H'))]
        forms = formats_of(numbers, len(data))
        # Binary ones have the described types.
        oids = prepared.oids() if any(forms) else values.oids(prepared.declared, [0] * len(data))
        given = [values.parameter(*it) for it in zip(data, oids, forms, range(1, len(data) + 1))]
        share = Share(self.engine.held)
        share.add(LEAST_BYTES + 2 * len(fields.data))
        if len(self.session.portals) >= MOST_PREPARED:
            raise Problem('54000', f'more than {MOST_PREPARED} portals')
        formats = fields.numbers('!h')
        self.session.portals[portal] = Portal(prepared.statement, given, formats, share)
        self.put(wire.message(b'2'))

    def describe_one(self, fields: wire.Fields) -> None:
        """Describe: the parameters and columns of a statement, or the columns of a portal."""
        what = fields.take(1)
        found = self.named(what, fields.text())
        if isinstance(found, Portal):
            self.describe(self.columns(found.statement, found.given), found.formats)
        else:
            oids = found.oids()
            self.put(wire.message(b't', struct.pack(f'!H{len(oids)}i', len(oids), *oids)))
            self.describe(self.columns(found.statement, []), [])

    def named(self, what: bytes, name: bytes) -> Any:
        """The prepared statement (S) or the portal of a name."""
        known, state, kind = (self.session.statements, '26000', 'prepared statement') \
            if what == b'S' else (self.session.portals, '34000', 'portal')
        if name not in known:
            raise Problem(state, f'there is no {kind} {name.decode()}')
        return known[name]

    def columns(self, statement: Optional[Statement],
                given: Sequence[values.Value]) -> Optional[Sequence[wire.Column]]:
        """The columns of the answer that a statement will have."""
        if isinstance(statement, Question) or isinstance(statement, Command) \
                and statement.word == 'SHOW':
            return self.runner.answer(statement, given).columns
        return statement.columns if statement else None

    def execute(self, fields: wire.Fields) -> None:
        """Execute: the next rows of a portal, at most so many."""
        portal, most = self.named(b'P', fields.text()), fields.number()
        if portal.statement is None:
            self.put(wire.message(b'I'))
            return
        if portal.result is None:
            self.runner.began = time.monotonic()
            portal.result = self.runner.result(portal.statement, portal.given)
            self.runner.end_turn()
            self.notice(portal.result)
        sent = self.rows(portal.result, portal.formats, most or None)
        if most and sent == most:
            self.put(wire.message(b's'))
        else:
            self.put(wire.message(b'C', wire.text(portal.result.tag)))

    def close(self, fields: wire.Fields) -> None:
        """Close: a prepared statement or a portal is given up."""
        what, name = fields.take(1), fields.text()
        (self.session.statements if what == b'S' else self.session.portals).pop(name, None)
        self.put(wire.message(b'3'))


MESSAGES: 'dict[bytes, Callable[[Client, wire.Fields], None]]' = {
    b'Q': Client.query, b'S': Client.sync, b'P': Client.parse, b'B': Client.bind,
    b'D': Client.describe_one, b'E': Client.execute, b'C': Client.close}
