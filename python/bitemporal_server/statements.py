"""The statements of one client: what each is, who answers it, and what it gives."""
import contextlib
import time
from typing import TYPE_CHECKING, Iterator, Optional, Sequence, Union

from bitemporal_tools.sql.lexis import Token
from bitemporal_tools.sql.parser import too_deep

from . import copying, dialect, engine, lexis, outer, values
from .answer_tables import Bounds
from .problems import Problem
from .rights import Rights, allow
from .settings import COMMANDS, Command, Result, Session
from .system_tables import Question, is_question

if TYPE_CHECKING:
    from .client import Client
    from .server import Server

TAGS = {'create': 'CREATE TABLE', 'at': 'AT', 'insert': 'INSERT 0 {}', 'update': 'UPDATE {}',
        'delete': 'DELETE {}'}
STATS = 'BITEMPORAL . STATS'
LEAST_SECONDS, MOST_SECONDS = 0.001, 1e9  # that a statement has

Statement = Union[dialect.Prepared, Question, outer.Outer, Command]


class Runner:
    """Runs the statements of a client. Its turn at the engine lasts to the end of a message.
    `changes` are those that were done since the last Sync, `count` the tokens of the statement."""

    def __init__(self, server: 'Server', client: 'Client', may_write: bool, name: str) -> None:
        self.server, self.client, self.may_write, self.name = server, client, may_write, name
        self.engine: engine.Engine = server.engine
        self.session: Session = Session()
        self.turn, self.has_turn = contextlib.ExitStack(), False
        self.changes = self.count = 0
        self.began = time.monotonic()  # the statement

    def take_turn(self) -> None:
        """Waits for the turn."""
        if not self.has_turn:
            self.turn.enter_context(self.engine.turns.turn(self.client, self.left()))
            self.has_turn = True

    def end_turn(self) -> None:
        self.turn.close()
        self.has_turn = False

    def left(self) -> float:
        """The seconds that statement_timeout leaves."""
        until = self.began + (self.session.seconds or MOST_SECONDS)
        return max(LEAST_SECONDS, until - time.monotonic())

    def bounds(self, steps: int) -> Bounds:
        """The bounds of a run of sqlite."""
        seconds = min(self.engine.most_seconds, self.left())
        return Bounds(self.client, seconds, self.engine.held, steps)

    def rights(self) -> Rights:
        """The rights of the client as they are now."""
        return Rights(self.may_write and not self.server.is_read_only, not self.server.has_clock,
                      self.session.is_on('transaction_read_only'), self.session.block)

    def statements(self, data: bytes) -> 'Iterator[Statement | copying.Copy]':
        """The statements of a text, each prepared when it is its turn. COPY is one alone."""
        try:
            text = data.decode('utf-8')
        except UnicodeDecodeError:
            raise Problem('22021', 'the text is not UTF-8') from None
        if 'copy' in text.lower():
            first = [next(it for it in piece if it.kind != 'blank').word
                     for piece in lexis.pieces_of(text)]
            if 'COPY' in first and len(first) > 1:
                raise Problem('0A000', 'COPY is alone in a message', 'Nothing of it is done.')
        for piece in lexis.pieces_of(text):
            self.began = time.monotonic()
            self.count = len(piece)
            yield self.statement(text, piece)

    def statement(self, text: str, tokens: 'list[Token]') -> 'Statement | copying.Copy':
        """The statement that the tokens of a text are."""
        catalog = self.engine.catalog.copy()  # others may add tables
        bare = [token for token in tokens if token.kind != 'blank']
        word = bare[0].word
        if word in COMMANDS:
            return Command(bare)
        if word == 'COPY':
            return copying.copy_of(bare, catalog)
        is_query = word in ('SELECT', 'WITH') and not too_deep(bare) and \
            not any(token.kind == 'bad' for token in bare)
        if is_query and is_question(bare, catalog):
            return Question(tokens)
        problem: Optional[Problem] = None
        try:
            prepared = dialect.Prepared(text, dialect.tokens_of(text, bare), catalog)
            if prepared.tree is not None or not is_query:
                return prepared
        except Problem as found:
            problem = found
        around = outer.outer_of(text, tokens, catalog, self.bounds) if is_query else None
        if problem and not around:
            raise problem
        return around or prepared

    def result(self, statement: Statement, given: Sequence[values.Value]) -> Result:
        """Runs a statement with these values of its parameters, and notes it in the log."""
        began = time.monotonic()
        try:
            found = self.answer(statement, given)
        except Problem as problem:
            self.server.accounts.statement(self.name, statement.word, began, 0, problem.state)
            raise
        self.server.accounts.statement(self.name, statement.word, began, found.number, 'ok')
        return found

    def answer(self, statement: Statement, given: Sequence[values.Value]) -> Result:
        """The result of a statement."""
        if isinstance(statement, dialect.Prepared):
            return self.by_engine(statement, given)
        if not isinstance(statement, Command) or statement.word not in ('COMMIT', 'END', 'ROLLBACK',
                                                                        'ABORT'):
            allow(None, self.rights())
        if isinstance(statement, Question):
            columns, rows = self.server.tables.answer(statement, given, self)
            return Result(f'SELECT {len(rows)}', columns, iter(rows), len(rows))
        if isinstance(statement, outer.Outer):
            found, bounds = statement.answer(
                given, self.server.most_rows, lambda inner: self.by_engine(inner, given).rows,
                self.end_turn)
            return Result(f'SELECT {len(found)}', statement.columns, held(found, bounds),
                          len(found),
                          f'{statement.name()} is computed by sqlite, outside the proofs')
        if statement.word == 'SHOW' and statement.words.upper() == STATS:
            return Result('SHOW', [values.column('name', values.TEXT),
                                   values.column('count', values.INTEGER)],
                          iter(self.server.accounts.shown()))
        return self.session.answer(statement)

    def by_engine(self, statement: dialect.Prepared, given: Sequence[values.Value]) -> Result:
        """Runs a statement by the engine."""
        bound = statement.bound(given)
        try:
            allow(bound.tree, self.rights())
            self.take_turn()
            outcome = self.engine.run(bound, self.rights(), self.client, statement.text,
                                      self.left())
        except Problem as problem:
            if bound.tree is None:
                problem.hint += outer.hint(statement.tokens, self.engine.catalog)
            raise
        if outcome.kind == 'done':
            self.changes += 1
            self.server.accounts.add('changes')
            return Result(TAGS[outcome.what].format(outcome.number))
        columns = dialect.columns_of(bound.tree, self.engine.catalog)
        return Result(f'SELECT {outcome.number}', columns, engine.rows_of(outcome),
                      outcome.number)


def held(rows: 'list[list[str | None]]', bounds: Bounds) -> 'Iterator[list[str | None]]':
    """Rows, whose bytes are held until all are given or nobody has them."""
    yield from rows
    bounds.share.drop()
