#!/usr/bin/env python3
"""Rights to change a store: each kind of text, by each right, in each block, by both protocols.

TEXTS has the kinds of text, and OUTCOMES what becomes of each for whom. After a cell that changes
nothing the store has the bytes that it had, or the sum of `--verify`, no file is written, and the
next statement is answered rightly. There is one served store for each right.

The program is the built one, or the one that the variable BITEMPORAL names.
"""
import contextlib
import hashlib
import itertools
import pathlib
from typing import Any, NamedTuple, Optional, Tuple

import served
import support
from served import CREATE, INSERT, Served
from wire_client import Refused, WireClient

from bitemporal_server import wire

RIGHTS = ('write', 'read', '--read-only', 'session', 'page', 'page --write')
ONE = 'SELECT * FROM PAY WHERE ENO = 1'
DAYS = "DATE '2024-01-01', DATE '9999-12-31'"
ADD = f"INSERT INTO PAY VALUES ({{new}}, 'x', {DAYS})"
DELETE = 'DELETE FROM PAY WHERE ENO = {old}'
# A text that was a line of its own for the engine, up to its line feed.
ESCAPE = ". 'x\n{};\n--'"
# The outcomes of a statement: `done`, `changed` (done, and the store is another), `refused` by any
# SQLSTATE but that of a fault, or the SQLSTATE; of several that may be, each.
OUTCOMES = {
    # kind:     write       read     --read-only session       page       page --write
    'query':   ('done',     'done',     'done',  'done',       'done',    'done'),
    'outer':   ('done',     'done',     'done',  'done',       'refused', 'refused'),
    'control': ('done',     'done',     'done',  'done',       'refused', 'refused'),
    'change':  ('changed',  '42501',    '42501', '25006',      'refused', 'changed'),
    'copy':    ('changed',  '42501',    '42501', '25006',      'refused', 'refused'),
    'at':      ('0A000',    '42501',    '42501', '25006',      'refused', 'refused'),
    # A change, and then what is no statement: the change stays, and the error says so.
    'half':    ('half',     '42501',    '42501', '25006',      'refused', 'half'),
    # A text that is no statement of anybody's.
    'dot':     ('42601',    '42601',    '42601', '42601',      'refused', 'refused'),
    'none':    ('refused',  'refused',  'refused', 'refused',  'refused', 'refused'),
    # A change behind what PostgreSQL or sqlite answer: done and told, or refused as a whole.
    'behind':  ('changed refused', 'refused', 'refused', 'refused', 'refused', 'refused'),
    # READ ONLY that a client takes back: its own right stays.
    'unset':   ('changed',  '42501',    '42501', 'changed',    'refused', 'refused'),
    'block':   ('0A000',    '42501',    '42501', '0A000 25006', 'refused', 'refused')}


class Text(NamedTuple):
    """A text, its kind, the values of its parameters, and whether it is more than one statement,
    which Parse refuses. `{new}` is a key that is not there, and `{old}` one that is."""
    kind: str
    text: str
    given: 'Tuple[str, ...]' = ()
    is_several: bool = False


def texts(kind: str, *found: str) -> 'list[Text]':
    """Texts of a kind, each of one statement."""
    return [Text(kind, text) for text in found]


def several(kind: str, *found: str) -> 'list[Text]':
    """Texts of a kind, each of several statements."""
    return [Text(kind, text, is_several=True) for text in found]


TEXTS = [
    *texts('query', ONE, 'VALIDTIME SELECT DISTINCT ENO, NAME FROM PAY WHERE ENO = 1',
           "SELECT * FROM PAY FOR SYSTEM_TIME FROM TIMESTAMP '2000-01-01 00:00:00' TO"
           " TIMESTAMP '2900-01-01 00:00:00' WHERE ENO = 1",
           f'/* DELETE FROM PAY; */ {ONE} -- ; DELETE FROM PAY', f'-- .backup x\n{ONE}',
           "SELECT * FROM PAY WHERE NAME = 'x\n.backup x\n;DELETE FROM PAY;\n--'",
           "SELECT * FROM PAY WHERE NAME = E'\\'; DELETE FROM PAY; --\\n.backup x\\n'",
           "SELECT * FROM PAY WHERE NAME = '\u2028.backup x\u2029\u0085;'"),
    *several('query', f'{ONE}; VALIDTIME SELECT DISTINCT ENO FROM PAY WHERE ENO = 1; {ONE}'),
    Text('query', 'SELECT * FROM PAY WHERE NAME = $1', ("';DELETE FROM PAY;\n.backup x\n--",)),
    *texts('outer', 'SELECT COUNT(*) FROM (SELECT * FROM PAY) AS a',
           'SELECT COUNT(*) FROM "PAY" -- DELETE', 'SELECT 1', 'SELECT relname FROM pg_class',
           'SELECT version()'),
    *texts('control', 'BEGIN', 'SET application_name = x', 'SHOW server_version'),
    *several('control', 'BEGIN; SHOW server_version'),
    # Changes.
    *texts('change', ADD, DELETE, "UPDATE PAY SET NAME = 'x{new}' WHERE ENO = 2",
           "UPDATE PAY FOR PORTION OF EP FROM DATE '2025-01-01' TO DATE '2025-02-01'"
           " SET NAME = 'y{new}' WHERE ENO = 3",
           "DELETE FROM PAY FOR PORTION OF EP FROM DATE '2025-01-01' TO DATE '2025-02-01'"
           ' WHERE ENO = {old}', CREATE.replace('PAY', 'T{new}'),
           f'/* SELECT */ {ADD} -- SELECT', f'-- SELECT\n{DELETE}', f'\n\t{ADD} ;;\n;',
           f'{ADD} /* pg_catalog.pg_class */',
           f'/* SELECT * FROM (SELECT * FROM PAY) AS a */{DELETE}',
           ADD.replace('PAY', '"public"."PAY"'), 'delete from public.pay where "ENO" = {old}',
           f"INSERT INTO PAY VALUES ({{new}}, E'\\'; --\\n.x', {DAYS})",
           f"INSERT INTO PAY VALUES ({{new}}, '\n.backup x\n', {DAYS})"),
    *several('change', f'{ADD}; {ONE}', f'{ONE}; {ADD}; {ONE}', f'{ONE}; {DELETE}',
             f'{ADD}; {DELETE}'),
    Text('change', f'INSERT INTO PAY VALUES ($1, $2, {DAYS})', ('{new}', "'; --\n.x")),
    Text('change', 'DELETE FROM PAY WHERE ENO = $1', ('{old}',)),
    *texts('copy', 'COPY PAY FROM STDIN', 'COPY PAY FROM STDIN WITH (FORMAT csv)',
           '/* x */ copy "public"."PAY" from stdin; -- x'),
    *texts('at', "AT TIMESTAMP '2900-01-01 00:00:00'"),
    # Lines of the session of the engine.
    *texts('dot', '.', '.tables', '.x', '.backup x', ' .clock', '\n.backup x', '/**/.backup x',
           f'{ONE}\n.x', '. x', '.\n.', ESCAPE.format('DELETE FROM PAY'),
           ESCAPE.format('.backup x'), ESCAPE.format(ONE)),
    *several('dot', f'{ONE};\n.', f'{ONE};\n.backup x', f'{ONE};.tables'),
    *several('half', f'{ADD};\n.backup x', f'{DELETE}; .tables', f'{ADD}; x',
             f"{ADD}; {ESCAPE.format('DELETE FROM PAY')}"),
    # Statements of other languages.
    *texts('none', 'WITH x AS (SELECT 1) DELETE FROM "PAY"',
           'WITH x AS (DELETE FROM PAY) SELECT * FROM x',
           'WITH x AS (SELECT * FROM "PAY") INSERT INTO "PAY" SELECT * FROM x',
           'INSERT INTO "PAY" SELECT * FROM "PAY"', f'{ADD} RETURNING ENO',
           'EXPLAIN DELETE FROM PAY', 'TRUNCATE PAY', 'DROP TABLE PAY',
           'ALTER TABLE PAY ADD X INTEGER', 'SELECT * INTO X FROM PAY',
           'CREATE TABLE X AS SELECT * FROM PAY', "VACUUM INTO 'x'", "ATTACH 'x' AS y",
           'PRAGMA user_version = 7', 'PREPARE x AS DELETE FROM PAY', 'EXECUTE x',
           'DECLARE c CURSOR FOR SELECT * FROM PAY', "DO 'DELETE FROM PAY'", 'CALL x()',
           'COPY PAY TO STDOUT', "COPY PAY TO 'x'", "COPY PAY TO PROGRAM 'cat > x'",
           "COPY PAY FROM 'x'", 'COPY (SELECT * FROM PAY) TO STDOUT',
           'SELECT * FROM (DELETE FROM PAY) a', 'LISTEN x', 'SAVEPOINT x', '\\copy PAY TO x',
           'SELECT COUNT(*) FROM (SELECT * FROM PAY) AS a, (DELETE FROM PAY) AS b',
           "SELECT writefile('x', 'y') FROM \"PAY\"",
           "SELECT load_extension('x') FROM \"PAY\"", '!x', "'", '"', '/* DELETE FROM PAY'),
    *several('behind', f'SELECT pg_backend_pid(); {ADD}',
             f'SELECT COUNT(*) FROM (SELECT * FROM PAY) AS a; {DELETE}',
             f'SELECT COUNT(*) FROM "PAY"; {ADD}', f'SELECT 1; {DELETE}'),
    *several('unset', f'SET default_transaction_read_only = off; {ADD}', f'RESET ALL; {DELETE}'),
    *several('block', f'BEGIN; {ADD}; COMMIT', f'BEGIN READ WRITE; {DELETE}')]


def wanted(text: Text, right: str, block: str, is_extended: bool) -> 'set[str]':
    """The outcomes that a text may have."""
    found = set(OUTCOMES[text.kind][RIGHTS.index(right)].split())
    if is_extended and text.is_several:
        found = {'42601'}
    elif is_extended and text.kind == 'copy':
        found = {'0A000', '42601', *found - {'changed'}}
    if block == 'E':  # what is no statement may be seen before the block is
        return {'25P02'} | (found if text.kind in ('dot', 'none') else
                            {'42601'} if is_extended and text.is_several
                            or text.kind == 'behind' else set())
    if block == 'T' and text.kind == 'unset' and right == 'session':
        return {'42601' if is_extended else '25006'}  # the transaction is begun already
    if block == 'T':
        return {'0A000' if it in ('changed', 'half') else it for it in found}
    return found


def named(told: str) -> 'set[str]':
    """The outcomes that a client has been told by an SQLSTATE or by `done`."""
    return {told} | ({'refused'} if told not in ('done', 'XX000') else set())


def with_keys(text: str, new: int, old: int) -> str:
    """A text with the keys that it names."""
    return text.replace('{new}', str(new)).replace('{old}', str(old))


def begin(client: WireClient, block: str) -> None:
    """Has a client be in a block: none, an open or a failed one."""
    if block:
        client.query('BEGIN')
    if block == 'E':
        with contextlib.suppress(Refused):
            client.query('SELECT nonsense FROM')


def told(client: WireClient, text: Text, new: int, old: int, is_extended: bool) -> str:
    """Sends a text, and gives the SQLSTATE that the client is told, or `done`."""
    sent = with_keys(text.text, new, old)
    try:
        if is_extended:
            client.ask(sent, [with_keys(it, new, old) for it in text.given])
        elif text.kind == 'copy':
            cells = (str(new), 'x', '2024-01-01', '2025-01-01')
            client.copy(sent, [(',' if 'csv' in sent else '\t').join(cells).encode() + b'\n'])
        else:
            client.query(sent)
    except Refused as refused:
        return refused.state
    return 'done'


class Cells:
    """The cells of a right over a store that is served."""

    def __init__(self, case: support.Case, right: str, store: Served) -> None:
        self.case, self.right, self.store = case, right, store
        self.new, self.old = itertools.count(10_000), itertools.count(100)
        self.stored, self.sum = b'', b''
        self.client: 'Optional[WireClient]' = None
        self.count = 0

    def connected(self) -> WireClient:
        """The client of the protocol, a new one if its connection has ended."""
        if self.client is None:
            self.client = self.store.client(self.right if self.right in ('write', 'read') else 'x')
        return self.client

    def bytes(self) -> bytes:
        """A sum of the files that the store is."""
        found = hashlib.sha256()
        for end in ('', '-wal'):
            file = pathlib.Path(self.store.store + end)
            found.update(file.read_bytes() if file.exists() else b'')
        return found.digest()

    def is_other(self) -> bool:
        """Whether the store has another history than when this was last asked."""
        stored = self.bytes()
        if stored == self.stored:
            return False
        before, self.stored, self.sum = self.sum, stored, self.store.verified()
        return before != self.sum

    def files(self) -> 'list[str]':
        """The files of the store's folder and of the server's."""
        return sorted(str(file) for file in pathlib.Path(self.store.top).rglob('*'))

    def run(self, text: Text, is_extended: bool) -> str:
        """Sends a text, and gives what became of it, as far as the client is told."""
        new, old = next(self.new), next(self.old)
        if not self.right.startswith('page'):
            return told(self.connected(), text, new, old, is_extended)
        _, found = self.store.post('/ask', text=with_keys(text.text, new, old))
        results = found.get('results', [{'kind': 'refused'}])
        return 'refused' if any(it['kind'] == 'refused' for it in results) else 'done'

    def outcome(self, text: Text, is_extended: bool) -> 'set[str]':
        """The outcome of a text, by the names that it may have."""
        try:
            found = self.run(text, is_extended)
        except (OSError, wire.Gone, EOFError) as error:
            self.client = None
            return {f'the connection ended: {error}'}
        is_other = self.is_other()
        if found == 'done':
            return {'changed' if is_other else 'done'}
        if is_other:
            return {'half' if found in ('42601', 'refused') else f'{found}, and changed'}
        return named(found)

    def after(self, block: str) -> 'tuple[str, list[Any]]':
        """The answers that follow a cell: to the end of its block, and to a query."""
        if self.right in ('page', 'page --write'):
            [found] = self.store.post('/ask', text=ONE)[1]['results']
            return '', [row[:2] for row in found['rows']]
        client = self.connected()
        tag = client.query('ROLLBACK')[0].tag
        return tag if block else '', [row[:2] for row in client.query(ONE)[0].rows]

    def cell(self, text: Text, block: str, is_extended: bool) -> bool:
        """One cell of the table. Whether the rows are there by which the next cells are judged."""
        named = f'{self.right}, {block or "no"} block, extended: {is_extended}: {text.text}'
        may_be = wanted(text, self.right, block, is_extended)
        after: 'tuple[str, list[Any]]' = '', []
        self.count += 1
        with self.case.subTest(named):
            if self.right == 'session':
                self.connected().query('SET default_transaction_read_only = on')
            if not self.right.startswith('page'):
                begin(self.connected(), block)
            found = self.outcome(text, is_extended)
            self.case.assertTrue(found & may_be, (found, may_be))
        with self.case.subTest(named):
            after = self.after(block)
            self.case.assertEqual(after, ('ROLLBACK' if block else '', [['1', 'Ann']]))
        return bool(after[1])

    def product(self) -> None:
        """All cells, after each other; then what the server has to say."""
        self.is_other()
        files = self.files()
        is_page = self.right.startswith('page')
        for text, block, is_extended in itertools.product(
                TEXTS, ('',) if is_page else ('', 'T', 'E'), (False, True)):
            if is_extended if is_page else bool(text.given) and not is_extended:
                continue
            if not (is_page and text.given or self.cell(text, block, is_extended)):
                break
        self.case.equal('files', self.files(), files)
        if self.client:
            self.case.equal('restarts of the engine',
                            served.counters(self.client).get('restarts'), '0')
            self.client.close()
        self.case.equal('the status of the server', self.store.end(), 0)
        self.case.holds('a traceback', 'Traceback' not in self.store.told(), self.store.told())


class Rights(support.Case):
    """The product, right by right."""

    def product(self, right: str, *options: str, **how: Any) -> None:
        with Served(*options, count=400, **how) as store:
            cells = Cells(self, right, store)
            cells.product()
            self.holds('cells', cells.count > 60, cells.count)

    def test_write(self) -> None:
        self.product('write', '--listen', '127.0.0.1:0', users=[('write', 'write')])

    def test_read(self) -> None:
        self.product('read', '--listen', '127.0.0.1:0', users=[('read', 'read')])

    def test_read_only_server(self) -> None:
        self.product('--read-only', '--read-only')

    def test_read_only_session(self) -> None:
        self.product('session')

    def test_page(self) -> None:
        self.product('page', '--page')

    def test_page_that_writes(self) -> None:
        self.product('page --write', '--page', '--write')


class Before(support.Case):
    """Statements that are prepared while they may be run, and are run when they may not."""

    def setUp(self) -> None:
        super().setUp()
        self.store = Served(count=10)
        self.addCleanup(self.store.__exit__)
        self.client = self.store.waited().client()
        self.addCleanup(self.client.close)

    def execute(self, *messages: 'tuple[bytes, bytes]') -> str:
        """The SQLSTATE that some messages and a Sync are told, or an empty text."""
        for kind, data in (*messages, (b'S', b'')):
            self.client.send(kind, data)
        try:
            self.client.answers()
        except Refused as refused:
            return refused.state
        return ''

    def test_prepared(self) -> None:
        bind, execute = (b'B', b'\0s' + b'\0' * 7), (b'E', b'\0\0\0\0\0')
        for text in (INSERT.format(99, 'x'), 'DELETE FROM PAY WHERE ENO = 1'):
            self.equal(text, self.execute((b'C', b'Ss\0'),
                                          (b'P', b's\0' + wire.text(text) + b'\0\0')), '')
            for before, state, after in (
                    ('SET default_transaction_read_only = on', '25006', 'RESET ALL'),
                    ('BEGIN', '0A000', 'ROLLBACK'), ('BEGIN READ ONLY', '25006', 'ROLLBACK')):
                self.client.query(before)
                self.equal(f'{text} after {before}', self.execute(bind, execute), state)
                self.equal('again', self.execute(bind, execute) in (state, '25P02'), True)
                self.client.query(after)
                self.client.query('ROLLBACK')
        self.equal('rows', served.keys(self.client), list(range(10)))
        self.equal('the statement', self.execute(bind, execute), '')
        self.equal('rows', served.keys(self.client), [0, *range(2, 10)])

    def test_portal(self) -> None:
        """A portal of a change that is bound before the block has failed."""
        self.client.query('BEGIN')
        for kind, data in (
                (b'P', b'\0' + wire.text('DELETE FROM PAY WHERE ENO = 1') + b'\0\0'),
                (b'B', b'p\0' + b'\0' * 7)):
            self.client.send(kind, data)
        self.client.send(b'Q', wire.text('SELECT nonsense FROM'))
        with self.assertRaises(Refused):
            self.client.answers()
        self.holds('the portal', self.execute((b'E', b'p\0\0\0\0\0')) in ('25P02', '34000'))
        self.client.query('ROLLBACK')
        self.equal('rows', served.keys(self.client), list(range(10)))


if __name__ == '__main__':
    support.run_cases()
