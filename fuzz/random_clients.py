#!/usr/bin/env python3
"""Clients of a served store that come and go as they like, and try what they may not, while the
engine or the server is killed again and again.

    fuzz/random_clients.py [--seconds N] [--clients N] [--readers N] [--seed N]

Most clients may write. They insert, update and delete rows of keys of their own over PostgreSQL's
protocol, by TCP and with a password: one statement at a time, several in a message or in a
pipeline, or by COPY, and note what they were told. The others, two of eight, may only read, and try
every kind of text of python/tests/test_rights.py. At random moments a client closes or resets its
connection within a message, with a statement that runs or with large answers that it has not read;
it cancels, stalls, or sends what is no message, or it is a process that is killed. The engine is
killed or stopped for a moment, and the server is killed or ended, and started again over the store.

After each round the store has to hold what the clients were told: each change that was done, and
none that was refused or not begun; either may be so of one that ended with its connection, or of
which 40003 says that it is not known. Answers are those of the statements that were asked. No
statement waits longer than twice for the opening of the store, the moment for which the engine was
stopped, and some seconds more for what runs. While the server runs on, the clients that are gone
leave it no thread and no descriptor. When a store has many keys, its history is looked at: a
version that nobody might write is found there, and another store is begun.

The program is the built one, or the one that BITEMPORAL names. What is wrong is printed, and the
exit status is 1.
"""
import argparse
import contextlib
import os
import pathlib
import random
import re
import signal
import socket
import struct
import subprocess
import sys
import tempfile
import threading
import time
import traceback

import folders  # noqa: F401  (by which the modules of the tests are found)
import served
import store_samples
import support
from bitemporal_server import wire
from served import GONE, INSERT, Served
from test_rights import TEXTS, begin, named, told, wanted
from wire_client import Refused, WireClient

FIXED = 400           # rows that nobody may change, of the keys from 0 on
MOST_KEYS = 20_000    # of a store
KEYS_OF_A_CLIENT = 1_000_000
USERS = [('write', 'write'), ('read', 'read')]
PAUSE, SLACK = 0.5, 5.0   # seconds: of a stopped engine, and for what runs on a busy machine
UNKNOWN = '40003'
# The engine ended, or the client's statement was cancelled or the server ended before it was begun.
NOT_BEGUN = ('57014', '57P01', '57P02', '58000')
LARGE = ('SELECT * FROM PAY', 'SELECT a.* FROM "PAY" AS a, "PAY" AS b LIMIT 20000',
         'VALIDTIME SELECT DISTINCT ENO, NAME FROM PAY')
ABSENT = ''


class Wrong(Exception):
    """A client was told, or the store holds, what is not so."""


class Journal:
    """The texts that each key of a client may have in the store, one if that is known; how many
    statements were answered, and the longest wait for one."""

    def __init__(self) -> None:
        self.states: 'dict[int, list[str]]' = {}
        self.done, self.longest = 0, (0.0, '')


class Change:
    """A change of one key: its text, and the texts that the key has before it and after it."""

    def __init__(self, journal: Journal, key: int, kind: str, value: str) -> None:
        self.journal, self.key, self.kind = journal, key, kind
        self.before = journal.states.get(key, [ABSENT])
        self.after = ABSENT if kind == 'DELETE' else value
        self.text = {'INSERT': INSERT.format(key, value),
                     'UPDATE': f"UPDATE PAY SET NAME = '{value}' WHERE ENO = {key}",
                     'DELETE': f'DELETE FROM PAY WHERE ENO = {key}'}[kind]
        self.tag = 'INSERT 0 1' if kind == 'INSERT' else f'{kind} 1'

    def is_open(self) -> None:
        """Nothing is known of it from now on."""
        self.journal.states[self.key] = sorted({*self.before, self.after})

    def is_done(self) -> None:
        self.journal.states[self.key] = [self.after]

    def is_not_done(self) -> None:
        self.journal.states[self.key] = self.before


class Client(threading.Thread):
    """One client after another, of a number. `work` does one thing, and gives whether the
    connection stays."""
    user = 'write'

    def __init__(self, address: object, number: int, seed: int, journal: Journal) -> None:
        super().__init__(daemon=True)
        self.address, self.chosen, self.journal = address, random.Random(seed), journal
        self.next = max([(number + 1) * KEYS_OF_A_CLIENT, *journal.states])
        self.is_ending, self.wrong, self.ends = False, '', 0

    def run(self) -> None:
        """Works until it is to end, or something is wrong."""
        try:
            while not self.is_ending:
                self.connect()
        except Exception as error:  # pylint: disable=broad-except
            self.wrong = str(error) if isinstance(error, Wrong) else traceback.format_exc()

    def connect(self) -> None:
        """One connection, to its end."""
        try:
            client = WireClient(self.address, self.user, served.PASSWORD)
        except (*GONE, Refused):  # the server is not there
            time.sleep(0.05)
            return
        with contextlib.closing(client):
            client.socket.settimeout(60)
            while not self.is_ending and self.step(client):
                pass

    def ended(self) -> 'list[str]':
        """The faults that it has found, when it has ended."""
        self.is_ending = True
        self.join(90)
        return [self.wrong] if self.wrong else ['a client does not end'] * self.is_alive()

    def step(self, client: WireClient) -> bool:
        began, what = time.monotonic(), ['']
        try:
            if self.chosen.random() < 0.03:
                self.ends += 1
                return self.disturb(client)
            return self.work(client, what)
        except TimeoutError:
            raise Wrong(f'no answer in {client.socket.gettimeout()} s: {what[0]}') from None
        except GONE:
            time.sleep(0.02)
            return False
        finally:
            if what[0]:
                self.journal.done += 1
                self.journal.longest = max(self.journal.longest,
                                           (time.monotonic() - began, what[0][:60]))

    def work(self, client: WireClient, what: 'list[str]') -> bool:
        raise NotImplementedError

    def disturb(self, client: WireClient) -> bool:
        raise NotImplementedError

    # Ends of a connection, and other disturbances that change nothing.

    def leave(self, client: WireClient) -> bool:
        """Closes the connection, or resets it, or ends as the process that has it is killed."""
        time.sleep(self.chosen.choice((0, 0, 0.01, 0.3)))
        how = self.chosen.choice(('close', 'reset', 'kill'))
        if how == 'reset':
            served.reset(client)
        elif how == 'kill':
            with subprocess.Popen(['sleep', '60'], pass_fds=[client.socket.fileno()]) as process:
                client.close()
                time.sleep(self.chosen.random() / 20)
                process.kill()
        return False

    def unread(self, client: WireClient) -> bool:
        """Asks for much, perhaps reads the beginning, and leaves."""
        for _ in range(self.chosen.choice((1, 1, 5))):
            client.send(b'Q', wire.text(self.chosen.choice(LARGE)))
        if self.chosen.random() < 0.5:
            client.socket.recv(1000)
        return self.leave(client)

    def slowly(self, client: WireClient) -> bool:
        """Reads a large answer late, and has it whole."""
        client.send(b'Q', wire.text(LARGE[0]))
        time.sleep(self.chosen.random())
        found = self.answered(client)
        if found and len([row for row in found if int(row[0] or 0) < FIXED]) != FIXED:
            raise Wrong(f'an answer of {len(found)} rows has not all of them')
        return True

    def cancelled(self, client: WireClient) -> bool:
        """Cancels its own query, from another connection. Another's secret does nothing."""
        client.send(b'Q', wire.text(self.chosen.choice(LARGE)))
        self.cancel(client.key if self.chosen.random() < 0.8 else client.key[:4] + b'none')
        self.answered(client)
        return True

    def cancel(self, key: bytes) -> None:
        with contextlib.suppress(OSError), socket.create_connection(self.address, 10) as other:
            other.sendall(struct.pack('!ii', 16, 80877102) + key)
            other.recv(1)

    def nonsense(self, client: WireClient) -> bool:
        """Sends what is no message, or the beginning of one."""
        whole = wire.message(b'Q', wire.text('SELECT * FROM PAY WHERE ENO = 1'))
        client.socket.sendall(self.chosen.choice((
            whole[:self.chosen.randrange(1, len(whole))], b'Q\xff\xff\xff\xff', b'Q\0\0\0\1',
            b'?' + whole[1:], self.chosen.getrandbits(80).to_bytes(10, 'big'),
            wire.message(b'B', b'\0nothing\0'), wire.message(b'd', b'x'))))
        return self.leave(client)

    def stalls(self, client: WireClient) -> bool:
        """Stops in the middle of a message for a while."""
        whole = wire.message(b'Q', wire.text('SELECT * FROM PAY WHERE ENO = 1'))
        middle = self.chosen.randrange(1, len(whole))
        client.socket.sendall(whole[:middle])
        time.sleep(self.chosen.random())
        client.socket.sendall(whole[middle:])
        found = self.answered(client)
        if found is not None and [row[:2] for row in found] != [['1', 'Ann']]:
            raise Wrong(f'key 1 is {found}')
        return True

    def answered(self, client: WireClient) -> 'list[list[str | None]] | None':
        """The rows of the answer that comes, or None if the query was ended."""
        try:
            return client.answers()[0].rows
        except Refused as refused:
            if refused.state not in NOT_BEGUN:
                raise Wrong(f'a query is refused: {refused.fields}') from None
            return None


class Reader(Client):
    """A client that may only read, and tries to write."""
    user = 'read'

    def work(self, client: WireClient, what: 'list[str]') -> bool:
        text, block = self.chosen.choice(TEXTS), self.chosen.choice(('', '', 'T', 'E'))
        is_extended = bool(text.given) or self.chosen.random() < 0.4
        what[0] = text.text
        try:
            begin(client, block)
            self.next += 1
            found = told(client, text, self.next, self.chosen.randrange(2, FIXED), is_extended)
            if not named(found) & wanted(text, 'read', block, is_extended) \
                    and found not in NOT_BEGUN:
                raise Wrong(f'{text.text!r} in block {block!r}, extended: {is_extended}: {found}')
            client.query('ROLLBACK')
            rows = client.query('SELECT * FROM PAY WHERE ENO = 1')[0].rows
        except Refused as refused:
            if refused.state not in NOT_BEGUN:
                raise Wrong(f'after {text.text!r}: {refused.fields}') from None
            return False
        if [row[:2] for row in rows] != [['1', 'Ann']]:
            raise Wrong(f'after {text.text!r} key 1 is {rows}')
        return True

    def disturb(self, client: WireClient) -> bool:
        return bool(self.chosen.choice((
            self.leave, self.unread, self.slowly, self.cancelled, self.nonsense, self.stalls,
            self.copies))(client))

    def copies(self, client: WireClient) -> bool:
        """Sends the lines of a COPY that was refused."""
        client.send(b'Q', wire.text('COPY PAY FROM STDIN'))
        client.send(b'd', b'7\tx\t2024-01-01\t2025-01-01\n')
        client.send(b'c')
        return self.leave(client)


class Writer(Client):
    """A client that changes rows of its own keys."""

    def change(self) -> Change:
        """A change of a key whose state is known. No other of it is under way."""
        known = [key for key, values in self.journal.states.items()
                 if len(values) == 1 and values[0] != ABSENT]
        kind = self.chosen.choice(('INSERT', 'INSERT', 'UPDATE', 'DELETE')) if known else 'INSERT'
        if kind == 'INSERT':
            self.next += 1
            return Change(self.journal, self.next, kind, 'v0')
        return Change(self.journal, self.chosen.choice(known), kind,
                      f'v{self.chosen.randrange(10 ** 6)}')

    def changes(self) -> 'list[Change]':
        """Changes of keys that differ."""
        found = {change.key: change for change in (
            self.change() for _ in range(self.chosen.randrange(2, 6)))}
        return list(found.values())

    def work(self, client: WireClient, what: 'list[str]') -> bool:
        kind = self.chosen.choices((self.one, self.several, self.pipeline, self.copy, self.ask,
                                    self.in_block), (60, 8, 8, 4, 15, 5))[0]
        what[0] = kind.__name__
        return bool(kind(client))

    def one(self, client: WireClient) -> bool:
        """One change by a message of its own."""
        change = self.change()
        change.is_open()
        try:
            if self.chosen.random() < 0.7:
                [found] = client.query(change.text)
            elif change.kind == 'INSERT':
                found = client.ask("INSERT INTO PAY VALUES ($1, $2, DATE '2024-01-01', $3)",
                                   [str(change.key), change.after, 'infinity'])
            else:
                found = client.ask(change.text.replace(str(change.key), '$1'), [str(change.key)])
        except Refused as refused:
            self.refused([change], refused)
            return refused.state != '57P01'
        if found.tag != change.tag:
            raise Wrong(f'{change.text}: {found.tag}')
        change.is_done()
        return True

    def refused(self, changes: 'list[Change]', refused: Refused, done: int = 0,
                may_be: 'tuple[str, ...]' = ()) -> None:
        """Notes what a refusal says of changes of which the first ones are done."""
        for number, change in enumerate(changes):
            if number < done:
                change.is_done()
            elif number > done or refused.state != UNKNOWN:
                change.is_not_done()
        if refused.state not in (UNKNOWN, *NOT_BEGUN, *may_be):
            raise Wrong(f'{changes[0].text}: {refused.fields}')

    def counted(self, refused: Refused) -> int:
        """The number of changes that a refusal says are done."""
        found = re.search(r'(\d+) (?:before it|rows of the lines)', refused.fields.get('H', ''))
        return int(found[1]) if found else 0

    def finished(self, client: WireClient, changes: 'list[Change]', has_fault: bool) -> bool:
        """Reads the answers to changes, of which a last one may be at fault."""
        try:
            tags = [answer.tag for answer in client.answers()]
        except Refused as refused:
            self.refused(changes, refused, self.counted(refused), ('23P01',) * has_fault)
            return refused.state != '57P01'
        if has_fault or tags != [change.tag for change in changes]:
            raise Wrong(f'{[change.text for change in changes]}: {tags}, fault: {has_fault}')
        for change in changes:
            change.is_done()
        return True

    def several(self, client: WireClient) -> bool:
        """Several changes in one message, of which the last may break a key."""
        changes, has_fault = self.changes(), self.chosen.random() < 0.4
        for change in changes:
            change.is_open()
        client.send(b'Q', wire.text('; '.join([*(change.text for change in changes), *(
            [INSERT.format(1, 'x')] if has_fault else [])])))
        return self.finished(client, changes, has_fault)

    def pipeline(self, client: WireClient) -> bool:
        """As several, up to one Sync."""
        changes, has_fault = self.changes(), self.chosen.random() < 0.4
        for change in changes:
            change.is_open()
        for text in (*(change.text for change in changes), *[INSERT.format(1, 'x')] * has_fault):
            client.send(b'P', b'\0', wire.text(text), b'\0\0')
            client.send(b'B', b'\0\0\0\0\0\0\0\0')
            client.send(b'E', b'\0\0\0\0\0')
        client.send(b'S')
        return self.finished(client, changes, has_fault)

    def copy(self, client: WireClient) -> bool:
        """Rows by COPY, of which the last may break a key."""
        changes, has_fault = [], self.chosen.random() < 0.4
        for _ in range(self.chosen.choice((3, 30))):
            self.next += 1
            changes.append(Change(self.journal, self.next, 'INSERT', 'c'))
            changes[-1].is_open()
        keys = [*(change.key for change in changes), *[1] * has_fault]
        lines = [f'{key}\tc\t2024-01-01\t9999-12-31\n'.encode() for key in keys]
        try:
            tag = client.copy('COPY PAY FROM STDIN', lines)
        except Refused as refused:
            # The rows of one INSERT are done together, or not: of the whole nothing is known.
            done = self.counted(refused)
            if refused.state == UNKNOWN:
                for change in changes[:done]:
                    change.is_done()
                return True
            self.refused(changes, refused, done, ('23P01',) * has_fault)
            return refused.state != '57P01'
        if has_fault or tag != f'COPY {len(lines)}':
            raise Wrong(f'{tag} of {len(lines)} lines, fault: {has_fault}')
        for change in changes:
            change.is_done()
        return True

    def ask(self, client: WireClient) -> bool:
        """Asks for one of its keys."""
        if not self.journal.states:
            return True
        key = self.chosen.choice(list(self.journal.states))
        client.send(b'Q', wire.text(f'SELECT * FROM PAY WHERE ENO = {key}'))
        rows = self.answered(client)
        if rows is None:
            return True
        found = rows[0][1] if rows else ABSENT
        if found not in self.journal.states[key] or rows and rows[0][0] != str(key):
            raise Wrong(f'key {key} is {rows}, and was {self.journal.states[key]}')
        return True

    def in_block(self, client: WireClient) -> bool:
        """A change in a block, which is refused."""
        change = self.change()
        change.is_not_done()
        try:
            client.query('BEGIN')
            client.query(change.text)
            raise Wrong(f'{change.text} in a block is done')
        except Refused as refused:
            if refused.state not in ('0A000', *NOT_BEGUN):
                raise Wrong(f'{change.text} in a block: {refused.fields}') from None
        client.query('ROLLBACK')
        return True

    def disturb(self, client: WireClient) -> bool:
        return bool(self.chosen.choice((
            self.dropped, self.dropped, self.half, self.piled, self.unread, self.slowly,
            self.cancelled, self.cancelled_change, self.nonsense, self.stalls))(client))

    def dropped(self, client: WireClient) -> bool:
        """Leaves with a change under way."""
        change = self.change()
        change.is_open()
        client.send(b'Q', wire.text(change.text))
        return self.leave(client)

    def half(self, client: WireClient) -> bool:
        """Leaves in the middle of a change, which is not begun."""
        change = self.change()
        change.is_not_done()
        whole = wire.message(b'Q', wire.text(change.text))
        client.socket.sendall(whole[:self.chosen.randrange(1, len(whole))])
        return self.leave(client)

    def piled(self, client: WireClient) -> bool:
        """Leaves with queries and changes under way, none of whose answers it has read."""
        for change in self.changes():
            change.is_open()
            client.send(b'Q', wire.text(change.text))
            client.send(b'Q', wire.text(self.chosen.choice(LARGE)))
        return self.leave(client)

    def cancelled_change(self, client: WireClient) -> bool:
        """Cancels a change: it is done, or it is said not to be begun."""
        change = self.change()
        change.is_open()
        client.send(b'Q', wire.text(change.text))
        self.cancel(client.key)
        return self.finished(client, [change], False)


class Fuzz:
    """Rounds of clients over stores, one after the other."""

    def __init__(self, options: argparse.Namespace) -> None:
        self.options, self.chosen = options, random.Random(options.seed)
        self.readers = min(options.clients - 1, options.readers)
        self.opening, self.rounds, self.starts, self.stores = 0.0, 0, 0, 0
        self.done, self.ends, self.ended, self.longest = 0, 0, 0, (0.0, '')

    @property
    def bound(self) -> float:
        """The most seconds that a statement may take."""
        return 2 * self.opening + PAUSE + SLACK

    def fail(self, what: 'list[str]') -> None:
        if what:
            sys.exit(f'seed {self.options.seed}, round {self.rounds}: ' + '; '.join(what[:20]))

    def start(self) -> None:
        """Starts the server, when the engine of the one before has let go of the store."""
        for _ in range(100):
            began = time.monotonic()
            self.served = Served('--listen', '127.0.0.1:0', count=FIXED, users=USERS, top=self.top)
            with contextlib.suppress(AssertionError):
                self.served.waited()
                self.opening = max(self.opening, time.monotonic() - began)
                self.starts += 1
                return
            self.served.process.wait(60)
            time.sleep(0.1)
        raise SystemExit(f'the server does not start: {self.served.told()}')

    def look(self) -> 'list[str]':
        """A traceback that the server has written, if there is one."""
        said = self.served.told()
        return [said[-2000:]] if 'Traceback' in said else []

    def run(self) -> None:
        """Stores, until the time is over."""
        end = time.monotonic() + self.options.seconds
        while time.monotonic() < end:
            with tempfile.TemporaryDirectory(dir=served.folder_of_tests()) as self.top:
                self.stores += 1
                self.journals = [Journal() for _ in range(self.options.clients)]
                self.start()
                try:
                    while time.monotonic() < end and MOST_KEYS > sum(
                            len(journal.states) for journal in self.journals):
                        self.round()
                finally:
                    status = self.served.end()
                self.done += sum(journal.done for journal in self.journals)
                self.fail([*[f'the server ends with {status}'] * (status != 0), *self.look(),
                           *self.history()])

    def round(self) -> None:
        """Clients work for some seconds, while something is killed or not."""
        self.rounds += 1
        before, seed = counts(self.served), self.options.seed + 1000 * self.rounds
        writers = self.options.clients - self.readers
        workers = [(Writer if number < writers else Reader)(
            self.served.address, number, seed + number, journal)
            for number, journal in enumerate(self.journals)]
        for worker in workers:
            worker.start()
        time.sleep(self.chosen.uniform(0.5, 2))
        kind = self.chosen.choice(('nothing', 'engine', 'engines', 'server', 'end', 'pause'))
        self.kill(kind)
        time.sleep(self.chosen.uniform(0.2, 1))
        wrong = [told for worker in workers for told in worker.ended()]
        self.ends += sum(worker.ends for worker in workers)
        self.longest = max(self.longest, *(journal.longest for journal in self.journals))
        self.fail(wrong)
        if self.longest[0] > self.bound:
            self.fail([f'{self.longest[1]!r} took {self.longest[0]:.1f} s, and {self.bound:.1f} s'
                       f' is the most (kind {kind})'])
        self.settle(before, kind)
        self.fail(self.judged())

    def kill(self, kind: str) -> None:
        """Kills the engine, once or twice, or the server, or ends it, or stops the engine."""
        engine = self.served.engine()
        if kind in ('engine', 'engines') and engine:
            os.kill(engine, signal.SIGKILL)
            time.sleep(self.chosen.random() * (kind == 'engines'))
            again = self.served.engine()
            if kind == 'engines' and again:
                with contextlib.suppress(ProcessLookupError):
                    os.kill(again, signal.SIGKILL)
        elif kind == 'pause' and engine:
            with contextlib.suppress(ProcessLookupError), self.served.stopped():
                time.sleep(PAUSE)
        elif kind == 'server':
            self.served.process.kill()
            self.served.process.wait()
        elif kind == 'end':
            status = self.served.end()
            self.fail([f'the server ends with {status}: {self.served.told()}'] * (status != 0))

    def settle(self, before: 'tuple[int, int]', kind: str) -> None:
        """Starts the server again, or has it come back to what it had before its clients."""
        for _ in range(100):
            status = self.served.process.poll()
            # An engine that is killed as it opens the store again ends the server.
            has_given_up = kind in ('engine', 'engines') and status == 2
            if kind in ('server', 'end') or has_given_up:
                self.ended += has_given_up
                self.fail(self.look())
                self.start()
                return
            if status is not None:
                self.fail([f'{kind}: the server has ended with {status}: {self.served.told()}'])
            if counts(self.served) <= before:
                return
            time.sleep(0.1)
        self.fail([f'{counts(self.served)} threads and descriptors after {before}'])

    def judged(self) -> 'list[str]':
        """The keys of which the store does not hold what was told. Of the others it is known then
        what they have."""
        with contextlib.closing(self.served.client('write')) as client:
            rows = client.query('SELECT * FROM PAY')[0].rows
        found = {int(row[0] or 0): row[1] for row in rows}
        wrong = [f'key {key} is {found.pop(key, "gone")}' for key in range(FIXED)
                 if found.get(key) != 'Ann']
        found = {key: value for key, value in found.items() if key >= FIXED}
        for journal in self.journals:
            for key, values in journal.states.items():
                value = found.pop(key, ABSENT) or ABSENT
                if value not in values:
                    wrong.append(f'key {key} is {value!r}, and was told to be'
                                 f' {" or ".join(map(repr, values))}')
                journal.states[key] = [value]
        return wrong + [f'key {key} was never sent' for key in found]

    def history(self) -> 'list[str]':
        """The versions in the history of a store that only a reader can have made."""
        listed = subprocess.run(['bitemporal_file', self.served.store, '--tables'], check=False,
                                executable=os.environ['BITEMPORAL'], stdout=subprocess.PIPE)
        tables = [line for line in listed.stdout.decode().splitlines() if line[:6] == 'table,']
        first = (self.options.clients - self.readers + 1) * KEYS_OF_A_CLIENT
        rows = [row[2:] for row in store_samples.contents(self.served.store, ['PAY'])
                if row[0] == 'version']
        fixed = [row for row in rows if int(row[0]) < FIXED]
        wrong = [f'the tables are {tables}'] * (len(tables) != 1)
        wrong += [f'a reader wrote {row}' for row in rows if int(row[0]) > first]
        return wrong + [f'{len(fixed)} versions of {FIXED} rows'] * (len(fixed) != FIXED)

    def told(self) -> str:
        """The last line."""
        return (f'{self.done} things done by {self.options.clients} clients, {self.readers} of whom'
                f' may only read, {self.ends} disturbances, {self.starts - self.stores} starts'
                f' again, {self.ended} after an end with its engine, {self.rounds} rounds,'
                f' {self.stores} stores: nothing lost, nothing told wrongly, no change by a reader;'
                f' the longest wait was {self.longest[0]:.1f} s ({self.longest[1]}), and'
                f' {self.bound:.1f} s is the most')


def counts(store: Served) -> 'tuple[int, int]':
    """The numbers of threads and descriptors of the server."""
    folder = pathlib.Path(f'/proc/{store.process.pid}')
    with contextlib.suppress(OSError):
        return len(list((folder / 'task').iterdir())), len(list((folder / 'fd').iterdir()))
    return 0, 0


def main() -> None:
    parser = argparse.ArgumentParser(description=(__doc__ or '').split('\n', maxsplit=1)[0])
    parser.add_argument('--seconds', type=float, default=600, help='how long')
    parser.add_argument('--clients', type=int, default=8, help='how many at once')
    parser.add_argument('--readers', type=int, default=2, help='how many of them may only read')
    parser.add_argument('--seed', type=int, default=1, help='of what is done, and killed, and when')
    support.build()
    fuzz = Fuzz(parser.parse_args())
    fuzz.run()
    print(fuzz.told())


if __name__ == '__main__':
    main()
