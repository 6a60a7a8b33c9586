#!/usr/bin/env python3
"""Tests the session of the engine, and what clients are told when it ends, is late, or is left.

The program is the built one, or the one that the variable BITEMPORAL names.
"""
import contextlib
import os
import pathlib
import signal
import socket
import struct
import tempfile
import threading
import time
import unittest
from typing import Any, Iterator, Optional
from unittest import mock

import support
from served import Served
from support import program
from wire_client import Refused

from bitemporal_server.engine import Engine, Share
from bitemporal_server.problems import Problem
from bitemporal_server.rights import Rights, allow
from bitemporal_tools.engine_session import Ended, EngineSession, Late, Left, ran
from bitemporal_tools.sql.lexis import lexed
from bitemporal_tools.sql.script import Statement

CREATE = support.create_table('PAY', 'ENO INTEGER, NAME VARCHAR(20)', 'ENO', 'EP')
INSERT = "INSERT INTO PAY VALUES ({}, '{}', DATE '2024-01-01', DATE '9999-12-31')"
ALL = 'SELECT * FROM PAY'
AHEAD = '2062-01-01 00:00:00'


class Client:
    """A client that waits, of a pair of sockets."""

    def __init__(self) -> None:
        self.is_cancelled = False
        self.connection, self.other = socket.socketpair()

    def close(self) -> None:
        self.connection.close()
        self.other.close()

    __del__ = close


@contextlib.contextmanager
def opened(script: str = '', *options: str, **how: Any) -> Iterator[Any]:
    """An engine over a store that a script has made, with a client."""
    with tempfile.TemporaryDirectory() as folder:
        store = f'{folder}/a.store'
        ran('bitemporal_file', [store], f'{CREATE};\n{script}'.encode(), path=program.PROGRAM)
        engine: Any = Engine(program.PROGRAM, store, 30, how.pop('rows', 1000), *options, **how)
        engine.client = Client()
        try:
            yield engine
        finally:
            engine.session.process.send_signal(signal.SIGCONT)
            engine.close()
            engine.client.close()


def told(engine: Any, text: str, client: Optional[Client] = None, **how: Any) -> 'list[Any]':
    """The result of a statement for a client: what is done, the number of rows, or the SQLSTATE
    and the message."""
    client = client or engine.client
    rights = how.pop('rights', Rights(sets_clock=not engine.has_clock))
    try:
        with engine.turns.turn(client):
            outcome = engine.run(Statement(1, lexed(text)), rights, client, text, **how)
    except Problem as problem:
        return [problem.state, problem.message]
    return [outcome.what, outcome.number]


def stop(engine: Any) -> None:
    engine.session.process.send_signal(signal.SIGSTOP)


class Sessions(unittest.TestCase):
    """The process and its records."""

    def session(self) -> EngineSession:
        folder = tempfile.TemporaryDirectory()
        self.addCleanup(folder.cleanup)
        found = EngineSession([f'{folder.name}/a.store'], program.PROGRAM)
        self.addCleanup(found.kill)
        return found

    def test_records(self) -> None:
        session = self.session()
        insert = INSERT.format(1, 'a\n,""\n')
        session.send(f'{CREATE}; {insert}; {ALL};'.encode())
        kinds = [session.record() for _ in range(5)]
        self.assertEqual([it[0] for it in kinds], ['done', 'done', 'versions', 'columns',
                                                   'version'])
        self.assertEqual(kinds[-1][3], 'a\n,""\n')
        self.assertEqual(session.command('.clock'), [['clock', '0001-01-01 00:00:00'],
                                                     ['command', 'clock', 'done']])
        self.assertEqual(session.close(), 0)

    def test_late(self) -> None:
        """Neither a program that says nothing nor one that reads nothing holds its caller."""
        session = self.session()
        session.process.send_signal(signal.SIGSTOP)
        began = time.monotonic()
        with self.assertRaises(Late):
            session.command('.clock', time.monotonic() + 0.2)
        with self.assertRaises(Late):
            session.send(b' ' * 1_000_000, time.monotonic() + 0.2)
        self.assertLess(time.monotonic() - began, 5)
        self.assertEqual(session.close(0.2), -signal.SIGKILL)

    def test_left(self) -> None:
        """A client that leaves, by its end or by a reset, is seen at once, and one that has sent
        its next message is not taken for one that has left."""
        for leave in (socket.socket.close, lambda it: it.shutdown(socket.SHUT_WR), self.reset):
            session, client = self.session(), Client()
            session.process.send_signal(signal.SIGSTOP)
            client.other.sendall(b'the next message')
            with self.assertRaises(Late):
                session.record(time.monotonic() + 0.2, client.connection.fileno())
            leave(client.other)
            with self.assertRaises(Left):
                session.record(time.monotonic() + 20, client.connection.fileno())
            client.close()

    def reset(self, connection: socket.socket) -> None:
        """Ends a connection with what it was sent unread."""
        connection.setsockopt(socket.SOL_SOCKET, socket.SO_LINGER, struct.pack('ii', 1, 0))
        connection.close()

    def test_ended(self) -> None:
        session = self.session()
        session.process.kill()
        with self.assertRaises(Ended):
            session.command('.clock')
        session.process.wait()
        with self.assertRaises(Ended):
            session.send(b';')
        self.assertEqual(session.close(), -signal.SIGKILL)

    def test_signals(self) -> None:
        """SIGTERM of a group of processes does not end a session."""
        session = self.session()
        os.kill(session.process.pid, signal.SIGTERM)
        session.send(f'{CREATE};'.encode())
        self.assertEqual(session.record()[:2], ['done', '1'])
        self.assertEqual(session.close(), 0)


class Engines(unittest.TestCase):
    """Ends of the engine: clients are told of them, and the next one is answered."""

    def test_killed(self) -> None:
        with opened(INSERT.format(1, 'Ann') + ';') as engine:
            for text, state in ((ALL, '58000'), (INSERT.format(2, 'Max'), '40003')):
                stop(engine)
                threading.Timer(0.2, engine.session.process.kill).start()
                self.assertEqual(told(engine, text)[0], state)
                self.assertEqual(told(engine, ALL), ['versions', 1])
            self.assertEqual(engine.restarts, 2)

    def test_killed_between(self) -> None:
        """An engine that ended between two statements is begun anew for the next, which is run."""
        with opened() as engine:
            engine.session.process.kill()
            engine.session.process.wait()
            self.assertEqual(told(engine, INSERT.format(2, 'Max')), ['insert', 1])
            engine.session.process.kill()
            engine.session.process.wait()
            self.assertEqual(engine.clock(), '0001-01-01 00:00:00')
            engine.session.process.kill()
            self.assertEqual(engine.session.process.wait(), -signal.SIGKILL)
            self.assertEqual(engine.close(), 0)

    def test_broken(self) -> None:
        """If the store cannot be opened again, the change in which that was is not known, and
        those that waited behind it are told that they were not begun."""
        with opened() as engine:
            ends: 'list[bool]' = []
            engine.when_broken = lambda: ends.append(True)
            stop(engine)
            found: 'list[list[Any]]' = []
            threads = [threading.Thread(target=lambda: found.append(
                told(engine, INSERT.format(2, 'Max'), Client()))) for _ in range(3)]
            for thread in threads:
                thread.start()
            engine.program = '/bin/false'
            time.sleep(0.3)
            engine.session.process.kill()
            for thread in threads:
                thread.join()
            self.assertEqual(sorted(state for state, _ in found), ['40003', '57P02', '57P02'])
            self.assertEqual(ends, [True])

    def test_killed_again(self) -> None:
        """An engine that is killed as it opens the store is begun once more."""
        with opened() as engine, tempfile.TemporaryDirectory() as folder:
            slow = pathlib.Path(folder, 'bitemporal_file')
            slow.write_text(f'#!/bin/bash\n[ -e {folder}/killed ] || {{ touch {folder}/killed;'
                            f' kill -9 $$; }}\nexec -a "$0" {program.PROGRAM} "$@"\n')
            slow.chmod(0o755)
            engine.program = str(slow)
            engine.session.kill()
            self.assertEqual(told(engine, ALL), ['versions', 0])
            self.assertEqual(engine.restarts, 2)

    def test_late(self) -> None:
        with opened() as engine:
            engine.most_seconds = 0.5
            for own, seconds in ((0.2, 0.2), (None, 0.5)):
                stop(engine)
                self.assertEqual(told(engine, ALL, seconds=own), [
                    '57014', f'the query took longer than {seconds:g} seconds'])
            engine.most_seconds = 30
            self.assertEqual(told(engine, ALL), ['versions', 0])

    def test_cancelled(self) -> None:
        """A client that cancels ends a query of its own, or its waiting, and never a change."""
        with opened() as engine:
            stop(engine)
            other = Client()
            threading.Timer(0.2, engine.cancel, [other]).start()
            threading.Timer(0.4, engine.cancel, [engine.client]).start()
            waits: 'list[list[Any]]' = []
            thread = threading.Thread(target=lambda: waits.append(told(engine, ALL, other)))
            threading.Timer(0.1, thread.start).start()
            self.assertEqual(told(engine, ALL), ['57014', 'the query was cancelled'])
            thread.join()
            self.assertEqual(waits, [['57014', 'cancelled before it was begun']])
            engine.client.is_cancelled = False
            stop(engine)
            threading.Timer(0.2, engine.cancel, [engine.client]).start()
            threading.Timer(0.4, os.kill, [engine.session.process.pid, signal.SIGCONT]).start()
            self.assertEqual(told(engine, INSERT.format(3, 'Eve')), ['insert', 1])

    def test_waits(self) -> None:
        """A statement that waits for its turn longer than it may is not begun."""
        with opened() as engine, engine.turns.turn(engine.client):
            with self.assertRaises(Problem) as caught, engine.turns.turn(Client(), 0.1):
                pass
            self.assertEqual(caught.exception.state, '57014')
            self.assertEqual(engine.state(Client(), 0.1), 'busy')

    def test_state(self) -> None:
        with opened() as engine:
            self.assertEqual(engine.state(Client(), 20), 'ready')
            stop(engine)
            self.assertEqual(engine.state(Client(), 0.2), 'broken')
            self.assertEqual(engine.state(Client(), 20), 'ready')

    def test_large(self) -> None:
        """An answer that is too large is read to its end, so that the next is the next one's."""
        rows = ', '.join(INSERT.format(number, 'x\n"')[23:] for number in range(800))
        with opened(f'INSERT INTO PAY VALUES {rows};', rows=500, most_bytes=2 ** 30) as engine:
            self.assertEqual(told(engine, ALL)[0], '54000')
            engine.most_rows, engine.held.most = 1000, 50_000
            self.assertEqual(told(engine, ALL)[0], '53200')
            engine.held.most = 2 ** 20
            self.assertEqual(told(engine, ALL), ['versions', 800])
            self.assertEqual((engine.restarts, engine.held.bytes), (0, 0))

    def test_shares(self) -> None:
        with opened() as engine:
            engine.held.most = 100
            share, other = Share(engine.held), Share(engine.held)
            share.add(60)
            with self.assertRaises(Problem):
                other.add(60)
            share.drop()
            other.add(60)
            del other
            self.assertEqual(engine.held.bytes, 0)

    def test_gate(self) -> None:
        """Neither what is no statement nor what the client may not do reaches the program."""
        with opened() as engine:
            sent: 'list[bytes]' = []
            engine.session.send = lambda data, *_: sent.append(data)
            for text, rights, state in (
                    ('. x', Rights(), '42601'), ('SELECT', Rights(), '42601'),
                    ('(' * 40, Rights(), '54001'), (ALL + ' WHERE ' * 10_000, Rights(), '54000'),
                    (INSERT.format(1, 'x'), Rights(may_write=False), '42501'),
                    (INSERT.format(1, 'x'), Rights(is_read_only=True), '25006'),
                    (INSERT.format(1, 'x'), Rights(block='T'), '0A000'),
                    (ALL, Rights(block='E'), '25P02'),
                    (f"AT TIMESTAMP '{AHEAD}'", Rights(), '0A000')):
                self.assertEqual(told(engine, text, rights=rights)[0], state, text[:40])
            self.assertEqual(sent, [])

    def test_rights(self) -> None:
        """A failed block comes first, then the user, READ ONLY, the block and AT."""
        at = Statement(1, lexed(f"AT TIMESTAMP '{AHEAD}'")).tree
        for rights, state in ((Rights(False, False, True, 'E'), '25P02'),
                              (Rights(False, False, True, 'T'), '42501'),
                              (Rights(True, False, True, 'T'), '25006'),
                              (Rights(True, False, False, 'T'), '0A000'), (Rights(), '0A000')):
            with self.assertRaises(Problem) as caught:
                allow(at, rights)
            self.assertEqual(caught.exception.state, state)
        allow(at, Rights(sets_clock=True))
        allow(None, Rights(False, False, True, 'T'))
        with self.assertRaises(Problem):
            allow(None, Rights(block='E'))


class Clocks(unittest.TestCase):
    """A store whose clock is ahead of the machine's time."""
    SCRIPT = ';\n'.join([INSERT.format(1, 'Ann'), INSERT.format(3, 'Eve'),
                         f"AT TIMESTAMP '{AHEAD}'", INSERT.format(2, 'Max'),
                         "UPDATE PAY FOR PORTION OF EP FROM DATE '2025-01-01' TO DATE '2026-01-01'"
                         " SET NAME = 'Eva' WHERE ENO = 3", ''])

    def test_replaced(self) -> None:
        """A change that replaces a version of its own moment is refused, and all else is done."""
        with opened(self.SCRIPT, '--now', '--clock-ahead') as engine:
            portion = "FOR PORTION OF EP FROM DATE '{}-01-01' TO DATE '{}-01-01'"
            for text, what in (
                    ("UPDATE PAY SET NAME = 'x' WHERE ENO = 2", '55000'),
                    ('DELETE FROM PAY', '55000'),
                    (f'DELETE FROM PAY {portion.format(2025, 2026)} WHERE ENO = 3', '55000'),
                    (f'DELETE FROM PAY {portion.format(2023, 2024)} WHERE ENO = 3', 'delete'),
                    ("UPDATE PAY SET NAME = 'x' WHERE ENO = 1", 'update'),
                    ("UPDATE PAY SET NAME = 'y' WHERE ENO = 1", '55000'),
                    ('DELETE FROM PAY WHERE NO = 1', '42703'),
                    (INSERT.format(4, 'Bob'), 'insert'), ('DELETE FROM PAY WHERE ENO = 4', '55000'),
                    ('DELETE FROM PAY WHERE ENO = 5', 'delete')):
                self.assertEqual(told(engine, text)[0], what, text)

    def test_ahead(self) -> None:
        """Such a store is not opened at the machine's time, and stays open over a restart."""
        with self.assertRaises(Ended), opened(self.SCRIPT, '--now'):
            pass
        with opened(INSERT.format(1, 'Ann') + ';', '--now') as engine:
            with mock.patch('bitemporal_server.engine.machine_time', lambda: '1990-01-01 00:00'):
                self.assertEqual(told(engine, INSERT.format(2, 'Max')), ['insert', 1])
                self.assertEqual(told(engine, "UPDATE PAY SET NAME = 'x' WHERE ENO = 2")[0],
                                 '55000')
                engine.session.process.kill()
                engine.session.process.wait()
                self.assertEqual(told(engine, ALL), ['versions', 2])

    def test_script_clock(self) -> None:
        """If clients set the clock, several changes of one moment are theirs to make."""
        with opened(self.SCRIPT) as engine:
            self.assertEqual(told(engine, 'DELETE FROM PAY')[0], 'delete')

    def test_served(self) -> None:
        """The server refuses such a store, with the way to mend it, unless it is told to serve it;
        then it refuses what would replace a version."""
        with tempfile.TemporaryDirectory() as folder:
            ran('bitemporal_file', [f'{folder}/a.store'], f'{CREATE};\n{self.SCRIPT}'.encode(),
                path=program.PROGRAM)
            refused = Served(top=folder)
            self.assertEqual(refused.process.wait(60), 2)
            self.assertIn('tools/alter STORE --clock-now', refused.told())
            with Served('--clock-ahead', top=folder) as store, contextlib.closing(
                    store.client()) as client:
                with self.assertRaises(Refused) as caught:
                    client.query("UPDATE PAY SET NAME = 'x' WHERE ENO = 2")
                self.assertEqual(caught.exception.state, '55000')
                self.assertEqual(client.query(INSERT.format(5, 'Bob'))[0].tag, 'INSERT 0 1')

    def test_behind(self) -> None:
        with opened('', '--now') as engine:
            for text in (INSERT.format(1, 'Ann'), "UPDATE PAY SET NAME = 'x'", 'DELETE FROM PAY'):
                self.assertEqual(told(engine, text)[1], 1)


if __name__ == '__main__':
    support.run_cases()
