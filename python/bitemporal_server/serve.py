"""Serves a store over the PostgreSQL protocol, to psql, psycopg, SQLAlchemy, pandas and the like.

    serve STORE [--folder DIR [--group NAME] | --listen HOST:PORT] [--script-clock] [--read-only]
    serve STORE --page [--port PORT] [--write]     a page for a browser on this machine
    serve --password USER          makes a line for the file of --users
    serve --check [--folder DIR | --listen HOST:PORT]

Without --listen it serves a Unix socket in a folder that its owner alone may enter, or a group by
--group. Beyond loopback --listen wants --users, whose passwords are proved by SCRAM-SHA-256, and
--certificate.

Statements of all clients are run one after the other by one session of bitemporal_file. Each is a
transaction of its own, recorded at the time of the machine; with --script-clock clients set the
clock by AT. With --read-only, and on a page without --write, the store is read as it was at the
start; another program may have it open, and what that changes is not seen.

SIGTERM and Ctrl-C end the server: a change that runs is finished, a query that runs is ended, and
no other is begun. SIGHUP opens the file of --log again.

--check prints how the engine is (0 if it is ready, or busy with statements; 2 if it is broken or
nobody answers), and the counters of the server, unless it is asked by TCP and has --users.
"""
import argparse
import getpass
import os
import signal
import sqlite3
import ssl
import sys
from typing import Optional, Sequence

from bitemporal_tools import command_line, program
from bitemporal_tools.command_line import Fault
from bitemporal_tools.engine_session import NAME, Ended

from . import accounts, probe, scram, server
from .engine import Engine
from .page import web
from .page.answers import Asker


MEGABYTE = 2 ** 20
ENDS = signal.SIGTERM, signal.SIGINT
LIMITS = [
    ('clients', int, 20, 'how many at once'),
    ('seconds', float, 300, 'the most that a query may take'),
    ('rows', int, 1_000_000, 'the most of one answer'),
    ('memory', int, os.sysconf('SC_PAGE_SIZE') * os.sysconf('SC_PHYS_PAGES') // 4 // MEGABYTE,
     'megabytes, the most that the program has, that is held for clients, and that sqlite has,'
     ' each; without it a quarter of the machine\'s memory')]
# The options that the page does not have, and those that it alone has.
OTHERS = {True: ('listen', 'users', 'certificate', 'group', 'log', 'script_clock', 'read_only'),
          False: ('port', 'write')}


def parser() -> argparse.ArgumentParser:
    """The words of the command line."""
    found = command_line.parser('serve', __doc__)
    place = found.add_mutually_exclusive_group()
    found.add_argument('store', nargs='?', metavar='STORE')
    folder = os.environ.get('XDG_RUNTIME_DIR', '/tmp')  # of the user's session
    found.add_argument('--folder', default=os.path.join(folder, f'bitemporal-{os.getuid()}'),
                       help='of the Unix socket')
    place.add_argument('--group', metavar='NAME', help='who may use the Unix socket too: its folder'
                       ' has this group and the mode 750')
    place.add_argument('--listen', metavar='HOST:PORT', help='TCP in place of the Unix socket')
    found.add_argument('--users', metavar='FILE',
                       help='who may connect: USER read|write VERIFIER; read again if it changes')
    found.add_argument('--certificate', metavar='FILE', help='PEM with key and certificate')
    for name, kind, usual, words in LIMITS:
        found.add_argument(f'--{name}', type=kind, default=usual, help=words)
    found.add_argument('--script-clock', action='store_true',
                       help='clients set the clock by AT, not the server by its time')
    found.add_argument('--read-only', action='store_true', help='nothing may be changed')
    found.add_argument('--clock-ahead', action='store_true',
                       help='serves a store whose clock is ahead of the machine\'s')
    found.add_argument('--log', metavar='FILE',
                       help='a line for each statement; - is standard error')
    found.add_argument('--password', metavar='USER', help='makes a line for --users')
    found.add_argument('--page', action='store_true', help='a page in place of the protocol')
    found.add_argument('--port', type=int, default=0, help='of the page; one that is free')
    found.add_argument('--write', action='store_true', help='lets the page change the store')
    found.add_argument('--check', action='store_true', help='whether a server answers, and how')
    return found


def judge(options: argparse.Namespace) -> None:
    """Refuses options that say nothing, or that would not be kept."""
    for name, *_ in LIMITS:
        if not 0 < getattr(options, name) < 2 ** 40:
            raise Fault(f'--{name} has to be above 0')
    if not options.store:
        raise Fault('STORE is missing')
    for name in OTHERS[options.page]:
        if getattr(options, name):
            raise Fault(f'--{name.replace("_", "-")} is not for '
                        + ('the page' if options.page else 'the protocol'))


def certificates_of(path: str) -> ssl.SSLContext:
    """TLS by the key and the certificate of a file."""
    found = ssl.SSLContext(ssl.PROTOCOL_TLS_SERVER)
    try:
        scram.private(path, path)
        found.load_cert_chain(path)
    except ssl.SSLError as error:
        raise Fault(f'{path}: {error}') from None
    return found


def opened(options: argparse.Namespace) -> Engine:
    """The engine over the store that the options name."""
    is_read_only = options.read_only or options.page and not options.write
    words = [*['--audit'][:options.page], *['--clock-ahead'][:options.clock_ahead],
             *(['--read-only'] if is_read_only else ['--now'][:not options.script_clock])]
    try:
        return Engine(program.path(NAME), options.store, options.seconds, options.rows, *words,
                      most_bytes=options.memory * MEGABYTE)
    except Ended:  # the program has said why
        raise Fault('the server does not start') from None
    except (OSError, ValueError) as error:
        raise Fault(f'the server does not start: {error}') from None


def serve_page(options: argparse.Namespace) -> int:
    """Serves the page of a store until it is ended. Gives the exit status."""
    signal.signal(signal.SIGHUP, signal.SIG_IGN)
    engine, visitor = opened(options), web.Visitor()
    signal.pthread_sigmask(signal.SIG_BLOCK, ENDS)
    try:
        page = web.served(Asker(engine, options.write, visitor), options.port)
    except (OSError, OverflowError) as error:
        engine.close()
        raise Fault(f'port {options.port}: {error}') from None
    accounts.tell(f'{options.store} is shown: {page.address}')
    signal.sigwait(ENDS)
    page.shutdown()
    return 0 if engine.close() in (0, 1, 3) else 2


def serve(options: argparse.Namespace) -> int:
    """Serves a store until it is ended. Gives the exit status."""
    try:
        log = accounts.Accounts(sys.stderr if options.log == '-' else
                                options.log and accounts.Log(options.log))
        signal.signal(signal.SIGHUP, lambda *_: log.reopen())
        users = scram.Users(options.users, log.note) if options.users else None
        certificates = certificates_of(options.certificate) if options.certificate else None
    except (OSError, ValueError) as error:
        raise Fault(str(error)) from None
    listener = server.tcp_listener(options.listen, options.users and options.certificate) \
        if options.listen else server.unix_listener(options.folder, options.group)
    try:
        served = server.Server(
            opened(options), server.Options(not options.script_clock, options.read_only,
                                            options.clients, options.rows),
            listener.socket, log, users, certificates)
        memory = options.memory * MEGABYTE  # of all sqlites together
        sqlite3.connect(':memory:').execute(f'PRAGMA hard_heap_limit = {memory}')
        for number in ENDS:
            signal.signal(number, lambda *_: served.end())
        listener.socket.listen(128)
        accounts.tell(f'{options.store} is served: {listener.how}')
        if options.listen and not users:
            accounts.tell('each user of this machine may connect: --users asks who it is')
        return served.run()
    finally:
        listener.remove()


def password_of(user: str) -> str:
    """The password of a new user, asked for twice."""
    if len(user.split()) != 1:
        raise Fault('the name of a user has no blanks')
    found = getpass.getpass()
    if not found or found != getpass.getpass('Again: '):
        raise Fault('the password is empty, or the two differ')
    return found


def main(words: Optional[Sequence[str]] = None) -> int:
    """The command `serve`. Gives its exit status."""
    options = parser().parse_args(words)
    if options.password is not None:
        print(options.password, 'write', scram.verifier(password_of(options.password)))
        return 0
    if options.check:
        return probe.check(options.folder, options.listen)
    judge(options)
    return serve_page(options) if options.page else serve(options)
