"""The listening socket, the engine and the clients."""
import contextlib
import fcntl
import getpass
import grp
import ipaddress
import os
import pathlib
import resource
import socket
import ssl
import stat
import threading
import time
from typing import NamedTuple, Optional

from bitemporal_tools.command_line import Fault

from . import wire
from .accounts import Accounts
from .client import Client
from .engine import Engine, Waiting
from .greeting import Greeted, greet
from .problems import Problem
from .scram import Known
from .system_tables import SystemTables

MOST_STRANGERS = 100   # connections that have proved nothing
SPARE_FILES = 32       # for the engine, its restart, the log and the like
GRACE_SECONDS = 20     # for what runs when the server ends, of all clients together
CHECK_SECONDS = 3      # for what a check asks of the engine
SOCKET = '.s.PGSQL.5432'


class Options(NamedTuple):
    """The options by which a store is served."""
    has_clock: bool = True
    is_read_only: bool = False
    most_clients: int = 20
    most_rows: int = 1_000_000


class Listener(NamedTuple):
    """A socket, the words that connect to it, its file, and the lock of the file's folder."""
    socket: socket.socket
    how: str
    file: Optional[pathlib.Path] = None
    lock: Optional[int] = None

    def remove(self) -> None:
        """Removes the file. The lock ends with the process."""
        if self.file:
            self.file.unlink(missing_ok=True)


class Server:
    """Serves the clients of a socket by one engine."""

    def __init__(self, engine: Engine, options: Options, listener: socket.socket,
                 accounts: Accounts, users: Optional[Known] = None,
                 certificates: Optional[ssl.SSLContext] = None) -> None:
        self.engine, self.listener, self.accounts = engine, listener, accounts
        self.users, self.certificates, path = users, certificates, pathlib.Path(engine.store)
        self.names = list(dict.fromkeys(['store', path.stem, path.name]))  # of the database
        self.has_clock, self.is_read_only = options.has_clock, options.is_read_only
        self.most_clients, self.most_rows = options.most_clients, options.most_rows
        files = resource.getrlimit(resource.RLIMIT_NOFILE)[0] - SPARE_FILES - self.most_clients
        if files < 1:
            raise Fault(f'{self.most_clients} clients need more open files than ulimit -n allows')
        self.strangers = threading.Semaphore(min(MOST_STRANGERS, files))
        self.clients: 'dict[threading.Thread, Client]' = {}
        self.lock, self.is_ending, self.status = threading.Lock(), False, 0
        accounts.present = {
            'clients': lambda: len(self.clients), 'restarts': lambda: engine.restarts,
            'bytes': lambda: sum(os.path.getsize(it) for it in (engine.store, f'{engine.store}-wal')
                                 if os.path.exists(it))}
        engine.when_broken = lambda: self.end(2)
        self.tables = SystemTables(getpass.getuser(), accounts.note)

    def run(self) -> int:
        """Serves until it is ended, and gives the exit status."""
        while not self.is_ending:
            try:
                self.admit(self.listener.accept()[0])
            except (OSError, RuntimeError, MemoryError) as error:  # of descriptors or threads
                if not self.is_ending:
                    self.accounts.warn(f'a connection is not served: {error}')
                    time.sleep(0.1)
        with self.lock:
            left = list(self.clients.items())
        for _, client in left:  # a change that runs is finished; nothing else is begun
            self.engine.cancel(client)
            with contextlib.suppress(OSError):  # (as of a TLS socket it would end the TLS)
                socket.socket.shutdown(client.connection, socket.SHUT_RD)
        end = time.monotonic() + GRACE_SECONDS
        for thread, _ in left:
            thread.join(max(0, end - time.monotonic()))
        closed = self.engine.close() in (0, 1)  # 1 if a statement was refused
        self.status = self.status or (0 if closed else 2)
        return self.status

    def admit(self, connection: socket.socket) -> None:
        """Begins the thread of a connection, unless too many have proved nothing."""
        if not self.strangers.acquire(blocking=False):
            connection.close()
            self.accounts.warn('a connection is not served: too many have proved nothing')
            return
        try:
            threading.Thread(target=self.serve, args=[connection], daemon=True).start()
        except BaseException:
            self.strangers.release()
            connection.close()
            raise

    def serve(self, connection: socket.socket) -> None:
        """One connection, from its first message to its last."""
        greeted = None
        try:
            with contextlib.suppress(OSError, wire.Gone):  # of a client that is gone, or is none
                try:
                    if connection.family != socket.AF_UNIX:
                        connection.setsockopt(socket.IPPROTO_TCP, socket.TCP_NODELAY, 1)
                        connection.setsockopt(socket.SOL_SOCKET, socket.SO_KEEPALIVE, 1)
                    greeted = greet(self, connection)
                finally:
                    self.strangers.release()
                if greeted:
                    self.serve_client(greeted)
        finally:
            with self.lock:
                self.clients.pop(threading.current_thread(), None)
            if greeted:
                with contextlib.suppress(OSError):
                    greeted.stream.close()
                    greeted.connection.close()

    def serve_client(self, greeted: Greeted) -> None:
        """Serves a client that has proved who it is, if there is room for it."""
        client = Client(self, greeted)
        try:
            with self.lock:
                if len(self.clients) >= self.most_clients:
                    raise Problem('53300', f'{self.most_clients} clients are the most')
                self.clients[threading.current_thread()] = client
            if self.is_ending:
                raise wire.Gone
            self.accounts.add('clients_total')
            client.serve()
        except (Problem, wire.Gone) as error:
            problem = error if isinstance(error, Problem) else Problem('57P01', 'the server ends')
            if self.is_ending or error is problem:
                greeted.connection.sendall(wire.response(b'E', problem.fields('FATAL')))

    def cancel(self, number: int, secret: int) -> None:
        """Cancels what a client waits for, or the query of it that runs."""
        with self.lock:
            found = [it for it in self.clients.values()
                     if (it.number, it.secret) == (number, secret)]
        for client in found:
            self.accounts.add('cancelled')
            self.engine.cancel(client)

    def checked(self, asking: Waiting, is_trusted: bool) -> str:
        """The answer to a check, as lines of a name and a value: how the engine is, and for who may
        know them the counters and the clock."""
        lines: 'list[list[str | None]]' = [['engine', self.engine.state(asking, CHECK_SECONDS)]]
        if is_trusted:
            lines[:0] = self.accounts.shown()
            with contextlib.suppress(Problem), self.engine.turns.turn(asking, CHECK_SECONDS):
                lines.append(['clock', self.engine.clock()])
        return ''.join(f'{name} {value}\n' for name, value in lines)

    def end(self, status: int = 0) -> None:
        """Ends the server. A signal may come to this at any time: no lock is taken."""
        self.is_ending, self.status = True, self.status or status
        with contextlib.suppress(OSError):
            self.listener.shutdown(socket.SHUT_RDWR)


def folder_of(path: pathlib.Path, group: Optional[str]) -> int:
    """A folder that its owner alone may enter, or a group too: its descriptor, locked for this
    server as long as the process lives."""
    path.mkdir(mode=0o700, parents=True, exist_ok=True)
    found, others = path.lstat(), 0 if group is None else 0o050
    if not stat.S_ISDIR(found.st_mode) or found.st_uid != os.getuid() \
            or found.st_mode & 0o077 != others \
            or group is not None and found.st_gid != grp.getgrnam(group).gr_gid:
        raise Fault(f'{path} is no folder of yours that ' + (
            'you alone may enter: chmod 700 it' if group is None else
            f'{group} may enter: chgrp {group} and chmod 750 it'))
    lock = os.open(path, os.O_RDONLY | os.O_DIRECTORY)
    try:
        fcntl.flock(lock, fcntl.LOCK_EX | fcntl.LOCK_NB)
    except BlockingIOError:
        raise Fault(f'{path} is served already') from None
    return lock


def unix_listener(folder: str, group: Optional[str] = None) -> Listener:
    """A socket in a folder that this server alone has. The owner alone may connect, or a group."""
    path, name = pathlib.Path(folder), pathlib.Path(folder, SOCKET)
    try:
        lock, listener = folder_of(path, group), socket.socket(socket.AF_UNIX)
        name.unlink(missing_ok=True)  # one of a server that was killed
        listener.bind(str(name))
        if group is not None:
            os.chown(name, -1, path.stat().st_gid)
        name.chmod(0o600 if group is None else 0o660)
    except KeyError:
        raise Fault(f'there is no group {group}') from None
    except OSError as error:
        raise Fault(f'{folder}: {error.strerror or error}') from None
    return Listener(listener, f'psql -h {path.resolve()} store', name, lock)


def tcp_listener(words: str, is_guarded: bool) -> Listener:
    """A socket of an address of digits and a port. Beyond loopback it has to be guarded."""
    host, _, port = words.rpartition(':')
    host = host.strip('[]')
    try:
        is_here = ipaddress.ip_address(host).is_loopback
        number = int(port)
        if not 0 <= number < 65536:
            raise ValueError
    except ValueError:
        raise Fault(f'{words} is no address of digits and a port, such as 127.0.0.1:5432') from None
    if not is_here and not is_guarded:
        raise Fault(f'{words} is open to others: give --users and --certificate')
    family = socket.AF_INET6 if ':' in host else socket.AF_INET
    try:
        listener = socket.create_server((host, number), family=family)
    except OSError as error:
        raise Fault(f'{words}: {error.strerror}') from None
    return Listener(listener, f'psql -h {host} -p {listener.getsockname()[1]} store')
