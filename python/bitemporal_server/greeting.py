"""The first messages of a connection: TLS, a cancel, a check, or the start of a client, with the
proof of who it is. All of them together have to come within some seconds."""
import contextlib
import socket
import ssl
import struct
import time
from typing import IO, TYPE_CHECKING, NamedTuple, Optional, cast

from . import scram, wire
from .accounts import field
from .problems import Problem

if TYPE_CHECKING:
    from .server import Server

PROTOCOL, CANCEL, SSL, GSS, CHECK = 196608, 80877102, 80877103, 80877104, 80877199
FIRST_SECONDS = 20   # for all first messages of a connection
WRONG_SECONDS = 1.0  # before a wrong password is refused


class Greeted(NamedTuple):
    """A client that is to be served: its connection, under TLS if it asked for that, its user with
    the right to write, and what else it gave at the start."""
    connection: socket.socket
    stream: IO[bytes]
    user: str
    may_write: bool
    given: 'dict[str, str]'


class Greeting:
    """The first messages of one connection."""

    def __init__(self, server: 'Server', connection: socket.socket) -> None:
        self.server, self.connection, self.is_cancelled = server, connection, False
        self.end = time.monotonic() + FIRST_SECONDS

    def hurried(self) -> socket.socket:
        """The connection, of which the next call takes no more than the time that is left."""
        left = self.end - time.monotonic()
        if left <= 0:
            raise TimeoutError
        self.connection.settimeout(left)
        return self.connection

    def read(self, count: int) -> bytes:
        """So many bytes, and no more of the connection: those after them may be of TLS."""
        found = b''
        while len(found) < count:
            part = self.hurried().recv(count - len(found))
            if not part:
                break
            found += part
        return found

    def first_code(self) -> 'tuple[int, wire.Fields]':
        """The first message that asks for neither TLS nor GSS, and its code."""
        while True:
            fields = wire.Fields(wire.body(cast(IO[bytes], self), wire.MOST_AT_FIRST))
            code = fields.number()
            is_safe = isinstance(self.connection, ssl.SSLSocket)
            if code == SSL and self.server.certificates and not is_safe:
                self.hurried().sendall(b'S')
                self.connection = self.server.certificates.wrap_socket(self.hurried(), True)
            elif code in (SSL, GSS):
                self.hurried().sendall(b'N')
            else:
                return code, fields

    def greeted(self) -> Optional[Greeted]:
        """The client, or None for a cancel or a check, which is answered."""
        code, fields = self.first_code()
        if code == CANCEL:
            self.server.cancel(fields.number(), fields.number())
            return None
        if code == CHECK:
            is_near = self.server.users is None or self.connection.family == socket.AF_UNIX
            self.hurried().sendall(self.server.checked(self, is_near).encode())
            return None
        if code >> 16 != 3:
            raise Problem('0A000', f'protocol {code >> 16} is not known: version 3 is')
        if code != PROTOCOL:
            self.hurried().sendall(wire.message(b'v', struct.pack('!ii', PROTOCOL, 0)))
        words = [word.decode('utf-8', 'replace') for word in fields.rest().split(b'\0')]
        given = {name: value for name, value in zip(words[::2], words[1::2]) if name}
        user, database = given.pop('user', ''), given.pop('database', 'store')
        if self.server.certificates and not isinstance(self.connection, ssl.SSLSocket):
            raise Problem('28000', 'this server wants TLS', hint='Connect with sslmode=require.')
        may_write = self.server.users is None or self.prove(user, self.server.users) == 'write'
        if database not in self.server.names:
            raise Problem('3D000', f'there is no database {database}: '
                          + ' or '.join(self.server.names) + ' is served here')
        self.connection.settimeout(None)
        return Greeted(self.connection, self.connection.makefile('rb'), user, may_write, given)

    def ask(self, code: int, data: bytes) -> wire.Fields:
        """Sends a message of the proof of a user, and gives the client's answer."""
        self.hurried().sendall(wire.message(b'R', struct.pack('!i', code), data))
        kind, fields = wire.received(cast(IO[bytes], self), wire.MOST_AT_FIRST)
        if kind != b'p':
            raise wire.Gone('no password came')
        return fields

    def prove(self, user: str, users: scram.Known) -> str:
        """The exchange by which a user is known. Gives the user's rights."""
        known = users.get(user, scram.User('read', None))
        exchange = scram.Exchange(known.verifier, user)
        try:
            fields = self.ask(10, wire.text(scram.NAME) + b'\0')
            if fields.text() != scram.NAME.encode():
                raise scram.Refused
            fields = self.ask(11, exchange.first(fields.value() or b''))
            last = exchange.last(fields.data)
        except scram.Refused:
            self.server.accounts.add('wrong_passwords')
            self.server.accounts.note(f'{field(user)} gave a wrong password')
            time.sleep(WRONG_SECONDS)
            raise Problem('28P01', f'there is no {user}, or the password is another') from None
        self.hurried().sendall(wire.message(b'R', struct.pack('!i', 12), last))
        return known.rights


def greet(server: 'Server', connection: socket.socket) -> Optional[Greeted]:
    """Exchanges the first messages of a connection. Gives the client that is to be served; else
    closes the connection, and gives None."""
    greeting, found = Greeting(server, connection), None
    try:
        found = greeting.greeted()
    except Problem as problem:
        greeting.hurried().sendall(wire.response(b'E', problem.fields('FATAL')))
    finally:
        if found is None:
            with contextlib.suppress(OSError):  # what is not read would reset the connection
                greeting.connection.settimeout(0)
                greeting.connection.recv(wire.MOST_AT_FIRST)
            greeting.connection.close()
    return found
