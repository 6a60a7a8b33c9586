"""A client of the PostgreSQL protocol for tests: both query protocols, COPY, and SCRAM."""
import base64
import hashlib
import hmac
import secrets
import socket
import struct
from typing import Any, NamedTuple, Sequence

from bitemporal_server import wire

Row = 'list[str | None]'


class Refused(Exception):
    """An error that the server sent, by its fields."""

    def __init__(self, fields: 'dict[str, str]') -> None:
        super().__init__(fields['M'])
        self.fields, self.state = fields, fields['C']


class Answer(NamedTuple):
    """The result of a statement: its tag, its columns (None if it has no rows) and its rows."""
    tag: str
    columns: 'list[str] | None'
    rows: 'list[list[str | None]]'


class WireClient:
    """A connection. Texts go in and come out. `given` are further parameters of the start."""

    def __init__(self, address: Any, user: str = 'test', password: str = '',
                 **given: str) -> None:
        family = socket.AF_UNIX if isinstance(address, str) else socket.AF_INET
        self.socket = socket.socket(family)
        self.socket.settimeout(60)
        self.socket.connect(address)
        self.notices: 'list[dict[str, str]]' = []
        self.types: 'list[int]' = []
        words = [word for pair in {'user': user, **given}.items() for word in pair]
        data = struct.pack('!i', 196608) + b''.join(map(wire.text, words)) + b'\0'
        self.socket.sendall(struct.pack('!i', len(data) + 4) + data)
        self.stream = self.socket.makefile('rb')
        self.key = b''
        try:
            self.start(password)
        except BaseException:
            self.close()
            raise

    def start(self, password: str) -> None:
        """Reads the first messages, and proves the user if the server asks for it."""
        exchange = None
        while True:
            kind, fields = wire.received(self.stream)
            if kind == b'E':
                raise Refused(fields_of(fields))
            if kind == b'K':
                self.key = fields.rest()
            if kind == b'Z':
                return
            if kind == b'R':
                code = fields.number()
                if code == 10:
                    exchange = Proof(password)
                    first = exchange.first()
                    self.send(b'p', wire.text('SCRAM-SHA-256') + struct.pack('!i', len(first))
                              + first)
                elif code == 11 and exchange:
                    self.send(b'p', exchange.last(fields.rest()))
                elif code == 12 and exchange:
                    assert fields.rest() == exchange.wanted

    def send(self, kind: bytes, *parts: bytes) -> None:
        self.socket.sendall(wire.message(kind, *parts))

    def close(self) -> None:
        self.stream.close()
        self.socket.close()

    # The simple protocol.

    def query(self, text: str) -> 'list[Answer]':
        """The answers to the statements of a text."""
        self.send(b'Q', wire.text(text))
        return self.answers()

    def answers(self) -> 'list[Answer]':
        """The answers up to the next ReadyForQuery."""
        found: 'list[Answer]' = []
        columns: 'list[str] | None' = None
        rows: 'list[list[str | None]]' = []
        refused = None
        while True:
            kind, fields = wire.received(self.stream)
            if kind == b'Z':
                if refused:
                    raise refused
                return found
            if kind == b'T':
                columns, self.types = described(fields)
            elif kind == b'D':
                rows.append(cells(fields))
            elif kind == b'C':
                found.append(Answer(fields.text().decode(), columns, rows))
                columns, rows = None, []
            elif kind == b'E':
                refused = Refused(fields_of(fields))
            elif kind == b'N':
                self.notices.append(fields_of(fields))

    def copy(self, text: str, chunks: Sequence[bytes]) -> str:
        """The tag of a COPY from its bytes."""
        self.send(b'Q', wire.text(text))
        kind, fields = wire.received(self.stream)
        if kind == b'E':
            refused = Refused(fields_of(fields))
            self.answers()
            raise refused
        assert kind == b'G', kind
        for chunk in chunks:
            self.send(b'd', chunk)
        self.send(b'c')
        return self.answers()[0].tag

    # The extended protocol.

    def ask(self, text: str, given: 'Sequence[str | None]' = (),
            types: Sequence[int] = ()) -> Answer:
        """The answer to a statement with these values of its parameters, with the types if they
        are declared."""
        values = b''.join(b'\xff\xff\xff\xff' if it is None else
                          struct.pack('!i', len(it.encode())) + it.encode() for it in given)
        self.socket.sendall(b''.join([
            wire.message(b'P', b'\0', wire.text(text),
                         struct.pack(f'!H{len(types)}i', len(types), *types)),
            wire.message(b'B', b'\0\0', struct.pack('!HH', 0, len(given)), values,
                         struct.pack('!H', 0)),
            wire.message(b'D', b'P\0'), wire.message(b'E', b'\0', struct.pack('!i', 0)),
            wire.message(b'S')]))
        found = self.answers()
        return found[0] if found else Answer('', None, [])


class Proof:
    """The client's side of SCRAM-SHA-256 (RFC 7677)."""

    def __init__(self, password: str) -> None:
        self.password, self.bare = password, 'n=,r=' + secrets.token_urlsafe(12)
        self.wanted = b''

    def first(self) -> bytes:
        return ('n,,' + self.bare).encode()

    def last(self, answer: bytes) -> bytes:
        words = dict(word.split('=', 1) for word in answer.decode().split(','))
        key = hashlib.pbkdf2_hmac('sha256', self.password.encode(), base64.b64decode(words['s']),
                                  int(words['i']))
        own, server = (hmac.digest(key, name, 'sha256') for name in (b'Client Key', b'Server Key'))
        bare = 'c=biws,r=' + words['r']
        signed = f'{self.bare},{answer.decode()},{bare}'.encode()
        mask = hmac.digest(hashlib.sha256(own).digest(), signed, 'sha256')
        proof = bytes(a ^ b for a, b in zip(own, mask))
        self.wanted = b'v=' + base64.b64encode(hmac.digest(server, signed, 'sha256'))
        return f'{bare},p={base64.b64encode(proof).decode()}'.encode()


def fields_of(fields: wire.Fields) -> 'dict[str, str]':
    """The fields of an error or a notice, by their letters."""
    found: 'dict[str, str]' = {}
    while True:
        code = fields.take(1)
        if code == b'\0':
            return found
        found[code.decode()] = fields.text().decode()


def described(fields: wire.Fields) -> 'tuple[list[str], list[int]]':
    """The names of columns and the numbers of their types."""
    names, types = [], []
    for _ in range(fields.number('!H')):
        names.append(fields.text().decode())
        fields.take(6)
        types.append(fields.number())
        fields.take(8)
    return names, types


def cells(fields: wire.Fields) -> 'list[str | None]':
    """The cells of a row."""
    found: 'list[bytes | None]' = [fields.value() for _ in range(fields.number('!H'))]
    return [None if cell is None else cell.decode() for cell in found]
