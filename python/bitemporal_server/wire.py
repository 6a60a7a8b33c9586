"""Messages of the PostgreSQL protocol, version 3 (PostgreSQL 15, chapter 55): those that are
received, and the bytes of those that are sent."""
import struct
from typing import IO, NamedTuple, Optional, Sequence, Tuple

MOST_BYTES = 5 * 1024 * 1024   # of a message: a script's 4 MiB, and its parameters
MOST_AT_FIRST = 10_000         # of one before the client is known


class Kind(NamedTuple):
    """A type: the profile's name, PostgreSQL's number and its size in bytes (-1 if it varies)."""
    name: str
    oid: int
    size: int


class Column(NamedTuple):
    """A column of an answer. The modifier has the n of VARCHAR(n), plus 4, or is -1."""
    name: str
    kind: Kind
    modifier: int = -1


class Gone(Exception):
    """The client is gone, or sends no message of the protocol."""


class Fields:
    """The fields of a message, taken one by one."""

    def __init__(self, data: bytes) -> None:
        self.data, self.at = data, 0

    def take(self, count: int) -> bytes:
        """The next bytes."""
        self.at += count
        if count < 0 or self.at > len(self.data):
            raise Gone('a message is shorter than it says')
        return self.data[self.at - count:self.at]

    def rest(self) -> bytes:
        """All bytes that are left."""
        return self.take(len(self.data) - self.at)

    def number(self, form: str = '!i') -> int:
        """The next number, of 32 bits unless the form says otherwise."""
        found: int = struct.unpack(form, self.take(struct.calcsize(form)))[0]
        return found

    def numbers(self, form: str) -> 'list[int]':
        """A list of numbers, whose count is first."""
        return [self.number(form) for _ in range(self.number('!H'))]

    def text(self) -> bytes:
        """The bytes up to the next zero byte."""
        end = self.data.find(b'\0', self.at)
        if end < 0:
            raise Gone('a text has no end')
        found = self.take(end - self.at)
        self.at += 1
        return found

    def value(self) -> Optional[bytes]:
        """Bytes with their length before them, or None for NULL."""
        length = self.number()
        return None if length == -1 else self.take(length)


def exactly(stream: IO[bytes], count: int) -> bytes:
    """Reads exactly this number of bytes of a stream."""
    data = stream.read(count)
    if len(data) < count:
        raise Gone('the connection ended')
    return data


def body(stream: IO[bytes], most: int) -> bytes:
    """A message without its kind."""
    length = struct.unpack('!i', exactly(stream, 4))[0]
    if not 4 <= length <= most:
        raise Gone(f'a message of {length} bytes')
    return exactly(stream, length - 4)


def received(stream: IO[bytes], most: int = MOST_BYTES) -> Tuple[bytes, Fields]:
    """The kind of the next message, and its fields."""
    kind = exactly(stream, 1)
    return kind, Fields(body(stream, most))


def message(kind: bytes, *parts: bytes) -> bytes:
    """The bytes of a message."""
    data = b''.join(parts)
    return kind + struct.pack('!i', len(data) + 4) + data


def text(value: str) -> bytes:
    """A text as a field, which a zero byte ends."""
    return value.encode('utf-8').replace(b'\0', b'') + b'\0'


def row_description(columns: Sequence[Column], formats: Sequence[int]) -> bytes:
    """The names and types of an answer's columns."""
    parts = [struct.pack('!H', len(columns))]
    for column, form in zip(columns, formats):
        parts += [text(column.name), struct.pack('!ihihih', 0, 0, column.kind.oid, column.kind.size,
                                                 column.modifier, form)]
    return message(b'T', *parts)


def data_row(cells: Sequence[Optional[bytes]]) -> bytes:
    """A row of an answer."""
    return message(b'D', struct.pack('!H', len(cells)), *(
        struct.pack('!i', -1) if it is None else struct.pack('!i', len(it)) + it for it in cells))


def response(kind: bytes, fields: 'dict[str, str]') -> bytes:
    """An ErrorResponse (E) or a NoticeResponse (N)."""
    return message(kind, *(code.encode() + text(value) for code, value in fields.items() if value),
                   b'\0')
