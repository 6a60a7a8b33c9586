"""The spelling of values, days and moments in a store, as docs/PROFILE.md section 11 has it.

A day is counted from 1970-01-01, which is 0; a moment in microseconds from the first of that day.
"""
import datetime
from collections.abc import Iterable, Iterator
from typing import Optional, TypeVar, Union

from bitemporal_tools.command_line import Fault
from bitemporal_tools.sql import literals

Value = Union[int, str, datetime.date]
Kind = TypeVar('Kind', int, str)

FOREVER = 253402300799999999
FIRST_MOMENT = -62135596800000000
MOST_INTEGER = 2 ** 63 - 1
EPOCH = datetime.date(1970, 1, 1).toordinal()
MOMENT_0, MICROSECOND = datetime.datetime(1970, 1, 1), datetime.timedelta(microseconds=1)
MICROSECONDS = 1_000_000
INTEGER, VARCHAR, DATE = 1, 2, 3


class BadBytes(Fault):
    """The bytes spell no list of values."""

    def __init__(self) -> None:
        super().__init__('a store holds bytes that spell no values, so it is no good store')


# Values.

def bytes_of_value(value: Value) -> bytes:
    if isinstance(value, int):
        return b'\1' + (value + 2 ** 63).to_bytes(8, 'big')
    if isinstance(value, str):
        return b'\2' + value.encode('utf-8').replace(b'\0', b'\0\xff') + b'\0\0'
    return b'\3' + (value.toordinal() - 1).to_bytes(4, 'big')


def bytes_of(values: Iterable[Value]) -> bytes:
    """The bytes of a list. Two lists compare as their bytes do."""
    return b''.join(map(bytes_of_value, values))


def end_of_value(data: bytes, at: int) -> int:
    """The end of the value that begins at a place."""
    kind = data[at] if at < len(data) else 0
    if kind == INTEGER or kind == DATE:
        end = at + (9 if kind == INTEGER else 5)
        if end > len(data):
            raise BadBytes
        return end
    if kind != VARCHAR:
        raise BadBytes
    zero = data.find(b'\0', at + 1)
    while data[zero + 1:zero + 2] == b'\xff' and zero >= 0:
        zero = data.find(b'\0', zero + 2)
    if zero < 0 or data[zero + 1:zero + 2] != b'\0':
        raise BadBytes
    return zero + 2


def parts_of(data: bytes) -> list[bytes]:
    """The bytes of each value of a list."""
    parts, at = [], 0
    while at < len(data):
        end = end_of_value(data, at)
        parts.append(data[at:end])
        at = end
    return parts


def value_of(part: bytes) -> Value:
    """The value that these bytes spell."""
    try:
        if part[0] == INTEGER:
            return int.from_bytes(part[1:], 'big') - 2 ** 63
        if part[0] == VARCHAR:
            return part[1:-2].replace(b'\0\xff', b'\0').decode('utf-8')
        return datetime.date.fromordinal(int.from_bytes(part[1:], 'big') + 1)
    except (ValueError, OverflowError):
        raise BadBytes from None


def values_of(data: bytes) -> list[Value]:
    return [value_of(part) for part in parts_of(data)]


def cell_of(part: bytes) -> str:
    """The text of a value, as reports print it."""
    return str(value_of(part))


# Days and moments.

def day_text(day: int) -> str:
    return datetime.date.fromordinal(day + EPOCH).isoformat()


def day_of(text: str) -> Optional[int]:
    """The number of the day that a text YYYY-MM-DD names, or None."""
    date = literals.date_of(text)
    return date.toordinal() - EPOCH if date else None


def day_literal(day: int) -> str:
    return f"DATE '{day_text(day)}'"


def moment_text(moment: int) -> str:
    """A moment as reports print it: with six digits after a point if its fraction is not 0."""
    return (MOMENT_0 + moment * MICROSECOND).isoformat(' ')


def moment_of(text: str) -> Optional[int]:
    """The moment that a text names, or None."""
    named = literals.moment_of(text)
    return (datetime.datetime.fromisoformat(named) - MOMENT_0) // MICROSECOND if named else None


class Reader:
    """Reads the values of a list from left to right."""

    def __init__(self, data: bytes) -> None:
        self.values: Iterator[Value] = iter(values_of(data))

    def take(self, kind: 'type[Kind]') -> Kind:
        """The next value, which has to be of a kind."""
        value = next(self.values, None)
        if not isinstance(value, kind):
            raise BadBytes
        return value

    def end(self) -> None:
        if next(self.values, None) is not None:
            raise BadBytes
