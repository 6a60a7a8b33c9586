"""Values: the cells of answers, and the parameters of statements."""
import datetime
import math
import re
import struct
from typing import Iterable, NamedTuple, Optional, Sequence

from bitemporal_tools.sql.lexis import Token
from bitemporal_tools.sql.literals import FOREVER

from .problems import Problem
from .wire import Column, Kind

INTEGER, VARCHAR = Kind('INTEGER', 20, 8), Kind('VARCHAR', 1043, -1)
DATE, TIMESTAMP = Kind('DATE', 1082, 4), Kind('TIMESTAMP', 1114, 8)
TEXT, BOOLEAN, REAL = Kind('TEXT', 25, -1), Kind('BOOLEAN', 16, 1), Kind('REAL', 701, 8)
PLACES = Kind('PLACES', 1005, -1)  # an array of small numbers, as text
NUMERIC = Kind('NUMERIC', 1700, -1)  # of sqlite alone
KINDS = {kind.name: kind for kind in (INTEGER, VARCHAR, DATE, TIMESTAMP)}
# The types of parameters, by PostgreSQL's numbers of types.
DECLARED = {20: 'INTEGER', 21: 'INTEGER', 23: 'INTEGER', 18: 'VARCHAR', 19: 'VARCHAR',
            25: 'VARCHAR', 1042: 'VARCHAR', 1043: 'VARCHAR', 1082: 'DATE', 1114: 'TIMESTAMP',
            16: 'BOOLEAN', 700: 'REAL', 701: 'REAL', 1700: 'REAL'}
# Types of parameters that no column has, for what sqlite computes.
AROUND = ('BOOLEAN', 'REAL')
UNKNOWN = (0, 705)
INTEGER_FORMS = {20: '!q', 21: '!h', 23: '!i'}
MOST_PARAMETERS = 65535  # the most that a message can have
OPEN_END = '9999-12-31'
# The first and the last value of a date and of a timestamp, by which drivers write infinity.
INFINITE = {struct.pack('!i', 2 ** 31 - 1): 'infinity', struct.pack('!q', 2 ** 63 - 1): 'infinity',
            struct.pack('!i', -2 ** 31): '0001-01-01', struct.pack('!q', -2 ** 63): '0001-01-01'}
FIRST_DAY = datetime.date(2000, 1, 1)
# Values of types, as they are written.
NUMBER = re.compile('[-+]?[0-9]+')
REAL_NUMBER = re.compile(r'[-+]?(?:[0-9]+\.?[0-9]*|\.[0-9]+)(?:e[-+]?[0-9]+)?'
                         r'|[-+]?inf(?:inity)?|nan')
SWITCHES = {**dict.fromkeys(('t', 'true', 'y', 'yes', 'on', '1'), 1),
            **dict.fromkeys(('f', 'false', 'n', 'no', 'off', '0'), 0)}


class Value(NamedTuple):
    """A value for the place of a literal: its text, and its type if one is declared."""
    text: Optional[str]
    declared: Optional[str]


def column(name: str, kind: Kind, length: Optional[int] = None) -> Column:
    """A column of this name and type, of a VARCHAR with its length."""
    return Column(name, kind, length + 4 if kind is VARCHAR and length else -1)


def days(text: str) -> int:
    """The days from 2000-01-01 on."""
    return datetime.date.fromisoformat(text).toordinal() - FIRST_DAY.toordinal()


def microseconds(text: str) -> int:
    """The microseconds from 2000-01-01 00:00:00 on."""
    day, clock = text[:10], datetime.time.fromisoformat(text[11:])
    return (((days(day) * 24 + clock.hour) * 60 + clock.minute) * 60 + clock.second) * 1_000_000 \
        + clock.microsecond


def cell(text: str, kind: Kind, form: int) -> bytes:
    """The bytes of a cell: its text (form 0), or as the type's numbers (form 1)."""
    if form == 0 or kind in (VARCHAR, TEXT):
        return text.encode('utf-8')
    try:
        if kind is BOOLEAN:
            return bytes([text == 't'])
        if kind is REAL:
            return struct.pack('!d', float(text))
        number = days(text) if kind is DATE else microseconds(text) if kind is TIMESTAMP else \
            int(text)
        return struct.pack('!i' if kind is DATE else '!q', number)
    except (struct.error, ValueError, OverflowError):
        raise Problem('22003' if kind in (INTEGER, REAL) else '22007',
                      f'{text!r} is no {kind.name}') from None


def parameter(data: Optional[bytes], oid: int, form: int, number: int) -> Value:
    """The value of the parameter of a number, of which these bytes were bound: None are NULL."""
    declared = DECLARED.get(oid)
    if data is None:
        return Value(None, declared)
    if oid not in DECLARED and oid not in UNKNOWN:
        raise wrong_type(number, f'number {oid}')
    try:
        return Value(binary_text(data, oid) if form else data.decode('utf-8'), declared)
    except UnicodeDecodeError:
        raise Problem('22021', f'parameter ${number} is not UTF-8') from None
    except (struct.error, ValueError, OverflowError, IndexError):
        raise Problem('22P03', f'parameter ${number} is no value of its type') from None


def count_of(numbers: Iterable[int]) -> int:
    """The number of parameters of a text, which names these."""
    count = max(numbers, default=0)
    if count > MOST_PARAMETERS:
        raise Problem('54000', f'there is a parameter ${count}, and ${MOST_PARAMETERS} is the last')
    return count


def oids(declared: Sequence[int], own: Iterable[int]) -> 'list[int]':
    """The type numbers of parameters: those that are declared, else their own."""
    return [declared[at] if at < len(declared) and declared[at] else oid
            for at, oid in enumerate(own)]


def wrong_type(number: int, name: str) -> Problem:
    """The refusal of a parameter for its type."""
    return Problem('42804', f'parameter ${number} has the type {name}',
                   'There are whole numbers, texts, dates and moments without a time zone.',
                   'Keep money as cents, and give a datetime without tzinfo.')


def around(number: int, value: Value) -> 'str | int | float | None':
    """The value of the parameter of a number as sqlite has it."""
    text, declared = value
    if text is None or declared not in ('BOOLEAN', 'REAL', 'INTEGER'):
        return text
    text = text.strip().lower()
    pattern = NUMBER if declared == 'INTEGER' else REAL_NUMBER
    if text not in SWITCHES if declared == 'BOOLEAN' else not pattern.fullmatch(text):
        raise Problem('22P02', f'parameter ${number} is no {declared}: {text[:40]!r}')
    found = SWITCHES[text] if declared == 'BOOLEAN' else \
        int(text) if declared == 'INTEGER' and len(text) < 21 else float(text)
    if not math.isfinite(found) or declared == 'INTEGER' and not -2 ** 63 <= found < 2 ** 63:
        raise Problem('22003', f'parameter ${number} is beyond the numbers here: {text[:40]}')
    return found


def all_around(given: Sequence[Value], count: int) -> 'list[str | int | float | None]':
    """The values of so many parameters as sqlite has them."""
    if len(given) < count:
        raise Problem('42P02', f'there is no parameter ${len(given) + 1}')
    return [around(*it) for it in enumerate(given, 1)][:count]


def binary_text(data: bytes, oid: int) -> str:
    """The text of a parameter that is bound as the numbers of its type."""
    declared = DECLARED.get(oid)
    if declared == 'INTEGER':
        return str(struct.unpack(INTEGER_FORMS[oid], data)[0])
    if declared in ('DATE', 'TIMESTAMP') and data in INFINITE:
        return INFINITE[data]
    if declared == 'DATE':
        day = struct.unpack('!i', data)[0] + FIRST_DAY.toordinal()
        return str(datetime.date.fromordinal(day))
    if declared == 'TIMESTAMP':
        moment = datetime.datetime(2000, 1, 1) + datetime.timedelta(
            microseconds=struct.unpack('!q', data)[0])
        return moment.isoformat(' ')
    if declared == 'REAL':
        return repr(struct.unpack({700: '!f', 701: '!d'}.get(oid, '!'), data)[0])
    return data.decode('utf-8') if declared != 'BOOLEAN' else 'ft'[data[0]]


def tokens_of(value: Value, kind: Optional[str], offset: int) -> 'list[Token]':
    """A value as the tokens of a literal. `kind` is the type that its place asks for, if one is
    known; a value of another type keeps its own, so that the engine refuses it by 30."""
    text, declared = value.text or '', value.declared
    if (declared, kind) == ('DATE', 'TIMESTAMP'):
        declared = kind  # at midnight
    elif kind == 'DATE' and declared == 'TIMESTAMP' and text[10:] in (' 00:00:00', 'T00:00:00'):
        text, declared = text[:10], kind
    kind = declared or kind or 'VARCHAR'
    if kind == 'INTEGER':
        found = re.fullmatch('([-+]?)([0-9]+)', text.strip())
        if not found:
            raise Problem('22P02', f'{text!r} is no whole number', position=offset)
        return [*([Token('symbol', found[1], offset, found[1])] if found[1] else []),
                Token('number', found[2], offset, '')]
    if kind in ('DATE', 'TIMESTAMP'):  # JDBC writes a time zone after them
        text = re.sub(r'(?<=\d\d:\d\d)\+00$| [+-]\d\d(:\d\d)?$', '', text)
    if text == 'infinity':
        text = {'DATE': OPEN_END, 'TIMESTAMP': FOREVER}.get(kind, text)
    if kind == 'TIMESTAMP':
        text = text.replace('T', ' ') + (' 00:00:00' if len(text) == 10 else '')
    literal = Token('text', "'" + text.replace("'", "''") + "'", offset, '')
    return [literal] if kind == 'VARCHAR' else [Token('word', kind, offset, kind), literal]
