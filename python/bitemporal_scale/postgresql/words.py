"""Names and values of a script as words of PostgreSQL's SQL."""
import hashlib
import re
from typing import Optional

from bitemporal_tools.sql.literals import FOREVER
from bitemporal_tools.sql.tree import Column, Literal

TYPES = {'INTEGER': 'int8', 'DATE': 'date'}
# Columns that each table of PostgreSQL has by itself.
SYSTEM_COLUMNS = frozenset(('ctid', 'xmin', 'xmax', 'cmin', 'cmax', 'tableoid'))
MOST_BYTES_OF_A_NAME = 63


class NotTranslated(Exception):
    """PostgreSQL has nothing for this part of a script."""


def name_sql(name: str) -> str:
    """A name of the script, or one of ours; ours have a `#`, which no script's name
    has."""
    name = name.lower()
    if name in SYSTEM_COLUMNS:
        name += '#'
    if len(name) > MOST_BYTES_OF_A_NAME:
        name = name[:50] + '#' + hashlib.sha256(name.encode()).hexdigest()[:12]
    return f'"{name}"'


def text_sql(text: str) -> str:
    """A text. It has nothing that psql or a dollar quote around it could read otherwise."""
    if '\0' in text:
        raise NotTranslated('PostgreSQL has no texts with U+0000')
    if re.fullmatch(r"[A-Za-z0-9_ !#%&()*+,./:;<=>?@\[\]^{|}~-]*", text):
        return f"'{text}'"
    return "E'" + ''.join(map(letter_sql, text)) + "'"


def letter_sql(letter: str) -> str:
    if re.fullmatch('[A-Za-z0-9 ]', letter):
        return letter
    number = ord(letter)
    return f'\\u{number:04X}' if number < 0x10000 else f'\\U{number:08X}'


def value_sql(literal: Literal) -> str:
    if literal.kind == 'INTEGER':
        return f"'{literal.value}'::int8" if literal.value < 0 else f'{literal.value}::int8'
    if literal.kind == 'DATE':
        return f"date '{literal.value}'"
    return f'{text_sql(literal.value)}::text COLLATE "C"'


def moment_sql(text: str) -> str:
    return f"timestamp '{text}'"


def range_sql(start: Literal, end: Literal) -> str:
    """The period of two DATE literals."""
    return f"daterange('{start.value}', '{end.value}')"


FOREVER_SQL = moment_sql(FOREVER)


def type_sql(column: Column) -> str:
    """The type of a value column. Texts are ordered by their bytes."""
    if column.kind == 'VARCHAR':
        return f'varchar({column.number}) COLLATE "C"'
    return TYPES[column.kind]


def day_sql(day: str) -> str:
    return f"to_char({day}, 'YYYY-MM-DD')"


def moment_field_sql(moment: str) -> str:
    """A moment as a field of a report: with six digits of a second if they are not zero."""
    return f"replace(to_char({moment}, 'YYYY-MM-DD HH24:MI:SS.US'), '.000000', '')"


def field_sql(column: str, kind: Optional[str]) -> str:
    """A value as a field of a report."""
    if kind == 'VARCHAR':
        return f'"#field"({column})'
    return day_sql(column) if kind == 'DATE' else f'{column}::text'


def indented(text: str, by: str = '  ') -> str:
    return ''.join(by + line for line in text.splitlines(True))
