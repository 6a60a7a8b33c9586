"""The signs - and + after dates and moments: calls of functions for sqlite, which takes texts for
numbers there. They are found by the texts of their operands: names of columns, calls, literals."""
import dataclasses
import re
from typing import AbstractSet

from .moments import AS_MOMENT, MOMENT
from .problems import Problem

# The end of an operand of - and +, and what may be one: names, calls, and texts of dates.
ENDS = ('AS', 'FROM', 'WHERE', 'GROUP', 'ORDER', 'HAVING', 'LIMIT', 'OFFSET', 'UNION', 'EXCEPT',
        'INTERSECT', 'AND', 'OR', 'NOT', 'IN', 'IS', 'BETWEEN', 'LIKE', 'MATCH', 'WHEN', 'THEN',
        'ELSE', 'END', 'ASC', 'DESC', 'ON', ')', ',', ';', '=', '<', '>', '!', '|', '%', '+', '-')
NAME = r'(?:\w+|\[[^\]]{0,130}\])'
NAMES = re.compile(rf'(?:{NAME}\s*\.\s*)*({NAME})')
CALL = re.compile(r'(?:MIN|MAX|COALESCE|GREATEST|LEAST|LAG|LEAD|FIRST_VALUE|LAST_VALUE)?\s*'
                  r'\(([^,]*?)(?:,.*)?\)(?:\s*OVER\s*\(.*\))?', re.I | re.S)
ALIASED = re.compile(rf'(.*\S)(\s+{NAME})', re.S)
NOW = re.compile(r'NOW\s*\(\s*\)|CURRENT_(?:DATE|TIMESTAMP)', re.I)
WORD = re.compile(r'\w+|\[.*\]', re.S)
LONGEST = 300  # of an operand that is looked at
MOST_LETTERS = 10_000  # of a call


@dataclasses.dataclass
class Level:
    """A parenthesis that is open, or the whole: the places of its begin, of its AS and of the last
    sign - or + whose right operand has not ended, 0 if there is none."""
    begin: int = 0
    as_at: int = 0
    sign: int = 0


def bare(name: str) -> str:
    """A name in upper case, without its brackets."""
    return name.strip('[]').upper()


def begin_of(parts: 'list[str]', end: int) -> int:
    """The place at which the operand before a place begins: a literal, a name, a call, or what is
    in parentheses, with the window of a call."""
    begin = end - 1
    while begin >= 0 and not parts[begin].strip():
        begin -= 1
    if begin >= 0 and parts[begin].startswith(')'):
        depth = 1
        while begin > 0 and depth:
            begin -= 1
            depth += parts[begin].startswith(')')
            depth -= parts[begin].endswith(('(', ',')) and parts[begin] != ','
        begin -= begin > 0 and WORD.fullmatch(parts[begin - 1]) is not None
    while begin > 1 and parts[begin - 1] == '.':
        begin -= 2
    begin = max(begin, 0)
    is_window = ''.join(parts[max(begin - 2, 0):begin]).strip().upper() == 'OVER'
    return begin_of(parts, begin - 2) if is_window else begin


def operand(parts: 'list[str]') -> str:
    """Takes away the last operand."""
    begin = begin_of(parts, len(parts))
    found = ''.join(parts[begin:]).rstrip()
    del parts[begin:]
    return found


def is_date(text: str, dates: AbstractSet[str]) -> bool:
    """Whether an operand is a date or a moment, by its text."""
    if text.endswith(AS_MOMENT):
        return True
    if not 0 < len(text) <= LONGEST:
        return False
    name, call = NAMES.fullmatch(text), CALL.fullmatch(text)
    if call:
        return is_date(call[1].strip(), dates)
    return bool(name and bare(name[1]) in dates or NOW.fullmatch(text)
                or text[0] == "'" and MOMENT.fullmatch(text[1:-1]))


def add_difference(parts: 'list[str]', level: Level, dates: AbstractSet[str]) -> None:
    """Has the last - or + of a level be a call, if it has a date on one of its sides."""
    at, level.sign = level.sign, 0
    if not 0 < at < len(parts) or parts[at] not in ('+', '-'):
        return
    begin, given = begin_of(parts, at), ''.join(parts[at + 1:])
    left, right, alias = ''.join(parts[begin:at]).strip(), given.strip(), ''
    named = ALIASED.fullmatch(right) if len(right) <= LONGEST else None
    if named and is_date(named[1], dates):
        right, alias = named.groups()
    if left and (is_date(left, dates) or is_date(right, dates)):
        if len(left) + len(right) > MOST_LETTERS:
            raise Problem('54000', 'an operand of - or + of a date is too long')
        name = 'days_before' if parts[at] == '-' else 'days_after'
        space = given[len(given.rstrip()):]
        parts[begin:] = [f'{name}({left}, {right}){AS_MOMENT}', alias + space]
