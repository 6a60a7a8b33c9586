"""A cell of a CSV file to a value of the language.

A value is an int, a str or a datetime.date. A cell that has none is a ValueError that says why.
"""
from __future__ import annotations

import datetime
import functools
import re
from collections.abc import Sequence
from typing import Optional

from bitemporal_tools.command_line import Fault
from bitemporal_tools.sql.literals import FOREVER, GREATEST_NUMBER, LEAST_NUMBER, moment_of

LAST_DAY = datetime.date.max
MIDNIGHT = re.compile('[ T]00:00(:00([.]0+)?)?')
TIME = re.compile('[ T]([0-9]{2}:[0-9]{2})(?:(:[0-9]{2})([.][0-9]+)?)?')
ISO = 'YYYY-MM-DD'
MOST_DIGITS = 18  # so many fit into 64 bits, whatever they are
LONGEST_SHOWN = 40


def shown(cell: str) -> str:
    """The cell in a message, not longer than it helps."""
    return repr(cell if len(cell) <= LONGEST_SHOWN else cell[:LONGEST_SHOWN - 3] + '...')


@functools.lru_cache
def number_pattern(decimal: str) -> re.Pattern[str]:
    return re.compile(f'([+-]?)([0-9]+)(?:{re.escape(decimal)}([0-9]+))?')


def whole_number(cell: str, scale: int = 0, decimal: str = '.') -> int:
    """The number of a cell, in units of 10 to the power of minus `scale`: 4117.5 with 2 is
    411750."""
    if cell.isascii() and cell.isdigit() and len(cell) + scale <= MOST_DIGITS:
        return int(cell) * int(10 ** scale)
    found = number_pattern(decimal).fullmatch(cell.strip())
    if not found:
        raise ValueError(f'{shown(cell)} is no number')
    sign, whole, fraction = found[1], found[2], (found[3] or '').rstrip('0')
    if len(fraction) > scale:
        more = f'more than {scale} digits' if scale else \
            'a fraction, and numbers are whole: with --scale COLUMN=2 they are hundredths'
        raise ValueError(f'{shown(cell)} has {more}')
    number = int(sign + whole + fraction.ljust(scale, '0'))
    if not LEAST_NUMBER <= number <= GREATEST_NUMBER:
        raise ValueError(f'{shown(cell)} does not fit into 64 bits')
    return number


def are_digits(texts: Sequence[str], most: int) -> bool:
    """Whether cells have digits and nothing else, each at least one and at most so many."""
    lengths, together = set(map(len, texts)), ''.join(texts)
    return 0 not in lengths and max(lengths) <= most and together.isascii() and together.isdigit()


def begins_with_zero(texts: Sequence[str]) -> bool:
    """Whether a cell of digits is a 0 and more digits after it."""
    return not {text for text in texts if text[0] == '0'} <= {'0'}


def unit(scale: int) -> str:
    """The unit of numbers of this scale, or an empty text for ones."""
    return f'in units of 0.{"1".rjust(scale, "0")}' if scale else ''


def date_pattern(form: str) -> re.Pattern[str]:
    """The pattern of a form such as DD.MM.YYYY."""
    pattern = re.escape(form)
    for part, group in (('YYYY', '(?P<year>[0-9]{4})'), ('MM', '(?P<month>[0-9]{1,2})'),
                        ('DD', '(?P<day>[0-9]{1,2})')):
        if pattern.count(part) != 1:
            raise Fault(f'--dates {form}: write YYYY, MM and DD once each')
        pattern = pattern.replace(part, group)
    return re.compile(pattern)


def date_at(cell: str, pattern: re.Pattern[str], form: str) -> tuple[datetime.date, str]:
    """The date at the start of a cell, and what follows it."""
    found = pattern.match(cell)
    try:
        if found:
            return datetime.date(int(found['year']), int(found['month']),
                                 int(found['day'])), cell[found.end():]
    except ValueError:
        pass
    raise ValueError(f'{shown(cell)} is no date {form}')


def date(cell: str, pattern: re.Pattern[str], form: str = ISO) -> datetime.date:
    """The date of a cell. Midnight may follow it."""
    if form == ISO and len(cell) == len(ISO) and cell[4] == cell[7] == '-':
        try:
            return datetime.date.fromisoformat(cell)
        except ValueError:
            pass
    found, rest = date_at(cell.strip(), pattern, form)
    if rest and not MIDNIGHT.fullmatch(rest):
        raise ValueError(f'{shown(cell)} is no date {form}')
    return found


def moment(cell: str, pattern: re.Pattern[str], form: str = ISO, is_whole: bool = False) -> str:
    """The moment of a cell, as reports print it. A date alone is its first moment; with `is_whole`
    a fraction of a second is cut off."""
    day, rest = date_at(cell.strip(), pattern, form)
    found = TIME.fullmatch(rest)
    if rest and not found:
        raise ValueError(f'{shown(cell)} is no moment {form} HH:MM:SS')
    clock = found[1] + (found[2] or ':00') if found else '00:00:00'
    fraction = ((found and found[3]) or '').rstrip('0').rstrip('.')
    if len(fraction.lstrip('.')) > 6 and not is_whole:
        raise ValueError(f'{shown(cell)} has more than six digits of a second: --whole-seconds cuts'
                         ' them')
    named: Optional[str] = moment_of(f'{day.isoformat()} {clock}{"" if is_whole else fraction}')
    if named is None or named == FOREVER:
        raise ValueError(f'{shown(cell)} is no moment')
    return named


def text(cell: str, most: int) -> str:
    if len(cell) > most:
        raise ValueError(f'{shown(cell)} has {len(cell)} characters, and the column takes {most}')
    return cell
