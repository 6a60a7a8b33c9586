"""Texts that are dates and moments, and numbers that fit into 64 bits with a sign."""
import datetime
import re
from typing import Optional

from .lexis import Token
from .tree import Value

# As reports print them.
FIRST_MOMENT, FOREVER = '0001-01-01 00:00:00', '9999-12-31 23:59:59.999999'
LEAST_NUMBER, GREATEST_NUMBER = -2 ** 63, 2 ** 63 - 1
DATE = re.compile('([0-9]{4})-([0-9]{2})-([0-9]{2})')
CLOCK = re.compile(r'( (?:[01][0-9]|2[0-3]):[0-5][0-9]:[0-5][0-9])(?:\.([0-9]{1,6}))?')
# A text that is nearly a moment: without the seconds, with another sign between its parts, with
# more digits or a time zone after it.
NEARLY = re.compile('([0-9-]{10}).([0-9]{2}:[0-9]{2})(?:(:[0-9]{2})(?:[.,]([0-9]{1,6}))?)?')


def date_of(text: str) -> Optional[datetime.date]:
    """The date that a text names, or None."""
    found = DATE.fullmatch(text)
    try:
        return datetime.date(*map(int, found.groups())) if found else None
    except ValueError:
        return None


def why_no_date(text: str) -> str:
    """A sentence on a text that names no date."""
    found = re.fullmatch('([0-9]{4})-([0-9]{1,2})-([0-9]{1,2})', text)
    year, month, day = map(int, found.groups()) if found else (0, 0, 0)
    if year and 1 <= month <= 12:
        import calendar  # few runs of a tool come here
        days = calendar.monthrange(year, month)[1]
        if not 1 <= day <= days:
            return f"'{text}' is no date: month {month} of {year:04} has {days} days."
        return f"'{text}' is no date: write DATE '{year:04}-{month:02}-{day:02}'."
    return f"'{text}' is no date."


def why_no_moment(text: str) -> str:
    """A sentence on a text that names no moment."""
    date = date_of(text[:10])
    if date and not text[10:]:
        return f"'{text}' is no moment: write TIMESTAMP '{text} 00:00:00'."
    found = NEARLY.match(text)
    if found:
        moment = f'{found[1]} {found[2]}{found[3] or ":00"}' + (f'.{found[4]}' if found[4] else '')
        if moment_of(moment):
            return f"'{text}' is no moment: write TIMESTAMP '{moment}'."
    return f"'{text}' is no moment."


def moment_of(text: str) -> Optional[str]:
    """The moment that a text names, as reports print it, or None. It has nineteen characters, or
    these, a point and six digits, so two moments compare as their texts do."""
    found = CLOCK.fullmatch(text[10:])
    if date_of(text[:10]) is None or not found:
        return None
    fraction = (found[2] or '').ljust(6, '0')
    return text[:10] + found[1] + (f'.{fraction}' if int(fraction) else '')


def number_of(digits: str, sign: int) -> Optional[int]:
    """The number with these digits with the sign 1 or -1, or None if 64 bits don't hold it."""
    digits = digits.lstrip('0') or '0'
    if len(digits) > len(str(GREATEST_NUMBER)):
        return None
    number = sign * int(digits)
    return number if LEAST_NUMBER <= number <= GREATEST_NUMBER else None


def text_of(token: Token) -> str:
    """The value of a text token."""
    return token.text[1:-1].replace("''", "'")


def quoted(text: str) -> str:
    """The literal of a text."""
    return "'" + text.replace("'", "''") + "'"


def literal(value: Value) -> str:
    """The literal of a value."""
    if isinstance(value, datetime.date):
        return f"DATE '{value}'"
    return quoted(value) if isinstance(value, str) else str(value)
