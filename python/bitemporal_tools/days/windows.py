"""Months, quarters, years and other ranges of days."""
import datetime
import re
from collections.abc import Iterator
from typing import NamedTuple

from bitemporal_tools.command_line import Fault
from bitemporal_tools.days.numbers import LAST, ordinal
from bitemporal_tools.days.stretches import Period

MONTHS = {'month': 1, 'quarter': 3, 'year': 12}
# The option that names a window.
WITHIN = {'--in DAYS': 'these days alone: 2024, 2024-Q2, 2024-03, a day, or two of them as'
                       ' FIRST..LAST, with both in it'}


class Window(NamedTuple):
    """A named range of days."""
    name: str
    period: Period


def first_of(month: int) -> int:
    """The first day of a month, which is counted from the first of the year 0 on."""
    if month >= 12 * 10_000:
        return LAST
    return datetime.date(month // 12, month % 12 + 1, 1).toordinal()


def month_of(day: int) -> int:
    """The month of a day, counted so."""
    date = datetime.date.fromordinal(day)
    return date.year * 12 + date.month - 1


def named(number: int, length: int) -> str:
    """The name of a number of months: 2024, 2024-Q2 or 2024-03."""
    year = f'{number // 12:04}'
    if length == 12:
        return year
    return f'{year}-Q{number % 12 // 3 + 1}' if length == 3 else f'{year}-{number % 12 + 1:02}'


def months(first: int, end: int, kind: str) -> Iterator[Window]:
    """The months (quarters, years) that have a day from `first` on and before `end`."""
    length = MONTHS[kind]
    number = month_of(first) // length * length
    while first_of(number) < end:
        yield Window(named(number, length), (first_of(number), first_of(number + length)))
        number += length


def one_window(text: str) -> Period:
    """The window that is written as 2024, 2024-Q2, 2024-03 or a day. ValueError if it is none of
    them."""
    found = re.fullmatch(r'(\d{4})(?:-(?:Q([1-4])|(\d\d)))?', text)
    if not found:
        day = ordinal(text)
        return day, day + 1
    length = 3 if found[2] else 1 if found[3] else 12
    month = int(found[2]) * 3 - 2 if found[2] else int(found[3] or 1)
    first = datetime.date(int(found[1]), month, 1).toordinal()
    return first, first_of(month_of(first) + length)


def window(text: str) -> Window:
    """One such text, or FIRST..LAST of two of them."""
    first, _, last = text.partition('..')
    try:
        start, end = one_window(first)[0], one_window(last or first)[1]
        if start < end <= LAST:
            return Window(text, (start, end))
    except ValueError:
        pass
    raise Fault(f'{text} is no range of days: write 2024, 2024-Q2, 2024-03, 2024-03-15, or two of'
                ' them as FIRST..LAST, with the last day in it')
