"""Dates and moments for sqlite, which has them as texts: how they compare, and the functions of
PostgreSQL that tools use of them and of texts."""
import calendar
import datetime
import functools
import re
import sqlite3
from typing import Any, Callable

from .aggregates import AGGREGATES, Percentile
from .engine import machine_time
from .lexis import literal
from .system_texts import quote_ident

MOMENT = re.compile(r'(\d{4}-\d\d-\d\d)(?:[ T](\d\d:\d\d)(?:(:\d\d)(?:\.(\d{1,6}))?)?)?'
                    r' ?(?:Z|[+-]\d\d(?::?\d\d)?)?', re.ASCII)
# After what gives a date or a moment, so that it compares as one.
AS_MOMENT = ' COLLATE moment'
INTERVAL = re.compile(r'([+-]?\d+)\s*([a-z]+?)s?\b', re.I)
# An interval as `span` writes it.
SPAN = re.compile(r'(?:(-?\d+) days?)? ?(?:(-?)(\d+):(\d\d):(\d\d(?:\.\d+)?))?')
PATTERNS = {'YYYY': '%Y', 'MM': '%m', 'DD': '%d', 'HH24': '%H', 'MI': '%M', 'SS': '%S',
            'Month': '%B', 'Mon': '%b', 'Day': '%A', 'Dy': '%a', 'IYYY': '%G', 'IW': '%V'}
PATTERN = re.compile('|'.join(sorted(PATTERNS, key=len, reverse=True)))
KEPT = ('year', 'month', 'day', 'hour', 'minute', 'second')
SECONDS = {'second': 1, 'minute': 60, 'hour': 3600, 'day': 86400, 'week': 7 * 86400}
MONTHS = {'month': 1, 'quarter': 3, 'year': 12}


def plain(text: str) -> str:
    """A date or a moment as the profile writes it, without a time zone; other texts as they are."""
    found = MOMENT.fullmatch(text)
    if not found:
        return text
    day, clock, seconds, fraction = found.groups('')
    fraction = '.' + fraction.ljust(6, '0') if fraction.strip('0') else ''
    return day + (f' {clock}{seconds or ":00"}{fraction}' if clock else '')


def whole(text: str) -> str:
    """The moment that a text is, a date at its midnight."""
    text = plain(text)
    return text + ' 00:00:00' if len(text) == 10 else text


def order(left: str, right: str) -> int:
    """The order of two dates or moments, by which sqlite compares columns of them."""
    if len(left) != len(right):
        left, right = whole(left), whole(right)
    return (left > right) - (left < right)


def at(text: str) -> datetime.datetime:
    """The moment of a text."""
    return datetime.datetime.fromisoformat(whole(text))


def strict(function: Callable[..., Any]) -> Callable[..., Any]:
    """A function that gives NULL if it is given NULL."""
    return lambda *given: None if None in given else function(*given)


def date_trunc(unit: str, text: str) -> str:
    """The first moment of the unit that a moment is in."""
    moment, unit = at(text), unit.lower()
    if unit == 'week':
        moment, unit = moment - datetime.timedelta(moment.weekday()), 'day'
    if unit == 'quarter':
        moment, unit = moment.replace(day=1, month=moment.month - (moment.month - 1) % 3), 'month'
    first = {name: 1 if name in ('month', 'day') else 0 for name in KEPT[KEPT.index(unit) + 1:]}
    return moment.replace(microsecond=0, **first).isoformat(' ')  # type: ignore[arg-type]


def epoch(text: str) -> float:
    """The seconds of an interval, or of a moment since 1970."""
    spans = SPAN.fullmatch(text)
    if not text or not spans:
        return (at(text) - datetime.datetime(1970, 1, 1)).total_seconds()
    days, sign, *clock = spans.groups('0')
    hours, minutes, seconds = map(float, clock)
    return int(days) * 86400 + float(f'{sign}1') * (hours * 3600 + minutes * 60 + seconds)


def date_part(unit: str, text: Any) -> Any:
    """A number of a moment, as its year or its seconds since 1970; or an interval's seconds."""
    unit = unit.lower()
    if unit == 'epoch':
        seconds = epoch(str(text))
        return int(seconds) if seconds == int(seconds) else seconds
    moment = at(text)
    if unit in KEPT:
        return getattr(moment, unit)
    return {'quarter': (moment.month + 2) // 3, 'week': moment.isocalendar()[1],
            'isoyear': moment.isocalendar()[0], 'dow': moment.isoweekday() % 7,
            'isodow': moment.isoweekday(), 'doy': moment.timetuple().tm_yday}[unit]


def to_char(text: str, form: str) -> str:
    """A moment by a pattern of PostgreSQL's, of letters that are in PATTERNS."""
    moment = at(text)
    return PATTERN.sub(lambda found: moment.strftime(PATTERNS[found[0]]), form)


def plus_interval(text: str, sign: str, interval: str) -> str:
    """A moment plus or minus an interval, such as '-12 month'."""
    moment = at(text)
    for count, unit in INTERVAL.findall(interval):
        number = int(sign + '1') * int(count)
        if unit.lower() in MONTHS:
            months = moment.year * 12 + moment.month - 1 + number * MONTHS[unit.lower()]
            moment = moment.replace(year=months // 12, month=months % 12 + 1,
                                    day=min(moment.day, calendar.monthrange(
                                        months // 12, months % 12 + 1)[1]))
        else:
            moment += datetime.timedelta(seconds=number * SECONDS[unit.lower()])
    return moment.isoformat(' ')


def span(start: str, end: str) -> str:
    """The interval from a moment to another, as PostgreSQL writes it."""
    apart = at(end) - at(start)
    sign = '-' if apart < datetime.timedelta(0) else ''
    rest = abs(apart) - datetime.timedelta(abs(apart).days)
    days = f"{sign}{abs(apart).days} day{'' if abs(apart).days == 1 and not sign else 's'}" \
        if abs(apart).days else ''
    clock = f'{sign}{str(rest).rjust(8, "0")}' if rest or not days else ''
    return f'{days} {clock}'.strip()


def days_before(cell: Any, other: Any) -> Any:
    """The meaning of -: between dates the number of days, between moments the interval, of a date
    and a number the date so many days earlier; of numbers as ever."""
    if isinstance(other, str):
        day, other_day = plain(str(cell)), plain(other)
        return (at(day) - at(other_day)).days if len(day) == len(other_day) == 10 else \
            span(other_day, day)
    return days_after(cell, -other)


def days_after(cell: Any, other: Any) -> Any:
    """The meaning of +: of a date and a number the date so many days later; of numbers as ever."""
    date, number = (cell, other) if isinstance(cell, str) else (other, cell)
    if not isinstance(date, str):
        return date + number
    return (datetime.date.fromisoformat(plain(date)) + datetime.timedelta(number)).isoformat()


def extreme(choose: Callable[..., Any]) -> Callable[..., Any]:
    """GREATEST or LEAST, by max or min."""
    return lambda *cells: choose([cell for cell in cells if cell is not None], default=None)


FUNCTIONS: 'dict[str, tuple[int, Callable[..., Any]]]' = {
    'as_date': (1, lambda text: plain(str(text))[:10]),
    'as_timestamp': (1, lambda text: whole(str(text))), 'date_trunc': (2, date_trunc),
    'date_part': (2, date_part), 'to_char': (2, to_char), 'plus_interval': (3, plus_interval),
    'now': (0, machine_time), 'greatest': (-1, extreme(max)),
    'concat': (-1, lambda *cells: ''.join(str(it) for it in cells if it is not None)),
    'least': (-1, extreme(min)), 'days_before': (2, days_before), 'days_after': (2, days_after),
    'quote_literal': (1, lambda text: literal(str(text))),
    'quote_ident': (1, quote_ident)}


def teach(database: sqlite3.Connection, other: sqlite3.Connection,
          add: Callable[[int], None]) -> None:
    """Gives an sqlite the order of moments and the functions. LIKE minds case then, and MATCH, for
    ILIKE, does not, as the other one has it. `add` counts bytes that aggregates hold."""
    database.create_collation('moment', order)
    for name, (count, function) in FUNCTIONS.items():
        database.create_function(name, count, function if count < 0 else strict(function))
    for name, aggregate in AGGREGATES.items():
        database.create_aggregate(name, 1, aggregate)
    percentile: Any = functools.partial(Percentile, add)
    database.create_aggregate('percentile_cont', 2, percentile)

    def ilike(pattern: Any, text: Any) -> Any:
        return other.execute('SELECT ? LIKE ?', [text, pattern]).fetchone()[0]

    database.create_function('match', 2, ilike)
    database.execute('PRAGMA case_sensitive_like = ON')
