"""The SQL that tools write around answers and tables, as SQL of sqlite: casts, typed literals,
intervals, EXTRACT, - and + of dates, percentiles, and names in double quotes."""
import re
from typing import AbstractSet

from bitemporal_tools.sql.lexis import Token

from .date_signs import ENDS, NAME, Level, add_difference, bare, operand
from .lexis import bracketed, literal, taken, text_of, type_at
from .moments import AS_MOMENT, MOMENT, plain
from .problems import Problem

DATES = {'DATE': 'as_date', 'TIMESTAMP': 'as_timestamp', 'TIMESTAMPTZ': 'as_timestamp'}
# The type of sqlite for a cast, by the first word of its own.
TYPES = {**dict.fromkeys(('INT', 'INT2', 'INT4', 'INT8', 'INTEGER', 'BIGINT', 'SMALLINT'),
                         'INTEGER'),
         **dict.fromkeys(('TEXT', 'VARCHAR', 'CHARACTER', 'CHAR', 'BPCHAR', 'NAME'), 'TEXT'),
         **dict.fromkeys(('FLOAT', 'FLOAT4', 'FLOAT8', 'DOUBLE', 'REAL', 'NUMERIC', 'DECIMAL'),
                         'REAL')}
UNITS = ('SECOND', 'MINUTE', 'HOUR', 'DAY', 'MONTH', 'YEAR')
# Calls that are written otherwise.
CALLS = {'EXTRACT': ('EXTRACT', '(', 'word', 'FROM'),
         'PERCENTILE_CONT': ('PERCENTILE_CONT', '(', 'number', ')', 'WITHIN', 'GROUP', '(', 'ORDER',
                             'BY')}
# The words that say which rows there are, and what may come after it.
CONDITIONS = ('WHERE', 'HAVING', 'LIMIT', 'OFFSET')
AFTER = ('GROUP', 'ORDER', 'UNION', 'EXCEPT', 'INTERSECT', 'WINDOW')
# Another name for a column, or for a date.
ALIAS = re.compile(rf'(?:(?<!\w)({NAME})(?:\s*\))?|COLLATE moment)\s+AS\s+({NAME})', re.I)
MOST_ALIASES = 10  # of one another


def translated(tokens: 'list[Token]', dates: AbstractSet[str]) -> 'list[str]':
    """Tokens as parts of a text that sqlite understands. `dates` are the names of columns of dates
    and moments, in upper case."""
    found: 'list[str]' = []
    for _ in range(MOST_ALIASES):
        found = around(tokens, dates)
        more = {bare(alias) for name, alias in ALIAS.findall(''.join(found))
                if not name or bare(name) in dates} - dates
        if not more:
            break
        dates = dates | more
    return found


def around(tokens: 'list[Token]', dates: AbstractSet[str]) -> 'list[str]':
    """Tokens as parts of a text that sqlite understands, if all columns of dates are known."""
    parts: 'list[str]' = []
    levels, at = [Level()], 0
    while at < len(tokens):
        token, level = tokens[at], levels[-1]
        if token.word in ENDS or token.kind == 'symbol' and token.word[0] in ENDS:
            add_difference(parts, level, dates)
        end = several(tokens, at, parts, levels)
        at = end or at + 1
        if end:
            continue
        if token.word == ')' and len(levels) > 1:
            close(parts, level)
            levels.pop()
            continue
        if token.word == '(':
            levels.append(Level(len(parts)))
        elif token.word == 'AS':
            level.as_at = len(parts)
        elif token.word in ('+', '-') and parts:
            level.sign = len(parts)
        parts.append(spelled(token))
    add_difference(parts, levels[-1], dates)
    return parts


def several(tokens: 'list[Token]', at: int, parts: 'list[str]', levels: 'list[Level]') -> int:
    """Adds what several tokens at a place mean together. Gives the place behind them, else 0."""
    word, end = tokens[at].word, 0
    if word == '::':
        name, end = type_at(tokens, at + 1)
        cast(parts, name, tokens[end - 1].word == ')')
    elif word in DATES:
        for more in ((), ('WITH', 'TIME', 'ZONE'), ('WITHOUT', 'TIME', 'ZONE')):
            end = end or taken(tokens, at + 1, *more, 'text')
        if end:
            parts.append(literal(plain(text_of(tokens[end - 1]))))
    elif word in ('INTERVAL', '('):
        interval, end = interval_at(tokens, at)
        if end:
            add_interval(parts, interval)
    elif word in CALLS:
        end = taken(tokens, at, *CALLS[word])
        if end:
            given = [it.text for it in tokens[at + 1:end] if it.kind in ('word', 'number')][0]
            levels.append(Level(len(parts)))
            parts.append(f"date_part('{given}'," if word == 'EXTRACT' else
                         f'percentile_cont({given},')
    return end


def interval_at(tokens: 'list[Token]', at: int) -> 'tuple[str, int]':
    """The interval at a place, perhaps in parentheses, and the place behind it; 0 if it is none."""
    begin = taken(tokens, at, '(') or at
    end = taken(tokens, begin, 'INTERVAL', 'text')
    text = text_of(tokens[end - 1])
    unit = next((it for it in UNITS if end and taken(tokens, end, it)), '')
    end = taken(tokens, end, unit) if unit else end
    return f'{text} {unit}'.strip(), end and (end if begin == at else taken(tokens, end, ')'))


def spelled(token: Token) -> str:
    """A token as sqlite has it."""
    text = text_of(token)
    if token.kind in ('text', 'escaped'):
        return literal(plain(text) if 'T' in text and MOMENT.fullmatch(text) else text)
    if token.kind == 'quoted':
        return bracketed(token)
    if token.kind == 'parameter':
        return f'?{text[1:]}'
    # MATCH is the operator of a function that has the name `match`.
    return ' ' if token.kind == 'blank' else 'MATCH' if token.word == 'ILIKE' else text


def kind_of(name: str, text: str) -> str:
    """The type of a cast, by its first word and the rest of it."""
    if name not in DATES and name not in TYPES or name not in DATES and '(' in text:
        raise Problem('42704', f'sqlite casts nothing to {name.lower()}{" (..)" * ("(" in text)}')
    return name


def close(parts: 'list[str]', level: Level) -> None:
    """Closes a parenthesis: the one of CAST(.. AS DATE) is a call's."""
    before, as_at = level.begin - 1, level.as_at
    while before >= 0 and not parts[before].strip():
        before -= 1
    name = parts[before].upper() if before >= 0 else ''
    called = None
    if name == 'CAST' and as_at:
        kind = ''.join(parts[as_at + 1:]).strip(' []').upper()
        called = DATES.get(kind_of(kind.split(' ')[0].split('(')[0], kind))
    if called:
        parts[before] = called
        del parts[as_at:]
    parts.append(')' + AS_MOMENT if called or name == 'DATE_TRUNC' else ')')


def cast(parts: 'list[str]', name: str, has_length: bool) -> None:
    """Casts the last operand to a type."""
    inner, name = operand(parts), kind_of(name, '(' * has_length)
    parts.append(f'{DATES[name]}({inner}){AS_MOMENT}' if name in DATES else
                 f'CAST({inner} AS {TYPES[name]})')


def add_interval(parts: 'list[str]', interval: str) -> None:
    """Adds an interval to the operand before its sign, or subtracts it."""
    while parts and not parts[-1].strip():
        parts.pop()
    sign = parts.pop() if parts and parts[-1] in '+-' else '+'
    parts.append(f"plus_interval({operand(parts)}, '{sign}', '{interval}'){AS_MOMENT}")


def without_conditions(parts: 'list[str]') -> 'list[str]':
    """Parts of a text without what says which rows there are. Its columns have the same types."""
    found: 'list[str]' = []
    skips = [False, False]  # of the levels around each place, and of its own
    for part in parts:
        if part.startswith(')') and len(skips) > 2:
            skips.pop()
        if part.upper() in CONDITIONS:
            skips[-1] = True
        elif part.upper() in AFTER:
            skips[-1] = skips[-2]
        if not skips[-1]:
            found.append(part)
        if part.endswith(('(', ',')) and part != ',':
            skips.append(skips[-1])
    return found
