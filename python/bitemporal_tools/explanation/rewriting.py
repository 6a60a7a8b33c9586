"""The mends of slips that a template doesn't write.

Each call gets the groups of the slip's pattern, as texts of the statement's own tokens, and the
tables that exist; it gives what is put in the place of the group `out`, or a pair of this and
of what the sentence has for it.
"""
import datetime
import re
from typing import Optional, Union

from bitemporal_tools.sql.catalog import Table
from bitemporal_tools.sql.lexis import lexed
from bitemporal_tools.sql.literals import date_of


Groups = dict[str, str]
Tables = dict[str, Table]


def columns_of(groups: Groups, tables: Tables) -> Union[str, tuple[str, str]]:
    """The value columns of a table; of the first of several, which may have a new name, with its
    name before them."""
    table, front = tables.get(groups['table'].upper()), 'VALIDTIME SELECT DISTINCT '
    if not table:
        return front + 'A', front + '..'
    name = (groups['new'] or groups['table']) + '.' if 'new' in groups else ''
    return front + ', '.join(name + column for column in table.value_names)


def equal_columns(groups: Groups, tables: Tables) -> str:
    """The condition of a join USING some columns."""
    one, two = groups['new'] or groups['one'], groups['other'] or groups['two']
    names = groups['by'].split(', ')
    return 'ON ' + ' AND '.join(f'{one}.{name} = {two}.{name}' for name in names)


def meant(groups: Groups, tables: Tables) -> str:
    """A comparison with a value that might mean what is not known."""
    name = groups['left'].split('.')[-1].strip().upper()
    kinds = [table.by_name[name].kind for table in tables.values() if name in table.by_name]
    value = {'INTEGER': '0', 'DATE': "DATE '9999-12-31'"}.get(''.join(kinds[:1]), "''")
    return f'{groups["left"]} = {value}'


def end_of_key(groups: Groups, tables: Tables) -> str:
    names = groups['names'].upper().split(', ')
    if len(names) > 1 and names[-1] == groups['period'].upper():
        return ' WITHOUT OVERLAPS'
    return f', {groups["period"]} WITHOUT OVERLAPS'


def whole_number(groups: Groups, tables: Tables) -> str:
    """The number without its point, as cents if it has two digits after it."""
    return groups['whole'] + (groups['part'] + '00')[:max(2, len(groups['part']))]


def comparisons(groups: Groups, tables: Tables) -> str:
    """A list of values as comparisons."""
    sign, word = ('<>', ' AND ') if groups.get('no') else ('=', ' OR ')
    items: list[list[str]] = []
    item: list[str] = []
    for token in lexed(groups['items']):
        if token.word == ',':
            items, item = [*items, item], []
        else:
            item.append(token.text)
    tests = [f'{groups["left"]} {sign} {" ".join(it)}'.replace('- ', '-') for it in [*items, item]]
    return f'({word.join(tests)})' if len(tests) > 1 else tests[0]


def between(groups: Groups, tables: Tables) -> str:
    left, low, high = (groups[name] for name in ('left', 'low', 'high'))
    return f'({left} < {low} OR {left} > {high})' if groups.get('no') else \
        f'({left} >= {low} AND {left} <= {high})'


def like(groups: Groups, tables: Tables) -> str:
    """The texts that begin as the pattern does, or that are its text."""
    left, text = groups['left'], groups['text'][1:-1]
    start = re.split('[%_]', text)[0]
    if start == text:
        return f"{left} {'<>' if groups.get('no') else '='} '{text}'"
    if not start or not start[-1].isalnum():
        return f"{left} = '{text}'"
    after = start[:-1] + chr(ord(start[-1]) + 1)
    if groups.get('no'):
        return f"({left} < '{start}' OR {left} >= '{after}')"
    return f"({left} >= '{start}' AND {left} < '{after}')"


def same_as_like(groups: Groups, tables: Tables) -> tuple[Optional[str], str]:
    """A comparison that is met by the same texts, if there is one."""
    pattern = groups['text'][1:-1]
    start = pattern.rstrip('%')
    if groups.get('any') or re.search('[%_]', start) or not start or \
            pattern != start and not start[-1].isalnum():
        return None, 'ask which texts there are, and compare with each of them by ='
    condition = like(groups, tables)
    return condition, f'compare by = and by <, such as {condition}'


def portion(groups: Groups, tables: Tables) -> tuple[None, str]:
    """Advice to name the days of a change in the place of a period predicate. Nothing is put."""
    found = re.fullmatch(r"(\w+) (?:CONTAINS DATE '(.*)'"
                         r"|OVERLAPS PERIOD ?\(DATE '(.*)', ?DATE '(.*)'\))", groups['out'])
    first, end = (found[2] or found[3], found[4] or day_after(found[2])) if found else (None, None)
    if not (found and end):
        return None, (f'Ask for the rows by SELECT * .. WHERE {groups["out"]}, and name each by its'
                      ' key.')
    return None, (f"Name the days after the table's name, in place of {groups['out']}: FOR PORTION"
                  f" OF {found[1]} FROM DATE '{first}' TO DATE '{end}'.")


def day_after(text: str) -> Optional[str]:
    day = date_of(text)
    return str(day + datetime.timedelta(1)) if day and day < datetime.date.max else None


def days_of_others(groups: Groups, tables: Tables) -> str:
    """The WHERE of a stored query for the days that another database takes after FOR."""
    days = f'CONTAINS DATE {groups["day"]}' if groups['day'] else \
        f'OVERLAPS PERIOD (DATE {groups["start"]}, DATE {groups["end"]})'
    more = f' AND ({groups["where"]})' if groups['where'] else ''
    return f'WHERE {groups["period"]} {days}{more}'
