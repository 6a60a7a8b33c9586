#!/usr/bin/env python3
"""Runs random scripts and compares each report with that of a model.

    fuzz/random_runs.py [--seed N] [--count N] [--forms WORDS] [--audit] [PROGRAM]

Each script has a seed of its own, N, N + 1 and so on: `--seed K --count 1` gives script K again.
`PROGRAM run`, or with --audit `PROGRAM run --audit`, reads the script from standard input; PROGRAM
is the proved program unless it is named.

The scripts are AT, CREATE TABLE, INSERT and VALIDTIME SELECT DISTINCT of columns of one table, in
few names, values, days and moments, so that they clash. WORDS, with commas between them, add forms:

    changes   UPDATE and DELETE, with portions and conditions
    stored    SELECT *, with windows, conditions and period predicates
    queries   sequenced queries with conditions, joins, windows, UNION, EXCEPT and INTERSECT
    keys      no other statements; but keys and references are checked

Most statements are sound. The others have one fault or several, so that it shows which refusal is
answered. The model is in random_runs_model.py.

If the report or the exit status isn't the model's, or standard error isn't empty, the script is
made smaller while this stays so. Then the seed, the script and both reports are printed, and the
exit status is 1.
"""
import argparse
import datetime
import pathlib
import random
import subprocess
import sys

import folders  # noqa: F401
import program as proved
from random_runs_model import (
    BAD_MOMENTS, COMPARISONS, DAY, FIRST, FOREVER, GREATEST_NUMBER, LAST, LEAST_NUMBER, MOMENTS,
    MOST_COLUMNS, MOST_REFERENCES, MOST_SET_OPERATORS, MOST_TABLES,
    MOST_TABLES_OF_A_SELECT, MOST_TOKENS, OPERATORS, PREDICATES, And, AsOf, Assignment, At, BadDate,
    Between, Chain, Column, Comparison, ContainsDay, Create, Delete, FromTo, Insert, Item, Join,
    Key, Model, Name, Not, Operand, Or, Period, Portion, Predicate, Query, Reference, Select,
    SetOperators, Span, Stored, Table, TableReference, Update)
from random_runs_text import TOKEN, Writer

# The forms that the program runs besides the first ones.
RUNS = 'changes,stored,queries,keys'

# Random scripts.

DAYS = [datetime.date(2024, 2, 26) + number * DAY for number in range(8)]
ODD_DAYS = [FIRST, FIRST + DAY, datetime.date(4, 2, 29), datetime.date(1900, 3, 1),
            datetime.date(1969, 12, 31), datetime.date(1970, 1, 1), LAST - DAY, LAST]
BAD_DATES = [BadDate(text) for text in (
    '2023-02-29', '1900-02-29', '0000-12-31', '10000-01-01', '2024-13-01', '2024-00-10', '',
    '2024-04-31', '2024-01-00', '2024-1-01', ' 2024-01-1', '2024/01/01', '-024-01-01', '20240101',
    '2024-01-01 ', "2024-01-0'", '2024-01-0\u0661', '\uff12024-01')]
NUMBERS = [0, 1, -1, 2, 9, 10, -10, LEAST_NUMBER, GREATEST_NUMBER]
BAD_NUMBERS = [LEAST_NUMBER - 1, GREATEST_NUMBER + 1, 10 ** 40]
TEXTS = ['', 'a', 'B', 'ab', "'", '"', ',', '\n', '\r', '\r\n', ';', '--', '\0', '\t', '\x7f', ' ',
         'a"b', ' , ', '\u00e9', 'e\u0301', '\u2028', '\ufeff', '\uffff', '\U00010000', '0',
         '\u65e5\u672c', 'none']
LETTERS = ["'", '"', 'x', '\n', '\u00e9', '\u65e5', '\U0001f600']
TABLES = ['T', 'U', 'V', 'W']
NAMES = TABLES + ['A', 'B', 'C', 'D2', 'E', '_P', 'SS', 'VALID_TO']
KINDS = ['INTEGER', 'VARCHAR', 'DATE', 'TIMESTAMP']
# Texts that a fault puts in the fields of statements, if that isn't a name.
FIELDS = {'kind': KINDS, 'number': [None, 0, 1, 12, 13, 1000, 1001, GREATEST_NUMBER + 1],
          'generated': [None, 'START', 'END'], 'moment': [*MOMENTS, *BAD_MOMENTS, FOREVER],
          'until': [*MOMENTS, *BAD_MOMENTS, FOREVER], 'text': [date.text for date in BAD_DATES],
          'qualifier': [None, *NAMES], 'new_name': [None, *NAMES], 'sign': list(COMPARISONS),
          'word': list(PREDICATES), 'operator': list(OPERATORS), 'where': [None],
          'window': [None], 'portion': [None]}
LITERALS = {'rows', 'value', 'left', 'right'}  # fields of any literal
MOST = {Reference: MOST_REFERENCES, Chain: MOST_TABLES_OF_A_SELECT, Operand: MOST_SET_OPERATORS,
        Join: MOST_TABLES_OF_A_SELECT - 1}


def weight(part):
    """The weight of a part that may be chosen for a fault: by what is in it, columns less than the
    rest."""
    share = 3 if isinstance(part, (Period, Key, Reference)) else 1
    return share * (1 + sum(map(weight, part))) if isinstance(part, tuple) else 1


class Generator:
    """Makes statements, each for the tables that exist after those before it."""

    def __init__(self, chance, forms):
        self.chance = chance
        self.choice = chance.choice
        self.forms = forms
        # Lists in which nothing may be more or less: then a statement would be of another form.
        self.fixed = {'dates'} if 'queries' in forms else {'dates', 'chains', 'joins'}
        self.model = Model('keys' in forms, False)
        self.statements = []
        self.is_small = True  # whether the script has few rows

    def at(self, share):
        return self.chance.random() < share

    def shuffled(self, items):
        return self.chance.sample(items, len(items))

    def some(self, items):
        """A choice of distinct items in a random order, at least one."""
        return self.chance.sample(items, self.chance.randint(1, len(items)))

    def add(self, statement):
        self.statements.append(statement)
        if isinstance(statement, (At, Create)):
            self.model.step(statement, 0)

    def script(self):
        if self.at(0.02):  # as many tables as there may be, or nearly
            for number in range(MOST_TABLES - self.choice((0, 1, 2))):
                self.add(self.create()._replace(name=f'X{number}'))
        more = [*[self.update, self.delete] * ('changes' in self.forms),
                *[self.stored] * ('stored' in self.forms)]
        self.is_small = self.at(0.5)
        if self.is_small:  # statements of all sorts, faults in many of them
            if self.at(0.8):
                self.add(self.create())
                self.add(self.insert())
            for _ in range(self.chance.randint(1, 30)):
                statement = self.choice((self.advance, self.create, self.create, self.insert,
                                         self.query, *more))()
                for _ in range(self.choice((0, 0, 1, 1, 1, 2, 3, 5))):
                    statement = self.changed(statement)
                self.add(statement)
            return self.statements
        for _ in range(self.chance.randint(1, 3)):  # a few tables of many rows
            self.add(self.create())
        for _ in range(self.chance.randint(1, 40)):
            self.add(self.choice((self.advance, *[self.insert] * 6, *[self.query] * 3,
                                  *more * 2))())
        if self.at(0.02):
            self.add(self.long_insert())
        for name, table in list(self.model.tables.items())[-3:]:  # each set of columns
            for chosen in range(1, 2 ** min(len(table.values), 5)):
                self.add(Query(Select(
                    tuple(Item(Name(None, column), None)
                          for place, column in enumerate(table.values) if chosen >> place & 1),
                    (Chain(TableReference(name, None, None), ()),), None)))
            if 'stored' in self.forms:
                self.add(Stored(name, FromTo(MOMENTS[0], FOREVER), None))
        return self.statements

    def advance(self):
        return At(self.choice([moment for moment in MOMENTS if moment >= self.model.clock]))

    def create(self):
        names = self.shuffled(NAMES)
        period, start, end, row_start, row_end = (names.pop() for _ in range(5))
        columns, references = [], []
        for table_name, table in list(self.model.tables.items())[-2:]:
            if self.at(0.6) and len(table.key) <= len(names):
                key = self.shuffled(table.key)
                own = [self.value_column(names.pop(), table.columns[name].kind) for name in key]
                columns += own
                references.append(Reference(tuple(column.name for column in own), period,
                                            table_name, tuple(key), table.period.name))
        while not columns or names and self.at(0.6):
            columns.append(self.value_column(names.pop(), self.choice(KINDS[:3])))
        elements = self.shuffled([
            *columns, Column(start, 'DATE', None, None), Column(end, 'DATE', None, None),
            Column(row_start, 'TIMESTAMP', self.choice((None, 0, 6, 12)), 'START'),
            Column(row_end, 'TIMESTAMP', self.choice((None, 0, 6, 12)), 'END'),
            Period(period, start, end), Period('SYSTEM_TIME', row_start, row_end),
            Key(tuple(self.some([column.name for column in columns[-3:]])), period), *references])
        free = [name for name in TABLES if name not in self.model.tables]
        new = [f'Y{len(self.model.tables)}']
        return Create(self.choice(TABLES if self.at(0.05) else free or new), tuple(elements))

    def value_column(self, name, kind):
        return Column(name, kind, self.choice((1, 2, 3, 30, 1000)), None)

    def table(self):
        """The name of a table, which exists mostly, and what is in it or might be."""
        there = list(self.model.tables)
        name = self.choice(there[-4:] if there and self.at(0.98) else TABLES)
        return name, self.model.tables.get(name) or Table(name, self.create().elements)

    def insert(self):
        name, table = self.table()
        columns = self.shuffled(table.given) if self.at(0.5) else None
        if self.at(0.03):
            columns = self.some(table.given)
        rows = [self.row(table, columns or table.given) for _ in range(self.chance.randint(1, 6))]
        return Insert(name, columns and tuple(columns), tuple(rows))

    def dates(self):
        days = ODD_DAYS if self.at(0.1) else DAYS
        return tuple(sorted(self.chance.sample(days, 2)))

    def row(self, table, columns):
        row = {name: self.value(table.columns[name]) for name in table.given}
        row[table.period.start], row[table.period.end] = self.dates()
        return tuple(row[name] for name in columns)

    def value(self, column):
        if column.kind == 'INTEGER':
            return self.choice(NUMBERS if self.at(0.3) else NUMBERS[:2])
        if column.kind == 'DATE':
            return self.choice(ODD_DAYS if self.at(0.3) else DAYS[:2])
        if self.at(0.1):  # as long as the column takes
            return self.choice(LETTERS) * column.number
        texts = [text for text in TEXTS if len(text) <= column.number]
        return self.choice(texts if self.at(0.5) else texts[:2])

    def long_insert(self):
        """An INSERT that has, written plainly, as many tokens as there may be, or one off."""
        name, table = self.table()
        row = [{int: 1, str: 'x'}.get(type(value), value)
               for value in self.row(table, table.given)]
        if 1 not in row:
            return self.insert()
        place, goal = row.index(1), MOST_TOKENS + self.choice((-1, 0, 1))
        tokens = len(TOKEN.findall(Writer(None).statement(Insert(name, None, (row,))))) - 3
        count, signs = divmod(goal - 3, tokens)  # a minus sign is a token
        return Insert(name, None, tuple(
            (*row[:place], -number if number <= signs else number, *row[place + 1:])
            for number in range(1, count + 1)))

    def update(self):
        name, table = self.table()
        sets = tuple(Assignment(column, self.value(table.columns[column]))
                     for column in self.some(table.values)[:2])
        return Update(name, self.portion(table), sets, self.where([(name, table)]))

    def delete(self):
        name, table = self.table()
        return Delete(name, self.portion(table), self.where([(name, table)]))

    def portion(self, table):
        return Portion(table.period.name, self.dates()) if self.at(0.8) else None

    def stored(self):
        name, table = self.table()
        return Stored(name, self.window(), self.where([(name, table)], table.period.name))

    def window(self):
        moments = [*MOMENTS, FOREVER]
        return self.choice((None, AsOf(self.choice(MOMENTS)),
                            FromTo(self.choice(moments), self.choice(moments)),
                            Between(self.choice(moments), self.choice(moments))))

    def where(self, tables, period=None):
        if not self.at(0.7):
            return None
        condition = self.condition(tables, period, 3)
        if len(tables) > 1 and self.at(0.3):
            condition = self.joined(tables, condition)
        return self.by_key(tables, condition) if self.at(0.3) else condition

    def joined(self, tables, condition):
        """A condition that first columns of a table's key, or of one of its references, equal
        columns of other tables, before it or behind; beside it the given one."""
        place = self.chance.randrange(len(tables))
        known, table = tables[place]
        others = [*tables[:place], *tables[place + 1:]]
        if self.at(0.5):
            others = [self.choice(others)]
        key = self.looked_up(table)
        parts = []
        for column in key[:self.chance.randint(1, len(key))]:
            kind = table.columns[column].kind
            alike = [(other, name) for other, beside in others
                     for name in beside.values if beside.columns[name].kind == kind]
            if alike:
                left, right = self.shuffled([self.name(known, column, tables),
                                             self.name(*self.choice(alike), tables)])
                parts.append(Comparison(left, '=', right))
        parts = self.shuffled([*parts, *[condition] * self.at(0.5)])
        return And(tuple(parts)) if len(parts) > 1 else [*parts, condition][0]

    def looked_up(self, table):
        """Columns by which rows of a table are looked up, or might be."""
        if table.references and self.at(0.2):
            return self.choice(table.references).columns
        return table.key if self.at(0.9) else table.key[1:] or table.key

    def by_key(self, tables, condition):
        """A condition that first columns of a table's key, mostly all, equal literals, and the next
        one is in limits; beside it the given one."""
        known, table = self.choice(tables)
        key = self.looked_up(table)
        count = len(key) if self.at(0.5) else self.choice(range(len(key) + 1))
        parts = [self.compared(known, table, column, '=', tables) for column in key[:count]]
        for column in key[count:count + 1]:
            signs = self.choice((('<',), ('<=',), ('>',), ('>=',), ('>=', '<'), ('>', '<='),
                                 ('>', '<'), ('>=', '<='), ('>', '>='), ('<', '<')))
            parts += [self.compared(known, table, column, sign, tables) for sign in signs]
        parts = self.shuffled([*parts, *[condition] * self.at(0.6)])
        if len(parts) < 2:
            return parts[0] if parts else condition
        return (Or if self.at(0.1) else And)(tuple(parts))

    def compared(self, known, table, column, sign, tables):
        """A condition that a column compares so with a literal, or the literal with it."""
        sides = [self.name(known, column, tables), self.value(table.columns[column])]
        if self.at(0.3):
            sides.reverse()
        return Comparison(sides[0], sign, sides[1])

    def condition(self, tables, period, depth):
        """A condition over tables, each with its name there; over a named period too."""
        if depth and self.at(0.4):
            if self.at(0.3):
                return Not(self.condition(tables, period, depth - 1))
            return self.choice((Or, And))(tuple(self.condition(tables, period, depth - 1)
                                                for _ in range(self.choice((2, 2, 3)))))
        if period and self.at(0.6):
            span = self.span(period, tables[0][0])
            if self.at(0.2):
                return ContainsDay(span, self.choice(DAYS))
            return Predicate(span, self.choice(list(PREDICATES)), self.span(period, tables[0][0]))
        known, table = self.choice(tables)
        column = self.choice(table.values)
        kind = table.columns[column].kind
        alike = [(other_known, other) for other_known, other_table in tables
                 for other in other_table.values if other_table.columns[other].kind == kind]
        sides = [self.name(known, column, tables),
                 self.name(*self.choice(alike), tables) if self.at(0.3)
                 else self.value(table.columns[column])]
        if self.at(0.05):
            sides[0] = self.value(table.columns[column])
        if self.at(0.3):
            sides.reverse()
        return Comparison(sides[0], self.choice(list(COMPARISONS)), sides[1])

    def span(self, period, known):
        if self.at(0.5):
            return Name(known if self.at(0.2) else None, period)
        return Span(self.dates())

    def name(self, known, column, tables):
        """A column's name, with the table's before it if it needs that, mostly."""
        is_one = sum(column in table.columns for _, table in tables) == 1
        return Name(None if self.at(0.7 if is_one else 0.03) else known, column)

    def query(self):
        if 'queries' in self.forms and self.at(0.3):
            return Query(self.set_operators(None, 2))
        return Query(self.select(None)[0])

    def set_operators(self, kinds, depth):
        """A query of several SELECTs; the types of its columns may be given."""
        first, kinds = self.select(kinds)
        return SetOperators(first, tuple(
            Operand(self.choice(list(OPERATORS)),
                    self.set_operators(kinds, depth - 1) if depth and self.at(0.1)
                    else self.select(kinds)[0])
            for _ in range(self.choice((1, 1, 2, 3)))))

    def select(self, kinds):
        """A SELECT and the types of its columns: those that are given, if there are such."""
        tables = [self.table()]
        if 'queries' in self.forms:
            tables += [self.table() for _ in range(self.choice((0, 0, 1, 1, 2, 3) if self.is_small
                                                               else (0, 0, 0, 1)))]
        references, known = [], []
        for name, table in tables:
            new_name = self.choice(NAMES) if self.at(0.3) else None
            while (new_name or name) in [other for other, _ in known] and self.at(0.95):
                new_name = self.choice(NAMES)
            window = self.window() if 'queries' in self.forms and self.at(0.5) else None
            references.append(TableReference(name, window, new_name))
            known.append((new_name or name, table))
        chains, start = [], 0
        for place, reference in enumerate(references):
            if place and self.at(0.5):
                on = self.condition(known[start:place + 1], None, 1)
                if self.at(0.3):
                    on = self.joined(known[start:place + 1], on)
                chains[-1] = Chain(chains[-1].table, (*chains[-1].joins, Join(reference, on)))
            else:
                start = place
                chains.append(Chain(reference, ()))
        columns = self.columns(known, kinds)
        items = tuple(Item(self.name(other, column, known) if len(known) > 1
                           else Name(other if self.at(0.15) else None, column),
                           self.choice(NAMES) if self.at(0.3) else None)
                      for other, _, column in columns)
        where = self.where(known) if 'queries' in self.forms else None
        return (Select(items, tuple(chains), where),
                [table.columns[column].kind for _, table, column in columns])

    def columns(self, known, kinds):
        """A choice of tables' columns: the name that each goes by, itself, and a column."""
        there = [(name, table, column) for name, table in known for column in table.values]
        if kinds is None:
            columns = self.some(there)[:4] if len(known) > 1 else self.some(there)
            return columns + self.chance.choices(there, k=self.at(0.1))
        return [self.choice([(name, table, column) for name, table, column in there
                             if table.columns[column].kind == kind] or there) for kind in kinds]

    def changed(self, part, field=None):
        """The part, which is in such a field, with something in it changed."""
        if part == ():
            return part
        if isinstance(part, tuple) and not isinstance(part, BadDate):
            if field in ('where', 'window', 'portion') and self.at(0.1):
                return None
            is_list = not hasattr(part, '_fields')
            if is_list and field not in self.fixed and self.at(0.2):
                return self.changed_list(list(part), field)
            if isinstance(part, Period) and self.at(0.2):
                return self.choice((part._replace(name='SYSTEM_TIME'),
                                    part._replace(start=part.end, end=part.start)))
            place = self.chance.choices(range(len(part)), weights=map(weight, part))[0]
            inner = self.changed(part[place], field if is_list else part._fields[place])
            items = (*part[:place], inner, *part[place + 1:])
            return items if is_list else type(part)(*items)
        if field in ('dates', 'date'):
            return self.choice((DAYS, ODD_DAYS, BAD_DATES)[self.choice((0, 0, 0, 1, 2))])
        if field not in LITERALS:
            choice = self.choice(FIELDS.get(field, NAMES))
            return (choice,) if field == 'columns' and part is None else choice
        if self.at(0.2):
            return self.choice((0, 'a', DAYS[0], BAD_DATES[0]))
        if isinstance(part, str):
            return part + self.choice(LETTERS)
        return self.choice(NUMBERS + BAD_NUMBERS if isinstance(part, int)
                           else (DAYS, ODD_DAYS, BAD_DATES)[self.choice((0, 0, 0, 1, 2))])

    def changed_list(self, items, field):
        place = self.chance.randrange(len(items))
        way = self.choice(('less', 'more', 'order', 'many'))
        if way == 'less' and len(items) > 1:
            del items[place]
        elif way == 'more':
            more = self.changed(items[place], field) if self.at(0.5) else items[place]
            items.insert(self.chance.randrange(len(items) + 1), more)
        elif way == 'order':
            self.chance.shuffle(items)
        elif way == 'many':  # as many as there may be, or nearly
            sort = type(items[place])
            there = sum(isinstance(item, sort) for item in items)
            items += [items[place]._replace(name=f'Z{number}') if sort is Column else items[place]
                      for number in range(there, MOST.get(sort, MOST_COLUMNS)
                                          + self.choice((-1, 0, 1)))]
        return tuple(items)


# The comparison.


def difference(program, forms, statements, seed):
    """The script, what the model and what the program answer, if the two differ."""
    writer = Writer(random.Random(seed) if seed else None)
    model = Model('keys' in forms, 'audits' in forms)
    texts = [writer.statement(statement) for statement in statements]
    script = writer.script(texts)
    for statement, text in zip(statements, texts):
        model.step(statement, len(TOKEN.findall(text)))
    model.check()
    expected = (model.status, model.report.encode(), b'')
    try:
        words = ['run', *['--audit'] * ('audits' in forms)]
        run = subprocess.run([program, *words], input=script.encode(), capture_output=True,
                             timeout=60, check=False)
        got = (run.returncode, run.stdout, run.stderr)
    except subprocess.TimeoutExpired:
        got = ('none within a minute', b'', b'')
    return None if got == expected else (script, expected, got)


def smaller(part):
    """The part with some items left out of one of its lists, in each way, many before few; without
    what it may lack; and the parts of it that may be in its place."""
    if isinstance(part, tuple):
        is_list = not hasattr(part, '_fields')
        for field, inner in () if is_list else zip(part._fields, part):
            if inner and field in ('where', 'window', 'portion', 'new_name', 'qualifier'):
                yield part._replace(**{field: None})
            if inner and field in ('joins', 'rest'):
                yield part._replace(**{field: ()})
        if isinstance(part, Not):
            yield part.condition
        if isinstance(part, (And, Or)):
            yield from part.conditions
        if isinstance(part, SetOperators):
            yield part.first
            yield from (operand.query for operand in part.rest)
        count = len(part) // 2 if is_list else 0
        while count:
            for place in range(0, len(part), count):
                yield part[:place] + part[place + count:]
            count //= 2
        for place, inner in enumerate(part):
            for less in smaller(inner):
                items = (*part[:place], less, *part[place + 1:])
                yield items if is_list else type(part)(*items)


def shrunk(program, forms, statements, seed):
    """The difference that is left if no more can be left out of the script, or not soon."""
    candidates = smaller(statements)
    for _ in range(3000):
        less = next(candidates, None)
        if less is None:
            break
        if difference(program, forms, less, seed):
            statements, candidates = less, smaller(less)
    return difference(program, forms, statements, seed)


def main():
    parser = argparse.ArgumentParser(description=__doc__.split('\n', maxsplit=1)[0])
    parser.add_argument('--seed', type=int, default=1, help='of the first script')
    parser.add_argument('--count', type=int, default=1000, help='how many scripts')
    parser.add_argument('program', nargs='?', help='the proved program, if not named')
    parser.add_argument('--forms', default=RUNS, help='further forms, with commas between them')
    parser.add_argument('--audit', action='store_true', help='whether answers are audited')
    options = parser.parse_args()
    if options.program is None:
        proved.build()
        options.program = proved.PROGRAM
    forms = set(filter(None, options.forms.split(',')))
    if forms - {'changes', 'stored', 'queries', 'keys'}:
        parser.error(f'no such forms: {options.forms}')
    if options.audit:
        forms.add('audits')
    for seed in range(options.seed, options.seed + options.count):
        statements = tuple(Generator(random.Random(seed), forms).script())
        spelling = str(seed) if seed % 2 else None  # every second script is written plainly
        if difference(options.program, forms, statements, spelling):
            if difference(options.program, forms, statements, None):
                spelling = None
            script, *answers = shrunk(options.program, forms, statements, spelling)
            print(f'seed {seed}\n--- the script\n{script}')
            for name, (status, *texts) in zip(('model', 'program'), answers):
                print(f'--- the {name}: status {status}')
                print(*(text.decode(errors='backslashreplace') for text in texts), sep='', end='')
            sys.exit(1)
    print(f'{options.count} scripts, all alike')


if __name__ == '__main__':
    main()
