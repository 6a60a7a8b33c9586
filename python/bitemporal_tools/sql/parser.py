"""The grammar of statements, and whether a piece is one: the refusals 10 to 14, and 21 for a piece
of too many tokens."""
from typing import NamedTuple, Optional

from .lexis import Token
from .query_parser import QueryParser
from .reader import NoStatement
from .refusals import MOST_OPEN, MOST_TOKENS, Fault
from .tree import (Assignment, At, Column, Create, Delete, Insert, Key, Name, Period, Portion,
                   Reference, Row, Sequenced, Stored, Tree, Update)


class Parsed(NamedTuple):
    """A piece that is read: its tree, or None if the syntax is wrong; its faults; and of a piece
    that is refused by 10 the place of the token that no statement can have there (the number of
    tokens if the piece ends too early) and the list of what could be there."""
    tree: Optional[Tree]
    faults: list[Fault]
    stop: Optional[int]
    expected: list[str]


class Parser(QueryParser):
    """Reads a piece."""

    def statement(self) -> Tree:
        statement = self.one_statement()
        self.ends()
        return statement

    def one_statement(self) -> Tree:
        if self.takes('AT'):
            return At(self.moment(is_below_forever=True))
        if self.takes('CREATE', 'TABLE'):
            return self.create()
        if self.takes('INSERT', 'INTO'):
            return self.insert()
        if self.takes('UPDATE'):
            table, portion = self.name(), self.portion()
            self.needs('SET')
            return Update(table, portion, self.several(self.assignment), self.where())
        if self.takes('DELETE', 'FROM'):
            return Delete(self.name(), self.portion(), self.where())
        if self.takes('VALIDTIME'):
            return Sequenced(self.query())
        self.needs('SELECT', '*', 'FROM')
        return Stored(self.name(), self.window(), self.where(has_predicates=True))

    # Changes.

    def insert(self) -> Insert:
        table = self.name()
        columns = self.takes_inside(lambda: self.several(self.name))
        self.needs('VALUES')
        return Insert(table, columns, self.several(self.row))

    def row(self) -> Row:
        offset = self.next.offset
        return Row(self.inside(lambda: self.several(self.literal)), offset)

    def assignment(self) -> Assignment:
        name = self.name()
        self.needs('=')
        return Assignment(name, self.literal())

    def portion(self) -> Optional[Portion]:
        if not self.takes('FOR', 'PORTION', 'OF'):
            return None
        period = self.name()
        self.needs('FROM')
        return Portion(period, *self.two(self.date, 'TO'))

    # CREATE TABLE.

    def create(self) -> Create:
        create = Create(self.name(), [], [], [], [], [])
        self.needs('(')
        self.several(lambda: self.element(create))
        self.needs(')', 'WITH', 'SYSTEM', 'VERSIONING')
        return create

    def element(self, create: Create) -> None:
        if self.takes('PERIOD', 'FOR'):
            self.period(create)
        elif self.takes('PRIMARY', 'KEY', '('):
            create.keys.append(self.key())
        elif self.takes('FOREIGN', 'KEY'):
            columns, period = self.columns_and_period()
            self.needs('REFERENCES')
            table = self.name()
            create.references.append(Reference(columns, period, table, *self.columns_and_period()))
        else:
            create.columns.append(self.column_definition())

    def period(self, create: Create) -> None:
        offset = self.next.offset
        if self.takes('SYSTEM_TIME'):
            periods, name = create.systems, Name('SYSTEM_TIME', offset)
        else:
            periods, name = create.periods, self.name()
        periods.append(Period(name, *self.inside(lambda: self.two(self.name))))

    def key(self) -> Key:
        names = [self.name()]
        self.needs(',')
        names += self.several(self.name)
        self.needs('WITHOUT', 'OVERLAPS', ')')
        return Key(names[:-1], names[-1])

    def columns_and_period(self) -> tuple[list[Name], Name]:
        self.needs('(')
        names = [self.name()]
        self.needs(',')
        while not self.takes('PERIOD'):
            names.append(self.name())
            self.needs(',')
        period = self.name()
        self.needs(')')
        return names, period

    def column_definition(self) -> Column:
        name = self.name()
        kind, number = self.column_type()
        generated = None
        if self.takes('GENERATED', 'ALWAYS', 'AS', 'ROW'):
            generated = self.needs_one_of('START', 'END')
        self.takes('NOT', 'NULL')
        return Column(name, kind, number, generated)

    def column_type(self) -> tuple[str, Optional[int]]:
        if self.takes('VARCHAR') or self.takes('CHARACTER', 'VARYING'):
            return 'VARCHAR', self.inside(self.number).value
        if self.takes('TIMESTAMP'):
            precision = self.takes_inside(self.number)
            return 'TIMESTAMP', precision.value if precision else None
        return self.needs_one_of('INTEGER', 'DATE'), None


def too_deep(tokens: list[Token]) -> Optional[Token]:
    """The first token before which more parentheses are open than may be, or None."""
    depth = 0
    for token in tokens:
        depth += (token.word == '(') - (token.word == ')')
        if depth > MOST_OPEN:
            return token
    return None


def parsed(tokens: list[Token]) -> Parsed:
    """The piece that these tokens make."""
    if len(tokens) > MOST_TOKENS:
        fault = Fault(21, tokens[MOST_TOKENS].offset, f'The statement has {len(tokens):,} tokens,'
                                                      f' and {MOST_TOKENS:,} are the most.')
        return Parsed(None, [fault], None, [])
    deep = too_deep(tokens)
    if deep:
        fault = Fault(11, deep.offset, f'Here parenthesis number {MOST_OPEN + 1} is opened, and'
                                       f' {MOST_OPEN} open ones are the most.')
        return Parsed(None, [fault], None, [])
    parser = Parser(tokens)
    try:
        tree = parser.statement()
    except NoStatement:
        at = parser.furthest
        fault = Fault(10, tokens[min(at, len(tokens) - 1)].offset, '')
        return Parsed(None, [fault], at, sorted(parser.expected))
    return Parsed(tree, parser.faults, None, [])
