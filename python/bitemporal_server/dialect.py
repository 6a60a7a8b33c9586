"""The writing of drivers, as tokens of docs/PROFILE.md: parameters ($1), casts
('2024-01-01'::date), names in double quotes, E'..', /* */ and !=. All else is left as it is."""
import contextlib
import re
from typing import Any, Iterable, Iterator, Optional, Sequence

from bitemporal_tools.explanation import bad_tokens
from bitemporal_tools.sql import lexis as profile
from bitemporal_tools.sql.catalog import Catalog
from bitemporal_tools.sql.lexis import RESERVED, Token
from bitemporal_tools.sql.parser import Parser
from bitemporal_tools.sql.reader import NoStatement
from bitemporal_tools.sql.refusals import Refused
from bitemporal_tools.sql.scope import Scope
from bitemporal_tools.sql.script import Statement
from bitemporal_tools.sql.tree import (And, ColumnReference, Comparison, Delete, Insert, Literal,
                                       Not, Or, Select, Sequenced, Stored, Update, known_as,
                                       selects)

from . import lexis, values
from .problems import SYNTAX, Problem
from .wire import Column

NAME = re.compile('[A-Za-z_][A-Za-z0-9_]*')
SYMBOLS = frozenset(('<>', '<=', '>=', *'(),;.*=<>+-'))
CASTS = {'DATE': 'DATE', 'TIMESTAMP': 'TIMESTAMP', **dict.fromkeys(
    ('INTEGER', 'INT', 'BIGINT', 'SMALLINT', 'INT2', 'INT4', 'INT8'), 'INTEGER'), **dict.fromkeys(
    ('TEXT', 'VARCHAR', 'CHARACTER', 'NAME'), 'VARCHAR')}
BEFORE_TABLES = ('FROM', 'INTO', 'UPDATE', 'JOIN', 'TABLE', 'REFERENCES')
SHOWN = 1000  # characters behind a bad token that its explanation looks at


class Hole(Token):
    """The place of a literal that has a value, or of the parameter of a number."""
    number: Optional[int]
    value: values.Value

    def __new__(cls, offset: int, text: str, number: Optional[int], value: values.Value) -> 'Hole':
        # By the word DATE the grammar takes it for a date if only a date may be.
        hole = super().__new__(cls, 'hole', text, offset, 'DATE')
        hole.number, hole.value = number, value
        return hole


def lexed(text: str) -> 'list[Token]':
    """The tokens and holes of a text."""
    return tokens_of(text, list(lexis.lexed(text)))


def tokens_of(text: str, given: 'list[Token]') -> 'list[Token]':
    """The tokens and holes that tokens of PostgreSQL are, of which a text has these."""
    tokens: 'list[Token]' = []
    at = 0
    while at < len(given):
        token, at = given[at], at + 1
        if token.word == '::':
            name, at = lexis.type_at(given, at)
            if not casts(tokens, name) or CASTS[name] == 'VARCHAR' and given[at - 1].word == ')':
                raise bad_token(text, token.offset)
        elif token.kind == 'number' and not token.text.isdigit():  # 1.5 are three tokens
            tokens += [it._replace(offset=token.offset + it.offset)
                       for it in profile.lexed(token.text)]
        elif token.kind != 'blank':
            add_token(tokens, token, text)
    return without_schema(tokens) if any(it.word == 'PUBLIC' for it in tokens) else tokens


def without_schema(tokens: 'list[Token]') -> 'list[Token]':
    """Tokens without the `public.` before the name of a table, if the profile has no point."""
    found: 'list[Token]' = []
    at = 0
    while at < len(tokens):
        words = [token.word for token in tokens[at:at + 4]] + [''] * 3
        is_schema = words[:2] == ['PUBLIC', '.'] and at + 2 < len(tokens) and \
            (words[3] == '.' or found and found[-1].word in BEFORE_TABLES)
        at += 2 if is_schema else 0
        found.append(tokens[at])
        at += 1
    return found


def add_token(tokens: 'list[Token]', token: Token, text: str) -> None:
    """Adds the token or the hole that a token of PostgreSQL is."""
    kind, spelled, offset = token.kind, token.text, token.offset
    if kind == 'quoted' and NAME.fullmatch(spelled[1:-1]) and spelled[1:-1].upper() not in RESERVED:
        tokens.append(Token('word', spelled, offset, lexis.name_of(token)))
    elif kind == 'parameter':
        before = tokens[-1].word if tokens and tokens[-1].kind == 'word' else None
        if before in ('DATE', 'TIMESTAMP'):  # DATE $1
            tokens.pop()
        tokens.append(Hole(offset, spelled, int(spelled[1:]),
                           values.Value(None, before if before in values.KINDS else None)))
    elif kind == 'escaped':
        tokens.append(Hole(offset, spelled, None, values.Value(lexis.text_of(token), None)))
    elif token.word == '!=':
        tokens.append(Token(kind, '<>', offset, '<>'))
    elif kind in ('word', 'number', 'text') or token.word in SYMBOLS:
        tokens.append(token)
    else:
        raise bad_token(text, offset)


def casts(tokens: 'list[Token]', name: str) -> bool:
    """Makes a hole of the literal or the parameter before a cast. Whether that can be done."""
    last = tokens[-1] if tokens else None
    if name not in CASTS or last is None:
        return False
    number: Optional[int] = None
    text: Optional[str] = last.text
    if isinstance(last, Hole):
        number, text = last.number, last.value.text
    elif last.kind == 'text':
        text = lexis.text_of(last)
    elif last.kind != 'number':
        return False
    tokens[-1] = Hole(last.offset, last.text, number, values.Value(text, CASTS[name]))
    return True


def bad_token(text: str, offset: int) -> Problem:
    """The refusal of a text for the bytes at an offset, which are no token."""
    offset += text[offset:offset + 2].upper() == "E'"
    refused = Refused(3, len(text[:offset].encode('utf-8')), offset)
    shown = text[:offset + SHOWN].encode('utf-8')
    lines = bad_tokens.of_script('', shown, refused).split('\n')[2:]
    told = ' '.join(line.strip() for line in lines)
    cause, _, hint = told.partition(' What to do')
    return Problem(SYNTAX, '3 BadToken', cause, hint and 'What to do' + hint, offset)


class HoleParser(Parser):
    """The grammar, with holes in the places of literals. `kinds` has the types that the grammar
    alone decides, by their offsets."""

    def __init__(self, tokens: 'list[Token]') -> None:
        super().__init__(tokens)
        self.kinds: 'dict[int, str | None]' = {}

    def hole(self, kind: Optional[str]) -> Optional[Literal]:
        """A hole at the next token, in the place of a literal of this type."""
        token = self.tokens[self.at] if self.at < len(self.tokens) else None
        if not isinstance(token, Hole):
            return None
        self.at += 1
        self.kinds[token.offset] = kind
        return Literal('', None, token.offset)

    def date(self) -> Literal:
        return self.hole('DATE') or super().date()

    def moment(self, is_below_forever: bool = False) -> Literal:
        return self.hole('TIMESTAMP') or super().moment(is_below_forever)

    def literal(self) -> Literal:
        return self.hole(None) or super().literal()


class Prepared:
    """A statement with holes, over the tables of a catalog: `kinds` are the types of its holes,
    by offset, and `columns` its answer's columns, None if it has none."""

    def __init__(self, text: str, tokens: 'list[Token]', catalog: Catalog) -> None:
        self.text, self.tokens, self.catalog = text, tokens, catalog
        self.holes = [token for token in tokens if isinstance(token, Hole)]
        self.word = tokens[0].word
        self.whole = None if self.holes else Statement(1, tokens)
        self.tree = self.whole.tree if self.whole else None
        self.kinds: 'dict[int, str | None]' = {}
        if self.holes:
            parser = HoleParser(tokens)
            with contextlib.suppress(NoStatement):
                self.tree = parser.statement()
                self.kinds = {**parser.kinds, **dict(kinds_of(self.tree, catalog))}
        self.columns = columns_of(self.tree, catalog)

    def parameters(self, declared: Sequence[int]) -> 'list[int]':
        """The type numbers of the parameters, of which some may be declared."""
        own = [0] * values.count_of(hole.number or 0 for hole in self.holes)
        for hole in reversed(self.holes):
            if hole.number:
                kind = self.kinds.get(hole.offset) or hole.value.declared or 'VARCHAR'
                own[hole.number - 1] = values.KINDS[kind].oid
        return values.oids(declared, own)

    def bound(self, given: Sequence[values.Value]) -> Statement:
        """The statement with these values of its parameters."""
        if self.whole:
            return self.whole
        tokens: 'list[Token]' = []
        for token in self.tokens:
            if not isinstance(token, Hole):
                tokens.append(token)
                continue
            value = token.value
            if token.number is not None:
                if not 1 <= token.number <= len(given):
                    raise Problem('42P02', f'there is no parameter ${token.number}',
                                  position=token.offset)
                own = given[token.number - 1]
                if own.declared in values.AROUND:
                    raise values.wrong_type(token.number, own.declared)
                if own.text is None:
                    raise Problem('23502', f'parameter ${token.number} is NULL',
                                  'No column holds NULL.',
                                  f"An open end is DATE '{values.OPEN_END}'.")
                value = values.Value(own.text, own.declared or value.declared)
            tokens += values.tokens_of(value, self.kinds.get(token.offset), token.offset)
        return Statement(1, tokens)


def kinds_of(tree: object, catalog: Catalog) -> 'Iterator[tuple[int, str]]':
    """The types that columns give to holes, by offset."""
    if isinstance(tree, Sequenced):
        for select in selects(tree.query):
            scope = Scope([(known_as(reference), catalog.tables[reference.table])
                           for reference in select.references if reference.table in catalog.tables])
            for condition in [select.where, *(on.condition for on in select.ons)]:
                yield from kinds_of_condition(condition, scope)
        return
    table = catalog.tables.get(getattr(tree, 'table', ''))
    if table is None:
        return
    pairs: 'Iterable[tuple[str, Literal]]' = tree.sets if isinstance(tree, Update) else ()
    if isinstance(tree, Insert):
        names = tree.columns or [column.name for column in table.given]
        pairs = (pair for row in tree.rows for pair in zip(names, row.values))
    for name, literal in pairs:
        if not literal.kind and name in table.by_name:
            yield literal.offset, table.by_name[name].kind
    if isinstance(tree, (Update, Delete, Stored)):
        yield from kinds_of_condition(tree.where, Scope([(table.name, table)]))


def kinds_of_condition(condition: object, scope: Scope) -> 'Iterator[tuple[int, str]]':
    """The types that the columns of comparisons give to holes."""
    if isinstance(condition, (And, Or)):
        for inner in condition.conditions:
            yield from kinds_of_condition(inner, scope)
    elif isinstance(condition, Not):
        yield from kinds_of_condition(condition.condition, scope)
    elif isinstance(condition, Comparison):
        for side, other in ((condition.left, condition.right), (condition.right, condition.left)):
            kind = scope.kind(other) if isinstance(other, ColumnReference) else None
            if isinstance(side, Literal) and not side.kind and kind:
                yield side.offset, kind


def columns_of(tree: object, catalog: Catalog) -> 'list[Column] | None':
    """The columns of the answer of a query, None if it has none, or names an unknown one."""
    if isinstance(tree, Stored) and tree.table in catalog.tables:
        return [values.column(column.name, values.KINDS[column.kind], column.number)
                for column in catalog.tables[tree.table].columns]
    if not isinstance(tree, Sequenced):
        return None
    select = tree.query
    while not isinstance(select, Select):
        select = select.first
    columns = [column_of(item, select, catalog) for item in select.items]
    found = [column for column in columns if column is not None]
    if len(found) < len(columns):
        return None
    return found + [values.column(name, values.DATE)
                    for name in ('valid_from', 'valid_to', 'held', 'absent')]


def column_of(item: Any, select: Select, catalog: Catalog) -> Optional[Column]:
    """The column of an item of a select list."""
    for reference in select.references:
        table = catalog.tables.get(reference.table)
        if table and item.column.qualifier in (None, known_as(reference)) and \
                item.column.name in table.by_name:
            found = table.by_name[item.column.name]
            return values.column(item.new_name or item.column.name, values.KINDS[found.kind],
                                 found.number)
    return None
