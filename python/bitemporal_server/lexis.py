"""The lexis of what clients write, for all of the server: PostgreSQL's tokens, found by one pass.

A token is of the kind word, number, text ('..'), escaped (E'..'), quoted (".."), parameter ($1),
symbol, or blank, which comments are too. One that has no end, or that nobody here knows, is bad.
"""
import re
from typing import Iterator, NamedTuple, Sequence

from bitemporal_tools.sql.lexis import Token

from .problems import Problem

LEXEME = re.compile(
    r"(?P<blank>(?:[\t-\r ]+|--[^\n]*)+)"
    r"|(?P<opening>[eE]?'|\"|/\*)"
    r"|(?P<word>[A-Za-z_][A-Za-z0-9_]*)"
    r"|(?P<number>[0-9]+(?:\.[0-9]+)?(?:[eE][+-]?[0-9]+)?)"
    r"|(?P<parameter>\$[0-9]+)"
    r"|(?P<symbol>::|<>|!=|<=|>=|\|\||[(),;.*=<>+/%|&~!\[\]-])"
    r"|(?P<bad>.)", re.DOTALL)
# The kind of what begins so, and its parts that may end it.
OPENINGS = {"'": ('text', re.compile("''|'")), '"': ('quoted', re.compile('""|"')),
            'e': ('escaped', re.compile(r"\\.|''|'", re.DOTALL)),
            '/': ('blank', re.compile(r'/\*|\*/'))}
STEPS = {"'": -1, '"': -1, '*/': -1, '/*': 1}
ESCAPE = re.compile(r"\\(.)|''", re.DOTALL)
ESCAPES = {'n': '\n', 't': '\t', 'r': '\r', 'b': '\b', 'f': '\f'}
OF_NUMBERS = 'xuU01234567'  # begin escapes that denote a character by its number
MOST_TOKENS = 40_000  # of a piece: the profile's tokens, and their casts
TOKEN_BYTES = 200  # that a token takes, about
# Words that end the list of tables after FROM, calls that have a FROM of their own, and what is
# before the parenthesis of WITH.
AFTER_TABLES = frozenset('SELECT WHERE GROUP HAVING ORDER LIMIT OFFSET FETCH UNION EXCEPT INTERSECT'
                         ' WINDOW WITH VALUES VALIDTIME'.split())
CALLS = ('EXTRACT', 'SUBSTRING', 'TRIM', 'OVERLAY')


def lexed(text: str) -> Iterator[Token]:
    """The tokens of a text, which together are the whole of it."""
    at = 0
    while at < len(text):
        found = LEXEME.match(text, at)
        assert found is not None
        kind, end = found.lastgroup or '', found.end()
        if kind == 'opening':
            kind, ends = OPENINGS[found[0][0].lower()]
            depth = 1  # comments are nested
            for part in ends.finditer(text, end):
                depth += STEPS.get(part[0], 0)
                if not depth:
                    break
            kind, end = ('bad', len(text)) if depth else (kind, part.end())
        spelled = text[at:end]
        yield Token(kind, spelled, at, spelled.upper() if kind == 'word' else
                    spelled if kind == 'symbol' else '')
        at = end


def pieces_of(text: str) -> 'Iterator[list[Token]]':
    """The tokens between semicolons, with blanks, without pieces that have blanks alone."""
    piece: 'list[Token]' = []
    count = 0
    for token in lexed(text):
        if token.word == ';':
            if count:
                yield piece
            piece, count = [], 0
            continue
        piece.append(token)
        count += token.kind != 'blank'
        if count > MOST_TOKENS:
            raise Problem('54000', '21 LimitReached', f'A statement has more than {MOST_TOKENS:,}'
                          ' tokens.', position=token.offset)
    if count:
        yield piece


def unescaped(text: str, escape: 're.Pattern[str]', escapes: 'dict[str, str]') -> str:
    """A text with the characters that its escapes denote."""
    def letter(found: 're.Match[str]') -> str:
        if (found[1] or '.') in OF_NUMBERS:
            raise Problem('0A000', f'the escape \\{found[1]} is not known here',
                          hint='Write the character itself.')
        return "'" if found[1] is None else escapes.get(found[1], found[1])

    return escape.sub(letter, text)


def text_of(token: Token) -> str:
    """The text, or the name, that a token denotes."""
    if token.kind == 'escaped':
        return unescaped(token.text[2:-1], ESCAPE, ESCAPES)
    if token.kind in ('text', 'quoted'):
        mark = token.text[0]
        return token.text[1:-1].replace(mark * 2, mark)
    return token.text


def literal(text: str) -> str:
    """A text as a literal."""
    return "'" + text.replace("'", "''") + "'"


def bracketed(token: Token) -> str:
    """A name in double quotes as sqlite has it: in brackets, since one in double quotes that it
    does not know it takes for a text."""
    if ']' in token.text:
        raise Problem('0A000', 'a name has no bracket here', position=token.offset)
    return f'[{text_of(token)}]'


def name_of(token: Token) -> str:
    """The name in upper case that a word or a quoted name is; an empty text of another token."""
    return text_of(token).upper() if token.kind in ('word', 'quoted') else ''


def taken(tokens: Sequence[Token], at: int, *words: str) -> int:
    """The place behind these words, symbols or kinds of tokens, if they are at a place; else 0."""
    for word in words:
        while at < len(tokens) and tokens[at].kind == 'blank':
            at += 1
        if at >= len(tokens) or word not in (tokens[at].word, tokens[at].kind):
            return 0
        at += 1
    return at


def type_at(tokens: Sequence[Token], at: int) -> 'tuple[str, int]':
    """The first word of the type at a place, and the place behind the type."""
    at = taken(tokens, at, 'PG_CATALOG', '.') or at
    end = taken(tokens, at, 'word') or taken(tokens, at, 'quoted')
    if not end:
        return '', at
    name = name_of(tokens[end - 1])
    for words in (('VARYING',), ('PRECISION',), ('(', 'number', ')'),
                  ('(', 'number', ',', 'number', ')'), ('WITH', 'TIME', 'ZONE'),
                  ('WITHOUT', 'TIME', 'ZONE')):
        end = taken(tokens, end, *words) or end
    return name, end


class Reference(NamedTuple):
    """A name after FROM or JOIN, in upper case: its schema, if one is named; whether it is in
    double quotes; and whether it is a function's."""
    schema: str
    name: str
    is_quoted: bool
    is_call: bool


class Level:
    """An open parenthesis: whether it has tables, and one is next; whether its FROM is a call's."""

    def __init__(self, expects: bool, is_call: bool) -> None:
        self.has_tables = self.expects = expects
        self.is_call = is_call


def references(tokens: 'list[Token]') -> 'list[Reference]':
    """Names after FROM and JOIN, at any depth, without those that WITH gives. No token is blank."""
    found: 'list[Reference]' = []
    levels, at, lacks = [Level(False, False)], 0, False
    while at < len(tokens):
        level, word, before = levels[-1], tokens[at].word, tokens[at - 1].word if at else ''
        if word == '(':
            levels.append(Level(level.expects, before in CALLS))
            level.expects = False
        elif word == ')':
            lacks = lacks or level.expects
            levels[1:] = levels[1:-1]
        elif word == 'FROM' and before != 'DISTINCT' and not level.is_call or \
                word in ('JOIN', ',') and level.has_tables:
            level.has_tables = level.expects = True
        elif word in AFTER_TABLES:
            lacks = lacks or level.expects and before != '('
            level.has_tables = level.expects = False
        elif level.expects and word not in ('LATERAL', 'ONLY'):
            names, end = qualified(tokens, at)
            is_call = bool(taken(tokens, end, '('))
            found.append(Reference(names[-2] if names[1:] else '', names[-1],
                                   tokens[end - 1].kind == 'quoted', is_call))
            level.expects, at = False, end - 1
        at += 1
    if lacks or levels[-1].expects:  # FROM without a name
        found.append(Reference('?', '', False, False))
    common = set(common_names(tokens))
    return [it for it in found if it.schema or it.is_call or it.name not in common]


def common_names(tokens: 'list[Token]') -> Iterator[str]:
    """The names that WITH gives: before AS and a parenthesis, and before their columns."""
    for at, (token, after) in enumerate(zip(tokens, tokens[1:])):
        if token.word == 'AS' and after.word in ('(', 'NOT', 'MATERIALIZED'):
            at -= 1
            if tokens[at].word == ')':
                while at > 0 and tokens[at].word != '(':
                    at -= 1
                at -= 1
            yield name_of(tokens[at])


def qualified(tokens: 'list[Token]', at: int) -> 'tuple[list[str], int]':
    """The parts of a name with points, and the place behind it."""
    names = [name_of(tokens[at])]
    while end := taken(tokens, at + 1, '.', 'word') or taken(tokens, at + 1, '.', 'quoted'):
        names.append(name_of(tokens[end - 1]))
        at = end - 1
    return names, at + 1
