"""The lexis of docs/PROFILE.md: a script's bytes to text, text to tokens, tokens to pieces."""
import bisect
import re
from collections.abc import Iterator
from typing import NamedTuple

from .refusals import MOST_BYTES, Refused

RESERVED = frozenset('''
    ALWAYS AND AS AT BETWEEN CHARACTER CONTAINS CREATE DATE DELETE DISTINCT END EQUALS EXCEPT FOR
    FOREIGN FROM GENERATED IMMEDIATELY INNER INSERT INTEGER INTERSECT INTO JOIN KEY NOT NULL OF ON
    OR OVERLAPS PERIOD PORTION PRECEDES PRIMARY REFERENCES ROW SELECT SET START SUCCEEDS SYSTEM
    SYSTEM_TIME TABLE TIMESTAMP TO UNION UPDATE VALIDTIME VALUES VARCHAR VARYING VERSIONING WHERE
    WITH WITHOUT
'''.split())
BYTE_ORDER_MARK = '\ufeff'
LEXEME = re.compile(
    r"(?P<white>[\t-\r ]+|--[^\n]*\n?)"
    r"|(?P<word>[A-Za-z_][A-Za-z0-9_]*)"
    r"|(?P<number>[0-9]+)"
    r"|(?P<text>'[^']*(?:''[^']*)*'(?!'))"
    r"|(?P<symbol><>|<=|>=|[(),;.*=<>+-])")


class Token(NamedTuple):
    """A token: its kind (word, number, text or symbol), how it is written, the offset of its first
    character, and `word`: a word in upper case or a symbol, and of another token an empty text."""
    kind: str
    text: str
    offset: int
    word: str

    @property
    def end(self) -> int:
        return self.offset + len(self.text)

    @property
    def is_name(self) -> bool:
        return self.kind == 'word' and self.word not in RESERVED


def decoded(script: bytes) -> str:
    """The text of a script's bytes, if neither 1 nor 2 refuses it."""
    if len(script) > MOST_BYTES:
        raise Refused(2)
    try:
        return script.decode('utf-8')
    except UnicodeDecodeError as error:
        raise Refused(1, byte=error.start) from None


def lexed(text: str) -> list[Token]:
    """The tokens of a script's text. If no token begins, 3 refuses it."""
    tokens, offset = [], len(BYTE_ORDER_MARK) if text.startswith(BYTE_ORDER_MARK) else 0
    while offset < len(text):
        found = LEXEME.match(text, offset)
        if not found:
            raise Refused(3, len(text[:offset].encode('utf-8')), offset)
        kind, spelling = found.lastgroup or '', found[0]
        if kind == 'word':
            tokens.append(Token(kind, spelling, offset, spelling.upper()))
        elif kind != 'white':
            tokens.append(Token(kind, spelling, offset, spelling if kind == 'symbol' else ''))
        offset = found.end()
    return tokens


def pieces(tokens: list[Token]) -> Iterator[list[Token]]:
    """The lists of tokens between semicolons, without the empty ones."""
    piece = []
    for token in tokens:
        if token.word != ';':
            piece.append(token)
        elif piece:
            yield piece
            piece = []
    if piece:
        yield piece


class Places:
    """The lines of a text, and where an offset is in them."""

    def __init__(self, text: str) -> None:
        self.starts = [0, *(found.end() for found in re.finditer('\n', text))]
        self.has_mark = text.startswith(BYTE_ORDER_MARK)

    def line_and_column(self, offset: int) -> tuple[int, int]:
        """Both from 1; the column in characters, a byte order mark at the start not counted."""
        line = bisect.bisect_right(self.starts, offset)
        column = offset - self.starts[line - 1] + 1
        return line, column - (line == 1 and self.has_mark)

    def shown(self, offset: int) -> str:
        return '%d:%d' % self.line_and_column(offset)
