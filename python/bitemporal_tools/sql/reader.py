"""Reads the tokens of one piece from left to right.

Each test of a token is noted: `furthest` is the last place at which one was tested, and `expected`
what was tested there. Every token before it fits, since a reader only gets past what the grammar
has. So if a piece is no statement, its token at `furthest` is the first that no statement can
have there, and each statement that begins alike continues with one of `expected`.
"""
from collections.abc import Callable
from typing import Any, Optional, TypeVar

from .lexis import Token
from .literals import FOREVER, date_of, moment_of, number_of, text_of, why_no_date, why_no_moment
from .refusals import Fault
from .tree import Literal, Name

Part = TypeVar('Part')

A_NAME, A_NUMBER, A_TEXT, THE_END = 'a name', 'a number', 'a text', 'the end'
KINDS = {'name': A_NAME, 'number': A_NUMBER, 'text': A_TEXT}
# The token after the last one of a piece.
END = Token('end', '', 0, '')


class NoStatement(Exception):
    """The piece is no statement of the grammar."""


def needed(part: Optional[Part]) -> Part:
    """A part that has to be there."""
    if part is None:
        raise NoStatement
    return part


class Reader:
    """The tokens of a piece, the place that is read next, and the faults of its literals."""

    def __init__(self, tokens: list[Token]) -> None:
        self.tokens, self.at = [*tokens, END], 0
        self.faults: list[Fault] = []
        self.furthest = 0
        self.expected: set[str] = set()

    def tests(self, at: int, what: str) -> None:
        """Keeps that this was looked for at a place."""
        if at > self.furthest:
            self.furthest, self.expected = at, {what}
        elif at == self.furthest:
            self.expected.add(what)

    @property
    def next(self) -> Token:
        """The token that is read next."""
        return self.tokens[self.at]

    def is_next(self, word: str) -> bool:
        self.tests(self.at, word)
        return self.tokens[self.at].word == word

    def takes(self, *words: str) -> bool:
        """Takes these words or symbols, if they are next."""
        for at, word in enumerate(words, self.at):
            self.tests(at, word)
            if self.tokens[at].word != word:
                return False
        self.at += len(words)
        return True

    def needs(self, *words: str) -> int:
        """Takes these words, which have to be next, and gives the offset of the first."""
        if not self.takes(*words):
            raise NoStatement
        return self.tokens[self.at - len(words)].offset

    def takes_one_of(self, *words: str) -> Optional[str]:
        """The one of the words that is next, or None."""
        return next((word for word in words if self.takes(word)), None)

    def needs_one_of(self, *words: str) -> str:
        return needed(self.takes_one_of(*words))

    def takes_kind(self, kind: str) -> Optional[Token]:
        """Takes a name, a number or a text, if one is next."""
        self.tests(self.at, KINDS[kind])
        token = self.tokens[self.at]
        if not (token.is_name if kind == 'name' else token.kind == kind):
            return None
        self.at += 1
        return token

    def takes_name(self) -> Optional[Name]:
        token = self.takes_kind('name')
        return Name(token.word, token.offset) if token else None

    def name(self) -> Name:
        return needed(self.takes_name())

    def ends(self) -> None:
        self.tests(self.at, THE_END)
        if self.next is not END:
            raise NoStatement

    def several(self, one: Callable[[], Part], between: str = ',') -> list[Part]:
        items = [one()]
        while self.takes(between):
            items.append(one())
        return items

    def two(self, one: Callable[[], Part], between: str = ',') -> tuple[Part, Part]:
        first = one()
        self.needs(between)
        return first, one()

    def takes_inside(self, part: Callable[[], Part]) -> Optional[Part]:
        """A part in parentheses, if one is opened here."""
        if not self.takes('('):
            return None
        found = part()
        self.needs(')')
        return found

    def inside(self, part: Callable[[], Part]) -> Part:
        return needed(self.takes_inside(part))

    # Literals.

    def valued(self, kind: str, value: Any, token: Token, number: int, why: str) -> Literal:
        """A literal, and a fault of this number if it has no value."""
        if value is None:
            self.faults.append(Fault(number, token.offset, why))
        return Literal(kind, value, token.offset)

    def date(self) -> Literal:
        self.needs('DATE')
        token = needed(self.takes_kind('text'))
        date = date_of(text_of(token))
        return self.valued('DATE', date, token, 12, '' if date else why_no_date(text_of(token)))

    def moment(self, is_below_forever: bool = False) -> Literal:
        self.needs('TIMESTAMP')
        token = needed(self.takes_kind('text'))
        moment = moment_of(text_of(token))
        why = '' if moment else why_no_moment(text_of(token))
        if is_below_forever and moment == FOREVER:
            moment, why = None, f'{token.text} is the open end, which AT and AS OF do not take.'
        return self.valued('TIMESTAMP', moment, token, 13, why)

    def number(self, sign: int = 1) -> Literal:
        token = needed(self.takes_kind('number'))
        return self.valued('INTEGER', number_of(token.text, sign), token, 14,
                           'The number does not fit into 64 bits.')

    def literal(self) -> Literal:
        token = self.takes_kind('text')
        if token:
            return Literal('VARCHAR', text_of(token), token.offset)
        if self.is_next('DATE'):
            return self.date()
        return self.number(-1 if self.takes_one_of('-', '+') == '-' else 1)
