"""Sentences for a terminal."""
import textwrap
from collections.abc import Iterable

from bitemporal_tools.sql.lexis import Token

MOST_SHOWN = 96  # characters of a statement or of a token
WRAP = textwrap.TextWrapper(100, initial_indent='    ', subsequent_indent='      ')


def shown(text: str) -> str:
    """The text for one line of a terminal."""
    text = ''.join(it if it.isprintable() else ' ' for it in text[:MOST_SHOWN + 1]).rstrip()
    return text if len(text) <= MOST_SHOWN else text[:MOST_SHOWN - 3] + ' ..'


def recipe(heading: str) -> str:
    """The recipe for a user: a heading of docs/HOWTO.md."""
    return f'"{heading}" in docs/HOWTO.md'


def wrapped(lines: Iterable[str]) -> list[str]:
    return [WRAP.fill(line) for line in lines]


def joined(tokens: list[Token]) -> str:
    """Tokens in one line: with a space if something was between them."""
    line, end = '', None
    for token in tokens:
        line += token.text if token.offset == end or not line else ' ' + token.text
        end = token.end
    return line
