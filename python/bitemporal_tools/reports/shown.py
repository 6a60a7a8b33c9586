"""Texts made harmless for a spreadsheet and for a terminal.

A spreadsheet takes a text that begins with `=`, `+`, `-` or `@`, also after a tab or a line end,
for a formula, and runs it. A terminal takes control characters for commands.
"""
import html
import re
import unicodedata

NUMBER = re.compile('-?[0-9]+([.][0-9]+)?')
# The wide forms of the four signs are signs too, for spreadsheets of East Asia.
FORMULA = re.compile('[=+\\-@\t\r\n\uff1d\uff0b\uff0d\uff20]')
# Control characters (C0, DEL, C1), and those that turn the direction of a line or end it.
CONTROL = re.compile('[\x00-\x1f\x7f-\x9f\u061c\u200e\u200f\u2028-\u202e\u2066-\u2069]')
CONTROL_BUT_SPACES = re.compile(CONTROL.pattern.replace('\x00-\x1f', '\x00-\x08\x0b\x0c\x0e-\x1f'))


def escaped(found: 're.Match[str]') -> str:
    code = ord(found[0])
    return f'\\x{code:02x}' if code < 256 else f'\\u{code:04x}'


def for_terminal(text: str) -> str:
    """The text without control characters: each is written as its number."""
    return CONTROL.sub(escaped, text)


def for_page(text: str) -> str:
    """The text for a web page."""
    return html.escape(for_terminal(text))


def for_spreadsheet(text: str) -> str:
    """The text, with an apostrophe before it if it would be a formula. Tabs and line ends inside
    it stay: quotes keep them in their cell. A number isn't a formula."""
    if FORMULA.match(text) and not NUMBER.fullmatch(text):
        text = "'" + text
    return CONTROL_BUT_SPACES.sub(escaped, text)


def width(text: str) -> int:
    """The number of columns of a terminal that a text takes."""
    return sum(0 if unicodedata.combining(letter)
               else 2 if unicodedata.east_asian_width(letter) in 'WF' else 1 for letter in text)
