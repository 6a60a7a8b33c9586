"""The refusals that a script alone decides, by number, and the limits of docs/PROFILE.md."""
from typing import NamedTuple

NAMES = {
    1: 'NotUtf8', 2: 'ScriptTooLarge', 3: 'BadToken', 10: 'Syntax', 11: 'TooDeep', 12: 'BadDate',
    13: 'BadMoment', 14: 'NumberRange', 21: 'LimitReached', 22: 'TableExists', 23: 'UnknownTable',
    24: 'UnknownColumn', 25: 'AmbiguousColumn', 26: 'DuplicateName', 27: 'PeriodColumn',
    28: 'BadDefinition', 29: 'ColumnCount', 30: 'TypeMismatch', 31: 'TextTooLong',
    40: 'MomentBack', 41: 'EmptyPeriod', 42: 'KeyOverlap', 43: 'PeriodReference', 60: 'BadStore',
    61: 'Memory', 62: 'Store'}

MOST_BYTES, MOST_TOKENS, MOST_OPEN = 4_194_304, 10_000, 32
MOST_TABLES, MOST_COLUMNS, MOST_REFERENCES, MOST_ITEMS = 64, 32, 8, 32
MOST_TABLES_OF_A_SELECT, MOST_SET_OPERATORS = 4, 16
MOST_CODE_POINTS, MOST_PRECISION = 1000, 12


class Fault(NamedTuple):
    """A fault of a statement: the number of the refusal, the offset of the token that it is
    about (a character of the script, counted from 0), and a sentence that says it."""
    number: int
    offset: int
    why: str


class Refused(Exception):
    """A refusal of a whole script (1 to 3). The one by 3 has the offset of the byte and of the
    character at which no token begins; that by 1 the offset of the byte that is no UTF-8."""

    def __init__(self, number: int, byte: int = 0, offset: int = 0) -> None:
        super().__init__(number)
        self.number, self.byte, self.offset = number, byte, offset

    def __str__(self) -> str:
        """The program's words on the refusal, after its own name and a colon."""
        words = [self.number, NAMES[self.number], *([self.byte] if self.number == 3 else [])]
        return ' '.join(map(str, words))
