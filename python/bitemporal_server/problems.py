"""Refusals and faults as clients see them: SQLSTATE, message, detail, hint and position."""
from bitemporal_tools.explanation.explaining import Explainer
from bitemporal_tools.explanation.report import Refusal
from bitemporal_tools.sql.catalog import Catalog
from bitemporal_tools.sql.refusals import NAMES, Refused
from bitemporal_tools.sql.script import Statement

SYNTAX = '42601'
# The SQLSTATE of each refusal of the profile, by its number.
STATES = {
    1: '22021', 2: '54000', 3: SYNTAX, 10: SYNTAX, 11: '54001', 12: '22007', 13: '22007',
    14: '22003', 21: '54000', 22: '42P07', 23: '42P01', 24: '42703', 25: '42702', 26: '42701',
    27: '42P10', 28: '42P16', 29: SYNTAX, 30: '42804', 31: '22001', 40: '55000', 41: '22000',
    42: '23P01', 43: '23503', 60: '58030', 61: '53200', 62: '58030'}


class Problem(Exception):
    """An error for a client. `position` is the offset of a character, counted from 0."""

    def __init__(self, state: str, message: str, detail: str = '', hint: str = '',
                 position: 'int | None' = None, table: str = '') -> None:
        super().__init__(message)
        self.state, self.message, self.detail, self.hint = state, message, detail, hint
        self.position, self.table = position, table

    def fields(self, severity: str = 'ERROR', note: str = '') -> 'dict[str, str]':
        """The fields of an ErrorResponse, by their letters."""
        return {'S': severity, 'V': severity, 'C': self.state, 'M': self.message, 'D': self.detail,
                'H': '\n'.join(filter(None, [note, self.hint])), 't': self.table,
                'P': '' if self.position is None else str(self.position + 1)}


def refusal(text: str, statement: Statement, catalog: Catalog, code: int, day: str) -> Problem:
    """The problem of a statement of this text that the engine refused over these tables."""
    statement = Statement(1, statement.tokens)
    statement.judge(catalog)
    told = Refusal(statement, code, dict(catalog.tables), day or None, None)
    explainer = Explainer('', text)
    try:
        lines = list(explainer.syntax_lines(told) if code == 10 else explainer.cause_lines(told))
    except Refused:  # of a mend with a name in double quotes, which the profile does not have
        lines = []
    hints = [line for line in lines if line.startswith('What to do')]
    offset = statement.faults[0].offset if statement.faults else statement.tokens[0].offset
    if statement.told:
        offset = statement.told[0].offset
    message = f'{code} {NAMES[code]}' + (f' on {day}' if day else '')
    causes = [line for line in lines if line not in hints]
    return Problem(STATES.get(code, 'XX000'), message, '\n'.join(causes), '\n'.join(hints), offset,
                   getattr(statement.tree, 'table', ''))
