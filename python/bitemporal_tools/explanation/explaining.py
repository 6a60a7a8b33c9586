"""The text about each refused statement of a script, and about a script refused as a whole."""
import collections
from collections.abc import Iterable, Iterator
from typing import Optional

from bitemporal_tools.reports.report import NotOfScript
from bitemporal_tools.sql.catalog import Catalog, Table
from bitemporal_tools.sql.lexis import Places, decoded, lexed, pieces
from bitemporal_tools.sql.refusals import NAMES, Refused
from bitemporal_tools.sql.scope import IS_NEW_NAME
from bitemporal_tools.sql.script import Statement

from . import bad_tokens, clashes
from .causes import CAUSES, NO_STATEMENT, WHAT_TO_DO, what_to_do
from .mends import Mending
from .notes import NO_PARTNERS, notes
from .report import Refusal, Report
from .texts import shown, wrapped

MOST_PLACES, MOST_CAUSES = 3, 8  # of one kind, and of what a definition lacks


def statements_of(text: str) -> list[Statement]:
    """The statements of a script's text, judged by their syntax."""
    return [Statement(number, tokens) for number, tokens in enumerate(pieces(lexed(text)), 1)]


class Explainer:
    """The sentences on a script, whose name is `path`."""

    def __init__(self, path: str, text: str) -> None:
        self.path, self.text, self.places = path, text, Places(text)
        # The refused CREATE TABLEs, by the name of their table.
        self.refused_tables: dict[str, Statement] = {}

    def explained(self, refusal: Refusal) -> str:
        """The text about a refused statement. They are explained in order."""
        statement, code = refusal.statement, refusal.code
        lines = self.syntax_lines(refusal) if code == 10 else self.cause_lines(refusal)
        text = self.text_about(statement, f'{code} {NAMES[code]}', lines)
        name = made_table(statement)
        if name:
            self.refused_tables[name] = statement
        return text

    def noted(self, statement: Statement, tables: dict[str, Table]) -> list[str]:
        """The text about a statement that is right, over these tables, or nothing."""
        lines = [f'At {self.places.shown(offset)}: {what}'
                 for offset, what in notes(statement, tables)]
        return [self.text_about(statement, 'note', lines)] if lines else []

    def text_about(self, statement: Statement, what: str, lines: Iterable[str]) -> str:
        first, last = statement.tokens[0], statement.tokens[-1]
        line = self.text[first.offset:last.end].split('\n', maxsplit=1)[0]
        return '\n'.join([f'{self.path}:{self.places.shown(first.offset)}: statement'
                          f' {statement.number}: {what}', '    ' + shown(line), *wrapped(lines)])

    def syntax_lines(self, refusal: Refusal) -> Iterator[str]:
        mending = Mending(refusal.statement.tokens, refusal.tables)
        offset, what = mending.where()
        yield f'At {self.places.shown(offset)}: {what}.'
        said: collections.Counter[str] = collections.Counter()
        for place, sentence in mending.advice():
            said[sentence] += 1
            if said[sentence] <= MOST_PLACES:
                yield f'What to do at {self.places.shown(place)}: {sentence}'
        more = sum(max(0, count - MOST_PLACES) for count in said.values())
        if more:
            yield f'And the same at {more} more.'
        if not said:
            yield f'What to do: {WHAT_TO_DO[10] if mending.stop else NO_STATEMENT}'

    def cause_lines(self, refusal: Refusal) -> Iterator[str]:
        statement, code = refusal.statement, refusal.code
        causes = [(fault.offset, fault.why) for fault in statement.faults if fault.number == code]
        if refusal.clash:
            causes = list(clashes.causes(refusal.clash, self.places))
        if refusal.day and not refusal.clash:
            yield clashes.unseen_cause(refusal)
        if code in CAUSES and not causes:
            yield f'Cause: {CAUSES[code]}'
        most = MOST_CAUSES if code == 28 else MOST_PLACES
        for offset, why in causes[:most]:
            yield f'Cause at {self.places.shown(offset)}: {why}'
        if len(causes) > most:
            yield f'And at {len(causes) - most} more.'
        refused = self.refused_table(statement) if code == 23 else None
        if refused:
            what = f'Mend its CREATE TABLE, statement {refused.number} at' \
                   f' {self.places.shown(refused.tokens[0].offset)}, which is refused.'
        else:
            what = what_to_do(code, statement.tree, refusal.tables)
        if code in (24, 25) and all(IS_NEW_NAME in why for _, why in causes):
            what = NO_PARTNERS if code == 24 else f'{what} {NO_PARTNERS}'
        yield f'What to do: {what}'

    def refused_table(self, statement: Statement) -> Optional[Statement]:
        """The refused CREATE TABLE of the first table that a statement lacks, or None."""
        offset = next(fault.offset for fault in statement.faults if fault.number == 23)
        name = next(token.word for token in statement.tokens if token.offset == offset)
        return self.refused_tables.get(name)


def made_table(statement: Statement) -> Optional[str]:
    """The name of the table of a CREATE TABLE, or None."""
    words = [token.word for token in statement.tokens[:3]]
    return words[2] if words[:2] == ['CREATE', 'TABLE'] and len(words) == 3 else None


class Explanation:
    """The sentences on a script, given as bytes, and of its report: `texts` of what is refused, and
    `notes` on statements that are right. `statements` are the script's, none if it is
    refused as a whole, and `accepted` those that are not refused; `records` and `refusals` are
    those of the report. The script was run over the tables of a catalog. `NotOfScript` if the
    report isn't that of the script."""

    def __init__(self, path: str, script: bytes, report: str, catalog: Catalog) -> None:
        self.statements: list[Statement] = []
        self.accepted: list[Statement] = []
        self.records: list[list[str]] = []
        self.refusals: list[Refusal] = []
        self.notes: list[str] = []
        try:
            text = decoded(script)
            self.statements = statements_of(text)
        except Refused as refused:
            if report:
                why = 'is not UTF-8' if refused.number == 1 else f'is refused as a whole: {refused}'
                raise NotOfScript('the report is not of this script, which has 0 statements, since'
                                  f' it {why}') from None
            self.texts = [bad_tokens.of_script(path, script, refused)]
            return
        read = Report(report, self.statements, catalog)
        self.records, self.refusals = read.records, read.refusals()
        explainer = Explainer(path, text)
        self.texts = [explainer.explained(refusal) for refusal in self.refusals]
        numbers, catalog = {refusal.statement.number for refusal in self.refusals}, catalog.copy()
        self.accepted = [statement for statement in self.statements
                         if statement.number not in numbers and not statement.faults]
        for statement in self.accepted:
            self.notes += explainer.noted(statement, catalog.tables)
            catalog.take(statement.tree)
