"""The refusals of a report, each judged: what the script alone decides has to be what the report
says."""
from collections.abc import Iterator
from typing import NamedTuple, NoReturn, Optional

from bitemporal_tools.reports.report import WITH_DAY, Done, Reader, Refused, shown
from bitemporal_tools.sql.catalog import Catalog, Table
from bitemporal_tools.sql.current_rows import Clash, CurrentRows
from bitemporal_tools.sql.refusals import NAMES
from bitemporal_tools.sql.script import Statement
from bitemporal_tools.sql.tree import Delete, Insert, Update

MEMORY, STORE = 61, 62
CHANGES = (Insert, Update, Delete)


class Refusal(NamedTuple):
    """A refusal that the report has: the statement, the tables that exist before it, by name,
    and of 42 and 43 the day and the clash that they are about (None if a store has rows that the
    script does not show)."""
    statement: Statement
    code: int
    tables: dict[str, Table]
    day: Optional[str]
    clash: Optional[Clash]


class Report:
    """The refusals of a report, given as text, over the statements of a script, which was run over
    the tables of a catalog."""

    def __init__(self, text: str, statements: list[Statement], catalog: Catalog) -> None:
        self.statements, self.reader = statements, Reader(text, len(statements))
        self.catalog = catalog
        self.records = self.reader.records
        self.is_check = bool(self.records) and self.records[-1][0] == 'checked'

    def refusals(self) -> list[Refusal]:
        """The refusals, in order."""
        return list(self.refusals_of_check() if self.is_check else self.refusals_of_run())

    def refusals_of_check(self) -> Iterator[Refusal]:
        catalog, count, last = Catalog(), 0, self.records[-1]
        if last[1:2] != [str(len(self.statements))]:
            self.reader.fail(f'it has the record {shown(last)}')
        for statement in self.statements:
            code = 0
            if self.reader.next_kind() == 'refused' and \
                    self.records[self.reader.at][1:2] == [str(statement.number)]:
                code, count = int(self.reader.refusal(statement.number).number), count + 1
            if code != statement.syntax_refusal:
                self.differs(statement, statement.syntax_refusal, code)
            if code:
                yield Refusal(statement, code, dict(catalog.tables), None, None)
                continue
            statement.judge(catalog)
            if not statement.faults:
                catalog.take(statement.tree)
        if self.reader.take('checked', len(self.statements), 1) != [str(count)]:
            self.reader.fail(f'it has not {count} refused statements in its last record')
        self.reader.ends()

    def differs(self, statement: Statement, judged: int, told: int) -> NoReturn:
        said = [f'{code} {NAMES[code]}' if code else 'no refusal' for code in (judged, told)]
        self.reader.fail(f'statement {statement.number} is {said[0]} by the script and {said[1]} by'
                         ' the report')

    def refusals_of_run(self) -> Iterator[Refusal]:
        """Judges each statement over what those before it left, by the report."""
        catalog, is_store = self.catalog.copy(), bool(self.catalog.tables)
        has_days = any(record[0] == 'refused' and record[-1] for record in self.records)
        rows = CurrentRows(catalog) if has_days and not is_store else None
        for statement in self.statements:
            outcome = self.reader.outcome(statement.number, statement.tree, catalog)
            code = int(outcome.number) if isinstance(outcome, Refused) else 0
            statement.judge(catalog)
            judged, clash = statement.refusal, None
            day = outcome.day if isinstance(outcome, Refused) and code in WITH_DAY else None
            if not judged and isinstance(statement.tree, CHANGES) and code not in (MEMORY, STORE):
                if rows:
                    clash = rows.change(statement.tree)
                    judged = clash.number if clash else 0
                elif is_store and code in WITH_DAY:
                    judged = code
            if code not in (judged, MEMORY, STORE):
                self.differs(statement, judged, code)
            if isinstance(statement.tree, Insert) and isinstance(outcome, Done) and \
                    outcome.rows != len(statement.tree.rows):
                self.reader.fail(f'it has not the number of rows of statement {statement.number}')
            if clash and clash.day.isoformat() != day:
                self.reader.fail(f'the day of statement {statement.number} is {clash.day} by the'
                                 ' script')
            if code:
                yield Refusal(statement, code, dict(catalog.tables), day, clash)
            else:
                catalog.take(statement.tree)
        self.reader.ends()
