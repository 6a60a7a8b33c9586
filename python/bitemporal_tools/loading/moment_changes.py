"""The statements of each moment: of a file alone, or of a file over what a store has."""
from __future__ import annotations

import bisect
import itertools
import operator
from collections.abc import Iterator
from typing import TYPE_CHECKING, Optional, Union

from bitemporal_tools.loading.corrections import (Clash, Fact, Others, Portions, Records, Said,
                                                  TableDays, first_day, uncovered)
from bitemporal_tools.loading.fact_columns import FactColumns
from bitemporal_tools.loading.late_lines import differing, joined, last_said, unrecorded
from bitemporal_tools.loading.script_writer import StatementWriter
from bitemporal_tools.loading.tables import Groups
from bitemporal_tools.sql.catalog import Table
if TYPE_CHECKING:
    from bitemporal_tools.loading.stored_rows import StoredTable

moment_of_fact = operator.attrgetter('moment')


class MomentChanges:
    """The changes that facts make, moment by moment. `days` is what the table has after those so
    far."""

    def __init__(self, table: Table, by_record: bool, clash: Clash) -> None:
        self.model: Union[Records, Portions] = Records() if by_record else Portions()
        self.days, self.writer, self.clash = TableDays(), StatementWriter(table), clash

    def said(self, facts: list[Fact]) -> Iterator[tuple[str, Said]]:
        """The sayings of facts that are in the order of their moments, moment by moment."""
        for moment, group in itertools.groupby(facts, key=moment_of_fact):
            yield moment, self.model.said(group, self.clash)

    def groups(self, facts: list[Fact], at: str) -> Groups:
        """The statements of facts in the order of their moments. Without a moment of their own they
        are of the moment `at`."""
        found = []
        for moment, said in self.said(facts):
            statements = self.statements(said)
            if statements:
                found.append((moment or at, statements))
        return found

    def statements(self, said: Said) -> list[str]:
        return list(self.writer.statements(*self.days.take(said)))

    def groups_of_new(self, rows: FactColumns, at: str) -> Groups:
        """The statements of new rows that share no day with any of their keys."""
        return [(moment or at, list(self.writer.inserts(of_moment)))
                for moment, of_moment in rows.by_moment()]

    def completed(self, facts: list[Fact], stored: StoredTable) -> Said:
        """The sayings of facts of one moment if they are all that the table is to have: rows of
        the store that are no such facts are removed."""
        self.days = stored.current(None)
        said = self.model.said(facts, self.clash)
        for key, held in self.days.facts.items():
            others = Others(said.get(key, []))
            gone = [fact._replace(values=None, start=start, end=end)
                    for fact in held for start, end in uncovered(fact, others)]
            if gone:
                said[key] = sorted(said.get(key, []) + gone, key=first_day)
        return said

    def catch_up(self, facts: list[Fact], stored: Optional[StoredTable],
                 clock: str) -> tuple[Said, list[Fact]]:
        """Has the table be as the store has it now. Gives what the store lacks of the facts up to
        its clock, and the facts after that."""
        keys = {fact.key for fact in facts}
        if stored:
            self.days = stored.current(keys)
        count = bisect.bisect_right([fact.moment for fact in facts], clock)
        if not facts or not facts[-1].moment:  # no moments: all is said now
            count = 0
        parts: Said = {}
        for key, of_key in last_said(said for _, said in self.said(facts[:count])).items():
            found = differing(of_key, self.days.facts.get(key, []))
            if found:
                parts[key] = found
        history = stored.history(parts.keys()) if stored and parts else {}
        lacking = {key: joined(part for fact in of_key
                               for part in unrecorded(fact, history.get(key, ())))
                   for key, of_key in parts.items()}
        return {key: of_key for key, of_key in lacking.items() if of_key}, facts[count:]
