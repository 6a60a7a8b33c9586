"""The report of a script that was run in slices."""
import shutil
import tempfile
from typing import BinaryIO, Union

from bitemporal_tools.reports.records import record
from bitemporal_tools.sql.tree import Delete, Insert, Update

from .joining import joined
from .slice_file import SliceFile
from .source import Cut, Source

AGREES, DIFFERS, BAD_WITNESS, REFUSED = 'agrees', 'differs', 'badwitness', 'refused'


class Report:
    """Writes the records of each statement. `statuses` are those that the program would end
    with."""

    def __init__(self, source: Source, slices: list[SliceFile], refused: dict[int, list[str]],
                 output: BinaryIO) -> None:
        self.source, self.slices, self.refused = source, slices, refused
        self.output, self.statuses = output, {0}

    def write(self) -> None:
        for statement in self.source.statements:
            if not statement.is_stored:
                self.statement(statement)

    def line(self, *fields: Union[int, str]) -> None:
        self.output.write(record(map(str, fields)).encode())

    def statement(self, statement: Cut) -> None:
        number = statement.number
        if number in self.refused:
            self.line('refused', number, *self.refused[number])
            self.statuses.add(1)
        elif number in self.source.kinds:
            self.answer(number)
        else:
            self.line('done', number, type(statement.tree).__name__.lower(), rows_of(statement))

    def answer(self, number: int) -> None:
        """The joined rows go to a file first, since their number precedes them."""
        kinds, count = self.source.kinds[number], 0
        with tempfile.TemporaryFile() as file:
            for row in joined(self.slices, number, kinds):
                file.write(record(['row', str(number), *row]).encode())
                count += 1
            file.seek(0)
            self.line('answer', number, len(kinds), count)
            self.line('columns', number, *self.slices[0].outcomes[number].names)
            shutil.copyfileobj(file, self.output)
        audits = [part.outcomes[number].audit for part in self.slices]
        told = [audit for audit in audits if audit is not None]
        if len(told) == len(audits):
            self.audit(number, told)

    def audit(self, number: int, audits: list[list[str]]) -> None:
        """One record for the audits of all slices: if all agree, with the sum of their days."""
        bad = [audit for audit in audits if audit[0] != AGREES]
        if not bad:
            self.line('audit', number, AGREES, sum(int(days) for _, days in audits))
            return
        self.statuses.add(3)
        for kind in (DIFFERS, BAD_WITNESS, REFUSED):
            found = [audit for audit in bad if audit[0] == kind]
            if found:
                self.line('audit', number, *min(found, key=lambda audit: audit[1]))
                return

    @property
    def status(self) -> int:
        return max(self.statuses)


def rows_of(statement: Cut) -> Union[int, str]:
    """The number of rows in a done record. A row that an UPDATE or a DELETE touches is cut into
    the rows of several slices, so their numbers are not known."""
    if isinstance(statement.tree, Insert):
        return len(statement.tree.rows)
    return '' if isinstance(statement.tree, (Update, Delete)) else 0
