"""The report of a slice in its file: what became of each statement, and where its rows are.

Rows stay in the file until the answers are joined, so that they need not fit into memory.
"""
from collections.abc import Iterator
from typing import BinaryIO, Optional

from bitemporal_tools.reports.records import records

from .slice_file import Numbered, Outcome, SliceFile


class BadReport(Exception):
    """A report that isn't one of the slice's script."""


def lines(file: BinaryIO) -> Iterator[bytes]:
    """The records of a file of bytes, each as its line: one that has a line feed in quotes is more
    than one line of the file."""
    parts, quotes = list[bytes](), 0
    for line in file:
        parts.append(line)
        quotes += line.count(b'"')
        if quotes % 2 == 0:
            yield parts[0] if len(parts) == 1 else b''.join(parts)
            parts = []
    if parts:
        raise BadReport('a report ends inside quotes')


def fields(line: bytes) -> list[str]:
    """The fields of a record's line."""
    text = line.decode()
    if '"' in text:
        return next(records(text))
    return text[:-1].split(',')


def outcomes(part: SliceFile) -> dict[Numbered, Outcome]:
    """The outcome of each statement of a slice, by number, as the file of its report says."""
    numbers, found = part.numbers(), dict[Numbered, Outcome]()
    with open(part.report, 'rb') as file:
        reader = Reader(file)
        for at, number in enumerate(numbers, 1):
            found[number] = reader.outcome(at)
        if reader.line is not None:
            raise BadReport(f'{part}: the report has more than its statements')
    return found


class Reader:
    """Reads the outcomes of a report one after the other."""

    def __init__(self, file: BinaryIO) -> None:
        self.lines, self.place = lines(file), 0
        self.line: Optional[bytes] = b''
        self.advance()

    def advance(self) -> None:
        self.place += len(self.line or b'')
        self.line = next(self.lines, None)

    def take(self, kind: str, at: int) -> list[str]:
        """The fields of the next record, which is of this kind and statement."""
        found = fields(self.line) if self.line is not None else []
        if found[:2] != [kind, str(at)]:
            raise BadReport(f'a report has {",".join(found[:3])} in the place of statement {at}')
        self.advance()
        return found[2:]

    def outcome(self, at: int) -> Outcome:
        kind = self.line.partition(b',')[0].decode() if self.line is not None else ''
        if kind not in ('answer', 'done', 'refused'):
            raise BadReport(f'a report has no record of statement {at}')
        said = self.take(kind, at)
        if kind != 'answer':
            return Outcome(kind, said)
        names, place = self.take('columns', at), self.place
        for _ in range(int(said[1])):
            self.advance()
        is_audited = self.line is not None and self.line.startswith(b'audit,')
        return Outcome(kind, said, names, place, self.take('audit', at) if is_audited else None)


def rows(part: SliceFile, number: int) -> Iterator[list[str]]:
    """The fields of the rows of an answer, after their numbers."""
    outcome = part.outcomes[number]
    with open(part.report, 'rb') as file:
        file.seek(outcome.place)
        reader = lines(file)
        for _ in range(int(outcome.fields[1])):
            yield fields(next(reader))[2:]
