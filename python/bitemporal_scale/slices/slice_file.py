"""The script of a slice in a file, from which a statement can be taken out."""
import datetime
import pathlib
from typing import NamedTuple, Optional, Union

from bitemporal_tools.sql.refusals import MOST_BYTES


class Loaded:
    """The part of an INSERT of loaded rows in the place of a number: the file that they are of."""

    def __init__(self, path: str) -> None:
        self.path = path


class Outcome(NamedTuple):
    """An outcome's kind is done, answer or refused; `fields` are its record's fields after the
    number. Of an answer `names` are the columns, `place` is where its rows begin in the file, and
    `audit` has the fields of its audit, or is None."""
    kind: str
    fields: list[str]
    names: list[str] = []
    place: int = 0
    audit: Optional[list[str]] = None


# The number of a statement, or what has the place of one.
Numbered = Union[int, Loaded]


class SliceFile:
    """The slice of the days from `low` on and before `high`. `report` is where the report of its
    last run is, `outcomes` what that says. If `spans` are given, the file is written already."""

    def __init__(self, folder: pathlib.Path, low: datetime.date, high: datetime.date,
                 spans: Optional[list[tuple[Numbered, int, int]]] = None) -> None:
        self.low, self.high = low, high
        self.path, self.report = folder / f'{low}.sql', folder / f'{low}.report'
        self.outcomes: dict[Numbered, Outcome] = {}
        self.spans = spans or []  # of each statement in it: its number, its place and its length
        self.size = 0
        if spans is None:
            self.file = open(self.path, 'wb')

    def add(self, number: Numbered, text: str) -> None:
        """Adds a statement of this number, or an INSERT of loaded rows."""
        written = text.encode()
        self.file.write(written + b';\n')
        self.spans.append((number, self.size, len(written)))
        self.size += len(written) + 2

    def close(self) -> None:
        self.file.close()

    @property
    def is_too_large(self) -> bool:
        return self.size > MOST_BYTES

    def numbers(self) -> list[Numbered]:
        """The numbers of the statements of the slice, in its order."""
        return [number for number, _, _ in self.spans]

    def take_out(self, number: int) -> None:
        """Makes white space of a statement."""
        [span] = [span for span in self.spans if span[0] == number]
        self.spans.remove(span)
        with open(self.path, 'r+b') as file:
            file.seek(span[1])
            file.write(b' ' * span[2])

    def __str__(self) -> str:
        return f'the slice of the days from {self.low} on and before {self.high}'
