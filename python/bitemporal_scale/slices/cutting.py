"""A script and loaded files cut into slices, each in a file."""
import datetime
import pathlib

from bitemporal_tools.sql.refusals import MOST_BYTES

from .borders import TooManyRows, Weights, slices_between
from .csv_rows import CsvRows, load, weight
from .slice_file import SliceFile
from .source import Source

MOST_SLICES = 500  # each has an open file while it is written, and while its answers are joined
ROOM = 50_000  # for all but the rows in the INSERTs of loaded rows


class Cutter:
    """`files` has the CsvRows of each table that is loaded; `days` are the first day that is asked
    for, and the first that no longer is."""

    def __init__(self, source: Source, files: dict[str, CsvRows],
                 days: list[datetime.date]) -> None:
        self.source, self.files, self.days = source, files, days

    def cuts(self, count: int) -> list[datetime.date]:
        """The borders of about `count` slices."""
        weights = Weights(*self.days)
        for statement in self.source.statements:
            for start, end, size in statement.rows():
                weights.add(start, end, size)
        for file in self.files.values():
            for start, end, values in file.rows():
                weights.add(start, end, weight(values))
        most = MOST_BYTES - self.common_bytes() - ROOM
        if most <= 0:
            raise TooManyRows('the statements without rows, which every slice has, are more than'
                              ' a run takes')
        return weights.cuts(count, most)

    def common_bytes(self) -> int:
        return sum(statement.common_bytes for statement in self.source.statements)

    def cut(self, cuts: list[datetime.date], folder: pathlib.Path) -> list[SliceFile]:
        """The slices between borders, each in a file of its own."""
        days = slices_between(self.days[0], cuts, self.days[1])
        if len(days) > MOST_SLICES:
            raise TooManyRows(f'{len(days)} slices are needed, and {MOST_SLICES} are the most')
        slices = [SliceFile(folder, low, high) for low, high in days]
        for statement in self.source.statements:
            if statement.is_stored:
                continue
            for part, text in statement.texts(slices):
                part.add(statement.number, text)
            if statement.created and statement.created in self.files:
                load(self.files[statement.created], slices)
        for part in slices:
            part.close()
            if part.is_too_large:
                raise TooManyRows(f'{part} has {part.size} bytes, and a run takes {MOST_BYTES}')
        return slices
