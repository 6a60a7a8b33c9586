"""A CSV file as programs write them, read with the line of each record, and lines that are bad.

The first line has the names of the columns. Fields may be in quotes, and lines may end as on any
system. Empty lines are left out.
"""
import csv
import io
from collections.abc import Iterator, Sequence
from typing import NamedTuple, Optional

from bitemporal_tools.command_line import Fault, read_bytes

MOST_TOLD = 50


def has_long_line(text: str) -> bool:
    """Whether a line may be longer than a field of CSV that is read."""
    most = csv.field_size_limit() // 2
    return any(text.find('\n', at, at + most) < 0 for at in range(0, len(text) - most, most))


class BadLine(NamedTuple):
    """A line, the place of the column from 0, or None, and a sentence."""
    line: int
    place: Optional[int]
    why: str


class Record(NamedTuple):
    """The cells of a record, and the line on which it begins."""
    line: int
    cells: tuple[str, ...]


class CsvFile:
    """`header` is the list of names. `columns` has the cells of each column, and `lines` the line
    of each record. Bad lines are added to `bad`, by whoever reads the cells too."""

    def __init__(self, path: str, delimiter: str = ',', encoding: str = 'utf-8-sig') -> None:
        self.path = path
        self.bad: list[BadLine] = []
        self.header: list[str] = []
        self.lines: Sequence[int] = []
        self.columns: Sequence[Sequence[str]] = []
        try:
            text = read_bytes(path).decode(encoding)
        except LookupError:
            raise Fault(f'there is no encoding {encoding}') from None
        except UnicodeDecodeError as error:
            line = error.object[:error.start].count(b'\n') + 1
            raise Fault(f'{path}:{line}: no {encoding.replace("-sig", "")}: name the encoding, such'
                        ' as --encoding windows-1252', status=1) from None
        if not self.read_plain(text.replace('\r\n', '\n') if '\r' in text else text, delimiter):
            self.read(text, delimiter)
        if not self.header:
            raise Fault(f'{path} is empty', status=1)

    def read_plain(self, text: str, delimiter: str) -> bool:
        """Reads a text of lines with as many fields as the header has, which are several, if none
        is in quotes, in a third of the time. Gives whether it is such a text."""
        head = text[:text.find('\n')].split(delimiter)
        if len(head) < 2 or any(sign in text for sign in '"\r\0') or has_long_line(text):
            return False
        cells = text.replace('\n', f'{delimiter}\n').split(delimiter)
        if cells[-1] == '\n':  # after the last line
            cells.pop()
        # A line begins with the first column if each such cell does, and no other. So none of two
        # fields or more is empty.
        count = len(head)
        first = ''.join(cells[::count]).split('\n')
        if len(first) * count != len(cells) or len(first) < 2 or \
                len(first) + text.endswith('\n') != text.count('\n') + 1:
            return False
        self.header, self.lines = [name.strip() for name in head], range(2, len(first) + 1)
        self.columns = [first[1:], *(cells[count + place::count] for place in range(1, count))]
        return True

    def read(self, text: str, delimiter: str) -> None:
        """Reads any text."""
        reader = csv.reader(io.StringIO(text, newline=''), delimiter=delimiter, strict=True)
        line, count, lines, rows = 1, 0, [], []
        try:
            for cells in reader:
                if len(cells) == count and count:
                    rows.append(cells)
                    lines.append(line)
                elif cells and not count:
                    self.header, count = [name.strip() for name in cells], len(cells)
                elif cells:
                    self.bad.append(BadLine(line, None, f'{len(cells)} fields, and the header has'
                                                        f' {count}'))
                line = reader.line_num + 1
        except csv.Error as error:
            self.bad.append(BadLine(line, None, f'no CSV: {error}'))
        self.lines, self.columns = lines, list(zip(*rows)) or [()] * count

    @property
    def records(self) -> Iterator[Record]:
        return map(Record, self.lines, zip(*self.columns))

    def told(self) -> list[str]:
        """The lines that say what is wrong, in the order of the file."""
        lines = []
        for line, place, why in sorted(self.bad, key=lambda bad: bad[0])[:MOST_TOLD]:
            column = '' if place is None else f' column {place + 1} ({self.header[place]}):'
            lines.append(f'{self.path}:{line}:{column} {why}')
        if len(self.bad) > MOST_TOLD:
            lines.append(f'{self.path}: and {len(self.bad) - MOST_TOLD} more')
        return lines
