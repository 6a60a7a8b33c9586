"""An answer as a table: a name, a title, the names of the columns, and the rows."""
import dataclasses
import re
from collections.abc import Callable, Iterable, Sequence
from typing import Any, Optional, TypeVar

from bitemporal_tools.command_line import Fault
from bitemporal_tools.reports.report import Answer, Statement

NUMBER = re.compile('-?[0-9]+')
NAME = re.compile(r'name:\s*(\S.*)', re.IGNORECASE)
LONGEST_NAME = 60


@dataclasses.dataclass
class Called:
    """A thing that has a number, a title and a name."""
    number: int
    title: str
    name: str

    @property
    def called(self) -> tuple[int, str, str]:
        return self.number, self.title, self.name


Named = TypeVar('Named', bound=Called)
Ordered = TypeVar('Ordered')


def file_name(words: str) -> str:
    """The words as a part of a file's name: ASCII letters, digits, `_` and `-`, cut after a
    word."""
    name = re.sub('[^A-Za-z0-9_]+', '-', words).strip('-')
    if len(name) > LONGEST_NAME:
        name = name[:LONGEST_NAME + 1].rpartition('-')[0] or name[:LONGEST_NAME]
    return name


def name_of(comment: Sequence[str]) -> str:
    """The name that a line of a comment gives, or an empty text."""
    named = next(filter(None, map(NAME.match, comment)), None)
    return file_name(named[1]) if named else ''


def called(statement: Statement) -> tuple[int, str, str]:
    """The number of a statement, and its title and name by the comment above it. The title is the
    first line, without what names it; the name is what it says, or the number and the title."""
    named = next(filter(None, map(NAME.match, statement.comment)), None)
    titles = [line for line in statement.comment if not NAME.match(line)]
    title = titles[0] if titles else named[1] if named else ''
    return statement.number, title, name_of(statement.comment) or '-'.join(
        filter(None, [str(statement.number), file_name(title).lower()]))


@dataclasses.dataclass
class Table(Called):
    """The answer of a statement, or what is made of it. `kinds` are the types of the columns, as
    far as they are known. `day` and `end` are the places of the columns with the first day of a row
    and its end; `scales` are the digits after the point of some places."""
    columns: list[str]
    rows: list[list[str]]
    kinds: list[str] = dataclasses.field(default_factory=list)
    day: Optional[int] = None
    end: Optional[int] = None
    scales: dict[int, int] = dataclasses.field(default_factory=dict)

    @classmethod
    def of_statement(cls, statement: Statement, has_witness: bool = False) -> 'Table':
        """The table of a statement that answered."""
        outcome = statement.outcome
        if isinstance(outcome, Answer):
            rows = [[*row.values, row.start, row.end] for row in outcome.rows]
            table = cls.of_periods(Called(*called(statement)), outcome.names, rows, outcome.kinds)
            if has_witness:
                table.columns += ['held', 'absent']
                table.kinds += ['VARCHAR'] * 2 if table.kinds else []
                table.rows = [[*cells, row.held, row.absent]
                              for cells, row in zip(rows, outcome.rows)]
            return table
        columns, period = list(outcome.names), outcome.table.period
        return cls(*called(statement), columns, [list(row) for row in outcome.rows],
                   [column.kind for column in outcome.table.columns],
                   columns.index(period.start), columns.index(period.end))

    @classmethod
    def of_periods(cls, of: Called, names: Sequence[str], rows: list[list[str]],
                   kinds: Sequence[str] = ()) -> 'Table':
        """A table whose rows end with a first day and an end."""
        return cls(*of.called, [*names, 'valid_from', 'valid_to'], rows,
                   [*kinds, 'DATE', 'DATE'] if kinds else [], len(names), len(names) + 1)

    def is_number(self, place: int) -> bool:
        """Whether all cells of a column are numbers."""
        return place in self.scales or all(NUMBER.fullmatch(row[place]) for row in self.rows)


def by_name(tables: Sequence[Named], which: str) -> Named:
    """The table of this number, name or title. A name may be written as its comment has it."""
    wanted = which.strip()
    for table in tables:
        if wanted in (str(table.number), table.name, table.title) or \
                wanted and file_name(wanted) == table.name:
            return table
    raise Fault(f'there is no answer {wanted} (there are: {names_of(tables)})', status=1)


def names_of(tables: Sequence[Called]) -> str:
    return ', '.join(table.name for table in tables) or 'none'


def free_names(names: Iterable[str]) -> list[str]:
    """The names; one that exists already gets a number."""
    found: list[str] = []
    for wanted in names:
        name, number = wanted, 2
        while name in found:
            name, number = f'{wanted}_{number}', number + 1
        found.append(name)
    return found


def in_order(items: Sequence[Ordered], cells: Callable[[Ordered], Sequence[str]],
             places: Sequence[int]) -> list[Ordered]:
    """Items in the order of their cells in some places, the first place first: numbers as numbers,
    if all are numbers, and other cells by their UTF-8 bytes. Items that are alike in them stay
    as they are."""
    found = list(items)
    for place in reversed(places):
        texts = [cells(item)[place] for item in found]
        are_numbers = all(map(NUMBER.fullmatch, texts))
        keys: list[Any] = [int(text) if are_numbers else text.encode('utf-8') for text in texts]
        found = [found[at] for at in sorted(range(len(found)), key=keys.__getitem__)]
    return found


def sort(table: Table, columns: Sequence[str]) -> None:
    """Sorts the rows by columns, the first first; `day` is the first day."""
    places: list[int] = []
    for column in columns:
        name = column.strip().upper()
        if name in table.columns:
            places.append(table.columns.index(name))
        elif name == 'DAY' and table.day is not None:
            places.append(table.day)
        else:
            raise Fault(f'answer {table.name} has no column {column.strip()}'
                        f' (it has {", ".join(table.columns)}, and day)', status=1)
    table.rows = in_order(table.rows, list, places)
