"""The statements of a script, and what of each a slice of days has.

A slice has the days from `low` on and before `high`. A row or a portion that crosses a border
is cut there, and a statement that is left without a day is left out. All other statements, and
those that are refused by their own text, are the same in each slice.
"""
import bisect
import datetime
from collections.abc import Iterator
from typing import Optional

from bitemporal_tools.sql.catalog import Catalog, Table
from bitemporal_tools.sql.literals import literal
from bitemporal_tools.sql.queries import columns_of
from bitemporal_tools.sql.script import Statement, judge
from bitemporal_tools.sql.tree import Create, Delete, Insert, Portion, Sequenced, Stored, Update

from .slice_file import SliceFile

FIRST_DAY, END = datetime.date.min, datetime.date.max
LENGTH_OF_A_DATE = len("'2024-01-01'")


class Places:
    """The places of the slices that have days of a period. The slices meet each other."""

    def __init__(self, slices: list[SliceFile]) -> None:
        self.lows, self.high = [part.low for part in slices], slices[-1].high

    def of(self, start: datetime.date, end: datetime.date) -> range:
        if start >= self.high:
            return range(0)
        return range(max(bisect.bisect_right(self.lows, start) - 1, 0),
                     bisect.bisect_left(self.lows, end))


class Cut:
    """A statement, and what of it is in each slice: here the whole. `created` is the table that it
    makes, `common_bytes` are those that each slice has of it."""

    def __init__(self, statement: Statement, text: str) -> None:
        self.number, self.tree, self.text = statement.number, statement.tree, text
        self.is_stored = isinstance(self.tree, Stored) and not statement.faults
        self.created: Optional[str] = None
        if isinstance(self.tree, Create) and not statement.faults:
            self.created = self.tree.name
        self.common_bytes = len(text.encode()) + 2

    def rows(self) -> Iterator[tuple[datetime.date, datetime.date, int]]:
        """The first day, the end and the bytes of each row."""
        return iter(())

    def texts(self, slices: list[SliceFile]) -> list[tuple[SliceFile, str]]:
        """The text of the statement in each slice that has it."""
        return [(part, self.text) for part in slices]


class Inserted(Cut):
    """An INSERT: its rows are cut."""

    def __init__(self, statement: Statement, insert: Insert, table: Table) -> None:
        super().__init__(statement, '')
        names = insert.columns or [column.name for column in table.given]
        listed = f" ({', '.join(insert.columns)})" if insert.columns else ''
        self.head = f'INSERT INTO {insert.table}{listed} VALUES '
        self.common_bytes = len(self.head) + 2
        self.places = names.index(table.period.start), names.index(table.period.end)
        start, end = self.places
        self.parts = [(row.values[start].value, row.values[end].value,
                       [literal(cell.value) for cell in row.values]) for row in insert.rows]

    def rows(self) -> Iterator[tuple[datetime.date, datetime.date, int]]:
        """The first day, the end and the bytes of each row."""
        for start, end, cells in self.parts:
            yield start, end, sum(len(cell.encode()) + 1 for cell in cells) + 3

    def texts(self, slices: list[SliceFile]) -> list[tuple[SliceFile, str]]:
        places, rows = Places(slices), [list[str]() for _ in slices]
        for start, end, cells in self.parts:
            for at in places.of(start, end):
                cells[self.places[0]] = literal(max(start, slices[at].low))
                cells[self.places[1]] = literal(min(end, slices[at].high))
                rows[at].append(f"({','.join(cells)})")
        return [(part, self.head + ',\n'.join(texts)) for part, texts in zip(slices, rows) if texts]


class Changed(Cut):
    """An UPDATE or DELETE of a portion: the portion is cut."""

    def __init__(self, statement: Statement, portion: Portion, text: str) -> None:
        super().__init__(statement, text)
        self.days = portion.start.value, portion.end.value
        first = statement.tokens[0].offset
        self.places = [date.offset - first for date in (portion.start, portion.end)]

    def texts(self, slices: list[SliceFile]) -> list[tuple[SliceFile, str]]:
        return [(part, self.text_on(max(self.days[0], part.low), min(self.days[1], part.high)))
                for part in slices if self.days[0] < part.high and self.days[1] > part.low]

    def text_on(self, start: datetime.date, end: datetime.date) -> str:
        text = self.text
        for place, day in zip(self.places, (start, end)):
            text = f"{text[:place]}'{day}'{text[place + LENGTH_OF_A_DATE:]}"
        return text


class Source:
    """A script that is cut: its statements in turn, its tables, and the types of its answers."""

    def __init__(self, text: str) -> None:
        self.catalog, self.statements = Catalog(), list[Cut]()
        self.kinds: dict[int, list[Optional[str]]] = {}
        for statement in judge(text):
            if not statement.faults:
                self.catalog.take(statement.tree)
            if isinstance(statement.tree, Sequenced) and not statement.faults:
                self.kinds[statement.number] = [
                    kind for _, kind in columns_of(statement.tree.query, self.catalog)]
            self.statements.append(self.part(statement, text))

    def part(self, statement: Statement, text: str) -> Cut:
        written, tree = text[statement.tokens[0].offset:statement.tokens[-1].end], statement.tree
        if not statement.faults:
            if isinstance(tree, Insert):
                return Inserted(statement, tree, self.catalog.tables[tree.table])
            if isinstance(tree, (Update, Delete)) and tree.portion:
                return Changed(statement, tree.portion, written)
        return Cut(statement, written)

    def stored_queries(self) -> list[int]:
        """The numbers of the stored queries, which show periods as they are stored."""
        return [statement.number for statement in self.statements if statement.is_stored]
