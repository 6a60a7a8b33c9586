"""The current rows of each table after some statements, and what clashes there: 42 and 43.

Rows are lists of versions without their past: what a key and a reference are judged by. The rows of
a table are held by key, so that a change whose WHERE names a whole key looks at few.
"""
import datetime
import operator
from collections.abc import Iterator
from typing import NamedTuple, Optional, Union

from .catalog import Catalog, Table
from .tree import (And, Change, ColumnReference, Comparison, Condition, Delete, Insert, Literal,
                   Not, Or, Reference, Value)

SIGNS = {'=': operator.eq, '<>': operator.ne, '<': operator.lt, '<=': operator.le,
         '>': operator.gt, '>=': operator.ge}


class CurrentRow(NamedTuple):
    """The values of the value columns, the period, and the offset of the row in the script."""
    values: tuple[Value, ...]
    start: datetime.date
    end: datetime.date
    offset: int


class Clash(NamedTuple):
    """Two rows of one key on a day, or (if `other` is None) a child row without a parent row by
    a reference."""
    number: int
    day: datetime.date
    table: Table
    row: CurrentRow
    other: Optional[CurrentRow]
    reference: Optional[Reference]


class Rows:
    """The current rows of a table, by key."""

    def __init__(self, table: Table) -> None:
        self.table = table
        self.key_places = [table.place(name) for name in table.key]
        self.by_key: dict[tuple[Value, ...], list[CurrentRow]] = {}

    def key(self, row: CurrentRow) -> tuple[Value, ...]:
        return tuple(row.values[place] for place in self.key_places)

    def of_key(self, key: tuple[Value, ...]) -> list[CurrentRow]:
        return self.by_key.get(key, [])

    def all(self) -> list[CurrentRow]:
        return [row for rows in self.by_key.values() for row in rows]

    def first_clash(self, keys: list[tuple[Value, ...]]) -> Optional[
            tuple[datetime.date, CurrentRow, CurrentRow]]:
        """The first day on which two rows have one of the keys, with both."""
        first = None
        for key in keys:
            rows = sorted(self.of_key(key), key=lambda row: (row.start, row.end))
            open_row = None
            for row in rows:
                if open_row and row.start < open_row.end and (not first or row.start < first[0]):
                    first = row.start, open_row, row
                if not open_row or row.end > open_row.end:
                    open_row = row
        return first


class CurrentRows:
    """The current rows of all tables of a catalog."""

    def __init__(self, catalog: Catalog) -> None:
        self.catalog = catalog
        self.rows: dict[str, Rows] = {}

    def of(self, name: str) -> Rows:
        """The rows of the table of this name."""
        return self.rows.setdefault(name, Rows(self.catalog.tables[name]))

    def change(self, tree: Union[Insert, Change]) -> Optional[Clash]:
        """Makes an INSERT, an UPDATE or a DELETE that has no fault of its text, or gives its clash
        and leaves the rows as they are."""
        rows = self.of(tree.table)
        gone, new = ([], inserted(tree, rows.table)) if isinstance(tree, Insert) else \
            self.changed(tree, rows)
        keys = list(dict.fromkeys(rows.key(row) for row in new + gone))
        before = {key: rows.of_key(key) for key in keys}
        left = {id(row) for row in gone}
        for key in keys:
            rows.by_key[key] = [row for row in before[key] if id(row) not in left]
        for row in new:
            rows.by_key[rows.key(row)].append(row)
        clash = self.clash(rows, keys, gone, new)
        if clash:
            rows.by_key.update(before)
        return clash

    def changed(self, tree: Change, rows: Rows) -> tuple[list[CurrentRow], list[CurrentRow]]:
        """The rows that an UPDATE or a DELETE touches, and those in their place."""
        table = rows.table
        start, end = (tree.portion.start.value, tree.portion.end.value) if tree.portion else \
            (datetime.date.min, datetime.date.max)
        sets = {} if isinstance(tree, Delete) else \
            {table.place(name): literal.value for name, literal in tree.sets}
        gone, new = [], []
        for row in self.candidates(tree.where, rows):
            if not (row.start < end and start < row.end and holds(tree.where, row, table)):
                continue
            gone.append(row)
            values = tuple(sets.get(place, value) for place, value in enumerate(row.values))
            new += [row._replace(end=start)] if row.start < start else []
            new += [] if isinstance(tree, Delete) else [CurrentRow(
                values, max(row.start, start), min(row.end, end), row.offset)]
            new += [row._replace(start=end)] if end < row.end else []
        return gone, new

    def candidates(self, where: Optional[Condition], rows: Rows) -> list[CurrentRow]:
        """Rows among which are all that meet the condition."""
        equal = fixed(where)
        if all(name in equal for name in rows.table.key):
            return rows.of_key(tuple(equal[name] for name in rows.table.key))
        return rows.all()

    # Clashes.

    def clash(self, rows: Rows, keys: list[tuple[Value, ...]], gone: list[CurrentRow],
              new: list[CurrentRow]) -> Optional[Clash]:
        found = rows.first_clash(keys)
        if found:
            return Clash(42, found[0], rows.table, found[1], found[2], None)
        clashes = [clash for reference in rows.table.references
                   for clash in self.without_parent(rows, reference, new)]
        if gone:
            for name, child in self.catalog.tables.items():
                for reference in child.references:
                    if reference.table == rows.table.name:
                        clashes += self.without_parent(self.of(name), reference,
                                                       self.of(name).all())
        return min(clashes, key=operator.attrgetter('day'), default=None)

    def without_parent(self, rows: Rows, reference: Reference,
                       children: list[CurrentRow]) -> Iterator[Clash]:
        """A clash for each of the children that lacks a parent on a day: the first such day."""
        parents = self.of(reference.table)
        own = dict(zip(reference.table_columns, reference.columns))
        places = [rows.table.place(own[name]) for name in parents.table.key]
        for row in children:
            day = row.start
            key = tuple(row.values[place] for place in places)
            for parent in sorted(parents.of_key(key), key=lambda parent: parent.start):
                if parent.start <= day < parent.end:
                    day = parent.end
            if day < row.end:
                yield Clash(43, day, rows.table, row, None, reference)


def inserted(insert: Insert, table: Table) -> list[CurrentRow]:
    """The rows of an INSERT."""
    names = insert.columns or [column.name for column in table.given]
    cells = [(dict(zip(names, row.values)), row.offset) for row in insert.rows]
    return [CurrentRow(tuple(row[name].value for name in table.value_names),
                       row[table.period.start].value, row[table.period.end].value, offset)
            for row, offset in cells]


def fixed(condition: Optional[Condition]) -> dict[str, Value]:
    """The columns that a condition compares by = with a literal, each with its value."""
    if isinstance(condition, And):
        return {column: value for part in condition.conditions
                for column, value in fixed(part).items()}
    if isinstance(condition, Comparison) and condition.sign == '=':
        for side, other in ((condition.left, condition.right), (condition.right, condition.left)):
            if isinstance(side, ColumnReference) and isinstance(other, Literal):
                return {side.name: other.value}
    return {}


def holds(condition: Optional[Condition], row: CurrentRow, table: Table) -> bool:
    """Whether a row meets a condition without period predicates. Code points compare as UTF-8."""
    if condition is None:
        return True
    if isinstance(condition, Or):
        return any(holds(inner, row, table) for inner in condition.conditions)
    if isinstance(condition, And):
        return all(holds(inner, row, table) for inner in condition.conditions)
    if isinstance(condition, Not):
        return not holds(condition.condition, row, table)
    assert isinstance(condition, Comparison)
    left, right = (side.value if isinstance(side, Literal) else row.values[table.place(side.name)]
                   for side in (condition.left, condition.right))
    return bool(SIGNS[condition.sign](left, right))
