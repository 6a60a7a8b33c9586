"""The tables and the clock after some statements, as far as the script alone decides."""
from __future__ import annotations

from typing import Optional

from .literals import FIRST_MOMENT
from .tree import At, Column, Create, Name, Tree


class Table:
    """A table that CREATE TABLE made: a lawful definition, with its columns by name."""

    def __init__(self, create: Create) -> None:
        self.name, self.columns, self.references = create.name, create.columns, create.references
        [self.period] = create.periods
        [key] = create.keys
        self.key = key.columns
        self.by_name: dict[str, Column] = {column.name: column for column in create.columns}
        self.system = [column for column in create.columns if column.generated]
        self.given = [column for column in create.columns if not column.generated]
        self.values = [column for column in self.given
                       if column.name not in (self.period.start, self.period.end)]
        self.value_names = [column.name for column in self.values]

    def place(self, name: Name) -> int:
        """The place of a value column among these, counted from 0."""
        return self.value_names.index(name)


class Catalog:
    """Tables by name, in the order of their creation, and the clock's moment."""

    def __init__(self) -> None:
        self.tables: dict[str, Table] = {}
        self.clock = FIRST_MOMENT

    def copy(self) -> Catalog:
        other = Catalog()
        other.tables, other.clock = dict(self.tables), self.clock
        return other

    def take(self, tree: Optional[Tree]) -> None:
        """The change that a statement without faults makes of it."""
        if isinstance(tree, At):
            self.clock = tree.moment.value
        elif isinstance(tree, Create):
            self.tables[tree.name] = Table(tree)
