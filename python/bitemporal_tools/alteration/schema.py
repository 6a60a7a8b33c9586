"""The tables as they are to be, and from which values each of their columns is made."""
import dataclasses
from collections.abc import Callable, Iterator, Sequence
from typing import Any, Union

from bitemporal_tools.command_line import Fault
from bitemporal_tools.sql.lexis import RESERVED
from bitemporal_tools.stores.reading import Version
from bitemporal_tools.stores.spelling import parts_of
from bitemporal_tools.stores.tables import Reference, Table

# Of a value column: its place among the values that a version has now, or the bytes of all.
Source = Union[int, bytes]


@dataclasses.dataclass
class Altered:
    """A table, the number that it has in the store, how many values its versions have there, and
    the source of each value column by name."""
    table: Table
    number: int
    width: int
    sources: dict[str, Source]

    @property
    def is_as_it_was(self) -> bool:
        """Whether each version keeps its values."""
        return [self.sources[name] for name in self.table.value_names] == list(range(self.width))


class Schema:
    """The tables of a store by name, which changes alter in turn."""

    def __init__(self, tables: Sequence[Table]) -> None:
        self.altered = {
            table.name: Altered(table, number, len(table.values), {
                name: place for place, name in enumerate(table.value_names)})
            for number, table in enumerate(tables, 1)}

    def __getitem__(self, name: str) -> Table:
        if name not in self.altered:
            known = ', '.join(self.altered) or 'none'
            raise Fault(f'there is no table {name}; the tables are {known}')
        return self.altered[name].table

    def put(self, known_as: str, **changes: Any) -> None:
        """Changes what a table is, under the name by which it is known."""
        altered = self.altered[known_as]
        altered.table = altered.table._replace(**changes)

    def references_to(self, name: str) -> Iterator[tuple[Table, Reference]]:
        """The references of other tables to a table."""
        for altered in self.altered.values():
            for reference in altered.table.references:
                if reference.parent == name:
                    yield altered.table, reference

    def change_references(self, change: Callable[[Table, Reference], Reference]) -> None:
        """Puts another reference in the place of each."""
        for altered in self.altered.values():
            table = altered.table
            altered.table = table._replace(references=tuple(
                change(table, reference) for reference in table.references))

    def tables(self) -> list[Altered]:
        """The tables in an order in which each follows its parents: the store's order, as far
        as it is one."""
        left, found = list(self.altered.values()), list[Altered]()
        while left:
            names = {altered.table.name for altered in left}
            free = next((altered for altered in left if not any(
                reference.parent in names for reference in altered.table.references)), None)
            if free is None:
                raise Fault('the references go round: ' + ', '.join(
                    f'{altered.table.name} refers to {reference.parent}' for altered in left
                    for reference in altered.table.references if reference.parent in names))
            left.remove(free)
            found.append(free)
        return found


def converted(altered: Altered, versions: Iterator[Version]) -> Iterator[Version]:
    """The versions of a table with their new values."""
    if altered.is_as_it_was:
        yield from versions
        return
    sources = [altered.sources[name] for name in altered.table.value_names]
    for values, *moments in versions:
        parts = parts_of(values)
        yield Version(b''.join([parts[source] if isinstance(source, int) else source
                                for source in sources]), *moments)


def checked_name(name: str) -> str:
    """A name in upper case, which may name a table, a column or a period."""
    upper = name.upper()
    plain = upper.replace('_', 'A')
    if not (plain.isascii() and plain.isalnum() and not plain[:1].isdigit()):
        raise Fault(f'{name!r} is no name: letters, digits and _ make one')
    if upper in RESERVED:
        raise Fault(f'{upper} is a reserved word and no name')
    return upper
