"""Statements that change rows, from versions as a store has them."""
import itertools
from collections.abc import Iterable, Iterator, Sequence

from bitemporal_tools.sql.literals import literal
from bitemporal_tools.sql.refusals import MOST_TOKENS
from bitemporal_tools.stores.reading import Version
from bitemporal_tools.stores.spelling import day_literal, parts_of, value_of
from bitemporal_tools.stores.tables import Table

# A literal has at most two tokens, and a comma or a parenthesis is after it.
TOKENS_OF_A_VALUE, TOKENS_OF_A_ROW, TOKENS_OF_A_HEAD = 3, 2, 5


def conditions(table: Table, columns: Sequence[str], row: Version,
               names: Sequence[str] = ()) -> str:
    """The condition that these columns are as in a row; by other names, if they are given."""
    parts = parts_of(row.values)
    return ' AND '.join(f'{name} = {literal(value_of(parts[place]))}' for name, place in
                        zip(names or columns, table.places(columns)))


class Inserts:
    """INSERT statements of a table, of at most so many rows each."""

    def __init__(self, table: Table, most: int) -> None:
        self.table = table
        given = [column.name for column in table.columns if not column.is_system]
        tokens = TOKENS_OF_A_VALUE * len(given) + TOKENS_OF_A_ROW
        self.most = max(1, min(most, (MOST_TOKENS - TOKENS_OF_A_HEAD) // tokens))
        self.places = list(map(table.fields.index, given))

    def batches(self, rows: Iterable[Version]) -> Iterator[list[Version]]:
        left = iter(rows)
        return iter(lambda: list(itertools.islice(left, self.most)), [])

    def tuple(self, row: Version) -> str:
        cells = [literal(value_of(part)) for part in parts_of(row.values)]
        cells += day_literal(row.start), day_literal(row.end)
        return f'({", ".join(cells[place] for place in self.places)})'

    def statement(self, rows: Iterable[Version]) -> str:
        tuples = ',\n '.join(map(self.tuple, rows))
        return f'INSERT INTO {self.table.name} VALUES\n {tuples};\n'
