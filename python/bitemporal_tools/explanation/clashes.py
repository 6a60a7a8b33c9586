"""The rows that 42 and 43 are about."""
import operator
from collections.abc import Iterator
from typing import Optional

from bitemporal_tools.sql.catalog import Table
from bitemporal_tools.sql.current_rows import Clash, CurrentRow
from bitemporal_tools.sql.lexis import Places
from bitemporal_tools.sql.literals import literal
from bitemporal_tools.sql.tree import Delete, Insert, Name, Update

from .report import Refusal


def named(row: CurrentRow, table: Table, names: list[Name],
          others: Optional[list[Name]] = None) -> str:
    """The values of some columns, by their names or by others."""
    return ' and '.join(f'{other} = {literal(row.values[table.place(name)])}'
                        for name, other in zip(names, others or names))


def period(row: CurrentRow) -> str:
    return f'from {row.start} to {row.end}'


def causes(clash: Clash, places: Places) -> Iterator[tuple[int, str]]:
    """Sentences about a clash, each with the offset of the row that it is about."""
    table, row = clash.table, clash.row
    if clash.other:
        first, second = sorted((row, clash.other), key=operator.attrgetter('offset'))
        yield second.offset, (f'This row of {table.name} with {named(second, table, table.key)}'
                              f' would hold {period(second)}, and that of'
                              f' {places.shown(first.offset)} with the same key {period(first)}.'
                              f' The first day of both is {clash.day}.')
        return
    reference = clash.reference
    assert reference
    wanted = named(row, table, reference.columns, reference.table_columns)
    yield row.offset, (f'This row of {table.name} with {named(row, table, reference.columns)} would'
                       f' hold {period(row)}, and on {clash.day} no row of {reference.table}'
                       f' would have {wanted}.')


def unseen_cause(refusal: Refusal) -> str:
    """A sentence about a clash with rows of a store that the script does not show."""
    tree = refusal.statement.tree
    assert isinstance(tree, (Insert, Update, Delete))
    table = refusal.tables[tree.table]
    what = f'two rows of {table.name} would have one key' if refusal.code == 42 else \
        'a row would have no row of the table to which it refers'
    return f"Cause: On {refusal.day} {what}. SELECT * FROM {table.name} WHERE {table.period.name}" \
           f" CONTAINS DATE '{refusal.day}' shows what holds on that day before the statement."
