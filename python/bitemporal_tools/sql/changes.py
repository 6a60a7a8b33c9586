"""Faults of the names and values of AT, INSERT, UPDATE and DELETE."""
from collections.abc import Iterator

from bitemporal_tools.command_line import counted

from .catalog import Catalog, Table
from .refusals import Fault
from .scope import (Scope, empty_period, guess, is_no_period, listed, mend_of_type, no_period,
                    no_value, repeated, spelled, twice_in_list)
from .tree import Assignment, At, Change, Column, Insert, Literal, Name, Row, Update


def faults_of_at(at: At, catalog: Catalog) -> Iterator[Fault]:
    if at.moment.value < catalog.clock:
        yield Fault(40, at.moment.offset, f'{at.moment.value} is before {catalog.clock}, the moment'
                                          ' of the clock.')


def faults_of_insert(insert: Insert, catalog: Catalog) -> Iterator[Fault]:
    table = catalog.tables[insert.table]
    names = insert.columns or [column.name for column in table.given]
    yield from faults_of_column_list(insert.columns or [], table)
    missing = [column.name for column in table.given if column.name not in names]
    if missing:
        yield Fault(29, names[0].offset, f'The list lacks {listed(missing)}.')
    for number, row in enumerate(insert.rows, 1):
        yield from faults_of_row(row, number, names, table)


def faults_of_column_list(names: list[Name], table: Table) -> Iterator[Fault]:
    for name in names:
        if name not in table.by_name:
            yield unknown_column(name, table)
        elif table.by_name[name].generated:
            yield no_value(name, table)
    yield from twice_in_list(names)


def unknown_column(name: Name, table: Table) -> Fault:
    given = [column.name for column in table.given]
    return Fault(24, name.offset, f'{table.name} has no column {name}. Its columns are'
                                  f' {listed(given)}.{guess(name, given)}')


def faults_of_row(row: Row, number: int, names: list[Name], table: Table) -> Iterator[Fault]:
    if len(row.values) != len(names):
        yield Fault(29, row.offset, f'Row {number} has {counted(len(row.values), "value")} for'
                                    f' {counted(len(names), "column")}: {listed(names)}.')
    values = dict(zip(names, row.values))
    for name, literal in zip(names, row.values):
        if name in table.by_name:
            yield from faults_of_value(table.by_name[name], literal, f'Row {number}: ')
    start, end = values.get(table.period.start), values.get(table.period.end)
    if start and end and is_no_period(start, end):
        yield Fault(41, row.offset, f'Row {number}: the start {start.value} is not before the end'
                                    f' {end.value}.')


def faults_of_value(column: Column, literal: Literal, where: str) -> Iterator[Fault]:
    if literal.kind != column.kind:
        yield Fault(30, literal.offset, f'{where}{column.name} is {type_of(column)}, and'
                                        f' {spelled(literal)} is not.'
                                        f'{mend_of_type(column.kind, literal)}')
    elif column.kind == 'VARCHAR' and len(literal.value) > (column.number or 0):
        yield Fault(31, literal.offset, f'{where}the text has {len(literal.value)} characters, and'
                                        f' {column.name} is {type_of(column)}.')


def type_of(column: Column) -> str:
    return f'VARCHAR({column.number})' if column.kind == 'VARCHAR' else column.kind


def faults_of_change(change: Change, catalog: Catalog) -> Iterator[Fault]:
    """Of an UPDATE or a DELETE."""
    table = catalog.tables[change.table]
    if change.portion:
        period, start, end = change.portion
        if period != table.period.name:
            yield no_period(period, table)
        if is_no_period(start, end):
            yield empty_period(start, end)
    if isinstance(change, Update):
        yield from faults_of_sets(change.sets, table)
    yield from Scope([(table.name, table)]).faults(change.where)


def faults_of_sets(sets: list[Assignment], table: Table) -> Iterator[Fault]:
    for name in repeated([name for name, _ in sets]):
        yield Fault(26, name.offset, f'{name} is set twice.')
    for name, literal in sets:
        if name not in table.by_name:
            yield unknown_column(name, table)
        elif name not in table.value_names:
            yield no_value(name, table)
        else:
            yield from faults_of_value(table.by_name[name], literal, '')
