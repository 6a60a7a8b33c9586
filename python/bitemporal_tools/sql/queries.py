"""Faults of the names, types and numbers of stored and of sequenced queries."""
from collections.abc import Iterator
from typing import Optional

from .catalog import Catalog
from .refusals import MOST_ITEMS, MOST_SET_OPERATORS, MOST_TABLES_OF_A_SELECT, Fault
from .scope import Scope, repeated, unknown_table
from .tree import (ColumnReference, Query, Select, Sequenced, SetOperators, Stored, known_as,
                   selects)


def faults_of_stored(stored: Stored, catalog: Catalog) -> Iterator[Fault]:
    table = catalog.tables[stored.table]
    return Scope([(table.name, table)]).faults(stored.where)


def scope_of(select: Select, catalog: Catalog, first: int = 0, last: Optional[int] = None) -> Scope:
    """The scope of the references of a SELECT from number `first` on and before `last`."""
    return Scope([(known_as(reference), catalog.tables[reference.table])
                  for reference in select.references[first:last]])


def faults_of_sequenced(sequenced: Sequenced, catalog: Catalog) -> Iterator[Fault]:
    found = selects(sequenced.query)
    yield from faults_of_numbers(found)
    unknown = [reference.table for select in found for reference in select.references
               if reference.table not in catalog.tables]
    if unknown:
        yield from (unknown_table(name, catalog) for name in unknown)
        return
    for select in found:
        yield from faults_of_select(select, catalog)
    yield from faults_of_operands(sequenced.query, catalog)


def faults_of_numbers(found: list[Select]) -> Iterator[Fault]:
    """Of the SELECTs of a query, which has a set operator between each two of them."""
    numbers = [(found[0], 'query', len(found) - 1, 'set operators', MOST_SET_OPERATORS)]
    for select in found:
        numbers += [(select, 'select list', len(select.items), 'items', MOST_ITEMS),
                    (select, 'SELECT', len(select.references), 'tables', MOST_TABLES_OF_A_SELECT)]
    for select, whole, count, parts, most in numbers:
        if count > most:
            yield Fault(21, select.offset, f'The {whole} has {count} {parts}, and {most} are the'
                                           ' most.')


def faults_of_select(select: Select, catalog: Catalog) -> Iterator[Fault]:
    for name in repeated([known_as(reference) for reference in select.references]):
        yield Fault(26, name.offset, f'Two tables of the SELECT go by the name {name}.')
    scope = scope_of(select, catalog)
    for item in select.items:
        yield from scope.faults_of_column(item.column)
    for first, last, condition in select.ons:
        yield from scope_of(select, catalog, first, last).faults(condition)
    yield from scope.faults(select.where)


def columns_of(query: Query, catalog: Catalog) -> list[tuple[ColumnReference, Optional[str]]]:
    """The columns of a query, each with its type, or None if the name is unknown."""
    select = selects(query)[0]
    scope = scope_of(select, catalog)
    return [(item.column, scope.kind(item.column)) for item in select.items]


def faults_of_operands(query: Query, catalog: Catalog) -> Iterator[Fault]:
    """The sides of each set operator have to be alike."""
    if not isinstance(query, SetOperators):
        return
    yield from faults_of_operands(query.first, catalog)
    columns = columns_of(query.first, catalog)
    for operator, operand, offset in query.rest:
        yield from faults_of_operands(operand, catalog)
        others = columns_of(operand, catalog)
        if len(others) != len(columns):
            yield Fault(29, offset, f'{operator} is between a query of {len(columns)} and one of'
                                    f' {len(others)} columns.')
        for (one, kind), (other, other_kind) in zip(columns, others):
            if None not in (kind, other_kind) and kind != other_kind:
                yield Fault(30, offset, f'{operator} puts {other.name}, {other_kind}, under'
                                        f' {one.name}, {kind}.')
