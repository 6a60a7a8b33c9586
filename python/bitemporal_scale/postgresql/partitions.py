"""Sequenced queries that can be answered node by node, if tables are in parts.

Each table is on every node as a whole, or in parts: then a row is on the node that its columns of
distribution choose, by one function of their values for all tables. A query splits if the
answers of the nodes, each over its own rows, are together the answer:

- A SELECT of one table in parts splits. One of several does where equalities that must hold tie
  their columns of distribution, so that rows that meet are on one node. Tables that are whole
  don't matter.
- UNION splits if both sides do. EXCEPT and INTERSECT do if both sides do and have the
  columns of distribution at the same places of their lists, or if the right side is over whole
  tables alone; an INTERSECT also if the left side is.

If these columns are in the list, no list of values is on two nodes, and the answers are
disjoint; otherwise the rows of equal values of different nodes have to be merged.
"""
import itertools
from typing import Optional, Union

from bitemporal_tools.sql.catalog import Catalog
from bitemporal_tools.sql.queries import scope_of
from bitemporal_tools.sql.scope import Scope
from bitemporal_tools.sql.tree import (And, ColumnReference, Comparison, Condition, Name, Query,
                                       Select, Side, known_as)

WHOLE = 'whole'  # each node has the whole answer


# A column of a table by its place, or a literal by its type.
Member = tuple[Union[int, str], object]
Places = Optional[frozenset[tuple[int, ...]]]


class Crossing(Exception):
    """Why a node would need the rows of others."""


def verdict(query: Query, catalog: Catalog, columns: dict[str, list[str]]) -> str:
    """The way in which a query splits, if `columns` has the columns of distribution of each table
    in parts: whole, disjoint or merge. A Crossing if it does not split."""
    places = places_of(query, catalog, columns)
    if places is None:
        return WHOLE
    return 'disjoint' if places else 'merge'


def places_of(query: Query, catalog: Catalog,
              columns: dict[str, list[str]]) -> Places:
    """The lists of places of the select list whose values choose the node of a row; None if
    every node has the whole answer."""
    if isinstance(query, Select):
        return select_places(query, catalog, columns)
    places = places_of(query.first, catalog, columns)
    for operand in query.rest:
        places = COMBINED[operand.operator](places, places_of(operand.query, catalog, columns))
    return places


def of_union(left: Places, right: Places) -> Places:
    if left is None and right is None:
        return None
    if left is None or right is None:
        return frozenset()  # rows of it are on every node
    return left & right


def of_except(left: Places, right: Places) -> Places:
    if right is None:
        return left
    if left is None:
        raise Crossing('EXCEPT takes rows of tables in parts from rows that every node has')
    if not left & right:
        raise Crossing('the sides of EXCEPT have no columns of distribution at the same places')
    return left


def of_intersect(left: Places, right: Places) -> Places:
    if left is None or right is None:
        return right if left is None else left
    if not left & right:
        raise Crossing('the sides of INTERSECT have no columns of distribution at the same places')
    return left | right


COMBINED = {'UNION': of_union, 'EXCEPT': of_except, 'INTERSECT': of_intersect}


def select_places(select: Select, catalog: Catalog,
                  columns: dict[str, list[str]]) -> Places:
    equal = Equalities(select, catalog)
    used = {place: reference for place, reference in enumerate(select.references)
            if reference.table in columns}
    if not used:
        return None
    classes = {tuple(equal.root((place, name)) for name in columns[reference.table]): reference
               for place, reference in used.items()}
    if len(classes) > 1:
        names = ' and '.join(known_as(reference) for reference in list(classes.values())[:2])
        raise Crossing(f'no = that must hold ties the columns of distribution of {names}')
    [roots] = classes
    items = [equal.root(equal.column(item.column, 0)) for item in select.items]
    return frozenset(itertools.product(*([place for place, item in enumerate(items) if item == root]
                                         for root in roots)))


class Equalities:
    """The columns of a SELECT and its literals in classes: those that are equal in each row that
    its conditions let through, as far as whole members of the outermost ANDs say."""

    def __init__(self, select: Select, catalog: Catalog) -> None:
        self.above: dict[Member, Member] = {}
        self.scope = scope_of(select, catalog)
        for comparison in must_hold(select.where):
            self.tie(comparison, self.scope, 0)
        for on in select.ons:
            for comparison in must_hold(on.condition):
                self.tie(comparison, scope_of(select, catalog, on.first, on.last), on.first)

    def column(self, column: ColumnReference, first: int,
               scope: Optional[Scope] = None) -> tuple[int, Name]:
        [(place, _)] = (scope or self.scope).found(column)
        return place + first, column.name

    def tie(self, comparison: Comparison, scope: Scope, first: int) -> None:
        def member(side: Side) -> Member:
            if isinstance(side, ColumnReference):
                return self.column(side, first, scope)
            return side.kind, side.value

        self.above[self.root(member(comparison.left))] = self.root(member(comparison.right))

    def root(self, member: Member) -> Member:
        while self.above.get(member, member) != member:
            member = self.above[member]
        return member


def must_hold(condition: Optional[Condition]) -> list[Comparison]:
    """The equalities that hold wherever the condition does."""
    if isinstance(condition, And):
        return [comparison for inner in condition.conditions for comparison in must_hold(inner)]
    if isinstance(condition, Comparison) and condition.sign == '=':
        return [condition]
    return []
