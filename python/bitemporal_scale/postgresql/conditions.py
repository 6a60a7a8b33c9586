"""Conditions and system-time windows as SQL of PostgreSQL."""
from typing import Optional

from bitemporal_tools.sql.catalog import Table
from bitemporal_tools.sql.literals import FOREVER
from bitemporal_tools.sql.scope import Scope
from bitemporal_tools.sql.tree import (And, ColumnReference, Comparison, Condition, ContainsDay,
                                       Days, Literal, Not, Or, Side, Span, Window)

from .words import FOREVER_SQL, moment_sql, name_sql, range_sql, value_sql

PREDICATES = {
    'OVERLAPS': '{0} && {1}', 'EQUALS': '{0} = {1}', 'CONTAINS': '{0} @> {1}',
    'PRECEDES': '{0} << {1}', 'SUCCEEDS': '{0} >> {1}',
    'IMMEDIATELY PRECEDES': 'upper({0}) = lower({1})',
    'IMMEDIATELY SUCCEEDS': 'lower({0}) = upper({1})'}


class Conditions:
    """Conditions over the tables of a scope, each under an alias."""

    def __init__(self, scope: Scope, aliases: list[str]) -> None:
        self.scope, self.aliases = scope, aliases

    def column(self, column: ColumnReference) -> str:
        [(place, _)] = self.scope.found(column)
        return f'{self.aliases[place]}.{name_sql(column.name)}'

    def operand(self, operand: Side) -> str:
        return value_sql(operand) if isinstance(operand, Literal) else self.column(operand)

    def span(self, span: Days) -> str:
        if isinstance(span, Span):
            return range_sql(span.start, span.end)
        return f'{self.aliases[0]}.{name_sql(span.name)}'  # predicates have one table

    def sql(self, condition: Condition) -> str:
        if isinstance(condition, (Or, And)):
            word = ' OR ' if isinstance(condition, Or) else ' AND '
            return '(' + word.join(map(self.sql, condition.conditions)) + ')'
        if isinstance(condition, Not):
            return f'NOT ({self.sql(condition.condition)})'
        if isinstance(condition, Comparison):
            return (f'{self.operand(condition.left)} {condition.sign}'
                    f' {self.operand(condition.right)}')
        if isinstance(condition, ContainsDay):
            return f'{self.span(condition.span)} @> {value_sql(condition.date)}'
        return PREDICATES[condition.word].format(self.span(condition.span),
                                                 self.span(condition.other))


def system_sql(table: Table, alias: str) -> tuple[str, str]:
    """The two system columns of a table under an alias: from which and to which moment."""
    start, end = (next(column.name for column in table.system if column.generated == which)
                  for which in ('START', 'END'))
    return f'{alias}.{name_sql(start)}', f'{alias}.{name_sql(end)}'


def period_sql(table: Table, alias: str) -> str:
    return f'{alias}.{name_sql(table.period.name)}'


def window_sql(window: Optional[Window], table: Table, alias: str) -> str:
    """The condition that a window sees a version; without one, that the version is current."""
    start, end = system_sql(table, alias)
    if window is None:
        return f'{end} = {FOREVER_SQL}'
    first = window.start.value
    if window.kind == 'AS OF':
        return f'{start} <= {moment_sql(first)} AND {end} > {moment_sql(first)}'
    last = window.end.value if window.end else FOREVER
    if window.kind == 'FROM':
        if first >= last:
            return 'false'
        return f'{start} < {moment_sql(last)} AND {end} > {moment_sql(first)}'
    if first > last:
        return 'false'
    return f'{start} <= {moment_sql(last)} AND {end} > {moment_sql(first)}'
