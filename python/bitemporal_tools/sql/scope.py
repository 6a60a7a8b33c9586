"""The names and types of a condition or a select list: refusals 24, 25, 27, 30 and 41 there."""
import re
from collections.abc import Iterable, Iterator, Sequence
from typing import Optional, TypeVar

from .catalog import Catalog, Table
from .literals import date_of
from .refusals import Fault
from .tree import (And, ColumnReference, Comparison, Condition, ContainsDay, Days, Literal, Name,
                   Not, Or, Predicate, Side, Span)

Text = TypeVar('Text', bound=str)
# Words of joins that are not in the grammar. Each is a name: `A LEFT JOIN B` joins A, called LEFT.
NO_JOINS = ('LEFT', 'RIGHT', 'FULL', 'OUTER', 'CROSS', 'NATURAL')
IS_NEW_NAME = 'is read as a new name of'


def listed(names: Iterable[str]) -> str:
    """Names for a sentence."""
    *others, last = list(names) or ['']
    return f'{", ".join(others)} and {last}' if others else last


def guess(name: str, known: Iterable[str]) -> str:
    """A question whether one of the known names is meant, or nothing."""
    import difflib  # few runs of a tool come here
    close = difflib.get_close_matches(name, list(known), 1, 0.7)
    return f' Is {close[0]} meant?' if close else ''


def repeated(names: Sequence[Text]) -> list[Text]:
    """The names that were there before, in turn."""
    return [name for place, name in enumerate(names) if name in names[:place]]


def unknown_table(name: Name, catalog: Catalog) -> Fault:
    tables = catalog.tables
    there = ', nor any other.' if not tables else f'. The only table is {listed(tables)}.' \
        if len(tables) == 1 else f'. The tables are {listed(tables)}.'
    return Fault(23, name.offset,
                 f'There is no table {name}{there}{guess(name, catalog.tables)}')


def no_period(name: Name, table: Table) -> Fault:
    return Fault(24, name.offset,
                 f'{name} is no period of {table.name}: its period is {table.period.name}.')


def no_value(name: Name, table: Table) -> Fault:
    """Of a system column, or one of the period."""
    kind = 'system' if table.by_name[name].generated else 'period'
    return Fault(27, name.offset, f'{name} is a {kind} column of {table.name}.')


def twice_in_list(names: Sequence[Name]) -> Iterator[Fault]:
    return (Fault(26, name.offset, f'{name} is in the list twice.') for name in repeated(names))


def is_no_period(start: Optional[Literal], end: Optional[Literal]) -> bool:
    """Whether two literals are dates of which the first isn't before the second."""
    return (start is not None and end is not None and start.kind == end.kind == 'DATE'
            and start.value >= end.value)


def empty_period(start: Literal, end: Literal) -> Fault:
    return Fault(41, start.offset,
                 f'The start {start.value} is not before the end {end.value}.')


def spelled(literal: Literal) -> str:
    """A literal as a sentence names it."""
    text = str(literal.value)
    if literal.kind == 'INTEGER':
        return f'the number {text}'
    return f"DATE '{text}'" if literal.kind == 'DATE' else f"the text '{text}'"


def mend_of_type(kind: Optional[str], literal: Literal) -> str:
    """A mend by which a literal might become one of another type."""
    if literal.kind == 'VARCHAR' and kind == 'DATE' and date_of(literal.value):
        return ' Write DATE before it.'
    if literal.kind == 'VARCHAR' and kind == 'INTEGER' and \
            re.fullmatch('[-+]?[0-9]{1,18}', literal.value):
        return ' Leave out the quotes.'
    if literal.kind == 'INTEGER' and kind == 'VARCHAR':
        return ' Put it in single quotes.'
    return ' Leave out DATE.' if (literal.kind, kind) == ('DATE', 'VARCHAR') else ''


class Scope:
    """The tables whose columns a name may match: pairs of the name that each has, and it."""

    def __init__(self, tables: list[tuple[Name, Table]]) -> None:
        self.tables = tables

    def found(self, column: ColumnReference) -> list[tuple[int, Table]]:
        return [(place, table) for place, (known, table) in enumerate(self.tables)
                if column.qualifier in (None, known) and column.name in table.by_name]

    def kind(self, operand: Side) -> Optional[str]:
        """The type of a literal or a column, or None if the column is unknown."""
        if isinstance(operand, Literal):
            return operand.kind
        found = self.found(operand)
        return found[0][1].by_name[operand.name].kind if found else None

    def faults_of_column(self, column: ColumnReference) -> Iterator[Fault]:
        found = self.found(column)
        if not found:
            yield self.unknown(column)
        if len(found) > 1:
            names = [self.tables[place][0] for place, _ in found]
            ways = ' or '.join(f'{name}.{column.name}' for name in names)
            mend = 'give each a name of its own' if repeated(names) else f'write {ways}'
            joins = [self.tables[place] for place, _ in found if self.tables[place][0] in NO_JOINS]
            if joins:
                mend = f'{joins[0][0]} {IS_NEW_NAME} {joins[0][1].name}, since there are no such' \
                       ' joins. Leave it out'
            yield Fault(25, column.name.offset,
                        f'{column.name} is a column of several tables: {mend}.')
        for _, table in found:
            if column.name not in table.value_names:
                yield no_value(column.name, table)

    def unknown(self, column: ColumnReference) -> Fault:
        """Why a name matches no column."""
        known = [name for name, _ in self.tables]
        if column.qualifier is not None and column.qualifier not in known:
            why = f'{column.qualifier} is no table here: {listed(known)}' \
                  f' {"is" if len(known) == 1 else "are"}.'
            new_names = [name for name, table in self.tables if table.name == column.qualifier]
            joins = [name for name in new_names if name in NO_JOINS]
            if joins:
                why = f'{joins[0]} {IS_NEW_NAME} {column.qualifier}: there are no such joins.' \
                      f' Leave out {joins[0]}.'
            elif new_names:
                why = f'{column.qualifier} goes by its new name {new_names[-1]} here: write' \
                      f' {new_names[-1]}.{column.name}.'
            return Fault(24, column.qualifier.offset, why)
        tables = [(name, table) for name, table in self.tables
                  if column.qualifier in (None, name)]
        names = [name for _, table in tables for name in table.value_names]
        for _, table in tables:
            if column.name == table.period.name:
                return Fault(24, column.name.offset, f'{column.name} is the period of {table.name}'
                                                     f' and no column.')
        has = ' '.join(f'The value columns of {table.name} are {listed(table.value_names)}.'
                       for _, table in tables)
        no = f'{tables[0][1].name} has no' if len(tables) == 1 else 'None of the tables has a'
        return Fault(24, column.name.offset,
                     f'{no} column {column.name}. {has}{guess(column.name, names)}')

    def faults(self, condition: Optional[Condition]) -> Iterator[Fault]:
        if isinstance(condition, (Or, And)):
            for inner in condition.conditions:
                yield from self.faults(inner)
        elif isinstance(condition, Not):
            yield from self.faults(condition.condition)
        elif isinstance(condition, Comparison):
            yield from self.faults_of_comparison(condition)
        elif isinstance(condition, ContainsDay):
            yield from self.faults_of_span(condition.span)
        elif isinstance(condition, Predicate):
            yield from self.faults_of_span(condition.span)
            yield from self.faults_of_span(condition.other)

    def faults_of_comparison(self, comparison: Comparison) -> Iterator[Fault]:
        sides = comparison.left, comparison.right
        for side in sides:
            if isinstance(side, ColumnReference):
                yield from self.faults_of_column(side)
        if len({self.kind(side) for side in sides} - {None}) > 1:
            said = ' and '.join(self.said(side) for side in sides)
            mends = [mend_of_type(self.kind(other), side) for side, other in (sides, sides[::-1])
                     if isinstance(side, Literal) and isinstance(other, ColumnReference)]
            yield Fault(30, comparison.offset, f'Two types are compared: {said}.{"".join(mends)}')

    def said(self, operand: Side) -> str:
        """A side of a comparison with its type."""
        if isinstance(operand, Literal):
            return spelled(operand)
        name = f'{operand.qualifier}.{operand.name}' if operand.qualifier else operand.name
        return f'the column {name}, {self.kind(operand)}'

    def faults_of_span(self, span: Days) -> Iterator[Fault]:
        if isinstance(span, Span):
            if is_no_period(*span):
                yield empty_period(*span)
            return
        [(known, table)] = self.tables
        if span.qualifier is not None and span.qualifier != known:
            yield Fault(24, span.qualifier.offset,
                        f'{span.qualifier} is no table here: {known} is.')
        elif span.name != table.period.name:
            yield no_period(span.name, table)
