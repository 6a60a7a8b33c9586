"""Statements once they are read: named tuples.

A name is a `Name`, a str in upper case. What may be left out is None if it is. Each literal, and
each name, knows the offset of its first character in the script.
"""
import datetime
from typing import Any, NamedTuple, Optional, Union

# The value of a literal, or of a row's column.
Value = Union[int, str, datetime.date]


class Name(str):
    """A name in upper case that knows where in the script it is written. (A name that is in none
    has the offset 0.)"""
    offset: int

    def __new__(cls, text: str, offset: int = 0) -> 'Name':
        name = super().__new__(cls, text)
        name.offset = offset
        return name


class Literal(NamedTuple):
    """A literal's kind is INTEGER, VARCHAR, DATE or TIMESTAMP; by it its value is an int, a str, a
    datetime.date, or a moment's text as reports print it; or None if refusal 12, 13 or 14 is
    about it."""
    kind: str
    value: Any
    offset: int


class At(NamedTuple):
    moment: Literal


class Column(NamedTuple):
    """`number` is the n of VARCHAR(n) or the p of TIMESTAMP(p); `generated` is START or END."""
    name: Name
    kind: str
    number: Optional[int]
    generated: Optional[str]


class Period(NamedTuple):
    name: Name
    start: Name
    end: Name


class Key(NamedTuple):
    columns: list[Name]
    period: Name


class Reference(NamedTuple):
    columns: list[Name]
    period: Name
    table: Name
    table_columns: list[Name]
    table_period: Name


class Create(NamedTuple):
    """CREATE TABLE: its parts in the order of the statement. In `systems` are the periods that are
    called SYSTEM_TIME."""
    name: Name
    columns: list[Column]
    periods: list[Period]
    systems: list[Period]
    keys: list[Key]
    references: list[Reference]


class Row(NamedTuple):
    values: list[Literal]
    offset: int


class Insert(NamedTuple):
    table: Name
    columns: Optional[list[Name]]
    rows: list[Row]


class Portion(NamedTuple):
    """The days of a change; the bounds are DATE literals."""
    period: Name
    start: Literal
    end: Literal


class Assignment(NamedTuple):
    column: Name
    value: Literal


class ColumnReference(NamedTuple):
    qualifier: Optional[Name]
    name: Name


class Span(NamedTuple):
    """Days between two DATE literals."""
    start: Literal
    end: Literal


# A side of a comparison, and what a period predicate is about: the period of that name, or days.
Side = Union[ColumnReference, Literal]
Days = Union[ColumnReference, Span]


class Or(NamedTuple):
    conditions: list['Condition']


class And(NamedTuple):
    conditions: list['Condition']


class Not(NamedTuple):
    condition: 'Condition'


class Comparison(NamedTuple):
    """A comparison's offset is its sign's."""
    left: Side
    sign: str
    right: Side
    offset: int


class Predicate(NamedTuple):
    """A predicate's word may be two: IMMEDIATELY PRECEDES."""
    span: Days
    word: str
    other: Days


class ContainsDay(NamedTuple):
    span: Days
    date: Literal


Condition = Union[Or, And, Not, Comparison, Predicate, ContainsDay]


class Update(NamedTuple):
    table: Name
    portion: Optional[Portion]
    sets: list[Assignment]
    where: Optional[Condition]


class Delete(NamedTuple):
    table: Name
    portion: Optional[Portion]
    where: Optional[Condition]


Change = Union[Update, Delete]


class Window(NamedTuple):
    """A window's kind is AS OF, FROM or BETWEEN; AS OF has no end. Both are TIMESTAMP literals."""
    kind: str
    start: Literal
    end: Optional[Literal]


class Stored(NamedTuple):
    table: Name
    window: Optional[Window]
    where: Optional[Condition]


class Item(NamedTuple):
    column: ColumnReference
    new_name: Optional[Name]


class TableReference(NamedTuple):
    table: Name
    window: Optional[Window]
    new_name: Optional[Name]


class On(NamedTuple):
    """The condition sees the references from number `first` on and before `last`, from 0."""
    first: int
    last: int
    condition: Condition


class Select(NamedTuple):
    """`references` are those of all chains in turn; `ons` has the ON of each join."""
    items: list[Item]
    references: list[TableReference]
    ons: list[On]
    where: Optional[Condition]
    offset: int


class Operand(NamedTuple):
    """An operand's operator is UNION, EXCEPT or INTERSECT."""
    operator: str
    query: 'Query'
    offset: int


class SetOperators(NamedTuple):
    first: 'Query'
    rest: list[Operand]


Query = Union[Select, SetOperators]


class Sequenced(NamedTuple):
    query: Query


Tree = Union[At, Create, Insert, Update, Delete, Stored, Sequenced]


def known_as(reference: TableReference) -> Name:
    """The name of a table in its SELECT."""
    return reference.new_name or reference.table


def selects(query: Query) -> list[Select]:
    """The SELECTs of a query in the order of its text."""
    if isinstance(query, Select):
        return [query]
    return [select for part in (query.first, *(operand.query for operand in query.rest))
            for select in selects(part)]
