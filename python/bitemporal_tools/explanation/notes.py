"""Notes on a statement that is right, and may say something else than was meant."""
from collections.abc import Iterator
from typing import Optional

from bitemporal_tools.sql.catalog import Table
from bitemporal_tools.sql.current_rows import fixed
from bitemporal_tools.sql.lexis import Token
from bitemporal_tools.sql.scope import IS_NEW_NAME, NO_JOINS
from bitemporal_tools.sql.script import Statement
from bitemporal_tools.sql.tree import Query, Select, Sequenced

from .texts import recipe

NO_PARTNERS = f'For the rows without a partner see {recipe("Rows without a partner")}.'
EVER = f'For what was ever or never so see {recipe("Ever and never")}.'


def notes(statement: Statement, tables: dict[str, Table]) -> Iterator[tuple[int, str]]:
    """Sentences about a statement over these tables, by name, each with its offset."""
    if isinstance(statement.tree, Sequenced):
        yield from joins(statement.tokens)
        yield from disjoint_sides(statement.tree.query, tables)


def joins(tokens: list[Token]) -> Iterator[tuple[int, str]]:
    """A word of a join that is not in the grammar is a new name of the table before it."""
    for table, word, join in zip(tokens, tokens[1:], tokens[2:]):
        if word.word in NO_JOINS and join.word == 'JOIN' and \
                (table.is_name or table.kind == 'text'):
            name = table.text if table.is_name else 'the table before it'
            yield word.offset, (f'{word.text} {IS_NEW_NAME} {name}, and this is an inner join.'
                                f' {NO_PARTNERS}')


def disjoint_sides(query: Query, tables: dict[str, Table]) -> Iterator[tuple[int, str]]:
    """The sides of EXCEPT and INTERSECT that have no row in common on any day: both select the key
    of one table, and compare another column with two values."""
    if isinstance(query, Select):
        return
    yield from disjoint_sides(query.first, tables)
    for operator, operand, offset in query.rest:
        yield from disjoint_sides(operand, tables)
        column = parted_by(query.first, operand, tables)
        if operator != 'UNION' and len(query.rest) == 1 and column:
            what = 'takes nothing away' if operator == 'EXCEPT' else 'leaves nothing'
            yield offset, (f'On each day a key has one {column}, so {operator} {what}: a sequenced'
                           f' query is asked of each day by itself. {EVER}')


def parted_by(one: Query, other: Query, tables: dict[str, Table]) -> Optional[str]:
    """The column by which two queries of one table never have a key in common, or None."""
    if not (isinstance(one, Select) and len(one.references) == 1 and
            isinstance(other, Select) and len(other.references) == 1):
        return None
    [first], [second] = one.references, other.references
    selected = [[item.column.name for item in query.items] for query in (one, other)]
    key = set(tables[first.table].key)
    if first.table != second.table or first.window or second.window or \
            selected[0] != selected[1] or not key <= set(selected[0]):
        return None
    values, others = fixed(one.where), fixed(other.where)
    return next((column for column, value in values.items()
                 if column not in key and others.get(column, value) != value), None)
