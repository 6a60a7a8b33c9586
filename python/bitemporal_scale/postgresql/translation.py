"""A script as a script of psql that prints the same report.

A table becomes one of versions: its value columns; its period, a daterange of the period's name;
the two system columns, timestamps, of which the second is 9999-12-31 23:59:59.999999 in current
rows. What the script alone decides (refusals 10 to 41, the clock) is decided here; 42 and 43, which
rows decide, by PostgreSQL.
"""
from collections.abc import Iterator
from typing import NamedTuple

from bitemporal_tools.sql.catalog import Catalog, Table
from bitemporal_tools.sql.refusals import NAMES
from bitemporal_tools.sql.script import Statement, judge
from bitemporal_tools.sql.tree import At, Create, Sequenced, Stored

from .changes import change_sql
from .queries import rows_sql
from .reports import answer_sql, said, stored_rows_sql, versions_sql
from .words import FOREVER_SQL, name_sql, type_sql


class Options(NamedTuple):
    """`is_bare`: the tables and the queries alone, without a report; `is_kept`: what the script
    made is committed; `has_constraints`: keys are constraints of the tables too."""
    schema: str = 'bitemporal'
    is_bare: bool = False
    is_kept: bool = False
    has_constraints: bool = False


PRELUDE = """SET client_min_messages = warning;
SET standard_conforming_strings = on;
SET client_encoding = 'UTF8';
SET DateStyle = 'ISO, YMD';
BEGIN;
CREATE SCHEMA {schema};
SET LOCAL search_path = {schema}, pg_catalog;
CREATE FUNCTION "#field"(text) RETURNS text LANGUAGE sql IMMUTABLE AS $field$
  SELECT CASE WHEN $1 ~ E'[,"\\r\\n]' THEN '"' || replace($1, '"', '""') || '"' ELSE $1 END $field$;
"""


def translated(text: str, options: Options) -> Iterator[str]:
    """The parts of the script of psql for a script's text."""
    catalog = Catalog()
    if not options.is_bare:
        yield PRELUDE.format(schema=name_sql(options.schema))
    for statement in judge(text):
        if not statement.faults:
            catalog.take(statement.tree)
        made = (bare_sql if options.is_bare else statement_sql)(statement, catalog, options)
        if made:
            yield f'\n-- {statement.number}\n{made}'
    if not options.is_bare:
        yield '\nCOMMIT;\n' if options.is_kept else '\nROLLBACK;\n'


def statement_sql(statement: Statement, catalog: Catalog, options: Options) -> str:
    """A statement with its records of the report; what it makes is in the catalog."""
    number, tree = statement.number, statement.tree
    if statement.faults:
        return said(f'refused,{number},{statement.refusal},{NAMES[statement.refusal]},')
    if isinstance(tree, At):
        return said(f'done,{number},at,0')
    if isinstance(tree, Create):
        return table_sql(catalog.tables[tree.name], options) + said(f'done,{number},create,0')
    if isinstance(tree, Sequenced):
        return answer_sql(number, tree.query, catalog)
    if isinstance(tree, Stored):
        return versions_sql(number, tree, catalog)
    assert tree is not None  # of a statement without faults
    return change_sql(number, tree, catalog)


def bare_sql(statement: Statement, catalog: Catalog, options: Options) -> str:
    """A table or a query alone; of a refused or another statement, nothing."""
    tree = statement.tree
    if statement.faults:
        return ''
    if isinstance(tree, Create):
        return table_sql(catalog.tables[tree.name], options)
    if isinstance(tree, Sequenced):
        return rows_sql(tree.query, catalog) + ';\n'
    return stored_rows_sql(tree, catalog) if isinstance(tree, Stored) else ''


def column_lines(table: Table) -> Iterator[str]:
    """The columns of a table of versions, as CREATE TABLE has them."""
    period = name_sql(table.period.name)
    yield from (f'{name_sql(column.name)} {type_sql(column)} NOT NULL' for column in table.values)
    yield f'{period} daterange NOT NULL CHECK (NOT isempty({period}))'
    for which in ('START', 'END'):
        yield from (f'{name_sql(column.name)} timestamp NOT NULL' for column in table.system
                    if column.generated == which)


def table_sql(table: Table, options: Options) -> str:
    lines = list(column_lines(table))
    if options.has_constraints:
        keys = ', '.join(f'{name_sql(name)} WITH =' for name in table.key)
        until = next(column.name for column in table.system if column.generated == 'END')
        lines.append(f'EXCLUDE USING gist ({keys}, {name_sql(table.period.name)} WITH &&)'
                     f' WHERE ({name_sql(until)} = {FOREVER_SQL}) DEFERRABLE INITIALLY DEFERRED')
    return f'CREATE TABLE {name_sql(table.name)} (\n  ' + ',\n  '.join(lines) + ');\n'
