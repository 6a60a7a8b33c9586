"""Queries over nodes as SQL of PostgreSQL: the parts of tables are on servers that postgres_fdw
asks.

range_agg has no function that combines two states of it. So PostgreSQL can't aggregate partly on
the nodes by itself, and would fetch all rows. Here each node aggregates its own rows (the inner
level), and the coordinator what the nodes give (the outer level). The inner level is a
MATERIALIZED CTE: without it the planner may merge sorted nodes, and then asks them one after the
other and not all at once.
"""
import re
from collections.abc import Iterator
from typing import Optional

from bitemporal_tools.sql.catalog import Catalog, Table
from bitemporal_tools.sql.queries import columns_of as typed_columns_of
from bitemporal_tools.sql.tree import Name, Query, Select, known_as

from .partitions import WHOLE
from .queries import answer_names, columns_of, merged_sql, query_sql, rows_sql, unnested_sql
from .translation import Options, column_lines, table_sql
from .words import TYPES, indented, name_sql, text_sql

TEXT = 'text COLLATE "C"'


def part_name(table: str, node: int) -> str:
    return f'{table}_{node}'


def with_parts(catalog: Catalog, columns: dict[str, list[str]], nodes: int) -> Catalog:
    """A catalog that has the parts too."""
    more = Catalog()
    more.tables.update(catalog.tables)
    for table in columns:
        for node in range(1, nodes + 1):
            more.tables[part_name(table, node)] = catalog.tables[table]
    return more


def clash(catalog: Catalog, columns: dict[str, list[str]], queries: list[tuple[int, Query, str]],
          nodes: int) -> Optional[str]:
    """A table of the script that has a name of ours, or None."""
    ours = {answer_name(number) for number, _, _ in queries}
    ours |= {part_name(name, node) for name in [*columns, *ours] for node in range(1, nodes + 1)}
    return next((name for name in catalog.tables if name in ours), None)


def on_node(query: Query, columns: dict[str, list[str]], node: int) -> Query:
    """The query over the parts of one node."""
    if isinstance(query, Select):
        return query._replace(references=[
            reference._replace(table=Name(part_name(reference.table, node)),
                               new_name=known_as(reference))
            if reference.table in columns else reference for reference in query.references])
    return query._replace(first=on_node(query.first, columns, node), rest=[
        operand._replace(query=on_node(operand.query, columns, node)) for operand in query.rest])


def gathered_sql(query: Query, kind: str, node_queries: list[str]) -> str:
    """The rows of an answer from what the nodes say: SELECTs of c1, c2 .. and days."""
    names = answer_names(query)
    columns = columns_of(len(names))
    nodes = '\nUNION ALL\n'.join(node_queries)
    outer = 'SELECT * FROM nodes' if kind == 'disjoint' else merged_sql(columns, 'nodes AS u')
    return (f'WITH nodes AS MATERIALIZED (\n{indented(nodes)}\n)\n'
            + unnested_sql(names, columns, outer))


def query_over_parts(query: Query, kind: str, catalog: Catalog, columns: dict[str, list[str]],
                     nodes: int) -> str:
    """The query that the coordinator asks if the parts of its tables are foreign tables."""
    if kind == WHOLE:
        return rows_sql(query, catalog)
    more = with_parts(catalog, columns, nodes)
    listed = ', '.join(columns_of(len(answer_names(query))))
    return gathered_sql(query, kind, [
        f'SELECT {listed}, days FROM (\n'
        f'{indented(query_sql(on_node(query, columns, node), more))}\n) AS n{node}'
        for node in range(1, nodes + 1)])


# Servers.


def connection_options(connection: str) -> dict[str, str]:
    """The words of a connection (host=a dbname='b c') by name."""
    found = re.findall(r"\s*(\w+)\s*=\s*(?:'((?:[^'\\]|\\.)*)'|(\S+))", connection)
    return {name: re.sub(r'\\(.)', r'\1', quoted) or plain for name, quoted, plain in found}


def options_sql(options: dict[str, str]) -> str:
    return '(' + ', '.join(f'{name} {text_sql(value)}' for name, value in options.items()) + ')'


def server_sql(node: int, connection: str) -> str:
    options = connection_options(connection)
    user = {name: options.pop(name) for name in ('user', 'password') if name in options}
    name = server_name(node)
    return (f'CREATE SERVER {name} FOREIGN DATA WRAPPER postgres_fdw OPTIONS '
            + options_sql({**options, 'async_capable': 'true', 'fetch_size': '10000'}) + ';\n'
            f'CREATE USER MAPPING FOR CURRENT_USER SERVER {name}'
            + (f' OPTIONS {options_sql(user)}' if user else '') + ';\n')


def server_name(node: int) -> str:
    return name_sql(f'BITEMPORAL_{node}')


def partitioned_sql(table: Table, names: list[str], nodes: int, schema: str) -> Iterator[str]:
    """A table whose parts are on nodes, by a hash of the columns."""
    lines = ',\n  '.join(column_lines(table))
    by = ', '.join(map(name_sql, names))
    yield f'CREATE TABLE {name_sql(table.name)} (\n  {lines})\n  PARTITION BY HASH ({by});\n'
    for node in range(1, nodes + 1):
        options = {'schema_name': schema, 'table_name': name_sql(table.name)[1:-1],
                   'batch_size': '1000'}
        yield (f'CREATE FOREIGN TABLE {name_sql(part_name(table.name, node))} PARTITION OF'
               f' {name_sql(table.name)}\n  FOR VALUES WITH (MODULUS {nodes}, REMAINDER {node - 1})'
               f' SERVER {server_name(node)}\n  OPTIONS {options_sql(options)};\n')


def answer_name(number: int) -> str:
    return f'ANSWER_{number}'


def answer_views(number: int, query: Query, kind: str, catalog: Catalog, nodes: int,
                 schema: str) -> Iterator[str]:
    """The view of a query on the coordinator, over what the views of the nodes give."""
    view = name_sql(answer_name(number))
    if kind == WHOLE:
        yield f'CREATE VIEW {view} AS\n{rows_sql(query, catalog)};\n'
        return
    columns = columns_of(len(answer_names(query)))
    types = ', '.join(f'{column} {TYPES.get(type_of_value, TEXT) if type_of_value else TEXT}'
                      for column, (_, type_of_value)
                      in zip(columns, typed_columns_of(query, catalog)))
    for node in range(1, nodes + 1):
        options = {'schema_name': schema, 'table_name': view[1:-1]}
        name = name_sql(part_name(answer_name(number), node))
        yield (f'CREATE FOREIGN TABLE {name} ({types}, days datemultirange)\n'
               f'  SERVER {server_name(node)} OPTIONS {options_sql(options)};\n')
    parts = [f'SELECT * FROM {name_sql(part_name(answer_name(number), node))}'
             for node in range(1, nodes + 1)]
    yield f'CREATE VIEW {view} AS\n{gathered_sql(query, kind, parts)};\n'


def start_sql(schema: str) -> str:
    return ('SET client_min_messages = warning;\nBEGIN;\n'
            f'CREATE SCHEMA {name_sql(schema)};\n'
            f'SET LOCAL search_path = {name_sql(schema)}, pg_catalog;\n')


def coordinator_sql(catalog: Catalog, columns: dict[str, list[str]],
                    queries: list[tuple[int, Query, str]], connections: list[str],
                    schema: str) -> Iterator[str]:
    """The script of the coordinator: servers, tables and the answers' views."""
    nodes = len(connections)
    yield start_sql(schema).replace('BEGIN;\n', 'BEGIN;\nCREATE EXTENSION IF NOT EXISTS'
                                                ' postgres_fdw;\n')
    for node, connection in enumerate(connections, 1):
        yield server_sql(node, connection)
    for table in catalog.tables.values():
        if table.name in columns:
            yield from partitioned_sql(table, columns[table.name], nodes, schema)
        else:
            yield table_sql(table, Options())
    for number, query, kind in queries:
        yield from answer_views(number, query, kind, catalog, nodes, schema)
    yield 'COMMIT;\n'


def node_sql(catalog: Catalog, queries: list[tuple[int, Query, str]], connection: str,
             schema: str) -> Iterator[str]:
    """The script of a node: its part of each table, or the whole of it, and its views."""
    yield f'\\connect -reuse-previous=off {text_of_psql(connection)}\n{start_sql(schema)}'
    for table in catalog.tables.values():
        yield table_sql(table, Options())
    for number, query, kind in queries:
        if kind != WHOLE:
            yield f'CREATE VIEW {name_sql(answer_name(number))} AS\n{query_sql(query, catalog)};\n'
    yield 'COMMIT;\n'


def text_of_psql(text: str) -> str:
    """A text as psql's own commands take it."""
    return "'" + text.replace('\\', '\\\\').replace("'", "''") + "'"
