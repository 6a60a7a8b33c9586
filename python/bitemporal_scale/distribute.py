"""Says which sequenced queries of a script PostgreSQL servers can answer node by node, and writes
how.

    distribute [--by TABLE=COLUMN[,COLUMN..]].. [--whole TABLE].. [--nodes N] FILE
    distribute [--by ..] [--whole ..] --partitions CONNECTION --partitions .. FILE > setup.sql
    psql -X -v ON_ERROR_STOP=1 -d COORDINATOR -f setup.sql

Each table is in parts on N nodes, by a hash of columns of its key: the columns of --by, else the
first of the key. A table of --whole is on every node as a whole. For each sequenced query a line
says how it splits, and why not:

    disjoint   the answer is the rows of the nodes' answers: no list of values is on two nodes
    merge      the answer is those rows, rows of equal values merged once more
    whole      each node has the answer, and so has the coordinator
    no         a node would need other nodes' rows

and the query of the coordinator follows, over the parts of a table EMP by the names emp_1, emp_2 ..

With --partitions, once for each node, a script of psql follows in its place that sets all up in
the schema `bitemporal`, by postgres_fdw: on the coordinator the tables, hash-partitioned over the
nodes (rows that are inserted there go to their nodes); on each node its part of them, and a view
answer_N for each query that splits, N its number in the script; and on the coordinator the view
answer_N, which asks all nodes at once. The tables are tables of versions, as to_postgresql has
them. Statements other than CREATE TABLE and sequenced queries are left out.

The exit status is 0 if each sequenced query splits, 1 if one does not, or is refused, and 2
if the script or a word of the command line is refused.
"""
import argparse

from bitemporal_scale.postgresql.nodes import clash, coordinator_sql, node_sql, query_over_parts
from bitemporal_scale.postgresql.partitions import Crossing, verdict
from bitemporal_tools import command_line
from bitemporal_tools.command_line import Fault
from bitemporal_tools.sql.catalog import Catalog
from bitemporal_tools.sql.lexis import decoded
from bitemporal_tools.sql.refusals import NAMES, Refused
from bitemporal_tools.sql.script import Statement, judge
from bitemporal_tools.sql.tree import Query, Sequenced

SCHEMA = 'bitemporal'


def words(arguments: list[str]) -> argparse.Namespace:
    parser = command_line.parser('distribute', __doc__)
    parser.add_argument('file', metavar='FILE', help='the script')
    parser.add_argument('--by', action='append', default=[], metavar='TABLE=COLUMN[,COLUMN..]',
                        help='the columns of a key that choose the node of a row')
    parser.add_argument('--whole', action='append', default=[], metavar='TABLE',
                        help='a table that every node has')
    parser.add_argument('--nodes', type=int, default=3, help='how many nodes, 3 if not said')
    parser.add_argument('--partitions', action='append', default=[], metavar='CONNECTION',
                        help="a node in psql's words: 'host=h dbname=d user=u'")
    options = parser.parse_args(arguments)
    if options.nodes < 1:
        parser.error('--nodes takes 1 and more')
    return options


def chosen_columns(options: argparse.Namespace, catalog: Catalog) -> dict[str, list[str]]:
    """The columns of distribution of each table in parts."""
    whole = {name.upper() for name in options.whole}
    columns = {str(table.name): list[str](table.key[:1]) for table in catalog.tables.values()
               if table.name not in whole}
    for name in whole - set(catalog.tables):
        raise Fault(f'--whole {name}: the script makes no such table')
    for pair in options.by:
        name, _, listed = pair.upper().partition('=')
        if name not in columns:
            raise Fault(f'--by {pair}: the script makes no such table that is in parts')
        columns[name] = listed.split(',')
        for column in columns[name]:
            if column not in catalog.tables[name].key:
                raise Fault(f'--by {pair}: {column} is no column of the key of {name}')
    return columns


def judged(statements: list[Statement]) -> tuple[Catalog, list[tuple[int, Query]], list[str]]:
    """The tables of a script, its sequenced queries, and lines for those that are refused."""
    catalog, queries, refused = Catalog(), [], []
    for statement in statements:
        if isinstance(statement.tree, Sequenced) and statement.faults:
            code = statement.refusal
            refused.append(f'-- {statement.number}: refused: {code} {NAMES[code]}')
        elif not statement.faults:
            catalog.take(statement.tree)
            if isinstance(statement.tree, Sequenced):
                queries.append((statement.number, statement.tree.query))
    return catalog, queries, refused


def split(queries: list[tuple[int, Query]], catalog: Catalog,
          columns: dict[str, list[str]]) -> tuple[list[tuple[int, Query, str]], dict[int, str]]:
    """The queries that split, each with its kind; and a line for each query, by its number."""
    kept, lines = [], {}
    for number, query in queries:
        try:
            kept.append((number, query, verdict(query, catalog, columns)))
            lines[number] = f'-- {number}: {kept[-1][2]}'
        except Crossing as crossing:
            lines[number] = f'-- {number}: no: {crossing}'
    return kept, lines


def written(options: argparse.Namespace,
            statements: list[Statement]) -> tuple[list[str], bool]:
    """The lines of the output, and whether all queries split."""
    catalog, queries, refused = judged(statements)
    columns = chosen_columns(options, catalog)
    nodes = len(options.partitions) or options.nodes
    kept, lines = split(queries, catalog, columns)
    name = clash(catalog, columns, kept, nodes)
    if name:
        raise Fault(f'the table {name} has a name of a part or of an answer')
    if options.partitions:
        made = [*refused, *lines.values(),
                *coordinator_sql(catalog, columns, kept, options.partitions, SCHEMA)]
        for connection in options.partitions:
            made += node_sql(catalog, kept, connection, SCHEMA)
    else:
        texts = {number: query_over_parts(query, kind, catalog, columns, nodes) + ';'
                 for number, query, kind in kept}
        made = [*refused, *(text for number, line in lines.items()
                            for text in filter(None, (line, texts.get(number))))]
    return made, len(kept) == len(queries) and not refused


def main(arguments: list[str]) -> int:
    options = words(arguments)
    try:
        statements = judge(decoded(command_line.read_bytes(options.file)))
        made, is_all = written(options, statements)
    except Refused as refused:
        raise Fault(refused) from None
    command_line.write_output('\n'.join(made) + '\n')
    return 0 if is_all else 1
