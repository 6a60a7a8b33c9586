"""SELECTs of PostgreSQL that print the records of a report: the answer of a sequenced query, and
the versions that a stored query shows."""
from bitemporal_tools.sql.catalog import Catalog
from bitemporal_tools.sql.literals import FIRST_MOMENT
from bitemporal_tools.sql.queries import columns_of as typed_columns_of
from bitemporal_tools.sql.scope import Scope
from bitemporal_tools.sql.tree import Query, Stored

from .conditions import Conditions, period_sql, system_sql, window_sql
from .queries import answer_names, columns_of, query_sql
from .words import day_sql, field_sql, indented, moment_field_sql, name_sql, text_sql

FIRST_DAY = FIRST_MOMENT[:10]


def said(text: str) -> str:
    """A SELECT that prints a record."""
    return f'SELECT {text_sql(text)};\n'


def records_sql(heads: tuple[str, str], lines: str) -> str:
    """Prints the two records of `heads`, with the number of rows in the first, and the records of
    `lines`, a SELECT of i, which orders them, and line."""
    first, names = heads
    return (f'WITH records AS MATERIALIZED (\n{indented(lines)})\n'
            f"SELECT line FROM (\n  SELECT 0 AS i, {text_sql(first)} || ',' || count(*) || E'\\n'"
            f' || {text_sql(names)} AS line FROM records\n'
            '  UNION ALL SELECT i, line FROM records) AS report ORDER BY i;\n')


def lines_sql(word: str, number: int, order: str, fields: list[str]) -> str:
    return (f'SELECT row_number() OVER (ORDER BY {order}) AS i,\n'
            f"  concat_ws(',', '{word}', {number}, {', '.join(fields)}) AS line\n")


def answer_sql(number: int, query: Query, catalog: Catalog) -> str:
    names = answer_names(query)
    columns = columns_of(len(names))
    kinds = [kind for _, kind in typed_columns_of(query, catalog)]
    absent = (f"CASE WHEN lower(d) = date '{FIRST_DAY}' THEN 'none'"
              f" ELSE {day_sql('lower(d) - 1')} END")
    fields = [*map(field_sql, columns, kinds), day_sql('lower(d)'), day_sql('upper(d)'),
              day_sql('lower(d)'), absent]
    heads = (f'answer,{number},{len(names)}',
             f"columns,{number},{','.join(names)},valid_from,valid_to,held,absent")
    return records_sql(heads, lines_sql('row', number, ', '.join([*columns, 'lower(d)']), fields)
                       + f'FROM (\n{indented(query_sql(query, catalog))}\n) AS q,'
                         ' unnest(q.days) AS d\n')


def stored_parts(stored: Stored, catalog: Catalog) -> tuple[str, str]:
    """The table and the condition of a stored query, and its order."""
    table = catalog.tables[stored.table]
    tests = [window_sql(stored.window, table, 't')]
    if stored.where:
        tests.append(Conditions(Scope([(table.name, table)]), ['t']).sql(stored.where))
    order = [f't.{name_sql(name)}' for name in table.value_names]
    order += [f"lower({period_sql(table, 't')})", system_sql(table, 't')[0]]
    return f"FROM {name_sql(table.name)} AS t\nWHERE {' AND '.join(tests)}\n", ', '.join(order)


def stored_rows_sql(stored: Stored, catalog: Catalog) -> str:
    source, order = stored_parts(stored, catalog)
    return f'SELECT t.* {source}ORDER BY {order};\n'


def versions_sql(number: int, stored: Stored, catalog: Catalog) -> str:
    source, order = stored_parts(stored, catalog)
    table = catalog.tables[stored.table]
    period, (since, until) = period_sql(table, 't'), system_sql(table, 't')
    fields = []
    for column in table.columns:
        if column.generated:
            moment = since if column.generated == 'START' else until
            fields.append(moment_field_sql(moment))
        elif column.name in (table.period.start, table.period.end):
            which = 'lower' if column.name == table.period.start else 'upper'
            fields.append(day_sql(f'{which}({period})'))
        else:
            fields.append(field_sql(f't.{name_sql(column.name)}', column.kind))
    names = [column.name for column in table.columns]
    heads = f'versions,{number},{len(names)}', f"columns,{number},{','.join(names)}"
    return records_sql(heads, lines_sql('version', number, order, fields) + source)
