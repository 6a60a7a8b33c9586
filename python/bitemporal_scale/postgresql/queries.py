"""Sequenced queries as SQL of PostgreSQL.

A query becomes a SELECT of c1, c2 .. and `days`: each list of values once, with the multirange of
the days on which it exists. The rows of its answer are what `unnest` makes of the multiranges.
"""
from bitemporal_tools.sql.catalog import Catalog
from bitemporal_tools.sql.queries import scope_of
from bitemporal_tools.sql.tree import Name, Query, Select, selects

from .conditions import Conditions, period_sql, window_sql
from .words import indented, name_sql


def columns_of(count: int) -> list[str]:
    """The names of the columns of a query of ours."""
    return [f'c{place}' for place in range(1, count + 1)]


def answer_names(query: Query) -> list[Name]:
    """The names of an answer's columns, which the first SELECT gives."""
    return [item.new_name or item.column.name for item in selects(query)[0].items]


def query_sql(query: Query, catalog: Catalog) -> str:
    if isinstance(query, Select):
        return select_sql(query, catalog)
    columns = columns_of(len(answer_names(query)))
    text = query_sql(query.first, catalog)
    for operand in query.rest:
        text = OPERATORS[operand.operator](columns, indented(text),
                                           indented(query_sql(operand.query, catalog)))
    return text


def union_sql(columns: list[str], left: str, right: str) -> str:
    return merged_sql(columns, f'(\n{left}\nUNION ALL\n{right}\n) AS u')


def merged_sql(columns: list[str], source: str) -> str:
    """The rows of equal values of a source `u` as one. (Before PostgreSQL 15 range_agg takes ranges
    alone, and no multiranges.)"""
    names = ', '.join(columns)
    return (f'SELECT {names}, range_agg(d) AS days FROM {source}, unnest(u.days) AS d'
            f' GROUP BY {names}')


def except_sql(columns: list[str], left: str, right: str) -> str:
    names, same = paired(columns)
    return (f"SELECT {names}, l.days - coalesce(r.days, '{{}}') AS days FROM (\n{left}\n) AS l"
            f' LEFT JOIN (\n{right}\n) AS r ON {same}\n'
            'WHERE r.days IS NULL OR NOT l.days <@ r.days')


def intersect_sql(columns: list[str], left: str, right: str) -> str:
    names, same = paired(columns)
    return (f'SELECT {names}, l.days * r.days AS days FROM (\n{left}\n) AS l'
            f' JOIN (\n{right}\n) AS r ON {same} AND l.days && r.days')


def paired(columns: list[str]) -> tuple[str, str]:
    return (', '.join(f'l.{column}' for column in columns),
            ' AND '.join(f'l.{column} = r.{column}' for column in columns))


OPERATORS = {'UNION': union_sql, 'EXCEPT': except_sql, 'INTERSECT': intersect_sql}


def select_sql(select: Select, catalog: Catalog) -> str:
    aliases = [f'r{place}' for place in range(1, len(select.references) + 1)]
    used = [catalog.tables[reference.table] for reference in select.references]
    periods = list(map(period_sql, used, aliases))
    tests = [f'{one} && {two}' for place, one in enumerate(periods) for two in periods[:place]]
    tests += [window_sql(reference.window, table, alias)
              for reference, table, alias in zip(select.references, used, aliases)]
    tests += [Conditions(scope_of(select, catalog, on.first, on.last),
                         aliases[on.first:on.last]).sql(on.condition) for on in select.ons]
    whole = Conditions(scope_of(select, catalog), aliases)
    if select.where:
        tests.append(whole.sql(select.where))
    columns = columns_of(len(select.items))
    listed = ', '.join(f'{whole.column(item.column)} AS {column}'
                       for item, column in zip(select.items, columns))
    sources = ', '.join(f'{name_sql(reference.table)} AS {alias}'
                        for reference, alias in zip(select.references, aliases))
    places = ', '.join(str(place) for place in range(1, len(columns) + 1))
    return (f"SELECT {listed}, range_agg({' * '.join(periods)}) AS days\nFROM {sources}\n"
            f"WHERE {' AND '.join(tests)}\nGROUP BY {places}")


def rows_sql(query: Query, catalog: Catalog) -> str:
    """The rows of a query's answer by the names of its columns, valid_from and valid_to."""
    names = answer_names(query)
    columns = columns_of(len(names))
    return unnested_sql(names, columns, query_sql(query, catalog))


def unnested_sql(names: list[Name], columns: list[str], query: str) -> str:
    """A row for each period of the multiranges of a query of ours."""
    return (f'SELECT {shown_sql(names, columns)}, lower(d) AS valid_from, upper(d) AS valid_to'
            f' FROM (\n{indented(query)}\n) AS q, unnest(q.days) AS d\n'
            f"ORDER BY {', '.join(columns)}, lower(d)")


def shown_sql(names: list[Name], columns: list[str]) -> str:
    """The columns by their names; one of a name that was there before gets a number."""
    seen, shown = ['VALID_FROM', 'VALID_TO'], []
    for name, column in zip(names, columns):
        seen.append(name)
        number = seen.count(name)
        shown.append(f'{column} AS {name_sql(name if number == 1 else f"{name}#{number}")}')
    return ', '.join(shown)
