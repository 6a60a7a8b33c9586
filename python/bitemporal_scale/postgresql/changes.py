"""Changes as SQL of PostgreSQL: each a function that changes the versions of a table, looks for a
key clash and for children without a parent, and gives the record of the report. If it finds
one, its exception undoes the change."""
from collections.abc import Iterator
from typing import Union

from bitemporal_tools.sql.catalog import Catalog, Table
from bitemporal_tools.sql.scope import Scope
from bitemporal_tools.sql.tree import Change, Insert, Reference, Update

from .conditions import Conditions, period_sql, system_sql
from .words import FOREVER_SQL, day_sql, indented, moment_sql, name_sql, range_sql, value_sql

DAY = '"#day"'  # the variable of the first day of a fault
REFUSALS = {42: 'KeyOverlap', 43: 'PeriodReference'}


def change_sql(number: int, change: Union[Insert, Change], catalog: Catalog) -> str:
    """A change that the script alone doesn't refuse, over the tables and the clock of a catalog."""
    tables, table = catalog.tables, catalog.tables[change.table]
    checks = key_check(table)
    references = [(child, reference) for child in tables.values() for reference in child.references
                  if table.name in (child.name, reference.table)]
    if references:
        checks += reference_checks(references, tables)
    word = type(change).__name__.lower()
    done = indented(insert_body(change, table, catalog.clock) if isinstance(change, Insert)
                    else change_body(change, table, catalog.clock))
    handlers = ''.join(
        f"  WHEN SQLSTATE 'BT0{code}' THEN\n"
        f"    RETURN 'refused,{number},{code},{name},' || SQLERRM;\n"
        for code, name in REFUSALS.items())
    return ('CREATE FUNCTION pg_temp."#change"() RETURNS text LANGUAGE plpgsql AS $change$\n'
            f'DECLARE\n  "#n" bigint;\n  "#day" date;\nBEGIN\n{done}\n'
            f"{indented(checks)}  RETURN 'done,{number},{word},' || \"#n\";\n"
            f'EXCEPTION\n{handlers}END $change$;\n'
            'SELECT pg_temp."#change"();\nDROP FUNCTION pg_temp."#change"();\n')


def insert_body(insert: Insert, table: Table, clock: str) -> str:
    names = insert.columns or [column.name for column in table.given]
    rows = []
    for row in insert.rows:
        values = dict(zip(names, row.values))
        cells = [value_sql(values[name]) for name in table.value_names]
        cells.append(range_sql(values[table.period.start], values[table.period.end]))
        rows.append(f"({', '.join(cells)})")
    columns = ', '.join(f'c{place}' for place in range(1, len(table.values) + 1))
    return (f'INSERT INTO {name_sql(table.name)}\n  SELECT {columns}, p, {moment_sql(clock)},'
            f' {FOREVER_SQL}\n  FROM (VALUES\n    ' + ',\n    '.join(rows)
            + f') AS v ({columns}, p);\n"#n" := {len(rows)};')


def change_body(change: Change, table: Table, clock: str) -> str:
    """UPDATE and DELETE: the touched rows end, or go where they began now; what they leave and
    what the change makes of them begins."""
    name, now = name_sql(table.name), moment_sql(clock)
    period, (_, until) = period_sql(table, 't'), system_sql(table, 't')
    tests = [f'{until} = {FOREVER_SQL}']
    if change.portion:
        tests.append(f'{period} && {range_sql(change.portion.start, change.portion.end)}')
    if change.where:
        tests.append(Conditions(Scope([(table.name, table)]), ['t']).sql(change.where))
    since = system_sql(table, 'o')[0]
    ended = until.partition('.')[2]
    added = '\nUNION ALL '.join(made_sql(change, table, now))
    if added:
        added = f'), "#added" AS (\n  INSERT INTO {name}\n{indented(added, "    ")}\n'
    return (f'WITH "#old" AS MATERIALIZED (\n  SELECT t.ctid AS "#place", t.* FROM {name} AS t\n'
            f"  WHERE {' AND '.join(tests)}\n"
            f'), "#gone" AS (\n  DELETE FROM {name} AS t USING "#old" AS o\n'
            f'  WHERE t.ctid = o."#place" AND {since} = {now}\n'
            f'), "#ended" AS (\n  UPDATE {name} AS t SET {ended} = {now} FROM "#old" AS o\n'
            f'  WHERE t.ctid = o."#place" AND {since} < {now}\n'
            f'{added})\nSELECT count(*) INTO "#n" FROM "#old";')


def made_sql(change: Change, table: Table, now: str) -> Iterator[str]:
    """The rows in the place of the touched ones: what is outside the portion, then what is in
    it."""
    period, recorded = period_sql(table, 'o'), f'{now}, {FOREVER_SQL} FROM "#old" AS o'
    days = period
    if change.portion:
        portion = range_sql(change.portion.start, change.portion.end)
        old = ', '.join(f'o.{name_sql(name)}' for name in table.value_names)
        yield (f'SELECT {old}, "#d", {recorded},\n'
               f'  unnest(datemultirange({period}) - datemultirange({portion})) AS "#d"')
        days = f'{period} * {portion}'
    if isinstance(change, Update):
        given = {assignment.column: assignment.value for assignment in change.sets}
        new = ', '.join(value_sql(given[name]) if name in given else f'o.{name_sql(name)}'
                        for name in table.value_names)
        yield f'SELECT {new}, {days}, {recorded}'


def raised(code: int) -> str:
    return ('IF "#day" IS NOT NULL THEN\n'
            f"  RAISE SQLSTATE 'BT0{code}' USING MESSAGE = {day_sql(DAY)};\n"
            'END IF;\n')


def key_check(table: Table) -> str:
    """The first day on which a current row begins before all earlier ones of its key have
    ended."""
    keys = ', '.join(name_sql(name) for name in table.key)
    period, (_, until) = period_sql(table, 't'), system_sql(table, 't')
    return (f'SELECT min("#s") INTO "#day" FROM (\n  SELECT lower({period}) AS "#s",'
            f' max(upper({period})) OVER (PARTITION BY {keys}\n    ORDER BY lower({period})'
            ' ROWS BETWEEN UNBOUNDED PRECEDING AND 1 PRECEDING) AS "#before"\n'
            f'  FROM {name_sql(table.name)} AS t WHERE {until} = {FOREVER_SQL}\n'
            ') AS k WHERE "#s" < "#before";\n' + raised(42))


def reference_checks(references: list[tuple[Table, Reference]], tables: dict[str, Table]) -> str:
    days = '\nUNION ALL\n'.join(reference_check(child, reference, tables[reference.table])
                                for child, reference in references)
    return (f'SELECT min("#d") INTO "#day" FROM (\n{indented(days)}\n) AS days ("#d");\n'
            + raised(43))


def reference_check(child: Table, reference: Reference, parent: Table) -> str:
    """The first day of each current child on which it has no parent."""
    pairs = list(zip(reference.columns, reference.table_columns))
    same = ' AND '.join(f'c.{name_sql(own)} = p.{name_sql(other)}' for own, other in pairs)
    others = ', '.join(name_sql(other) for _, other in pairs)
    (_, until), (_, ended) = system_sql(child, 'c'), system_sql(parent, 'q')
    return (f"SELECT lower(datemultirange({period_sql(child, 'c')})"
            " - coalesce(p.\"#days\", '{}'))\n"
            f'FROM {name_sql(child.name)} AS c LEFT JOIN (\n'
            f"  SELECT {others}, range_agg({period_sql(parent, 'q')}) AS \"#days\""
            f' FROM {name_sql(parent.name)} AS q\n'
            f'  WHERE {ended} = {FOREVER_SQL} GROUP BY {others}\n'
            f') AS p ON {same}\nWHERE {until} = {FOREVER_SQL}')
