"""Versions of rows as files that other databases load: a CSV file for each table, and one script.

Names are in lower case and in quotes, so that no word of another database is in the way. Texts
are in quotes in the CSV files too: there an empty text isn't NULL. 9999-12-31 and FOREVER stay
the dates that they are.
"""
from bitemporal_tools.reports.records import quoted
from bitemporal_tools.reports.report import Statement, Versions
from bitemporal_tools.sql.catalog import Table
from bitemporal_tools.sql.tree import Name

from .command_line import Fault

# The name of each database, the comment that says how, its types, and its limit for a name.
POSTGRESQL, DUCKDB, SQLITE = 'postgresql', 'duckdb', 'sqlite3'
COMMANDS = {POSTGRESQL: 'psql -f load.sql DATABASE', DUCKDB: 'duckdb DATABASE < load.sql',
            SQLITE: 'sqlite3 DATABASE < load.sql'}
KINDS = ('INTEGER', 'VARCHAR', 'DATE', 'TIMESTAMP')
TYPES = {POSTGRESQL: dict(zip(KINDS, ('bigint', 'varchar({}) COLLATE "C"', 'date', 'timestamp'))),
         DUCKDB: dict(zip(KINDS, ('BIGINT', 'VARCHAR', 'DATE', 'TIMESTAMP'))),
         SQLITE: dict(zip(KINDS, ('INTEGER', 'TEXT', 'TEXT', 'TEXT')))}
LONGEST_NAME = {POSTGRESQL: 63}


def name_of(name: str) -> str:
    return quoted(name.lower())


def last_versions(statements: list[Statement]) -> dict[Name, Statement]:
    """The last list of versions of each table, by the table's name."""
    return {statement.outcome.table.name: statement for statement in statements
            if isinstance(statement.outcome, Versions)}


class Files:
    """The files for a database, by name."""

    def __init__(self, kind: str, statements: list[Statement]) -> None:
        self.kind, self.files = kind, {}
        lines = ['-- Versions of rows. In this folder:', f'--   {COMMANDS[kind]}']
        for name, statement in last_versions(statements).items():
            self.judge_names(statement.outcome)
            self.files[f'{name.lower()}.csv'] = self.rows(statement.outcome)
            lines += ['', *(f'-- {line}' for line in statement.text.splitlines()),
                      self.create(statement.outcome.table), self.copy(statement.outcome)]
        self.files['load.sql'] = '\n'.join(lines) + '\n'

    def judge_names(self, versions: Versions) -> None:
        most = LONGEST_NAME.get(self.kind)
        for name in (versions.table.name, versions.table.period.name, *versions.names):
            if most and len(name) > most:
                raise Fault(f'{self.kind} cuts names at {most} bytes, and {name} is longer', 1)

    def rows(self, versions: Versions) -> str:
        """The CSV file: texts in quotes, everything else without."""
        kinds = [column.kind for column in versions.table.columns]
        lines = [','.join(name.lower() for name in versions.names)]
        lines += [','.join(self.text(cell) if kind == 'VARCHAR' else cell
                           for kind, cell in zip(kinds, row)) for row in versions.rows]
        return '\n'.join(lines) + '\n'

    def text(self, cell: str) -> str:
        if '\0' in cell:
            raise Fault('a text has U+0000, which other databases do not take', 1)
        if self.kind == POSTGRESQL and '\\.' in cell.split('\n'):
            raise Fault('a line of a text is \\. alone, which psql takes for the end of a file', 1)
        return quoted(cell)

    def create(self, table: Table) -> str:
        columns = [f'{name_of(column.name)} {TYPES[self.kind][column.kind].format(column.number)}'
                   ' NOT NULL' for column in table.columns]
        if self.kind == POSTGRESQL:
            period = table.period
            columns.append(f'{name_of(period.name)} daterange GENERATED ALWAYS AS'
                           f' (daterange({name_of(period.start)}, {name_of(period.end)})) STORED')
        elements = ',\n  '.join(columns)
        ending = ' STRICT' if self.kind == SQLITE else ''
        return f'CREATE TABLE {name_of(table.name)} (\n  {elements}){ending};'

    def copy(self, versions: Versions) -> str:
        name = versions.table.name.lower()
        names = ', '.join(map(name_of, versions.names))
        if self.kind == SQLITE:
            return f".import --csv --skip 1 {name}.csv {name}"
        if self.kind == POSTGRESQL:
            return f"\\copy {name_of(name)} ({names}) FROM '{name}.csv' WITH (FORMAT csv, HEADER)"
        texts = ', '.join(name_of(column.name) for column in versions.table.columns
                          if column.kind == 'VARCHAR')
        forced = f', FORCE_NOT_NULL ({texts})' if texts else ''
        return (f"COPY {name_of(name)} ({names}) FROM '{name}.csv'"
                f" (FORMAT csv, HEADER, DELIMITER ',', QUOTE '\"', ESCAPE '\"'{forced});")
