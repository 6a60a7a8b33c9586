"""The questions of the page, as values that JSON has."""
import threading
from typing import Any, Dict, Iterator, Optional

from bitemporal_tools.sql.lexis import pieces
from bitemporal_tools.sql.tree import Sequenced

from .. import dialect, engine
from ..problems import Problem
from ..rights import Rights

MOST_VERSIONS = 20_000  # of a table whose days and moments the sliders go through
FIRST, OPEN_END, LAST_MOMENT = '0001-01-01', '9999-12-31', '9999-12-31 23:59:59.999999'

Answer = Dict[str, Any]


def witness(held: str, absent: str) -> str:
    """The witness of a row in words: a day on which it holds, and an earlier one on which not."""
    return f'on {held} yes, ' + ('and on no day before' if absent == 'none'
                                 else f'on {absent} not yet')


class Asker:
    """Puts the questions of the page to the engine, one after the other."""

    def __init__(self, own: engine.Engine, may_write: bool, client: engine.Waiting) -> None:
        self.engine, self.rights, self.client = own, Rights(may_write), client
        self.lock = threading.Lock()

    def ask(self, text: str) -> Answer:
        """The results of the statements of a text, up to the first that is refused."""
        with self.lock:
            results = []
            try:
                for result in self.results(text):
                    results.append(result)
            except Problem as problem:
                results.append({'kind': 'refused', 'message': problem.message, 'detail':
                                problem.detail, 'hint': problem.hint, 'at': problem.position})
            return {'results': results}

    def results(self, text: str) -> 'Iterator[Answer]':
        """The results of the statements of a text."""
        for piece in pieces(dialect.lexed(text)):
            bound = dialect.Prepared(text, piece, self.engine.catalog).bound([])
            yield self.result(bound.tree, self.engine.run(bound, self.rights, self.client, text))

    def result(self, tree: object, outcome: engine.Outcome) -> Answer:
        """The number of rows of a change; or the columns and rows of an answer, and for a sequenced
        query its witnesses and audit."""
        if outcome.kind == 'done':
            return {'kind': 'done', 'what': outcome.what, 'count': outcome.number}
        columns = [column.name for column in dialect.columns_of(tree, self.engine.catalog) or []]
        rows = list(engine.rows_of(outcome))
        if not isinstance(tree, Sequenced):
            return {'kind': 'versions', 'columns': columns, 'rows': rows}
        return {'kind': 'answer', 'columns': columns[:-2], 'rows': [row[:-2] for row in rows],
                'witnesses': [witness(*row[-2:]) for row in rows], 'audit': list(outcome.audit)}

    def rows(self, text: str) -> 'list[list[str]]':
        """The rows of a query of the page's own."""
        [found] = self.results(text)
        rows: 'list[list[str]]' = found['rows']
        return rows

    def tables(self) -> Answer:
        """The tables of the store, with their columns and the clock."""
        with self.lock:
            catalog = self.engine.catalog
            return {'clock': self.engine.clock(), 'write': self.rights.may_write, 'tables': [
                {'name': table.name, 'period': table.period.name, 'key': list(table.key),
                 'columns': [{'name': column.name, 'kind': column.kind, 'number': column.number}
                             for column in table.columns]}
                for table in catalog.tables.values()]}

    def range(self, name: str) -> Answer:
        """The days on which a table changes, and the moments at which it was changed, in order."""
        with self.lock:
            table = self.engine.catalog.tables[name]
            found = self.rows(f"SELECT * FROM {name} FOR SYSTEM_TIME FROM TIMESTAMP '{FIRST}"
                              f" 00:00:00' TO TIMESTAMP '{LAST_MOMENT}'")
            if len(found) > MOST_VERSIONS:
                return {'days': [], 'moments': []}
            ends = (table.period.start, table.period.end)
            places = [at for at, column in enumerate(table.columns) if column.name in ends]
            system = [at for at, column in enumerate(table.columns) if column.generated]
            days = {row[place] for row in found for place in places} - {FIRST, OPEN_END}
            moments = {row[place] for row in found for place in system} - {LAST_MOMENT}
            return {'days': sorted(days), 'moments': sorted(moments)}

    def state(self, name: str, moment: Optional[str], day: Optional[str]) -> Answer:
        """The rows of a table as they were recorded at a moment, of a day alone if one is given."""
        with self.lock:
            table = self.engine.catalog.tables[name]
            window = f" FOR SYSTEM_TIME AS OF TIMESTAMP '{moment}'" if moment else ''
            where = f" WHERE {table.period.name} CONTAINS DATE '{day}'" if day else ''
            shown = [at for at, column in enumerate(table.columns) if not column.generated]
            rows = self.rows(f'SELECT * FROM {name}{window}{where}')
            return {'columns': [table.columns[at].name for at in shown],
                    'rows': [[row[at] for at in shown] for row in rows]}

    def changes(self, name: str, first: str, second: str) -> Answer:
        """The rows that a table had at one moment and not at another, and the other way round."""
        before = self.state(name, first, None)
        after = self.state(name, second, None)
        had, has = ({tuple(row) for row in state['rows']} for state in (before, after))
        return {'columns': before['columns'],
                'gone': [row for row in before['rows'] if tuple(row) not in has],
                'new': [row for row in after['rows'] if tuple(row) not in had]}
