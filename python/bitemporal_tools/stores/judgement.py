"""Why the program refuses tables and rows, by asking it for them in turn.

A store is refused as a whole, by 60. So its tables are made in an empty store, and its current rows
are inserted table by table: of those that the program refuses it says the day.
"""
import pathlib
from collections.abc import Iterator, Sequence
from typing import Optional

from bitemporal_tools.command_line import counted
from bitemporal_tools.sql.script import judge
from bitemporal_tools.stores import asking
from bitemporal_tools.stores.changes_text import Inserts, conditions
from bitemporal_tools.stores.reading import Store, Version
from bitemporal_tools.stores.spelling import cell_of, day_of, day_text, moment_text, parts_of
from bitemporal_tools.stores.tables import Table, create_table, create_tables

MOST_CAUSES, ROWS_OF_A_BATCH = 5, 200
KEY_OVERLAP, PERIOD_REFERENCE = '42', '43'


def refused_definition(tables: Sequence[Table]) -> str:
    """Why the program refuses the first of the tables that it refuses, or an empty text."""
    script = create_tables(tables)
    for record in asking.read_report(*asking.ran('bitemporal', ['run'], script.encode('utf-8'))):
        if record[0] == 'refused':
            place, code, name = int(record[1]) - 1, record[2], record[3]
            why = next((fault.why for fault in judge(script)[place].faults
                        if fault.number == int(code)), create_table(tables[place], tables).strip())
            return f'{tables[place].name}: {code} {name}: {why}'
    return ''


def shown_row(table: Table, version: Version) -> str:
    """A version for a line of a message."""
    cells = [f'{name} {cell_of(part)!r}' if column.kind == 2 else f'{name} {cell_of(part)}'
             for name, column, part in zip(table.value_names, table.values,
                                           parts_of(version.values))]
    return (f'{", ".join(cells)} from {day_text(version.start)} to {day_text(version.end)},'
            f' recorded at {moment_text(version.since)}')


class Judgement:
    """The current rows of a store, inserted into an empty one."""

    def __init__(self, store: Store, folder: str) -> None:
        self.store, self.file = store, str(pathlib.Path(folder, 'asked'))
        asking.report([create_table(table, store.tables) for table in store.tables], self.file)

    def refused_rows(self, number: int, table: Table) -> Iterator[tuple[Version, str, str]]:
        """The rows of a table that the program refuses, each with the number and the day."""
        inserts = Inserts(table, ROWS_OF_A_BATCH)
        batches = list(inserts.batches(self.store.current(number)))
        refused = [batches[int(record[1]) - 1] for record in asking.report(
            (inserts.statement(batch) for batch in batches), self.file) if record[0] == 'refused']
        for batch in refused:
            for record in asking.report((inserts.statement([row]) for row in batch), self.file):
                if record[0] == 'refused':
                    yield batch[int(record[1]) - 1], record[2], record[4]

    def cause(self, table: Table, row: Version, code: str, day: str) -> str:
        shown = shown_row(table, row)
        if code == KEY_OVERLAP:
            key = conditions(table, table.key, row)
            other = self.row_on(table, key, day)
            return (f'{table.name}: two rows of the key {key} hold on {day}:\n  {shown}'
                    + (f'\n  {shown_row(table, other)}' if other else ''))
        if code == PERIOD_REFERENCE:
            for reference in table.references:
                key = conditions(table, reference.columns, row, reference.parent_columns)
                parent = self.store.tables[self.store.number(reference.parent) - 1]
                if not self.row_on(parent, key, day):
                    return (f'{table.name}: {reference.parent} has no row with {key} on {day},'
                            f' and a row refers to it:\n  {shown}')
        return f'{table.name}: the program refuses this row by {code}:\n  {shown}'

    def row_on(self, table: Table, condition: str, day: str) -> Optional[Version]:
        """The row of a table that is in the asked store on a day, as the store itself has it."""
        found = asking.report([f"SELECT * FROM {table.name} WHERE {condition} AND {table.period}"
                               f" CONTAINS DATE '{day}';"], self.file)
        if found[0][3] == '0':
            return None
        cells, number, at = found[2][2:], day_of(day), self.store.number(table.name)
        given = [cells[table.names.index(name)] for name in table.value_names]
        return next(version for version in self.store.current(at)
                    if version.start <= (number or 0) < version.end
                    and list(map(cell_of, parts_of(version.values))) == given)


def causes(store: Store) -> list[str]:
    """Why the program refuses a store, as far as asking it for its rows in turn shows."""
    with asking.scratch(store.size) as folder:
        judgement = Judgement(store, folder)
        for number, table in enumerate(store.tables, 1):
            refused = list(judgement.refused_rows(number, table))
            if refused:
                found = [judgement.cause(table, *one) for one in refused[:MOST_CAUSES]]
                more = len(refused) - len(found)
                return [*found, f'And {counted(more, "row")} of {table.name} more.'] if more \
                    else found
    return []
