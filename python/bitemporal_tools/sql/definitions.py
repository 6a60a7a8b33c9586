"""Faults of a CREATE TABLE."""
from collections.abc import Iterator
from typing import Union

from .catalog import Catalog, Table
from .changes import type_of
from .refusals import (MOST_CODE_POINTS, MOST_COLUMNS, MOST_PRECISION, MOST_REFERENCES, MOST_TABLES,
                       Fault)
from .scope import guess, listed, no_period, repeated, twice_in_list, unknown_table
from .tree import Create, Key, Name, Reference


class Definition:
    """A CREATE TABLE over a catalog. Each method that begins with `faults` gives some faults."""

    def __init__(self, create: Create, catalog: Catalog) -> None:
        self.create, self.catalog = create, catalog
        self.names = [column.name for column in create.columns]
        self.periods = [period.name for period in create.periods]
        # Of two columns of one name the first.
        self.kinds = {column.name: column.kind for column in reversed(create.columns)}
        self.generated = {column.name: column.generated for column in reversed(create.columns)}
        self.system = {column.name for column in create.columns if column.generated}
        self.bounds = [name for period in create.periods + create.systems
                       for name in (period.start, period.end)]
        owned: list[Union[Key, Reference]] = [*create.keys, *create.references]
        self.lists, self.own_periods = [one.columns for one in owned], [one.period for one in owned]

    def faults(self) -> Iterator[Fault]:
        for some in (self.faults_of_limits, self.faults_of_names, self.faults_of_lists,
                     self.faults_of_numbers, self.faults_of_types, self.faults_of_periods):
            yield from some()
        for reference in self.create.references:
            yield from self.faults_of_reference(reference)

    def faults_of_limits(self) -> Iterator[Fault]:
        create, name = self.create, self.create.name
        for count, most, what in (
                (len(self.catalog.tables) + 1, MOST_TABLES, 'tables'),
                (len(create.columns), MOST_COLUMNS, 'columns of a table'),
                (len(create.references), MOST_REFERENCES, 'references of a table')):
            if count > most:
                yield Fault(21, name.offset,
                            f'These would be {count} {what}, and {most} are the most.')
        if name in self.catalog.tables:
            yield Fault(22, name.offset, f'There is a table {name} already.')

    def faults_of_names(self) -> Iterator[Fault]:
        for name in [name for names in self.lists for name in names] + self.bounds:
            if name not in self.names:
                what = f'{name} is a period, and a column is meant.' if name in self.periods else \
                    f'The table has no column {name}.{guess(name, self.names)}'
                yield Fault(24, name.offset, what)
            elif self.names.count(name) > 1:
                yield Fault(25, name.offset, f'The table has two columns {name}.')
        for period in self.own_periods:
            if period not in self.periods:
                yield Fault(24, period.offset, f'The table has no period {period}.'
                                               f'{guess(period, self.periods)}')
        for name in repeated(self.names + self.periods):
            yield Fault(26, name.offset, f'Two of the columns and periods go by the name {name}.')

    def faults_of_lists(self) -> Iterator[Fault]:
        """Of the table's own columns in keys and references."""
        for names in self.lists:
            yield from twice_in_list(names)
            for name in names:
                if name in self.system or name in self.names and name in self.bounds:
                    kind = 'system' if name in self.system else 'period'
                    yield Fault(27, name.offset, f'{name} is a {kind} column.')

    # 28, and its causes.

    def wrong(self, name: Name, why: str) -> Fault:
        return Fault(28, name.offset, why)

    def faults_of_numbers(self) -> Iterator[Fault]:
        """There has to be one of each."""
        create = self.create
        generated = [column.generated for column in create.columns]
        start, end = self.system_columns()
        values = [name for name in self.names if name not in {*self.bounds, *self.system}]
        key = f'{(values + ["ENO"])[0]}, {(self.periods + ["EP"])[0]}'
        for count, what, element in (
                (len(create.periods), 'application-time period', 'PERIOD FOR EP (S, E)'),
                (len(create.systems), 'SYSTEM_TIME period',
                 f'PERIOD FOR SYSTEM_TIME ({start}, {end})'),
                (generated.count('START'), 'ROW START column',
                 f'{start} TIMESTAMP GENERATED ALWAYS AS ROW START'),
                (generated.count('END'), 'ROW END column',
                 f'{end} TIMESTAMP GENERATED ALWAYS AS ROW END'),
                (len(create.keys), 'PRIMARY KEY', f'PRIMARY KEY ({key} WITHOUT OVERLAPS)')):
            if count == 0:
                yield self.wrong(create.name, f'The table has no {what}: add {element}.')
            elif count > 1:
                yield self.wrong(create.name, f'The table has {count} {what}s, and one has to be.')

    def system_columns(self) -> tuple[str, str]:
        """The names of the ROW START and the ROW END column, or what they might be."""
        found = {column.generated: column.name for column in self.create.columns}
        return found.get('START', 'SS'), found.get('END', 'SE')

    def faults_of_types(self) -> Iterator[Fault]:
        for column in self.create.columns:
            kind, number = type_of(column), column.number or 0
            is_moment = kind == 'TIMESTAMP'
            for is_wrong, what in (
                    (is_moment and not column.generated, 'a TIMESTAMP and not generated. Only the'
                                                         ' two system columns are TIMESTAMPs'),
                    (column.generated and not is_moment,
                     f'generated and {kind}: a system column is a TIMESTAMP'),
                    (column.kind == 'VARCHAR' and not 1 <= number <= MOST_CODE_POINTS,
                     f'{kind}: n is from 1 to {MOST_CODE_POINTS}'),
                    (is_moment and number > MOST_PRECISION,
                     f'TIMESTAMP({number}): p is from 0 to {MOST_PRECISION}')):
                if is_wrong:
                    yield self.wrong(column.name, f'{column.name} is {what}.')

    def faults_of_periods(self) -> Iterator[Fault]:
        for period in self.create.periods:
            if period.start == period.end:
                yield self.wrong(period.start, f'{period.name} has one column twice.')
            for name in (period.start, period.end):
                if self.kinds.get(name, 'DATE') != 'DATE' or name in self.system:
                    yield self.wrong(name, f'{name} is a column of the period {period.name} and no'
                                           ' plain DATE column.')
        for period in self.create.systems:
            for name, word in ((period.start, 'START'), (period.end, 'END')):
                if self.generated.get(name, word) != word:
                    both = ', '.join(self.system_columns())
                    yield self.wrong(name, f'{name} is not the ROW {word} column: write PERIOD FOR'
                                           f' SYSTEM_TIME ({both}).')
        for name in self.own_periods:
            if self.periods and name != self.periods[0]:
                yield self.wrong(name, f'{name} is not the application-time period.')

    # References.

    def faults_of_reference(self, reference: Reference) -> Iterator[Fault]:
        parent = self.catalog.tables.get(reference.table)
        if parent is None:
            yield unknown_table(reference.table, self.catalog)
            return
        for name in reference.table_columns:
            if name not in parent.by_name:
                yield Fault(24, name.offset, f'{parent.name} has no column {name}.'
                                             f'{guess(name, parent.by_name)}')
        yield from twice_in_list(reference.table_columns)
        if sorted(reference.table_columns) != sorted(parent.key):
            yield self.wrong(reference.table, f'The key of {parent.name} is {listed(parent.key)}: a'
                                              ' reference names these columns.')
        if reference.table_period != parent.period.name:
            yield no_period(reference.table_period, parent)
        if len(reference.columns) != len(reference.table_columns):
            yield Fault(29, reference.table.offset,
                        f'The reference pairs {len(reference.columns)} columns with'
                        f' {len(reference.table_columns)}.')
        yield from self.faults_of_pairs(reference, parent)

    def faults_of_pairs(self, reference: Reference, parent: Table) -> Iterator[Fault]:
        for own, other in zip(reference.columns, reference.table_columns):
            if own in self.kinds and other in parent.by_name:
                kind, other_kind = self.kinds[own], parent.by_name[other].kind
                if kind != other_kind:
                    yield Fault(30, own.offset, f'{own} is {kind}, and {other} of {parent.name} is'
                                                f' {other_kind}.')
