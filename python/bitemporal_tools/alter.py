"""Makes a new store of a store, with other tables and the same history.

    tools/alter STORE --to NEW.store CHANGE .. | --clock-now

For instance

    tools/alter pay.store --to new.store --add PAY.BONUS INTEGER 0 --widen EMP.NAME=60
    tools/alter pay.store --to new.store --drop-reference PAY.ENO=EMP.ENO --rename PAY.ENO=PERSON

A script of changes has these statements, the first six as in the standard:

    ALTER TABLE name ADD [COLUMN] column type DEFAULT literal [NOT NULL]
    ALTER TABLE name DROP [COLUMN] column [RESTRICT]
    ALTER TABLE name ALTER [COLUMN] column SET DATA TYPE VARCHAR(n)
    ALTER TABLE name ADD PRIMARY KEY (column, .., period WITHOUT OVERLAPS)
    ALTER TABLE name ADD FOREIGN KEY (column, .., PERIOD period)
      REFERENCES name (column, .., PERIOD period)
    DROP TABLE name [RESTRICT | CASCADE]
    ALTER TABLE name DROP FOREIGN KEY (column, .., PERIOD period) REFERENCES name
    ALTER TABLE name RENAME [COLUMN] column TO name
    ALTER TABLE name RENAME TO name

ADD PRIMARY KEY puts a key in the place of the one that exists.

The changes are made one after the other. STORE is never written. Tables, views and columns that
other programs have in its file are not taken over. The new store is opened by the
program, which judges it: if it refuses it, the cause is reported, the status is 1 and there is no
NEW.store. A run that is killed leaves none either; a file NEW.store.*.part may stay then, and can
be removed. Two versions that a change makes equal on other days or moments stay two.

--clock-now moves each moment that is after the time of this machine, the clock and those of
versions, to the last microseconds up to that time, in their order, and says which became which. If
there is none, that is said, and no store is made.

The exit status is 0; 1 if the program refuses the new store; and 2 if a change can't be made
of its tables, a file can't be read or written, or NEW.store exists already.
"""
import argparse
import difflib
from collections.abc import Iterator, Sequence

from bitemporal_tools import command_line, options
from bitemporal_tools.alteration import clock
from bitemporal_tools.alteration.changes import Change
from bitemporal_tools.alteration.schema import Altered, Schema, converted
from bitemporal_tools.alteration.words import add_options
from bitemporal_tools.command_line import Fault, counted, write_output
from bitemporal_tools.stores import reading, writing
from bitemporal_tools.stores.reading import Store
from bitemporal_tools.stores.tables import create_tables


def versions(store: Store, tables: Sequence[Altered],
             moves: dict[int, int]) -> Iterator[writing.Numbered]:
    """All versions of the new store, by the new numbers of their tables."""
    for number, altered in enumerate(tables, 1):
        for version in converted(altered, store.versions(altered.number)):
            yield number, version if not moves else version._replace(
                since=moves.get(version.since, version.since),
                until=moves.get(version.until, version.until))


def told(store: Store, tables: Sequence[Altered]) -> str:
    """The difference between the tables before and after, and what becomes of the versions."""
    before = create_tables(store.tables).splitlines()
    after = create_tables([altered.table for altered in tables]).splitlines()
    lines = list(difflib.unified_diff(before, after, 'before', 'after', lineterm='', n=1))
    counts = store.counts()
    for altered in tables:
        values = 'the same values' if altered.is_as_it_was else 'other values'
        lines.append(f'{altered.table.name}: {counted(counts[altered.number - 1], "version")} with'
                     f' {values}')
    for number in sorted(set(range(1, len(counts) + 1)) - {one.number for one in tables}):
        lines.append(f'{store.tables[number - 1].name} goes, with'
                     f' {counted(counts[number - 1], "version")}')
    return ''.join(f'{line}\n' for line in lines)


def alter(store: Store, changes: Sequence[Change], new: str,
          moves: dict[int, int]) -> list[Altered]:
    """Makes the new store, where moments become others, and gives its tables."""
    schema = Schema(store.tables)
    for change in changes:
        change(schema)
    tables = schema.tables()
    writing.make(new, store.path, moves.get(store.clock, store.clock),
                 [altered.table for altered in tables], versions(store, tables, moves))
    return tables


def parsed(arguments: Sequence[str]) -> argparse.Namespace:
    parser = command_line.parser('alter', __doc__, 'STORE --to NEW.store CHANGE ..')
    options.add(parser, {'STORE': '', '--to NEW.store': 'the store that is made'})
    add_options(parser)
    options.add(parser, {'--clock-now': 'move moments after the time of this machine up to it',
                         '--dry-run': 'tell what would change, and leave no store'})
    wanted = parser.parse_args(arguments)
    if wanted.clock_now == bool(wanted.changes):
        raise Fault('--clock-now makes no other change' if wanted.clock_now else
                    'no change is named; --help lists them')
    return wanted


def main(arguments: Sequence[str]) -> int:
    wanted = parsed(arguments)
    with writing.place(wanted) as new, reading.opened(wanted.store) as store:
        moves = clock.moves_of(store) if wanted.clock_now else {}
        if wanted.clock_now and not moves:
            write_output(f'{wanted.store} has no moment after the time of this machine\n')
            return 0
        tables, counts = alter(store, wanted.changes, new, moves), store.counts()
        if wanted.dry_run:
            write_output(clock.told(moves) + told(store, tables))
            return 0
        count = sum(counts[altered.number - 1] for altered in tables)
        write_output(f'{clock.told(moves)}{wanted.to}: {counted(len(tables), "table")},'
                     f' {counted(count, "version")}\n', wanted.to)
    return 0
