"""The history of a store as a script, which makes the same rows as of each moment and each day.

At each moment the rows of a key change by INSERT, UPDATE and DELETE of portions. First days become
held, in each table before those that refer to it; then values change; then days go, in each table
after those that refer to it. So a row has its parents after each statement, if it has them after
all of them. If this would cut days otherwise than the store does, and no table refers to the
rows, they are deleted and inserted as they are to be.
"""
import bisect
import itertools
import pathlib
from collections.abc import Iterator
from typing import BinaryIO, NamedTuple, Optional

from bitemporal_tools.command_line import Fault, counted
from bitemporal_tools.days.stretches import stretches
from bitemporal_tools.sql.literals import literal
from bitemporal_tools.stores import asking, reading
from bitemporal_tools.stores.changes_text import Inserts, conditions
from bitemporal_tools.stores.comparing import differing_versions
from bitemporal_tools.stores.reading import Store, Version
from bitemporal_tools.stores.spelling import (FIRST_MOMENT, FOREVER, day_literal, moment_text,
                                              parts_of, value_of)
from bitemporal_tools.stores.states import Changes, KeyChange, Segment, moments, segments
from bitemporal_tools.stores.tables import Table, create_table

ROWS_OF_AN_INSERT = 500


class Portion(NamedTuple):
    """Days of a row, which are deleted; or get the values of `after`, which has the key's too."""
    row: Version
    start: int
    end: int
    after: Optional[bytes]


class Plan(NamedTuple):
    """The changes of a key at a moment: rows deleted before all else and inserted, days that
    become held, values that change, days that go."""
    replaced: list[Portion]
    inserted: list[Version]
    updated: list[Portion]
    deleted: list[Portion]


class Piece(NamedTuple):
    """Days and values; and whether they were changed at the moment."""
    start: int
    end: int
    values: bytes
    is_new: bool


def row_of(values: bytes, start: int, end: int) -> Version:
    return Version(values, start, end, 0, FOREVER)


def plain_plan(change: KeyChange) -> Plan:
    """The fewest statements: one for each stretch of days on which something differs."""
    plan = Plan([], [], [], [])
    if not change.ended:
        plan.inserted.extend(change.begun)
        return plan
    for segment in segments(change):
        add_segment(plan, segment)
    return plan


def add_segment(plan: Plan, segment: Segment) -> None:
    start, end, before, after = segment
    if len(before) > 1 or len(after) > 1:
        raise TwoRows
    if not before:
        plan.inserted.append(row_of(after[0], start, end))
    else:
        (plan.updated if after else plan.deleted).append(
            Portion(row_of(before[0], start, end), start, end, after[0] if after else None))


class TwoRows(Exception):
    """Two rows of one key hold on a day."""


def touching_plan(change: KeyChange) -> Plan:
    """Each row that begins is written, if days of it were held by an UPDATE before."""
    plan = Plan([], [], [], [])
    held = stretches((row.start, row.end) for row in change.ended)
    for segment in segments(change):
        if not segment.after or not segment.before:
            add_segment(plan, segment)
    for row in change.begun:
        for start, end in held:
            first, last = max(start, row.start), min(end, row.end)
            if first < last:
                plan.updated.append(Portion(row, first, last, row.values))
    return plan


def makes(plan: Plan, change: KeyChange) -> bool:
    """Whether a plan ends all the versions that end, and begins those that begin, day by day."""
    pieces = [Piece(row.start, row.end, row.values, False) for row in change.ended]
    pieces += [Piece(row.start, row.end, row.values, True) for row in plan.inserted]
    for portion in plan.updated + plan.deleted:
        pieces = [part for piece in pieces for part in after_portion(piece, portion)]
    return sorted(pieces) == sorted(Piece(row.start, row.end, row.values, True)
                                    for row in change.begun)


def after_portion(piece: Piece, portion: Portion) -> Iterator[Piece]:
    """The pieces that a change of a portion leaves of some days."""
    if piece.end <= portion.start or portion.end <= piece.start:
        yield piece
        return
    if piece.start < portion.start:
        yield Piece(piece.start, portion.start, piece.values, True)
    if portion.after is not None:
        yield Piece(max(piece.start, portion.start), min(piece.end, portion.end), portion.after,
                    True)
    if portion.end < piece.end:
        yield Piece(portion.end, piece.end, piece.values, True)


def plan_of(change: KeyChange, is_parent: bool) -> Plan:
    """The statements of a key at a moment."""
    plain = plain_plan(change)
    if not change.ended or makes(plain, change):
        return plain
    if not is_parent:
        return Plan([Portion(row, row.start, row.end, None) for row in change.ended], change.begun,
                    [], [])
    touching = touching_plan(change)
    return touching if makes(touching, change) else plain


class Writer:
    """Writes the statements of one table."""

    def __init__(self, table: Table, is_parent: bool) -> None:
        self.table, self.is_parent = table, is_parent
        self.inserts = Inserts(table, ROWS_OF_AN_INSERT)
        others = [name for name in table.value_names if name not in table.key]
        self.others = others or list(table.key[:1])

    def plans(self, changes: dict[bytes, KeyChange]) -> Plan:
        """The changes of all keys at a moment, as one plan."""
        plans = [plan_of(change, self.is_parent) for change in changes.values()]
        return Plan(*(list(itertools.chain.from_iterable(parts)) for parts in zip(*plans))) \
            if plans else Plan([], [], [], [])

    def portion(self, portion: Portion) -> str:
        """The statement of a portion: a DELETE, or an UPDATE of what differs."""
        days = (f'{self.table.name} FOR PORTION OF {self.table.period} FROM'
                f' {day_literal(portion.start)} TO {day_literal(portion.end)}\n')
        where = f' WHERE {conditions(self.table, self.table.key, portion.row)};\n'
        if portion.after is None:
            return f'DELETE FROM {days}{where}'
        after, before = parts_of(portion.after), parts_of(portion.row.values)
        shown = ', '.join(f'{name} = {literal(value_of(after[place]))}' for name, place in
                          zip(self.others, self.table.places(self.others))
                          if after == before or after[place] != before[place])
        return f'UPDATE {days} SET {shown}{where}'


class Script:
    """The statements of a history, in turn; and the moment of each that is not one of the first
    tables."""

    def __init__(self, store: Store) -> None:
        self.store, self.count = store, 0
        self.firsts: list[tuple[int, int]] = []
        parents = {one.parent for table in store.tables for one in table.references}
        self.writers = [Writer(table, table.name in parents) for table in store.tables]

    def statements(self) -> Iterator[str]:
        for self.count, statement in enumerate(self.in_turn(), 1):
            yield statement

    def in_turn(self) -> Iterator[str]:
        clock = FIRST_MOMENT
        for table in self.store.tables:
            yield create_table(table, self.store.tables)
        for moment, changes in moments(self.store, range(1, len(self.store.tables) + 1)):
            self.firsts.append((self.count, moment))
            if moment > clock:
                yield at(moment)
            clock = moment
            yield from self.changes(moment, changes)
        if self.store.clock > clock:
            yield at(self.store.clock)

    def changes(self, moment: int, changes: Changes) -> Iterator[str]:
        try:
            plans = [(writer, writer.plans(changes[number]))
                     for number, writer in enumerate(self.writers, 1)]
        except TwoRows:
            raise Fault(f'no statements make what is recorded at {moment_text(moment)}: two rows of'
                        ' one key hold on a day', 1) from None
        for writer, plan in plans:
            yield from map(writer.portion, plan.replaced)
        for writer, plan in plans:
            yield from map(writer.inserts.statement, writer.inserts.batches(plan.inserted))
        for writer, plan in plans:
            yield from map(writer.portion, plan.updated)
        for writer, plan in reversed(plans):
            yield from map(writer.portion, plan.deleted)

    def moment_of(self, number: int) -> str:
        """The moment of the statement of a number, from 1."""
        place = bisect.bisect_right(self.firsts, (number - 1, FOREVER)) - 1
        return moment_text(self.firsts[place][1]) if place >= 0 else moment_text(FIRST_MOMENT)


def at(moment: int) -> str:
    return f"AT TIMESTAMP '{moment_text(moment)}';\n"


def write_checked(store: Store, file: BinaryIO) -> str:
    """Writes the script of a store's history, has the program run it over an empty store, and says
    in a sentence what this then has."""
    script = Script(store)
    for statement in script.statements():
        file.write(statement.encode('utf-8'))
    file.seek(0)
    with asking.scratch(store.size) as folder:
        made = str(pathlib.Path(folder, 'store'))
        for record in asking.report_of_file(file, made):
            if record[0] == 'refused':
                raise Fault(f'no statements make what is recorded at'
                            f' {script.moment_of(int(record[1]))}: statement {record[1]} would be'
                            f' refused by {" ".join(record[2:]).strip()}', 1)
        with reading.opened(made) as other:
            count = differing_versions(store, other)
    if not count:
        return 'the script makes the very versions of the store'
    return ('the script makes the same rows of each day as of each moment, and cuts their days'
            f' otherwise: {counted(count, "version")} in one store and not in the other')
