"""Makes a script of a CSV file: CREATE TABLE, AT, INSERT, and changes of portions.

    tools/load --guess FILE.csv > table.sql
    tools/load FILE.csv --table table.sql [OPTIONS] > load.sql
    tools/load FILE.csv --store pay.store [OPTIONS] > night.sql

--guess prints a CREATE TABLE with the columns, the types, the period and the key that the header
and the values suggest, and the command that loads the file into it. Read it, and edit what is
wrong. table.sql may have several CREATE TABLEs; then --name says which one is loaded. Its text is
the head of the script.

Columns go by their names. A header is a name in upper case, with `_` for what a name can't have and
after a reserved word: `from` is FROM_. --column from=S says another column of the table. A column
of the file that the table does not have is an error, unless --ignore names it.

Without --recorded the rows are all known at once, and no two of one key may hold on one day. With
--recorded COLUMN they are sorted by that column's moment, and each moment gets an AT. A later row
then corrects the earlier ones of its key: on its days its values hold, on other days nothing
changes. With --record COLUMNS a later row replaces the whole earlier row that has the same cells in
these columns, days and all: for exports if each line is a new state of a numbered record. With
--recorded-to COLUMN the file is an export of a history: a row is recorded from the one moment to
the other, which is empty or in the year 9999 if the row is current.

With --store STORE the script has only what brings the store from what it holds to what the file
says. So the file may have the lines of all nights or of the last one alone; loaded again it adds
nothing. With --record it has to have all lines of its records. Lines that were recorded before the
clock of the store, and that it lacks, are late: they are reported and nothing is written, or with
--late now recorded at the clock. With --complete the file, which has no moments, has all rows of
the table: what else the store has is deleted. The table is one of the store, or the one of
--table on the first night, when the store does not exist yet.

--merge SCRIPT adds the file to a script that was made of another one: the moments of both are put
into one order. So tables that refer to each other get their rows in the order of their recording.
Without --table the table is one that SCRIPT makes.

Nothing is written if a line is bad. Each bad line is reported with file, line and column. A file
that is more than a script of 4,194,304 bytes becomes several, NAME-1.sql and so on, by --output.
Those of NAME.sql that an earlier load left are removed.

The exit status is 0; 1 if a line is bad or late; 2 if the command line or a file is wrong.
"""
from __future__ import annotations

import argparse
import gc
import itertools
import os
import sys
from collections.abc import Iterable, Iterator, Sequence
from typing import TYPE_CHECKING

from bitemporal_tools import command_line
from bitemporal_tools.command_line import Fault, counted
from bitemporal_tools.loading import script_writer
from bitemporal_tools.loading.cells import unit
from bitemporal_tools.loading.moment_changes import MomentChanges, moment_of_fact
from bitemporal_tools.loading.clashes import Clashes, ends_a_day_early, handovers_told
from bitemporal_tools.loading.corrections import Fact
from bitemporal_tools.loading.csv_file import BadLine, CsvFile
from bitemporal_tools.loading.fact_columns import FactColumns, column, in_columns
from bitemporal_tools.loading.mapping import Mapping
from bitemporal_tools.loading.options import options
from bitemporal_tools.loading.tables import Groups, has_rows, script_groups, table_of
from bitemporal_tools.sql.literals import FIRST_MOMENT, FOREVER, moment_of
if TYPE_CHECKING:  # a load without a store starts in half of the time if this is not read
    from bitemporal_tools.loading.stored_rows import LoadedStore, StoredTable


def flattened(groups: Groups) -> Iterator[str]:
    """The statements of the groups in turn, with an AT if the moment is another."""
    clock = ''
    for moment, statements in groups:
        if moment != clock:
            yield f"AT TIMESTAMP '{moment}'"
        clock = moment
        yield from statements


def without_equals(facts: Sequence[Fact]) -> list[Fact]:
    """The facts, each once."""
    return list({(fact.key, fact.values, fact.start, fact.end): fact
                 for fact in reversed(facts)}.values())[::-1]


def write(texts: list[str], wanted: argparse.Namespace) -> list[str]:
    """Writes the scripts, or prints the only one, and removes those of an earlier load that had
    more of them. Gives what it removed."""
    if wanted.output is None:
        if len(texts) > 1:
            raise Fault(f'this is more than one script of 4,194,304 bytes ({len(texts)}): name a'
                        ' file by --output')
        command_line.write_output(texts[0])
        return []
    folder, name = os.path.split(wanted.output)
    stem, ending = os.path.splitext(name)
    numbered = (f'{stem}-{number}{ending or ".sql"}' for number in itertools.count(1))
    names = [name] if len(texts) == 1 else list(itertools.islice(numbered, len(texts)))
    command_line.write_files(folder or '.', dict(zip(names, texts)))
    others = itertools.takewhile(os.path.exists, (os.path.join(folder, it) for it in numbered))
    old = [wanted.output] * (len(texts) > 1 and os.path.isfile(wanted.output)) + list(others)
    for path in old:
        os.unlink(path)
    return old


def tell(sentences: Iterable[str]) -> None:
    for sentence in sentences:
        print(f'load: {sentence}', file=sys.stderr)


def tell_bad(file: CsvFile) -> int:
    """Reports the bad lines, and gives the exit status."""
    for line in file.told():
        print(line, file=sys.stderr)
    if file.bad:
        tell([f'{counted(len(file.bad), "bad line")}, and nothing is written'])
    return 1 if file.bad else 0


class Load:
    """A file on its way into a table."""

    def __init__(self, wanted: argparse.Namespace, file: CsvFile,
                 store: LoadedStore | None) -> None:
        self.wanted, self.file, self.store = wanted, file, store
        self.clock = store.clock if store else FIRST_MOMENT
        if wanted.at and wanted.at < self.clock:
            raise Fault(f'--at {wanted.at} is before the clock of the store, {self.clock}')
        self.of_store = store.definitions if store else ''
        self.table, self.head = table_of(wanted, self.of_store)
        self.mapping = Mapping(self.table, file, wanted)
        self.clash = Clashes(file, wanted)
        self.changes = MomentChanges(self.table, bool(wanted.record), self.clash)
        self.has_late = False

    def groups(self) -> Groups:
        """The statements of all moments. Sets the number of rows that are loaded, their days by
        their keys, and how to get the rows that the table then has."""
        if self.wanted.complete and not self.file.lines:
            raise Fault(f'--complete: {self.file.path} has no rows, and all of the store would go',
                        status=1)
        columns = self.mapping.columns()
        stored = self.store.table(self.table) if self.store else None
        has_twice = columns.share_a_key()
        if self.are_new(columns, stored, has_twice):
            self.count, self.held = len(columns.lines), columns.first
            self.days = columns.days() if has_twice else None
            return self.changes.groups_of_new(columns, self.wanted.at or '')
        facts = self.mapping.facts(columns)
        if self.wanted.always and not self.wanted.recorded:
            facts = without_equals(facts)
        if self.wanted.recorded:
            facts.sort(key=moment_of_fact)  # and by their lines
        groups = self.groups_of(facts, stored)
        self.count = len(set(column(facts, 0)))
        self.days = (column(facts, 2), column(facts, 4), column(facts, 5)) if has_twice else None
        held = self.changes.days.facts
        self.held = lambda most: in_columns(self.table, list(itertools.islice(
            itertools.chain.from_iterable(held.values()), most)))
        return groups

    def are_new(self, rows: FactColumns, stored: StoredTable | None, has_twice: bool) -> bool:
        """Whether each line of the file is a new row of the table, and none is bad or late. Of a
        key may be several lines if `has_twice`."""
        if not rows.lines or self.file.bad or self.mapping.takes_away \
                or has_twice and rows.share_a_day():
            return False
        if self.store and self.wanted.recorded and min(rows.moments) < self.clock:
            return False
        return stored is None or not (self.wanted.complete or stored.has_any(rows))

    def groups_of(self, facts: list[Fact], stored: StoredTable | None) -> Groups:
        """The statements of the moments of facts. Lines that are late are reported to the file."""
        at = self.wanted.at or ''
        if not self.store:
            return self.changes.groups(facts, at)
        if self.wanted.complete and stored:
            statements = self.changes.statements(self.changes.completed(facts, stored))
            return [(at, statements)] if statements else []
        lacking, later = self.changes.catch_up(facts, stored, self.clock)
        late = {fact.line for of_key in lacking.values() for fact in of_key
                if fact.moment < self.clock and self.wanted.late != 'now'}
        self.has_late = bool(late)
        self.file.bad += [BadLine(line, self.mapping.recorded, 'late: before the clock'
                                  f' {self.clock} of the store') for line in sorted(late)]
        statements = self.changes.statements(lacking)
        groups = [(self.clock, statements)] if statements else []
        return groups + self.changes.groups(later, at)

    def hints(self) -> Iterator[str]:
        """Sentences on what bad lines may mean."""
        if self.clash.are_some:
            yield self.clash.hint()
        if self.has_late:
            yield 'the store lacks what late lines say: --late now records that at its clock'

    def notes(self, groups: Groups) -> Iterator[str]:
        """Sentences on a file that is loaded."""
        wanted, table = self.wanted, self.table
        for name, scale in self.mapping.scales.items():
            if scale:
                yield f'{name} is {unit(scale)}'
        early = 0 if wanted.inclusive_to or not self.days else ends_a_day_early(self.days)
        if early:
            yield f'{counted(early, "row")} of the file would end on the day before one of their' \
                  ' key begins. If the end is the last day, add --inclusive-to'
        yield from handovers_told(self.held, wanted)
        if wanted.merge and has_rows(self.of_store, wanted.merge, table):
            yield f'{wanted.merge} has rows of {table.name}, of which nothing is known here:' \
                  ' lines that correct them are refused as the script runs. Load all lines of a' \
                  ' table from one file'
        if self.store and any(not moment for moment, _ in groups):
            yield f'the changes have no moment, and are recorded at that of the store,' \
                  f' {self.clock}: --at says another'
        if wanted.store and not self.store:
            yield f'{wanted.store} is not there yet, and the script makes its first tables'


def load(job: Load) -> int:
    """Loads a file, and gives the exit status."""
    wanted, file, groups = job.wanted, job.file, job.groups()
    if file.bad:
        status = tell_bad(file)
        tell(job.hints())
        return status
    own, head = groups, '' if wanted.rows_only else job.head
    if wanted.merge:
        others, *later = script_groups(job.of_store, wanted.merge)
        head = ''.join(f'{text};\n' for text in others[1]) + head
        groups = sorted(later + groups, key=lambda group: group[0])
    statements = list(flattened(groups))
    texts = list(script_writer.scripts(head, statements))
    old = write(texts, wanted)
    tell([f'{counted(job.count, "row")}, {counted(len(statements), "statement")} after the head,'
          f' {counted(len(texts), "script")}', *(f'{path} of an earlier load is removed'
                                                 for path in old), *job.notes(own)])
    return 0


def judge_options(wanted: argparse.Namespace) -> None:
    for option in ('delimiter', 'decimal'):
        if len(getattr(wanted, option)) != 1:
            raise Fault(f'--{option}: write one sign')
    if wanted.at:
        moment = moment_of(wanted.at)
        if wanted.recorded or moment in (None, FOREVER):
            raise Fault("--at: write one moment 'YYYY-MM-DD HH:MM:SS', and no --recorded")
        wanted.at = moment
    if wanted.late and not (wanted.store and wanted.recorded):
        raise Fault('--late is about --store STORE and --recorded COLUMN')
    if wanted.recorded_to and (wanted.record or not wanted.recorded):
        raise Fault('--recorded-to COLUMN is about --recorded COLUMN, and not about --record')
    if wanted.complete and (wanted.recorded or not wanted.store):
        raise Fault('--complete is about --store STORE, and a file without --recorded')
    if not (wanted.guess or wanted.table or wanted.merge or os.path.exists(wanted.store or '')):
        store = f'{wanted.store} is not there yet, and ' if wanted.store else ''
        raise Fault(f'{store}--table is missing: the script that makes the table (--guess prints a'
                    ' first guess of one)')


def main(words: Sequence[str]) -> int:
    gc.disable()  # nothing here is in a circle, and to look for it takes a third of the time
    wanted = options(words, __doc__ or '')
    judge_options(wanted)
    file = CsvFile(wanted.file, wanted.delimiter, wanted.encoding)
    if wanted.guess:
        from bitemporal_tools.loading.guess import Guess
        if file.bad:
            return tell_bad(file)
        command_line.write_output(Guess(file, wanted).text())
        return 0
    if not os.path.exists(wanted.store or ''):
        status = load(Load(wanted, file, None))
    else:
        from bitemporal_tools.loading.stored_rows import LoadedStore
        from bitemporal_tools.stores import reading
        with reading.opened(wanted.store) as store:
            status = load(Load(wanted, file, LoadedStore(store)))
    command_line.leave(status)
