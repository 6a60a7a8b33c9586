"""The columns of a table among those of a CSV file, and the file's records as facts.

A column of the file becomes the column of its own name, as `name_of` makes it, or to the one that a
pair HEADER=COLUMN says. Cells are read column by column, and each spelling once.
"""
from __future__ import annotations

import argparse
import datetime
import functools
import itertools
import operator
import re
import shlex
import unicodedata
from collections.abc import Callable, Iterable, Sequence
from typing import Optional, TypeVar

from bitemporal_tools.command_line import Fault, pairs
from bitemporal_tools.loading import cells
from bitemporal_tools.loading.corrections import Fact, Value
from bitemporal_tools.loading.csv_file import BadLine, CsvFile
from bitemporal_tools.loading.fact_columns import FactColumns
from bitemporal_tools.sql.catalog import Table
from bitemporal_tools.sql.lexis import RESERVED
from bitemporal_tools.sql.tree import Column, Name

FIRST_DAY, LAST_DAY = datetime.date.min, cells.LAST_DAY
# The days of rows in files of tools/answers, which --always doesn't read.
DAYS_OF_ANSWERS = ('valid_from', 'valid_to', 'last_day')
# Open ends of system time begin so: in most databases, and the last moments of MariaDB's.
OPEN_ENDS = ('9999-', '2038-01-19 03:14:07', '2106-02-07 06:28:15')
Read = TypeVar('Read')


def name_of(header: str) -> str:
    """A header as a name of the language: upper case, accents left off, `_` for what a name cannot
    have, and `_` after a reserved word."""
    plain = unicodedata.normalize('NFKD', header.strip()).encode('ascii', 'ignore').decode('ascii')
    name = re.sub('[^A-Za-z0-9_]+', '_', plain).upper().strip('_') or 'COLUMN'
    if name[0].isdigit():
        name = '_' + name
    return name + '_' if name in RESERVED else name


def names_of(headers: Iterable[str]) -> list[str]:
    """The names of all headers; a name that exists already gets a number."""
    names: list[str] = []
    for header in headers:
        name, number = name_of(header), 2
        while name in names:
            name, number = f'{name_of(header).rstrip("_")}_{number}', number + 1
        names.append(name)
    return names


class Mapping:
    """The way from the records of a file to facts of a table. `options` are tools/load's."""

    def __init__(self, table: Table, file: CsvFile, options: argparse.Namespace) -> None:
        self.table, self.file, self.options = table, file, options
        self.names = self.renamed(pairs(options.column, '--column'))
        self.empty = pairs(options.empty, '--empty')
        self.dates = cells.date_pattern(options.dates)
        self.scales = self.read_scales()
        self.removed = self.read_removed()
        self.places = {column.name: self.place_of(column) for column in table.given}
        self.recorded = self.named(options.recorded, '--recorded') if options.recorded else None
        self.recorded_to = self.named(options.recorded_to, '--recorded-to') \
            if options.recorded_to else None
        self.record = [self.named(name, '--record')
                       for name in filter(None, (options.record or '').split(','))]
        self.open = self.open_end()
        self.written: dict[str, Sequence[str]] = {}
        self.judge_unused()

    def renamed(self, given: dict[str, str]) -> list[str]:
        """The names of the file's columns, with those that pairs give."""
        names = names_of(self.file.header)
        for header, column in given.items():
            found = [place for place, name in enumerate(self.file.header)
                     if header in (name.upper(), name_of(name))]
            if len(found) != 1:
                raise Fault(f'--column {header}: the file has {len(found)} such columns')
            names[found[0]] = column.strip().upper()
        return names

    def named(self, name: str, option: str) -> int:
        """The place of a column of the file, by its header or its name."""
        for place, header in enumerate(self.file.header):
            if name.strip().upper() in (header.upper(), self.names[place]):
                return place
        raise Fault(f'{option} {name}: the file has no such column'
                    f' (it has {", ".join(self.file.header)})')

    def place_of(self, column: Column) -> Optional[int]:
        """The place of the column of the file for a column of the table, or None if its cells need
        none."""
        if self.names.count(column.name) == 1:
            return self.names.index(column.name)
        period = self.table.period
        is_day = column.name in (period.start, period.end)
        if column.name in self.empty or (is_day and self.options.always) or \
                (column.name == period.end and self.options.open):
            return None
        raise Fault(f'the file has no column for {column.name} of {self.table.name} (it has'
                    f' {", ".join(self.names)}): name it by --column HEADER={column.name}')

    def read_scales(self) -> dict[str, int]:
        """The scale of each INTEGER column: those that are named, and for a number alone those
        whose cells have a fraction."""
        scales: dict[str, int] = {}
        numbers = [column.name for column in self.table.values if column.kind == 'INTEGER']
        for text in self.options.scale:
            name, _, digits = text.rpartition('=')
            if not re.fullmatch('[0-9]|1[0-8]', digits):
                raise Fault(f'--scale {text}: write COLUMN=DIGITS or DIGITS, 0 to 18')
            found = [name.strip().upper()] if name else self.with_fraction(numbers)
            if not found or not set(found) <= set(numbers):
                raise Fault(f'--scale {text}: the table has no such INTEGER column' if name else
                            f'--scale {text}: no number of the file has a fraction; name the'
                            f' columns, such as --scale PAY={digits}')
            scales.update((column, int(digits)) for column in found)
        return scales

    def with_fraction(self, names: Iterable[str]) -> list[str]:
        places = [(name, self.names.index(name)) for name in names if name in self.names]
        return [name for name, place in places
                if any(self.options.decimal in cell for cell in self.file.columns[place])]

    def read_removed(self) -> Optional[tuple[int, str]]:
        if not self.options.removed:
            return None
        [(name, value)] = pairs([self.options.removed], '--removed').items()
        return self.named(name, '--removed'), value

    def open_end(self) -> Optional[datetime.date]:
        pattern = cells.date_pattern(cells.ISO)
        try:
            return cells.date(self.options.open, pattern) if self.options.open else None
        except ValueError as error:
            raise Fault(f'--open: {error}') from None

    def unused(self) -> list[str]:
        """The headers of columns that nothing reads."""
        used = {*self.places.values(), self.recorded, self.recorded_to, *self.record,
                self.removed and self.removed[0]}
        return [header for place, header in enumerate(self.file.header) if place not in used]

    def judge_unused(self) -> None:
        """A column that nothing reads has to be one that --ignore names, and the other way round.
        Such a column may say that a row has ended."""
        unused = [header for header in self.unused()
                  if not (self.options.always and header in DAYS_OF_ANSWERS)]
        ignored = [self.file.header[self.named(name, '--ignore')] for name in self.options.ignore]
        read = [header for header in ignored if header not in unused]
        if read:
            raise Fault(f'--ignore {read[0]}: this column is read')
        left = [header for header in unused if header not in ignored]
        if left:
            names = ' '.join(f'--ignore {shlex.quote(header)}' for header in left)
            raise Fault(f'{self.table.name} has no column for {", ".join(left)} of the file. If'
                        f' rows mean the same without: {names}')

    # Records as facts.

    def columns(self) -> FactColumns:
        """The sayings of all records, column by column. A bad cell is reported to the file, and
        None."""
        values = {str(column.name): self.values(column, self.removed_lines)
                  for column in self.table.values}
        period = self.table.period
        starts = self.days(period.start, FIRST_DAY, self.start)
        ends = self.days(period.end, LAST_DAY, self.end)
        self.judge_periods(starts, ends)
        moments = [''] * len(self.file.lines) if self.recorded is None else \
            self.moments(self.recorded)
        return FactColumns(self.table, self.file.lines, moments, values, starts, ends,
                           self.written)

    @property
    def takes_away(self) -> bool:
        """Whether a record may take days away."""
        return bool(self.record or self.removed_lines or self.recorded_to is not None)

    def facts(self, columns: FactColumns) -> list[Fact]:
        """The facts of all records that are not bad."""
        facts = columns.facts(zip(*(self.file.columns[place] for place in self.record))
                              if self.record else itertools.repeat(()))
        if self.recorded_to is not None:
            facts = self.with_ends(facts, self.moments(self.recorded_to))
        bad, removed = {line.line for line in self.file.bad}, self.removed_lines
        if not bad and not removed:
            return facts
        return [fact._replace(values=None) if fact.line in removed else fact
                for fact in facts if fact.line not in bad]

    def with_ends(self, facts: list[Fact], ends: Iterable[Optional[str]]) -> list[Fact]:
        """The facts, and before them what takes the days of each away as it ended."""
        found, seen = [], []
        for fact, until in zip(facts, ends):
            if until and fact.moment and until < fact.moment:
                self.file.bad.append(BadLine(fact.line, self.recorded_to,
                                             f'{until} is before {fact.moment}'))
            elif until:
                found.append(fact._replace(moment=until, values=None, is_end=True))
            if until != fact.moment:  # else it was never seen
                seen.append(fact)
        return found + seen

    @functools.cached_property
    def removed_lines(self) -> set[int]:
        """The lines that take days away."""
        if self.removed is None:
            return set()
        place, value = self.removed
        return {line for line, cell in zip(self.file.lines, self.file.columns[place])
                if cell.strip() == value}

    def column(self, name: str, place: Optional[int], read: Callable[[str], Read],
               unread: Iterable[int] = ()) -> Sequence[Optional[Read]]:
        """The value that `read` gives for each cell of a column; None for a bad cell, as is said
        but on lines that are not read. An empty cell is what --empty says."""
        texts = [''] * len(self.file.lines) if place is None else self.file.columns[place]
        default = self.empty.get(name, '')
        found: dict[str, Optional[Read]] = {}
        why: dict[str, str] = {}
        for text in set(texts):
            try:
                found[text] = read(text if text.strip() else default or text)
            except ValueError as error:
                found[text], why[text] = None, str(error)
        if why:
            self.file.bad += [BadLine(line, place, why[text])
                              for line, text in zip(self.file.lines, texts)
                              if text in why and line not in unread]
        if not why and all(not isinstance(value, str) and text == str(value)
                           for text, value in found.items()):
            self.written[name] = texts
        return list(map(found.__getitem__, texts))

    def values(self, column: Column, removed: Iterable[int]) -> Sequence[Optional[Value]]:
        """The values of a column of the table, or their texts if they are numbers that are as
        literals have them. A line that takes days away needs those of the key alone."""
        scale, decimal = self.scales.get(column.name, 0), self.options.decimal
        place = self.places[column.name]
        texts = None if place is None else self.file.columns[place]
        if column.kind == 'INTEGER' and texts and \
                cells.are_digits(texts, cells.MOST_DIGITS - scale):
            if scale or cells.begins_with_zero(texts):
                return [int(text) * 10 ** scale for text in texts]
            self.written[column.name] = texts
            return texts
        if column.kind == 'VARCHAR' and texts and column.name not in self.empty and \
                max(map(len, texts)) <= (column.number or 0):
            return texts

        def read(text: str) -> Value:
            if column.kind == 'VARCHAR':
                return cells.text(text, column.number or 0)
            if not text.strip():
                raise ValueError(f'empty: --empty {column.name}=VALUE says what that means')
            if column.kind == 'DATE':
                return self.date(text)
            return cells.whole_number(text, scale, decimal)

        values = self.column(column.name, place, read,
                             () if column.name in self.table.key else removed)
        return self.written.get(column.name, values) if column.kind == 'INTEGER' else values

    def later(self, day: datetime.date) -> datetime.date:
        try:
            return day + datetime.timedelta(self.options.days_later)
        except OverflowError:
            raise ValueError('its days are beyond 9999-12-31') from None

    def days(self, name: Name, always: datetime.date,
             read: Callable[[str], datetime.date]) -> Sequence[Optional[datetime.date]]:
        """The days of a column of the period; with --always one day for all."""
        return [always] * len(self.file.lines) if self.options.always else \
            self.column(name, self.places[name], read)

    def date(self, text: str) -> datetime.date:
        return cells.date(text, self.dates, self.options.dates)

    def start(self, text: str) -> datetime.date:
        if not text.strip():
            raise ValueError('empty')
        return self.later(self.date(text))

    def end(self, text: str) -> datetime.date:
        if text.strip():
            end = self.date(text)
            if self.options.inclusive_to and end < LAST_DAY:
                end += datetime.timedelta(1)
        elif self.open is None:
            raise ValueError('empty: with --open 9999-12-31 the row has no end')
        else:
            end = self.open
        return end if end == LAST_DAY else self.later(end)

    def judge_periods(self, starts: Sequence[Optional[datetime.date]],
                      ends: Sequence[Optional[datetime.date]]) -> None:
        if not self.file.bad and all(map(operator.lt, starts, ends)):  # type: ignore[arg-type]
            return
        place = self.places[self.table.period.end]
        more = '' if self.options.inclusive_to else \
            ': if that is the last day on which it holds, --inclusive-to says so'
        for line, start, end in zip(self.file.lines, starts, ends):
            if start and end and end <= start:
                self.file.bad.append(BadLine(line, place,
                                             f'the period from {start} ends on {end}{more}'))

    def moments(self, place: int) -> Sequence[Optional[str]]:
        """The moments of a column; of --recorded-to an empty text for an open end."""
        def read(text: str) -> str:
            if place == self.recorded_to and (not text.strip() or text.strip().replace(
                    'T', ' ').startswith(OPEN_ENDS)):
                return ''
            return cells.moment(text, self.dates, self.options.dates, self.options.whole_seconds)

        return self.column('', place, read)
