"""A first guess of a CREATE TABLE from a CSV file's header and values, for its owner to edit.

Guessed are the type of each column, the two columns of the period and whether its end is the last
day, the moment of recording, and the key: the fewest columns of which no two rows say something of
one day, as far as they are recorded at one moment; of rows that hold on all days all columns.
"""
from __future__ import annotations

import argparse
import datetime
import functools
import itertools
import os
import re
import shlex
from collections.abc import Callable, Iterable, Sequence
from typing import Any, Optional

from bitemporal_tools.command_line import Fault, counted
from bitemporal_tools.loading import cells
from bitemporal_tools.loading.csv_file import CsvFile
from bitemporal_tools.loading.handovers import MOST_TRIED, GroupedRows
from bitemporal_tools.loading.mapping import name_of, names_of

STARTS = frozenset('from start starts begin begins beginning since effective first'.split())
ENDS = frozenset('to end ends until till thru through expires expiry last'.split())
RECORDINGS = frozenset('recorded entered booked created changed updated modified timestamp'.split())
LENGTHS = (10, 20, 30, 40, 50, 100, 200, 500, 1000)
MOST_KEY_COLUMNS, MOST_ROWS_GROUPED = 3, 20_000
WHOLE = re.compile('[+-]?(0|[1-9][0-9]*)')


def all_are(reads: Callable[[str], Any], texts: Iterable[str]) -> bool:
    """Whether `reads` has a value for each text, and there is one."""
    try:
        return bool([reads(text) for text in set(texts)])
    except ValueError:
        return False


class Column:
    """A column of the file: its name, its kind and what is said of it."""

    def __init__(self, header: str, name: str, texts: Sequence[str],
                 wanted: argparse.Namespace) -> None:
        self.header, self.name, self.texts = header, name, texts
        self.filled = [text for text in texts if text.strip()]
        self.pattern, self.form = cells.date_pattern(wanted.dates), wanted.dates
        self.decimal, self.scale = wanted.decimal, 0
        self.kind, self.note = self.guessed()
        self.words = set(re.findall('[a-z]+', header.lower()))

    def guessed(self) -> tuple[str, str]:
        """The kind of the column, and what is said of it."""
        if all_are(self.day, self.filled):
            return 'DATE', ''
        if all_are(self.moment, self.filled):
            return 'moment', ''
        numbers = [text.strip().partition(self.decimal) for text in set(self.filled)]
        if numbers and all(WHOLE.fullmatch(whole) and (fraction.isdigit() or not point)
                           for whole, point, fraction in numbers):
            self.scale = max(len(fraction) for _, _, fraction in numbers)
            if all_are(lambda text: cells.whole_number(text, self.scale, self.decimal),
                       self.filled):
                return 'INTEGER', cells.unit(self.scale)
        longest = max(map(len, self.filled), default=0)
        length = next((length for length in LENGTHS if longest <= length), LENGTHS[-1])
        return f'VARCHAR({length})', f'at most {longest} characters'

    def day(self, text: str) -> datetime.date:
        return cells.date(text, self.pattern, self.form)

    def moment(self, text: str, is_whole: bool = True) -> str:
        return cells.moment(text, self.pattern, self.form, is_whole)

    @property
    def has_empty(self) -> bool:
        return len(self.filled) < len(self.texts)


class Guess:
    """The guess of a whole file."""

    def __init__(self, file: CsvFile, wanted: argparse.Namespace) -> None:
        self.file, self.wanted = file, wanted
        self.columns = [Column(header, name, file.columns[place], wanted) for place, (header, name)
                        in enumerate(zip(file.header, names_of(file.header)))]
        self.start, self.end = self.period()
        self.recorded = self.recording()
        self.ended = next((column for column in self.columns if self.recorded
                           and column.kind == 'moment' and column is not self.recorded
                           and column.words & ENDS), None)
        self.values = [column for column in self.columns
                       if column not in (self.start, self.end, self.recorded, self.ended)]
        for column in self.values:
            if column.kind == 'moment':
                column.kind = f'VARCHAR({LENGTHS[2]})'
        if not self.values:
            raise Fault(f'{file.path} has no column beside those of days and moments', 1)
        # The first day and the end of each row, as far as they exist.
        self.days = list(zip(self.days_of(self.start, datetime.date.min),
                             self.days_of(self.end, datetime.date.max)))
        self.key = self.find_key()
        self.is_inclusive = self.end is not None and self.ends_are_inclusive()

    def period(self) -> tuple[Optional[Column], Optional[Column]]:
        """The columns of the first day and of the end, or None."""
        days = [column for column in self.columns if column.kind == 'DATE' or not column.filled]
        days = [column for column in days if not column.words & RECORDINGS]
        start = next((column for column in days if column.words & STARTS), None)
        end = next((column for column in days if column is not start and column.words & ENDS), None)
        rest = [column for column in days if column not in (start, end) and column.filled]
        start = start or (rest.pop(0) if rest else None)
        return start, end or (rest.pop(0) if rest else None)

    def recording(self) -> Optional[Column]:
        """The column of the moment of recording, or None."""
        rest = [column for column in self.columns if column not in (self.start, self.end)
                and not column.has_empty and column.filled]
        moments = [column for column in rest if column.kind == 'moment']
        named = [column for column in rest if column.words & RECORDINGS
                 and column.kind in ('moment', 'DATE')]
        return next(iter(named + moments), None)

    def days_of(self, column: Optional[Column], default: datetime.date) -> list[datetime.date]:
        """The days of a column, and a default for each empty cell."""
        if column is None:
            return [default] * len(self.file.lines)
        found = {text: column.day(text) if text.strip() else default for text in set(column.texts)}
        return [found[text] for text in column.texts]

    def is_key(self, key: Sequence[Column]) -> bool:
        """Whether no two rows that are recorded at one moment have these cells on one day. A row
        that ended at its moment was never seen."""
        groups: dict[tuple[str, ...], list[tuple[datetime.date, datetime.date]]] = {}
        moments = self.recorded.texts if self.recorded else [''] * len(self.file.lines)
        ends = self.ended.texts if self.ended else [' '] * len(self.file.lines)
        for period, end, *cells_of_key in zip(self.days, ends, moments,
                                              *(column.texts for column in key)):
            if end != cells_of_key[0]:
                groups.setdefault(tuple(cells_of_key), []).append(period)
        for group in groups.values():
            group.sort()
        return all(one[1] <= other[0] for group in groups.values()
                   for one, other in zip(group, group[1:]))

    def find_key(self) -> list[Column]:
        if self.wanted.always:  # equal rows are one
            return self.values
        tried = [column for column in self.values if not column.has_empty and not column.scale]
        for count in range(1, MOST_KEY_COLUMNS + 1):
            for key in itertools.combinations(tried[:MOST_TRIED], count):
                if self.is_key(key):
                    return list(key)
        return []

    def ends_are_inclusive(self) -> bool:
        """Whether ends look like the last days of rows: by the rows of each key; else by rows of
        another group of columns in which rows follow each other, such as the managers of a
        department; else by the first days of months."""
        inclusive, exclusive = self.ends_of_the_key()
        if inclusive == exclusive:
            inclusive, exclusive = self.ends_of_a_group()
        if inclusive == exclusive:
            ends = [end for _, end in self.days if end < datetime.date.max]
            inclusive = sum((end + datetime.timedelta(1)).day == 1 for end in ends)
            exclusive = sum(end.day == 1 for end in ends)
        return inclusive > exclusive

    def ends_of_the_key(self) -> tuple[int, int]:
        """The number of rows that end on their first day, or on the day before one on which a row
        of their key begins; and of those that end on such a day itself."""
        keys = list(zip(*(column.texts for column in self.key))) or [()] * len(self.days)
        rows = [(key, *period) for key, period in zip(keys, self.days)]
        starts = {(key, start) for key, start, _ in rows}
        inclusive = exclusive = 0
        for key, start, end in rows:
            if end < datetime.date.max:
                if start == end or (key, end + datetime.timedelta(1)) in starts:
                    inclusive += 1
                elif (key, end) in starts:
                    exclusive += 1
        return inclusive, exclusive

    def ends_of_a_group(self) -> tuple[int, int]:
        """The two numbers by the group of columns in which the most rows follow each other."""
        most = MOST_ROWS_GROUPED
        rows = GroupedRows({column.name: column.texts[:most] for column in self.values
                            if not column.scale}, self.days[:most], range(most),
                           self.file.lines[:most])
        group = rows.best([column.name for column in self.key])
        if group is None:
            return 0, 0
        found = rows.handovers(group)
        return len(found.apart) if found.ends_are_last_days else 0, len(found.meet)

    # The text.

    def free(self, name: str) -> str:
        """The name, with `_` after it until no column has it."""
        while any(column.name == name for column in self.columns):
            name += '_'
        return name

    def command(self) -> str:
        """The options that load the file into the table."""
        words, recorded = [], self.recorded
        if recorded:
            words.append(f'--recorded {shlex.quote(recorded.header)}')
            if self.ended:
                words.append(f'--recorded-to {shlex.quote(self.ended.header)}')
            if not all_are(functools.partial(recorded.moment, is_whole=False), recorded.filled):
                words.append('--whole-seconds')
        for option in ('delimiter', 'dates', 'decimal', 'encoding'):
            value = getattr(self.wanted, option)
            if value not in (',', cells.ISO, '.', 'utf-8-sig'):
                words.append(f'--{option} {shlex.quote(value)}')
        words += [f'--scale {column.name}={column.scale}' for column in self.values
                  if column.scale]
        is_always = self.wanted.always or not (self.start or self.end)
        if is_always:
            words.append('--always')
        elif self.is_inclusive:
            words.append('--inclusive-to')
        if self.start is None and not is_always:
            words.append(f'--empty {self.free("S")}=0001-01-01')
        if not is_always and (self.end is None or self.end.has_empty):
            words.append('--open 9999-12-31')
        words += [f'--empty {column.name}=0' for column in self.values
                  if column.kind == 'INTEGER' and column.has_empty]
        return ' '.join(words)

    @staticmethod
    def note(column: Column) -> str:
        notes = [f'"{column.header}"' if column.header.upper() != column.name else '',
                 column.note or '', 'with empty cells' if column.has_empty else '']
        # A header may have a line end, which would end the comment.
        return re.sub('[^ -~]', '?', ', '.join(filter(None, notes)))

    def text(self) -> str:
        """The text of a CREATE TABLE for the file, with the command that loads it."""
        period = self.free('VALID')
        start = self.start.name if self.start else self.free('S')
        end = self.end.name if self.end else self.free('E')
        since, until = self.free('SYSTEM_FROM'), self.free('SYSTEM_TO')
        stem = os.path.splitext(os.path.basename(self.file.path))[0]
        name = self.wanted.name.upper() if self.wanted.name else name_of(stem)
        path = shlex.quote(self.file.path)
        lines = [f'-- A first guess from {os.path.basename(self.file.path)},'
                 f' {counted(len(self.file.lines), "row")}. Edit what is wrong, then:',
                 f'--   tools/load {path} --table FILE {self.command()}'.rstrip()]
        if not (self.start and self.end) and not self.wanted.always:
            lines.append('-- The file has no two columns of dates: look at the period.')
        if not self.key:
            lines.append('-- No columns were found that can be the key: these are the first ones.')
        lines.append(f'CREATE TABLE {name} (')
        for column in self.values:
            note = self.note(column)
            lines.append(f' {column.name} {column.kind},' + (f'  -- {note}' if note else ''))
        key = ', '.join(column.name for column in self.key or self.values[:1])
        lines += [f' {start} DATE, {end} DATE,',
                  f' {since} TIMESTAMP GENERATED ALWAYS AS ROW START,',
                  f' {until} TIMESTAMP GENERATED ALWAYS AS ROW END,',
                  f' PERIOD FOR {period} ({start}, {end}),'
                  f' PERIOD FOR SYSTEM_TIME ({since}, {until}),',
                  f' PRIMARY KEY ({key}, {period} WITHOUT OVERLAPS)) WITH SYSTEM VERSIONING;']
        return '\n'.join(lines) + '\n'
