"""Lines of a CSV file that say something of one day of a key, and ends that look a day early or
late."""
from __future__ import annotations

import argparse
import datetime
from collections.abc import Callable, Iterable, Iterator
from typing import Optional

from bitemporal_tools.loading.corrections import Fact, Values
from bitemporal_tools.loading.csv_file import BadLine, CsvFile
from bitemporal_tools.loading.fact_columns import DaysOfKeys, FactColumns
from bitemporal_tools.loading.handovers import MOST_SAMPLED, GroupedRows, Lines

DAY = datetime.timedelta(1)


class Clashes:
    """Reports rows of one key that share a day, and how lines that correct lines are loaded."""

    def __init__(self, file: CsvFile, wanted: argparse.Namespace) -> None:
        # `are_some`: among the lines of one moment.
        self.file, self.wanted, self.are_some = file, wanted, False

    def __call__(self, key: Values, one: Fact, other: Fact, is_lasting: bool = False) -> None:
        if self.wanted.later_line_wins and not is_lasting:
            return
        first, second = sorted((one, other), key=lambda fact: fact.line)
        words = ', '.join(map(str, key))
        self.are_some = self.are_some or not is_lasting
        self.file.bad.append(BadLine(second.line, None, f'key {words}: line {first.line} says'
                                     f' something of {max(one.start, other.start)} too'))

    def hint(self) -> str:
        """A sentence on what the lines may mean."""
        if self.wanted.always:
            return 'with --always each row holds on all days, so the key has to have the columns' \
                   ' in which rows differ: --guess --always makes such a table'
        if self.wanted.recorded:
            return 'of two lines of one moment --later-line-wins takes the later one'
        named = ''.join(f', such as {name}' for name in self.wanted.ignore[:1])
        return 'if a later line corrects an earlier one, add --recorded COLUMN, the moment at' \
               f' which each line was recorded{named}'


def ends_a_day_early(days: DaysOfKeys) -> int:
    """The number of rows that end on the day before a row of their key begins, if more do than on
    the day itself; else 0."""
    keys, starts, ends = days
    first_days = set(zip(keys, starts))
    later = {end: end + DAY for end in set(ends) if end < datetime.date.max}
    meet = sum(map(first_days.__contains__, zip(keys, ends)))
    early = sum(map(first_days.__contains__, zip(keys, map(later.get, ends))))
    return early if early > meet else 0


def grouped(rows: FactColumns, names: Iterable[str]) -> GroupedRows:
    """Rows by columns, given as names."""
    return GroupedRows({name: rows.cells[name] for name in names},
                       zip(rows.starts, rows.ends), rows.keys(), rows.lines)


def handovers_told(first: Callable[[Optional[int]], FactColumns],
                   wanted: argparse.Namespace) -> Iterator[str]:
    """Sentences on rows that follow each other within a group of columns, whatever the key: if
    they are a day apart, and if they overlap. `first` gives so many of the rows, or all."""
    rows = first(MOST_SAMPLED)
    sample = grouped(rows, [str(name) for name in rows.table.value_names])
    group = sample.best(rows.table.key)
    if group is None:
        return
    is_all = len(rows.lines) < MOST_SAMPLED
    found = (sample if is_all else grouped(first(None), group)).handovers(group)
    of_group = f' of the same {" and ".join(group)}' if group else ''
    apart = told(found.apart, f'a day after the end of the row before it{of_group}')
    shared = told(found.shared, f'on the last day of the row before it{of_group}')
    if found.ends_are_last_days and not wanted.inclusive_to:
        yield f'{apart}. If the end is the last day, add --inclusive-to'
    elif found.ends_are_too_late and wanted.inclusive_to:
        yield f'{shared}. If the end is the first day on which a row no longer holds, leave out' \
              ' --inclusive-to'
    else:
        yield from filter(None, (apart, shared))
    if found.overlap:
        yield told(found.overlap, f'before the end of the row before it{of_group}')


def told(pairs: list[Lines], where: str) -> str:
    """The number of rows that begin somewhere, and the lines of the first and of the row before."""
    if not pairs:
        return ''
    one, other = min(pairs, key=lambda pair: pair[1])
    begin = 'row begins' if len(pairs) == 1 else 'rows begin'
    lines = ' after '.join(f'line {line}' if line else 'a row of the store'
                           for line in (other, one))
    return f'{len(pairs)} {begin} {where} ({lines})'
