#!/usr/bin/env python3
"""The ten questions of docs/HOWTO.md: their commands, over the export of examples/payroll, and what
is computed of its CSV files alone, day by day."""
import collections
import csv
import datetime
import functools
import os
import re
import subprocess
import tempfile
import unittest
from collections.abc import Callable, Iterable
from typing import Any

import support
import program
from folders import ROOT

FIRST, END = datetime.date(2016, 1, 1).toordinal(), datetime.date(2025, 1, 1).toordinal()
DAYS = range(END - FIRST)
# Of each worker the department, the grade and the pay on each day.
Staff = dict[int, dict[int, tuple[int, int, int]]]
Line = dict[str, str]
HEADING = '## Ten questions of a payroll'
Q1 = range(datetime.date(2024, 1, 1).toordinal() - FIRST,
           datetime.date(2024, 4, 1).toordinal() - FIRST)


def day(text: str) -> int:
    return datetime.date.fromisoformat(text).toordinal() - FIRST


def month(at: int) -> str:
    return datetime.date.fromordinal(FIRST + at).isoformat()[:7]


def cents(text: str) -> int:
    whole, fraction = text.split('.')
    return int(whole) * 100 + int(fraction)


def decimal(number: int) -> str:
    return f'{number // 100}.{number % 100:02}'


def safe(name: str) -> str:
    """A name as a spreadsheet gets it: not as a formula."""
    return "'" + name if re.match('[=@+-](?![0-9]+$)', name) else name


def runs(days: Iterable[int]) -> list[tuple[int, int]]:
    """The days as periods of a first day and a last one."""
    found: list[tuple[int, int]] = []
    for at in sorted(days):
        if found and found[-1][1] == at - 1:
            found[-1] = found[-1][0], at
        else:
            found.append((at, at))
    return found


class Export:
    """The sayings of the CSV files of each day."""

    def __init__(self, folder: str) -> None:
        self.folder = folder
        self.lines = self.read('staff') + self.read('night')
        self.lines.sort(key=lambda line: line['recorded at'])

    def read(self, name: str) -> list[Line]:
        with open(os.path.join(self.folder, f'{name}.csv'), encoding='utf-8', newline='') as file:
            return list(csv.DictReader(file))

    @staticmethod
    def days(line: Line) -> range:
        return range(day(line['from']), day(line['to']) + 1 if line['to'] else len(DAYS))

    def staff(self, until: str, has_raise: bool = False) -> Staff:
        """Of each worker the department, the grade and the pay on each day, by the lines that were
        recorded before a moment: a later line holds on its days. The raise of 102 is between the
        lines of the export and the night's."""
        found: Staff = collections.defaultdict(dict)
        for line in self.lines:
            if has_raise and line['recorded at'] > '2025':
                found[102].update({at: (dept, grade, pay + 10_000)
                                   for at, (dept, grade, pay) in found[102].items()
                                   if '2024-04' <= month(at) <= '2024-06'})
                has_raise = False
            if line['recorded at'] < until:
                values = int(line['dept']), int(line['grade']), cents(line['pay'])
                found[int(line['number'])].update(dict.fromkeys(self.days(line), values))
        return found

    @functools.cached_property
    def now(self) -> Staff:
        return self.staff('2025-01-01')

    @functools.cached_property
    def names(self) -> dict[int, str]:
        return {int(line['number']): line['name'] for line in self.lines}

    @functools.cached_property
    def managers(self) -> dict[tuple[int, int], set[int]]:
        """The managers of a department on a day."""
        found: dict[tuple[int, int], set[int]] = collections.defaultdict(set)
        for line in self.read('managers'):
            for at in self.days(line):
                found[int(line['dept']), at].add(int(line['manager']))
        return found

    @functools.cached_property
    def absent(self) -> dict[int, set[int]]:
        """The days on which a worker is absent."""
        found: dict[int, set[int]] = collections.defaultdict(set)
        for line in self.read('absences'):
            found[int(line['number'])].update(self.days(line))
        return found


def page_commands() -> list[list[str]]:
    """The commands of the section, with what the page shows of each."""
    text = (ROOT / 'docs/HOWTO.md').read_text(encoding='utf-8')
    section = text[text.index(HEADING):].split('\n## ')[0]
    blocks = re.findall(r'^```console\n(.*?)^```$', section, re.MULTILINE | re.DOTALL)
    return [command for block in blocks for command in program.commands(block)]


class Questions(unittest.TestCase):
    """The commands run once, in a folder of their own."""
    temporary: 'tempfile.TemporaryDirectory[str]'
    folder: str
    printed: dict[str, tuple[str, str]]
    export: 'Export'

    @classmethod
    def setUpClass(cls) -> None:
        support.build()
        cls.temporary = tempfile.TemporaryDirectory()
        cls.folder = str(program.folder_for_commands(cls.temporary.name))
        cls.printed = {}
        for command, shown in page_commands():
            done = subprocess.run(['bash', '-c', command], cwd=cls.folder, check=False,
                                  stdout=subprocess.PIPE, stderr=subprocess.STDOUT)
            cls.printed[command] = done.stdout.decode('utf-8'), shown
        cls.export = Export(os.path.join(cls.folder, 'payroll'))

    @classmethod
    def tearDownClass(cls) -> None:
        cls.temporary.cleanup()

    def rows(self, name: str) -> list[list[str]]:
        """The rows of a CSV file that the commands write, without the names."""
        with open(os.path.join(self.folder, name), encoding='utf-8-sig', newline='') as file:
            return list(csv.reader(file))[1:]

    def output(self, *words: str) -> list[list[str]]:
        """The page's output of its one command with these words, as a table without names."""
        [(output, shown)] = [found for command, found in self.printed.items()
                             if all(word in command for word in words)]
        self.assertEqual(output, shown)
        return list(csv.reader(output.splitlines()))[1:]

    def expand(self, rows: Iterable[list[str]]) -> set[tuple[Any, ...]]:
        """Rows that end with a first and a last day, as their values on each day of the export; an
        end that is open ends with its last day."""
        found: list[tuple[Any, ...]] = []
        for *values, first, last in rows:
            end = len(DAYS) - 1 if last.startswith('9999') else day(last)
            found += [(*values, at) for at in range(day(first), end + 1)]
        self.assertEqual(len(found), len(set(found)))
        return set(found)

    def test_commands(self) -> None:
        for command, (output, shown) in self.printed.items():
            self.assertEqual(output, shown, command)

    def test_01_all_is_loaded(self) -> None:
        lines = self.export.read('staff')
        self.assertEqual((len(lines), len({line['number'] for line in lines})), (6000, 400))
        rows = self.rows('answers_of_payroll/staff.csv')
        self.assertEqual(self.expand(rows), self.lines_of(self.export.now, decimal))

    def lines_of(self, staff: Staff,
                 shown: Callable[[int], str] = str) -> set[tuple[Any, ...]]:
        """Staff as the answer has it, each day by itself."""
        return {(str(number), safe(self.export.names[number]), str(dept), str(grade), shown(pay),
                 at) for number, days in staff.items() for at, (dept, grade, pay) in days.items()}

    def test_02_two_managers(self) -> None:
        wanted: set[tuple[str, str, int]] = set()
        march = [at for at in DAYS if month(at) == '2024-03']
        for number, days in self.export.now.items():
            seen = {(manager, at) for at in march if at in days
                    for manager in self.export.managers[days[at][0], at]}
            if len({manager for manager, _ in seen}) > 1:
                wanted |= {(str(number), str(manager), at) for manager, at in seen}
        rows = self.rows('two_managers.csv')
        self.assertEqual(self.expand(rows), wanted)
        self.assertEqual(len(rows), sum(len(runs(at for one, manager, at in wanted
                                                 if (one, manager) == pair))
                                        for pair in {row[:2] for row in wanted}))

    def test_03_headcount(self) -> None:
        counts: collections.Counter[tuple[int, int]] = collections.Counter()
        pays: collections.Counter[tuple[int, int]] = collections.Counter()
        for days in self.export.now.values():
            for at, (dept, _, pay) in days.items():
                counts[dept, at] += 1
                pays[dept, at] += pay
        steps = self.rows('headcount.csv')
        for row in steps:
            row[-1] = '9999' if row[-1].startswith('9999') else str(
                datetime.date.fromisoformat(row[-1]) - datetime.timedelta(1))
        found = {(int(dept), at): (int(count), cents(total))
                 for dept, count, total, at in self.expand(steps)}
        self.assertEqual(found, {at: (counts[at], pays[at]) for at in counts})
        changes = sum((dept, at - 1) not in counts or counts[dept, at - 1] != count
                      or pays[dept, at - 1] != pays[dept, at]
                      for (dept, at), count in counts.items())
        self.assertEqual(len(steps), changes)

    def test_04_absent_without_a_manager(self) -> None:
        wanted = {(str(number), str(days[at][0]), at) for number, days in self.export.now.items()
                  for at in self.export.absent[number] & set(days)
                  if not self.export.managers[days[at][0], at]}
        self.assertEqual(self.expand(self.rows('unmanaged.csv')), wanted)
        [[_, days, *_]] = self.output('--csv unmanaged.csv')
        self.assertEqual(int(days), len(wanted))

    def test_05_believed(self) -> None:
        then = self.export.staff('2024-07-01')
        wanted = {(str(number), str(days[at][2]), str(self.export.now[number][at][2]), at)
                  for number, days in then.items() for at in days
                  if at in Q1 and days[at][2] != self.export.now[number][at][2]}
        found = {(number, str(cents(old)), str(cents(new)), at)
                 for number, old, new, at in self.expand(self.rows('believed.csv'))}
        self.assertEqual(found, wanted)

    def test_06_tenure(self) -> None:
        tenures = [len(days) for days in self.export.now.values()
                   if any(values[0] == 3 for values in days.values())]
        [row] = self.output('--csv ever_in_3.csv')
        self.assertEqual(row, [str(len(tenures)), str(sum(tenures)),
                               f'{sum(tenures) / len(tenures):.2f}', str(min(tenures)),
                               str(max(tenures))])
        never = [str(number) for number in sorted(self.export.now)
                 if not self.export.absent[number]]
        self.assertEqual([row[0] for row in self.rows('never_absent.csv')], never)
        [[number, name, days, first, last]] = self.output('--stretches')
        longest = {(one, run) for one, worked in self.export.now.items() for run in runs(worked)}
        most = max(last - first + 1 for _, (first, last) in longest)
        self.assertEqual((int(days), self.export.names[int(number)]), (most, name))
        self.assertIn((int(number), (day(first), day(last))), longest)

    def test_07_grade_5(self) -> None:
        graded = {(dept, at) for days in self.export.now.values()
                  for at, (dept, grade, _) in days.items() if grade == 5}
        self.assertEqual({tuple(row) for row in self.rows('months.csv')},
                         {(month(at), str(dept)) for dept, at in graded})
        gaps = []
        for dept in {dept for dept, _ in graded}:
            found = runs(at for one, at in graded if one == dept)
            gaps += [(following - last - 1, dept, last + 1)
                     for (_, last), (following, _) in zip(found, found[1:])]
        shown = [(int(days), int(dept), day(first)) for dept, days, first, _ in
                 self.rows('gaps.csv')]
        self.assertEqual([days for days, *_ in shown],
                         sorted((days for days, *_ in gaps), reverse=True)[:10])
        self.assertLessEqual(set(shown), set(gaps))

    def test_08_raise(self) -> None:
        words = [str(ROOT / 'tools/answers'), str(ROOT / 'examples/payroll/raise.sql'),
                 'raise.report', '--inclusive', '--only']
        pays = {}
        for name in ('before', 'after'):
            printed = subprocess.run([*words, name], cwd=self.folder, check=True,
                                     stdout=subprocess.PIPE).stdout.decode()
            pays[name] = self.expand(list(csv.reader(printed.splitlines()))[1:])
        known = self.export.now[102]
        self.assertEqual(pays['before'], {(str(pay), at) for at, (*_, pay) in known.items()})
        self.assertEqual(pays['after'], {
            (str(pay + 10_000 * ('2024-04' <= month(at) <= '2024-06')), at)
            for at, (*_, pay) in known.items()})

    def test_09_files(self) -> None:
        with open(os.path.join(self.folder, 'answers_of_payroll/staff.csv'), 'rb') as file:
            self.assertTrue(file.read().startswith('\ufeffNUMBER,NAME,'.encode()))
        for name, said in (('page.html', '<table>'), ('unmanaged.html', 'Absent without'),
                           ('headcount.svg', '<svg ')):
            with open(os.path.join(self.folder, name), encoding='utf-8') as file:
                self.assertIn(said, file.read())

    def test_10_night(self) -> None:
        wanted = self.export.staff('2026', has_raise=True)
        self.assertEqual(self.expand(self.rows('after.csv')), self.lines_of(wanted))
        self.assertNotEqual(wanted, self.export.now)


if __name__ == '__main__':
    support.run_cases()
