#!/usr/bin/env python3
"""Tests what `tools/load` says of rows that follow each other, whatever the key: the guess of
inclusive ends, and the warnings of days between rows and of rows that overlap; and of columns of a
file that the table does not have."""
from __future__ import annotations

import datetime
import pathlib
import random
import re
import shlex
import tempfile
import unittest

import support
from support import tool

HANDOVERS = '''dept,manager,from,to
1,7,2024-01-01,2024-03-11
1,8,2024-03-12,2024-06-18
1,9,2024-06-15,
2,7,2024-02-01,2024-05-21
2,8,2024-05-22,
'''
A_DAY_APART = 'load: 2 rows begin a day after the end of the row before it of the same DEPT (line' \
    ' 3 after line 2). If the end is the last day, add --inclusive-to\n'
OVERLAP = 'load: 1 row begins before the end of the row before it of the same DEPT (line 4 after' \
    ' line 3)\n'
# A file; whether its ends are last days.
GUESSED = [
    (HANDOVERS, True),
    (HANDOVERS.replace('-11\n', '-12\n').replace('-21\n', '-22\n'), False),
    # The only column is the weeks'.
    ('week,from,to\n1,2024-01-01,2024-01-07\n2,2024-01-08,2024-01-14\n3,2024-01-15,2024-01-21\n',
     True),
    ('week,from,to\n1,2024-01-01,2024-01-08\n2,2024-01-08,2024-01-15\n3,2024-01-15,2024-01-22\n',
     False),
    # Rows of the key meet, and so do rows of another group by chance, a day apart.
    ('k,v,from,to\n1,1,2024-01-01,2024-02-10\n1,2,2024-02-10,2024-03-15\n'
     '2,1,2024-02-11,2024-02-20\n2,2,2024-03-16,2024-04-20\n', False),
    # Nothing follows anything: months decide.
    ('k,from,to\n1,2024-01-05,2024-01-31\n2,2024-01-06,2024-04-30\n', True),
    ('k,from,to\n1,2024-01-05,2024-02-01\n2,2024-01-06,2024-05-01\n', False),
]


class Handovers(unittest.TestCase):
    def setUp(self) -> None:
        folder = tempfile.TemporaryDirectory()
        self.addCleanup(folder.cleanup)
        self.folder = pathlib.Path(folder.name)

    def write(self, name: str, text: str) -> str:
        path = self.folder / name
        path.write_text(text, 'utf-8')
        return str(path)

    def guessed(self, text: str) -> tuple[str, list[str]]:
        """The path of the CREATE TABLE that is guessed, and the words of its command."""
        file = self.write('x.csv', text)
        status, table, told = tool('load', '--guess', file)
        self.assertEqual((status, told), (0, ''))
        path = self.write('FILE', table)
        words = shlex.split(table.splitlines()[1][len('--   tools/load '):])
        return path, [path if word == 'FILE' else word for word in words]

    def test_guess(self) -> None:
        for text, is_inclusive in GUESSED:
            with self.subTest(text=text):
                _, words = self.guessed(text)
                self.assertEqual('--inclusive-to' in words, is_inclusive, words)
                status, _, told = tool('load', *words)
                self.assertEqual(status, 0, told)

    def test_guess_of_managers_by_chance(self) -> None:
        """Departments whose managers follow each other, in any order of lines; the key has both."""
        for seed in range(6):
            choose, lines = random.Random(seed), []
            is_inclusive, day = bool(seed % 2), datetime.timedelta(1)
            for department in range(8):
                start = datetime.date(2020, 1, 1) + choose.randrange(300) * day
                for manager in choose.sample(range(30), 12):
                    end = start + choose.randrange(20, 200) * day
                    shown = end - day if is_inclusive else end
                    lines.append(f'{department},{manager},{start},{shown}\n')
                    start = end + choose.choice([0, 0, 0, 17]) * day
            lines.append('0,99,2020-12-01,2022-06-15\n')  # so the key has the manager
            choose.shuffle(lines)
            with self.subTest(seed=seed):
                path, words = self.guessed(''.join(['dept,manager,from,to\n', *lines]))
                self.assertEqual('--inclusive-to' in words, is_inclusive)
                other = [word for word in words if word != '--inclusive-to']
                told = tool('load', *other, *['--inclusive-to'] * (not is_inclusive))[2]
                self.assertIn('--inclusive-to\n', told)
                self.assertIn('of the same DEPT', told)
                self.assertNotIn('--inclusive-to', tool('load', *words)[2])

    def test_warnings(self) -> None:
        path, _ = self.guessed(HANDOVERS)
        file, words = self.write('x.csv', HANDOVERS), ['--open', '9999-12-31']
        count = 'load: 5 rows, 1 statement after the head, 1 script\n'
        for more, wanted in (((), count + A_DAY_APART + OVERLAP),
                             (['--inclusive-to'], count + OVERLAP)):
            self.assertEqual(tool('load', file, '--table', path, *words, *more)[2], wanted)

    def test_ends_that_are_too_late(self) -> None:
        text = HANDOVERS.replace('-11\n', '-12\n').replace('-21\n', '-22\n')
        path, words = self.guessed(text)
        told = tool('load', *words, '--inclusive-to')[2]
        self.assertIn('load: 2 rows begin on the last day of the row before it of the same DEPT'
                      ' (line 3 after line 2). If the end is the first day on which a row no longer'
                      ' holds, leave out --inclusive-to\n', told)

    def test_corrections_are_no_overlaps(self) -> None:
        """Rows that a later line cuts do not follow each other."""
        text = ('eno,dept,pay,from,to,recorded\n' + ''.join(
            f'{number},{number % 3},10,2024-01-01,,2024-01-01 10:00:00\n'
            f'{number},{number % 3},12,2024-0{number}-01,2024-0{number}-20,2024-02-01 10:00:00\n'
            for number in range(1, 8)))
        _, words = self.guessed(text)
        self.assertEqual(tool('load', *words)[2].count('load: '), 1)

    def test_columns_that_the_table_lacks(self) -> None:
        path, words = self.guessed(HANDOVERS)
        lines = HANDOVERS.replace('\n', ',2024-01-01\n').replace('to,2024-01-01', 'to,"ended at"')
        file = self.write('y.csv', lines)
        words = ['load', file, '--table', path, '--open', '9999-12-31', '--inclusive-to']
        self.assertEqual(tool(*words), (
            2, '', 'load: X has no column for ended at of the file. If rows mean the same without:'
            " --ignore 'ended at'\n"))
        self.assertEqual(tool(*words, '--ignore', 'ended at')[0], 0)
        self.assertEqual(tool(*words, '--ignore', 'ENDED_AT')[0], 0)
        for name, wanted in (
                ('dept', 'load: --ignore dept: this column is read\n'),
                ('none', 'load: --ignore none: the file has no such column (it has dept, manager,'
                 ' from, to, ended at)\n')):
            self.assertEqual(tool(*words, '--ignore', 'ended at', '--ignore', name),
                             (2, '', wanted))

    def test_history_of_another_database(self) -> None:
        """An export with the moments from which and to which a row was recorded."""
        text = ('k,v,from,to,row_start,row_end\n'
                '1,10,2024-01-01,9999-12-31,2024-01-05 10:00:00,2024-02-05 10:00:00\n'
                '1,10,2024-01-01,2024-03-01,2024-02-05 10:00:00,2038-01-19 03:14:07.999999\n'
                '1,9,2024-01-01,2024-02-01,2024-02-05 10:00:00,2024-02-05 10:00:00\n'
                '2,20,2024-01-01,2024-02-01,2024-02-01 10:00:00,2024-02-03 10:00:00\n')
        path, words = self.guessed(text)
        self.assertIn('--recorded-to', words)
        status, script, told = tool('load', *words)
        self.assertEqual((status, script[script.index('AT TIME'):]), (0, """\
AT TIMESTAMP '2024-01-05 10:00:00';
INSERT INTO X VALUES
 (1, 10, DATE '2024-01-01', DATE '9999-12-31');
AT TIMESTAMP '2024-02-01 10:00:00';
INSERT INTO X VALUES
 (2, 20, DATE '2024-01-01', DATE '2024-02-01');
AT TIMESTAMP '2024-02-03 10:00:00';
DELETE FROM X FOR PORTION OF VALID FROM DATE '2024-01-01' TO DATE '2024-02-01'
 WHERE K = 2;
AT TIMESTAMP '2024-02-05 10:00:00';
DELETE FROM X FOR PORTION OF VALID FROM DATE '2024-03-01' TO DATE '9999-12-31'
 WHERE K = 1;
"""), told)
        self.write('x.csv', text.replace('2024-02-03 10', '2024-01-31 10'))
        status, script, told = tool('load', *words)
        self.assertEqual((status, script), (1, ''))
        self.assertIn('x.csv:5: column 6 (row_end): 2024-01-31 10:00:00 is before 2024-02-01'
                      ' 10:00:00\n', told)
        for option in ('--recorded', '--record'):
            self.assertIn('--recorded-to COLUMN is about', tool(
                'load', str(self.folder / 'x.csv'), '--table', path, '--recorded-to', 'row_end',
                *['--recorded', 'row_start', option, 'k'] * (option == '--record'))[2])

    def test_guess_names_all_columns(self) -> None:
        """A guess has a place for each column of its file."""
        for text, _ in GUESSED:
            table = pathlib.Path(self.guessed(text)[0]).read_text('utf-8')
            self.assertNotIn('--ignore', table)
            self.assertTrue(re.search('PRIMARY KEY', table))


def setUpModule() -> None:
    support.build()


if __name__ == '__main__':
    support.run_cases()
