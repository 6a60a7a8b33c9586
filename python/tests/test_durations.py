#!/usr/bin/env python3
"""Durations of rows, groups, stretches and gaps: compared with sets of days."""
import datetime
import random
import unittest

import support
from bitemporal_tools.days.stretches import days, gaps, stretches
from support import tool

SCRIPT = support.create_table('STAY', 'K INTEGER, PLACE VARCHAR(9)', 'K, PLACE') + ''';
INSERT INTO STAY VALUES
 (2, 'x', DATE '2024-01-01', DATE '2024-01-11'), (2, 'y', DATE '2024-01-06', DATE '2024-01-21'),
 (2, 'x', DATE '2024-03-01', DATE '2024-03-02'), (10, 'x', DATE '2024-02-01', DATE '9999-12-31'),
 (3, 'y', DATE '2024-02-01', DATE '2024-02-11'), (3, 'z', DATE '2024-02-21', DATE '2024-03-02');
VALIDTIME SELECT DISTINCT K, PLACE FROM STAY
'''
HEAD = 'K,DAYS,STRETCHES,LONGEST,FIRST_DAY,LAST_DAY,GAP_DAYS\n'


class Stretches(unittest.TestCase):
    def test_against_sets_of_days(self) -> None:
        dice = random.Random(1)
        for _ in range(500):
            periods = [(start, start + dice.randrange(1, 6))
                       for start in (dice.randrange(30) for _ in range(dice.randrange(1, 8)))]
            wanted = {day for start, end in periods for day in range(start, end)}
            found = stretches(periods)
            self.assertEqual({day for start, end in found for day in range(start, end)}, wanted)
            self.assertTrue(all(one[1] < other[0] for one, other in zip(found, found[1:])))
            self.assertEqual(days(found), len(wanted))
            missing = set(range(min(wanted), max(wanted))) - wanted
            self.assertEqual({day for start, end in gaps(found) for day in range(start, end)},
                             missing)


class Tool(support.Reported):
    script = SCRIPT

    def printed(self, *words: str) -> tuple[int, str, str]:
        return tool('durations', *self.words, *words)

    def test_groups(self) -> None:
        """Days that two rows share count once, and the last day is one that is counted."""
        self.assertEqual(self.printed('--by', 'k', '--as-of', '2024-03-01'), (0, HEAD + """\
2,21,2,20,2024-01-01,2024-03-01,40
3,20,2,10,2024-02-01,2024-03-01,10
10,30,1,30,2024-02-01,2024-03-01,0
""", ''))

    def test_rows_after_the_last_day(self) -> None:
        self.assertEqual(self.printed('--by', 'K', '--as-of', '2024-01-31')[1],
                         HEAD + '2,20,1,20,2024-01-01,2024-01-20,0\n')

    def test_each_row(self) -> None:
        self.assertEqual(self.printed('--rows', '--as-of', '2024-02-20', '--top', '2'), (0, """\
K,PLACE,DAYS,valid_from,valid_to
10,x,20,2024-02-01,2024-02-21
2,y,15,2024-01-06,2024-01-21
""", ''))

    def test_longest(self) -> None:
        """Rows as long as the last that is shown are reported."""
        self.assertEqual(self.printed('--gaps', '--by', 'K')[1:], ("""\
K,DAYS,valid_from,valid_to
2,40,2024-01-21,2024-03-01
3,10,2024-02-11,2024-02-21
""", ''))
        status, output, told = self.printed('--stretches', '--by', 'K,PLACE', '--as-of',
                                            '2024-03-01', '--top', '3', '--inclusive')
        self.assertEqual((status, output, told), (0, """\
K,PLACE,DAYS,valid_from,last_day
10,x,30,2024-02-01,2024-03-01
2,y,15,2024-01-06,2024-01-20
2,x,10,2024-01-01,2024-01-10
""", 'durations: and 2 more of 10 days\n'))

    def test_summary(self) -> None:
        """20, 21 and 30 days, of which the average is 23.666.."""
        self.assertEqual(self.printed('--by', 'K', '--as-of', '2024-03-01', '--summary')[1],
                         'COUNT,DAYS,AVERAGE,LEAST,MOST\n3,71,23.67,20,30\n')
        self.assertEqual(self.printed('--by', 'K', '--as-of', '2023-01-01', '--summary')[1],
                         'COUNT,DAYS,AVERAGE,LEAST,MOST\n0,0,,,\n')

    def test_csv(self) -> None:
        """Answers that were written as CSV: with an end, or with a last day."""
        wanted = self.printed('--by', 'K', '--as-of', '2024-03-01')
        for more in ((), ('--inclusive', '--excel'), ('--witness',)):
            written = tool('answers', *self.words, *more)[1]
            path = self.files.write('x.csv', written)
            self.assertEqual(tool('durations', '--csv', path, '--by', 'K', '--as-of', '2024-03-01'),
                             wanted)
            self.assertEqual(tool('durations', '--csv', '-', '--by', 'K', '--as-of', '2024-03-01',
                                  given=written.encode()), wanted)
        for text, status, said in (
                ('K,valid_from\n', 2, 'valid_to'), ('', 1, 'empty'),
                ('K,valid_from,valid_to,last_day\n', 2, 'are needed'),
                ('K,valid_from,valid_to\n1,2024-01-01\n', 1, 'x.csv:2'),
                ('K,valid_from,valid_to\n1,2024-01-01,x\n', 1, 'x.csv:2')):
            found = tool('durations', '--csv', self.files.write('x.csv', text), '--gaps')
            self.assertEqual((*found[:2], said in found[2] or found[2]), (status, '', True))
        for words in (('--csv', 'x.csv', *self.words), ('--csv', 'x.csv', '--only', '3'), ()):
            self.assertEqual(tool('durations', *words)[:2], (2, ''))

    def test_turned_away(self) -> None:
        turned_away: list[tuple[list[str], str]] = [
            ([], '1 row of answer 3 without an end'), (['--as-of', '2024-02-30'], 'a day'),
            (['--by', 'X', '--as-of', '2024-01-01'], 'no column X'),
            (['--gaps', '--rows'], 'not allowed'), (['--gaps', '--top', '0'], '1 or more')]
        for words, said in turned_away:
            status, output, told = self.printed(*words)
            self.assertEqual((status, output, said in told or told), (2, '', True))

    def test_last_of_all_days(self) -> None:
        """The last day that can be named: an open row ends before 9999-12-31."""
        first = datetime.date(2024, 2, 1).toordinal()
        output = self.printed('--by', 'K', '--as-of', '9999-12-31')[1]
        self.assertIn(f'10,{datetime.date.max.toordinal() - first},1,', output)


if __name__ == '__main__':
    support.run_cases()
