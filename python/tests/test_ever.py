#!/usr/bin/env python3
"""Questions of who ever, and who never: compared with sets of days, and windows of days by their
names."""
import datetime
import random
import unittest
from collections.abc import Iterable

import support
from bitemporal_tools.command_line import Fault
from bitemporal_tools.days.choices import Choice, DaysOf, some_of
from bitemporal_tools.days.numbers import iso, ordinal
from bitemporal_tools.days.rows import Values
from bitemporal_tools.days.stretches import Period
from bitemporal_tools.days.windows import Window, months, window
from folders import ROOT
from support import tool

SCRIPT = support.create_table('MGR', 'ENO INTEGER, M INTEGER', 'ENO, M') + ''';
INSERT INTO MGR VALUES
 (1, 7, DATE '2024-01-01', DATE '2024-03-15'), (1, 8, DATE '2024-03-15', DATE '9999-12-31'),
 (2, 7, DATE '2024-01-01', DATE '2024-04-01'), (2, 8, DATE '2024-04-01', DATE '2024-05-01'),
 (10, 7, DATE '2024-02-10', DATE '2024-02-20'), (10, 9, DATE '2024-02-20', DATE '2024-03-01');
-- name: managers
VALIDTIME SELECT DISTINCT ENO, M FROM MGR;
-- name: by eight
VALIDTIME SELECT DISTINCT ENO FROM MGR WHERE M = 8;
SELECT * FROM MGR
'''


def spread(periods: Iterable[Period]) -> set[int]:
    return {day for start, end in periods for day in range(start, end)}


class Choices(unittest.TestCase):
    def test_against_sets_of_days(self) -> None:
        dice = random.Random(1)

        def random_days() -> DaysOf:
            return {(str(who),): [(start, start + dice.randrange(1, 9)) for start in
                                  (dice.randrange(40) for _ in range(dice.randrange(1, 4)))]
                    for who in range(6) if dice.random() < 0.8}

        for _ in range(500):
            ever, never = [random_days(), random_days()], [random_days()]
            counted: dict[Values, DaysOf] = {
                who: {(value,): random_days().get(who, []) for value in 'abc'} for who in ever[0]}
            start = dice.randrange(40)
            one = Window('', (start, start + dice.randrange(1, 20)))
            inside, least = spread([one.period]), dice.randrange(3)
            wanted = [who for who in ever[0]
                      if all(spread(days.get(who, [])) & inside for days in ever)
                      and not any(spread(days.get(who, [])) & inside for days in never)
                      and sum(bool(spread(periods) & inside)
                              for periods in counted[who].values()) >= least]
            self.assertEqual(list(Choice(ever, never, counted, least).among(one)), wanted)
        self.assertFalse(some_of([(1, 5)], Window('', (5, 9))))


class Windows(unittest.TestCase):
    def test_names(self) -> None:
        for text, first, last in (
                ('2024', '2024-01-01', '2024-12-31'), ('2024-Q1', '2024-01-01', '2024-03-31'),
                ('2024-Q4', '2024-10-01', '2024-12-31'), ('2024-02', '2024-02-01', '2024-02-29'),
                ('2024-12', '2024-12-01', '2024-12-31'),
                ('2024-02-29', '2024-02-29', '2024-02-29'),
                ('2024-02-29..2024-03-01', '2024-02-29', '2024-03-01'),
                ('2023-12..2024-Q1', '2023-12-01', '2024-03-31'),
                ('2023..2024', '2023-01-01', '2024-12-31'),
                ('0001', '0001-01-01', '0001-12-31'), ('9999', '9999-01-01', '9999-12-30')):
            start, end = window(text).period
            self.assertEqual((iso(start), iso(end - 1)), (first, last), text)
        for text in ('', '24', '0000', '2024-Q5', '2024-13', '2024-02-30', '2024-02-02..2024-02-01',
                     'x..2024-01-01', '2024-1', '2024..2023'):
            self.assertRaises(Fault, window, text)

    def test_parts_of_a_year(self) -> None:
        """All days are in one month, quarter and year each, in turn."""
        first, end = ordinal('2023-11-15'), ordinal('2025-02-02')
        for kind, names in (('year', ['2023', '2024', '2025']), ('quarter', [
                '2023-Q4', '2024-Q1', '2024-Q2', '2024-Q3', '2024-Q4', '2025-Q1'])):
            self.assertEqual([one.name for one in months(first, end, kind)], names)
        found = list(months(first, end, 'month'))
        self.assertEqual((len(found), found[0].name, found[-1].name), (16, '2023-11', '2025-02'))
        for one, other in zip(found, found[1:]):
            self.assertEqual(one.period[1], other.period[0])
            self.assertEqual(datetime.date.fromordinal(other.period[0]).day, 1)


class Tool(support.Reported):
    script = SCRIPT

    def printed(self, *words: str) -> tuple[int, str, str]:
        return tool('ever', *self.words, '--of', 'ENO', *words)

    def test_different_ones_in_a_month(self) -> None:
        """Worker 2 changes as a month does, so no month has both managers."""
        self.assertEqual(self.printed('--ever', 'managers', '--different', 'M', '--each', 'month',
                                      '--in', '2024'), (0, """\
MONTH,ENO,M,valid_from,valid_to
2024-02,10,7,2024-02-10,2024-02-20
2024-02,10,9,2024-02-20,2024-03-01
2024-03,1,7,2024-03-01,2024-03-15
2024-03,1,8,2024-03-15,2024-04-01
""", ''))
        self.assertEqual(self.printed('--ever', '3', '--different', 'M', '--in', '2024-03',
                                      '--who')[1], 'ENO\n1\n')
        self.assertEqual(self.printed('--ever', '3', '--different', 'M', '--least', '3'),
                         (0, 'ENO,M,valid_from,valid_to\n', ''))

    def test_never(self) -> None:
        self.assertEqual(self.printed('--ever', 'managers:M=7', '--never', 'by eight'),
                         (0, 'ENO,valid_from,valid_to\n10,2024-02-10,2024-02-20\n', ''))
        self.assertEqual(self.printed('--ever', '3', '--never', 'by-eight', '--in', '2024-Q1',
                                      '--who')[1], 'ENO\n2\n10\n')
        self.assertEqual(self.printed('--ever', '4', '--ever', '3:M=7', '--in', '2024-04',
                                      '--who')[1], 'ENO\n')

    def test_each(self) -> None:
        """Months of some days, or of all days of the answers if none is open."""
        status, output, told = self.printed('--ever', '4', '--each', 'month')
        self.assertEqual((status, output, 'no end' in told or told), (2, '', True))
        output = self.printed('--ever', '4', '--each', 'month', '--inclusive', '--in',
                              '2024..2024-04')[1]
        self.assertEqual(output.splitlines(), [
            'MONTH,ENO,valid_from,last_day', '2024-03,1,2024-03-15,2024-03-31',
            '2024-04,1,2024-04-01,2024-04-30', '2024-04,2,2024-04-01,2024-04-30'])
        self.assertIn('1,2024-03-15,9999-12-31', self.printed('--ever', '4')[1])
        output = self.printed('--ever', '4:ENO=1', '--each', 'year', '--in',
                              '2023-11-30..2025-01-02')[1]
        self.assertEqual(output.splitlines()[1:], ['2024,1,2024-03-15,2025-01-01',
                                                   '2025,1,2025-01-01,2025-01-03'])
        closed = SCRIPT.replace('9999-12-31', '2024-06-01')
        report = self.files.write('y.report', support.report(closed))
        words = self.files.write('y.sql', closed), report
        self.assertEqual(tool('ever', *words, '--of', 'ENO', '--ever', '4', '--each', 'quarter',
                              '--who'), (0, 'QUARTER,ENO\n2024-Q1,1\n2024-Q2,1\n2024-Q2,2\n', ''))

    def test_stored(self) -> None:
        self.assertEqual(self.printed('--ever', '5:M=9,ENO=10')[1],
                         'ENO,valid_from,valid_to\n10,2024-02-20,2024-03-01\n')

    def test_turned_away(self) -> None:
        for words, said in ((['--ever', 'x'], 'no answer x'), (['--ever', '3:M'], 'COLUMN=VALUE'),
                            (['--ever', '3:X=1'], 'no column X'),
                            (['--ever', '3', '--in', 'x'], 'no range'),
                            (['--ever', '3', '--least', '0'], '1 or more')):
            status, output, told = self.printed(*words)
            self.assertEqual((status, output, said in told or told),
                             (1 if words == ['--ever', 'x'] else 2, '', True))
        self.assertEqual(tool('ever', *self.words, '--ever', '3')[0], 2)

    def test_as_a_table_of_all_days_has_it(self) -> None:
        """The example asks the program of a table whose rows hold on all days."""
        example = ROOT / 'examples/never.sql'
        report = example.with_suffix('.report')
        self.assertEqual(
            tool('ever', example, report, '--of', 'ENO', '--ever', 'places:DEPT=1', '--never',
                 'places:DEPT=2'), tool('answers', example, report, '--only', '8'))


if __name__ == '__main__':
    support.run_cases()
