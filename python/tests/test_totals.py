#!/usr/bin/env python3
"""Totals of an answer on each day: compared with counting day by day, and with PostgreSQL."""
import datetime
import random
import unittest
from collections.abc import Sequence

import support
from bitemporal_scale.postgresql.server import PrivateServer, is_installed, psql
from bitemporal_tools.days.numbers import iso
from bitemporal_tools.days.rows import Values
from bitemporal_tools.days.steps import Share, steps
from support import tool

TABLE = support.create_table('EMP', 'ENO INTEGER, DEPT VARCHAR(20), PAY INTEGER', 'ENO',
                             'EP') + ''';
'''
STAFF = TABLE + '''INSERT INTO EMP VALUES
 (101, 'a, b', 310000, DATE '2024-01-01', DATE '2024-03-01'),
 (101, 'a, b', 325050, DATE '2024-03-01', DATE '2024-05-01'),
 (102, 'a, b', 310000, DATE '2024-02-01', DATE '2024-04-01'),
 (103, 'a, b', 5, DATE '2024-08-01', DATE '9999-12-31'),
 (104, '=c', -7, DATE '2023-12-31', DATE '2024-01-02'),
 (105, '=c', 7, DATE '2023-12-31', DATE '2024-01-01'),
 (106, '=c', 0, DATE '2024-01-02', DATE '2024-01-03');
-- Everybody, with pay
-- name: staff
VALIDTIME SELECT DISTINCT ENO, DEPT, PAY FROM EMP;
SELECT * FROM EMP;
SELECT * FROM EMP FOR SYSTEM_TIME FROM TIMESTAMP '0001-01-01 00:00:00' TO TIMESTAMP
 '2024-01-01 00:00:00'
'''
DAY = datetime.date(2024, 1, 1).toordinal()


def by_days(shares: Sequence[Share]) -> dict[tuple[Values, int], list[int]]:
    """The totals of each group on each day, counted day by day."""
    found: dict[tuple[Values, int], list[int]] = {}
    for share in shares:
        for day in range(share.start, share.end):
            before = found.get((share.group, day), [0] * len(share.amounts))
            found[share.group, day] = [one + more for one, more in zip(before, share.amounts)]
    return found


def random_shares(dice: random.Random, count: int) -> list[Share]:
    """Rows of a few groups, over days of which many share a border."""
    found = []
    for _ in range(count):
        start = DAY + dice.randrange(25)
        found.append(Share((str(dice.randrange(3)),), (1, dice.choice([-2, 0, 1, 1, 10 ** 18])),
                           start, start + dice.randrange(1, 8)))
    return found


class Steps(unittest.TestCase):
    def test_against_each_day(self) -> None:
        """On each day the totals are what is counted, and neighbours differ."""
        dice = random.Random(1)
        for _ in range(400):
            shares = random_shares(dice, dice.randrange(14))
            found, counted = list(steps(shares)), by_days(shares)
            spread = {(step.group, day): list(step.totals) for step in found
                      for day in range(step.start, step.end)}
            self.assertEqual(spread, counted)
            self.assertEqual(sum(step.end - step.start for step in found), len(spread))
            for one, other in zip(found, found[1:]):
                self.assertFalse(one.group == other.group and one.end == other.start
                                 and one.totals == other.totals)

    def test_gaps_as_zero(self) -> None:
        """With gaps kept, each day from the first to the last of a group has its totals."""
        dice = random.Random(2)
        for _ in range(400):
            shares = random_shares(dice, dice.randrange(1, 10))
            counted = by_days(shares)
            wanted = {}
            for group in {share.group for share in shares}:
                own = [share for share in shares if share.group == group]
                for day in range(min(share.start for share in own),
                                 max(share.end for share in own)):
                    wanted[group, day] = counted.get((group, day), [0, 0])
            found = list(steps(shares, keeps_gaps=True))
            self.assertEqual(wanted, {(step.group, day): list(step.totals) for step in found
                                      for day in range(step.start, step.end)})


class Tool(support.Reported):
    script = STAFF

    def printed(self, *words: str) -> tuple[int, str, str]:
        return tool('totals', *self.words, '--only', 'staff', *words)

    def test_counts_and_sums(self) -> None:
        self.assertEqual(self.printed('--by', 'dept', '--count', '--sum', 'PAY'), (0, """\
DEPT,COUNT,SUM_PAY,valid_from,valid_to
'=c,2,0,2023-12-31,2024-01-01
'=c,1,-7,2024-01-01,2024-01-02
'=c,1,0,2024-01-02,2024-01-03
"a, b",1,310000,2024-01-01,2024-02-01
"a, b",2,620000,2024-02-01,2024-03-01
"a, b",2,635050,2024-03-01,2024-04-01
"a, b",1,325050,2024-04-01,2024-05-01
"a, b",1,5,2024-08-01,9999-12-31
""", ''))

    def test_fewest_periods(self) -> None:
        """A count alone goes on if only the sum changes, and a sum if only the count does."""
        self.assertEqual(self.printed('--by', 'DEPT', '--count')[1].splitlines()[3:5], [
            '"a, b",1,2024-01-01,2024-02-01', '"a, b",2,2024-02-01,2024-04-01'])
        self.assertEqual(self.printed('--sum', 'PAY', '--in', '2023')[1], """\
SUM_PAY,valid_from,valid_to
0,2023-12-31,2024-01-01
""")

    def test_forms(self) -> None:
        self.assertEqual(self.printed('--by', 'DEPT', '--sum', 'PAY', '--zero', '--scale',
                                      'SUM_PAY=2', '--inclusive', '--table', '--in',
                                      '2024-04-30..2024-08-01')[1], """\
3: Everybody, with pay (3 rows)
DEPT  SUM_PAY  valid_from  last_day
----  -------  ----------  ----------
a, b  3250.50  2024-04-30  2024-04-30
a, b     0.00  2024-05-01  2024-07-31
a, b     0.05  2024-08-01  2024-08-01
""")

    def test_stored(self) -> None:
        """A stored query of one moment is taken too."""
        self.assertEqual(tool('totals', *self.words, '--only', '4', '--by', 'DEPT', '--count'),
                         self.printed('--by', 'DEPT', '--count'))

    def test_turned_away(self) -> None:
        for words, said in (
                (['--by', 'DEPT'], '--count'), (['--count', '--by', 'X'], 'no column X'),
                (['--sum', 'DEPT'], 'no numbers'), (['--count', '--in', '2024-13'], 'no range'),
                (['--count', '--scale', 'PAY=2'], 'no such column'),
                (['--count', '--only', '5'], 'several moments'),
                (['--count', '--only', 'x'], 'no answer x')):
            status, output, told = self.printed(*words)
            self.assertEqual((status, output, said in told or told),
                             (1 if 'x' in words else 2, '', True))
        status, _, told = tool('totals', *self.words, '--count')
        self.assertEqual((status, '--only' in told or told), (2, True))


BY_POSTGRESQL = '''CREATE TABLE rows (dept text, pay numeric, s date, e date);
INSERT INTO rows VALUES {rows};
WITH days AS (SELECT day::date FROM generate_series((SELECT min(s) FROM rows),
  (SELECT max(e) FROM rows), interval '1 day') AS day),
 totals AS (SELECT dept, day, count(*) AS number, sum(pay) AS total FROM rows JOIN days
  ON s <= day AND day < e GROUP BY dept, day),
 islands AS (SELECT *, day - (row_number() OVER (PARTITION BY dept, number, total
  ORDER BY day))::int AS island FROM totals)
SELECT dept || ',' || number || ',' || total || ',' || min(day) || ',' || max(day) + 1 FROM islands
 GROUP BY dept, number, total, island ORDER BY dept COLLATE "C", min(day);
DROP TABLE rows;
'''


class Programs(support.Case):
    @unittest.skipUnless(is_installed(), 'no PostgreSQL here')
    def test_against_postgresql(self) -> None:
        """Random tables: the tool over the program's answer, and PostgreSQL over the rows."""
        dice = random.Random(3)
        with PrivateServer() as server:
            for _ in range(20):
                rows = [(key, dice.choice('abc'), dice.choice([0, 1, 10 ** 17, -3]), share.start,
                         share.end) for key, share in enumerate(random_shares(dice, 30))]
                script = TABLE + 'INSERT INTO EMP VALUES ' + ', '.join(
                    f"({key}, '{dept}', {pay}, DATE '{iso(start)}', DATE '{iso(end)}')"
                    for key, dept, pay, start, end in rows) + \
                    '; VALIDTIME SELECT DISTINCT ENO, DEPT, PAY FROM EMP'
                values = ', '.join(f"('{dept}', {pay}, '{iso(start)}', '{iso(end)}')"
                                   for _, dept, pay, start, end in rows)
                wanted = psql(server.connection, BY_POSTGRESQL.format(rows=values).encode())
                found = tool('totals', self.files.write('x.sql', script), '--by', 'DEPT', '--count',
                             '--sum', 'PAY', given=support.report(script).encode())
                self.assertEqual(found, (0, 'DEPT,COUNT,SUM_PAY,valid_from,valid_to\n'
                                         + wanted.decode(), ''))


if __name__ == '__main__':
    support.run_cases()
