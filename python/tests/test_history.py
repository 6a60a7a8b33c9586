#!/usr/bin/env python3
"""Tests history, diff and forget: worked examples; what a history says of random stores, by the
program's answers as of each moment; what AS OF sees after forgetting."""
import datetime

import support
from bitemporal_tools.reports.records import records
from store_samples import FIRST_DAY, Random, StoreTests, answered, contents, copied_away
from test_dump import PAY

STORES = 15
DELETED = PAY + '''AT TIMESTAMP '2024-08-01 00:00:00';
DELETE FROM PAY FOR PORTION OF PP FROM DATE '2025-01-01' TO DATE '9999-12-31';
'''
LOG = support.create_table(
    'LOG', 'NO INTEGER, ENO INTEGER', 'NO', 'LP',
    'FOREIGN KEY (ENO, PERIOD LP) REFERENCES PAY (ENO, PERIOD PP)') + ''';
INSERT INTO EMP VALUES (102, 'Bob', DATE '2024-01-01', DATE '9999-12-31');
INSERT INTO PAY VALUES (102, 200000, DATE '2024-01-01', DATE '9999-12-31');
INSERT INTO LOG VALUES (1, 101, DATE '2024-01-01', DATE '2024-01-02'),
 (2, 102, DATE '2024-01-01', DATE '2024-01-02'), (3, 101, DATE '2024-02-01', DATE '2024-02-02');
'''


class History(StoreTests):

    def test_worked_example(self) -> None:
        store = self.made('pay.store', DELETED)
        output, _ = self.tool('history', store, 'pay')
        self.assertEqual(output, '''PAY: 3 changes
recorded                    ENO  valid_from  valid_to    change
--------------------------  ---  ----------  ----------  -----------------------
2024-01-10 09:00:00         101  2024-01-01  9999-12-31  new: CENTS 310000
2024-06-20 09:00:00.250000  101  2024-07-01  9999-12-31  CENTS: 310000 -> 325000
2024-08-01 00:00:00         101  2025-01-01  9999-12-31  gone: CENTS 325000
''')
        output, _ = self.tool('history', store, 'PAY', '--since', '2024-08-01', '--csv')
        self.assertEqual(output, 'recorded,ENO,valid_from,valid_to,change\n2024-08-01 00:00:00,101,'
                                 '2025-01-01,9999-12-31,gone: CENTS 325000\n')
        self.assertEqual(self.tool('history', store, 'PAY', '--key', 'cents=310000', '--key',
                                   'ENO=101')[0].count('\n'), 3 + 2)
        self.assertEqual(self.tool('history', store, 'PAY', '--key', 'ENO=1')[0][:14],
                         'PAY: 0 changes')
        for words, said in ((['NONE'], 'has no table NONE. Its tables are EMP, PAY.'),
                            (['PAY', '--key', 'PP=1'], 'PAY has no value column PP; its value'),
                            (['PAY', '--key', 'ENO'], '--key ENO: write NAME=VALUE'),
                            (['PAY', '--since', '2024'], "'2024' is no moment")):
            self.assertIn(said, self.refused('history', store, *words))

    def test_control_characters(self) -> None:
        store = self.made('pay.store', PAY.replace("'Ann'", "'=a\n\x1b'"))
        self.assertIn('new: NAME =a\\x0a\\x1b\n', self.tool('history', store, 'EMP')[0])
        self.assertIn(',"new: NAME =a\n\x1b"\n', self.tool('history', store, 'EMP', '--raw')[0])

    def test_random_stores(self) -> None:
        """The changes, done one after the other, give what the program answers as of a moment."""
        for seed in range(STORES):
            sample = Random(seed + 300)
            store = self.made(f'{seed}.store', sample.script)
            for table in sample.tables:
                with self.subTest(seed=seed, table=table.name):
                    self.of_table(store, table.name, table.columns(), table.key)

    def of_table(self, store: str, name: str, columns: list[str], key: int) -> None:
        output, _ = self.tool('history', store, name, '--raw')
        held: dict[tuple[str, ...], dict[int, bool]] = {}
        lines = list(records(output))[1:]
        moments = sorted({line[0] for line in lines})
        count = {moment: sum(line[0] == moment for line in lines) for moment in moments}
        for moment in moments:
            for line in lines:
                if line[0] == moment:
                    keys = tuple(line[1:key + 1])
                    days = held.setdefault(keys, {})
                    for day in days_of(line[key + 1:key + 3]):
                        days[day] = not line[-1].startswith('gone: ')
            asked = answered(store, f'VALIDTIME SELECT DISTINCT {", ".join(columns[:key])} FROM'
                                    f" {name} FOR SYSTEM_TIME AS OF TIMESTAMP '{moment}';\n")
            found = {(*row[2:2 + key], day) for row in asked if row[0] == 'row'
                     for day in days_of(row[2 + key:4 + key])}
            self.assertEqual({(*keys, day) for keys, days in held.items()
                              for day, is_held in days.items() if is_held}, found)
            self.assertGreater(count[moment], 0)


def days_of(period: list[str]) -> range:
    """The days of a period, counted from a first one."""
    start, end = ((datetime.date.fromisoformat(day) - FIRST_DAY).days for day in period)
    return range(start, end)


class Diff(StoreTests):

    def test_worked_example(self) -> None:
        old, new = self.made('old.store', PAY), self.made('new.store', DELETED)
        output, errors = self.tool('diff', old, new, status=1)
        self.assertEqual(output, '''-clock,2024-07-01 00:00:00
+clock,2024-08-01 00:00:00
-PAY,101,325000,2024-07-01,9999-12-31,2024-06-20 09:00:00.250000,9999-12-31 23:59:59.999999
+PAY,101,325000,2024-07-01,9999-12-31,2024-06-20 09:00:00.250000,2024-08-01 00:00:00
+PAY,101,325000,2024-07-01,2025-01-01,2024-08-01 00:00:00,9999-12-31 23:59:59.999999
''')
        self.assertEqual(errors, f'diff: PAY: 1 version in {old} alone, 2 in {new} alone\n')
        self.assertEqual(self.tool('diff', old, old), ('', ''))
        self.assertIn('cannot read', self.refused('diff', old, self.path('none')))

    def test_other_tables(self) -> None:
        old, new = self.made('old.store', PAY), self.path('new.store')
        self.tool('alter', old, '--to', new, '--drop', 'EMP.NAME', '--add', 'EMP.X', 'INTEGER', '0',
                  '--rename-table', 'PAY=P')
        output, errors = self.tool('diff', old, new, status=1)
        self.assertEqual(output.splitlines()[:4], [
            '-table,PAY', '+table,P', '-EMP: NAME VARCHAR(9)', '+EMP: X INTEGER'])
        self.assertEqual(output.count('\n-PAY,101,'), 3)
        self.assertEqual(output.count('\n+P,101,'), 3)
        self.assertEqual(output.count('\n'), 10)
        self.assertEqual(errors.splitlines(), [
            f'diff: PAY: 3 versions in {old} alone, 0 in {new} alone',
            f'diff: P: 0 versions in {old} alone, 3 in {new} alone'])


class Forget(StoreTests):

    def test_before(self) -> None:
        store, new = self.made('pay.store', DELETED), self.path('new.store')
        before = copied_away(store)
        journal = 'table,cause,versions,current\nEMP,before,1,0\nPAY,before,1,0\n'
        words = ('--before', '2024-06-20 09:00:00.25')
        self.assertEqual(self.tool('forget', store, '--dry-run', *words), (journal, ''))
        self.assertEqual(self.tool('forget', store, '--to', new, *words), (journal, ''))
        self.assertEqual(copied_away(store), before)
        for moment in ('2024-06-20 09:00:00.25', '2024-07-31 00:00:00', '2024-08-01 00:00:00'):
            asked = ''.join(f"SELECT * FROM {name} FOR SYSTEM_TIME AS OF TIMESTAMP '{moment}';"
                            for name in ('EMP', 'PAY'))
            self.assertEqual(answered(new, asked), answered(store, asked))
        asked = "SELECT * FROM PAY FOR SYSTEM_TIME AS OF TIMESTAMP '2024-06-20 09:00:00';"
        self.assertEqual((len(answered(new, asked)), len(answered(store, asked))), (2, 3))

    def test_keys(self) -> None:
        """A whole person goes: the rows of a key, those that refer to it, those that refer to
        these; and nothing of their bytes is in the new store."""
        store, new = self.made('pay.store', PAY + LOG), self.path('new.store')
        keys = self.files.write('keys.csv', 'EMP.ENO\n101\n7\n')
        output, _ = self.tool('forget', store, '--to', new, '--keys', keys)
        self.assertEqual(output, '''table,cause,versions,current
EMP,keys,2,1
PAY,keys,3,2
LOG,keys,2,2
''')
        self.assertEqual([record[2:5] for record in contents(new, ['EMP', 'PAY', 'LOG'])
                          if record[0] == 'version'],
                         [['102', 'Bob', '2024-01-01'], ['102', '200000', '2024-01-01'],
                          ['2', '102', '2024-01-01']])
        self.assertIn(b'Ann', copied_away(store))
        self.assertNotIn(b'Ann', copied_away(new))

    def test_several_files_and_columns(self) -> None:
        store, new = self.made('pay.store', PAY + LOG), self.path('new.store')
        some = self.files.write('some.csv', 'log.no,log.eno\r\n1,101\r\n2,101\r\n')
        others = self.files.write('others.csv', 'EMP.NAME\n"A, ""B"""\n')
        output, _ = self.tool('forget', store, '--to', new, '--keys', some, '--before',
                              '2024-06-20 09:00:00.25')
        self.assertEqual(output.splitlines()[1:], ['EMP,before,1,0', 'PAY,before,1,0',
                                                   'LOG,keys,1,1'])
        found = self.refused('forget', store, '--to', self.path('other'), '--keys', others,
                             status=1)
        self.assertRegex(found, '^forget: PAY: EMP has no row with ENO = 101 on 2024-01-01')

    def test_refusals(self) -> None:
        store = self.made('pay.store', PAY)
        for text, said in (('ENO\n1\n', 'the first line names columns of one table'),
                           ('EMP.ENO,PAY.ENO\n1,1\n', 'the first line names columns of one table'),
                           ('X.ENO\n1\n', 'has no table X'),
                           ('EMP.S\n2024-01-01\n', 'EMP has no value column S'),
                           ('EMP.ENO\nx\n', "record 2: ENO: 'x' is no whole number"),
                           ('EMP.ENO\n1,2\n', 'record 2: 2 cells for 1 column'),
                           ('EMP.ENO\n1"\n', 'is not CSV'), ('', 'is not CSV')):
            with self.subTest(text=text):
                keys = self.files.write('keys.csv', text)
                self.assertIn(said, self.refused('forget', store, '--dry-run', '--keys', keys))
        for words, said in (('', '--before MOMENT or --keys FILE says what goes'),
                            ('--before 2024-07-02', "is after the moment of the store's clock"),
                            ('--before now', "'now' is no moment")):
            self.assertIn(said, self.refused('forget', store, '--dry-run', *words.split()))
        self.assertIn('--to NEW.store names', self.refused('forget', store, '--before',
                                                           '2024-01-01'))

    def test_random_stores(self) -> None:
        """Whatever moment is named, what is seen as of it and of later ones is unchanged."""
        for seed in range(STORES):
            sample = Random(seed + 200)
            names = [table.name for table in sample.tables]
            store, new = self.made(f'{seed}.store', sample.script), self.path(f'{seed}.new')
            versions = [record for record in contents(store, names) if record[0] == 'version']
            moments = sorted({cell for record in versions for cell in record
                              if cell[10:11] == ' ' and cell < '9999'})
            if not moments:
                continue
            before = moments[len(moments) // 2]
            self.tool('forget', store, '--to', new, '--before', before)
            asked = ''.join(f"SELECT * FROM {name} FOR SYSTEM_TIME AS OF TIMESTAMP '{moment}';"
                            for name in names for moment in moments if moment >= before)
            self.assertEqual(answered(new, asked), answered(store, asked))
            left = [record for record in contents(new, names) if record[0] == 'version']
            self.assertEqual(len(left), sum(ended(record) > before for record in versions))


def ended(record: list[str]) -> str:
    """The later of the two moments of a version."""
    return max(cell for cell in record if cell[10:11] == ' ' and cell[13:14] == ':')


if __name__ == '__main__':
    support.run_cases()
