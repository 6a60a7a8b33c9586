#!/usr/bin/env python3
"""Tests alter: worked changes, random stores through changes and back, every refusal with a case,
runs that are killed or have no room, and a store of 300,000 versions."""
import os
import pathlib
import random
import resource
import signal
import sqlite3
import subprocess
import sys
import time
from unittest import mock

import support
from bitemporal_tools import alter
from bitemporal_tools.alteration import clock
from bitemporal_tools.command_line import Fault
from bitemporal_tools.stores import reading, spelling
from folders import ROOT
from store_samples import Random, StoreTests, answered, contents, copied_away, verified
from test_dump import PAY, texts

STORES = 20
TOOL = str(ROOT / 'tools/alter')
VERSIONS, SECONDS, KIBIBYTES = 300_000, 30, 400 * 1024
# Three tables: PAY refers to EMP, and DEP to none.
BOSS = PAY.replace('AT TIMESTAMP', support.create_table(
    'DEP', 'DNO INTEGER, BOSS INTEGER', 'DNO', 'DP') + ''';
AT TIMESTAMP''', 1) + '''INSERT INTO DEP VALUES (7, 101, DATE '2024-02-01', DATE '2024-03-01'),
 (8, 102, DATE '2024-02-01', DATE '2024-03-01'), (8, 101, DATE '2024-03-01', DATE '2024-04-01');
'''


# Changes at moments that have yet to come.
AHEAD = '''AT TIMESTAMP '2962-01-01 00:00:00';
UPDATE PAY SET CENTS = 1;
AT TIMESTAMP '2962-01-01 00:00:00.000001';
UPDATE EMP SET NAME = 'X';
DELETE FROM PAY FOR PORTION OF PP FROM DATE '2024-07-01' TO DATE '9999-12-31';
AT TIMESTAMP '2963-01-01 00:00:00';
'''


class Alter(StoreTests):

    def altered(self, store: str, *changes: str) -> dict[str, str]:
        """The dump of the store that these changes make."""
        number = len(self.files.names())
        new, folder = self.path(f'{number}.new'), self.path(f'{number}.dump')
        before = copied_away(store)
        self.tool('alter', store, '--to', new, *changes)
        self.assertEqual(copied_away(store), before)
        self.tool('dump', new, '--to', folder)
        return texts(folder)

    def test_columns(self) -> None:
        store = self.made('pay.store', PAY)
        found = self.altered(store, '--add', 'PAY.BONUS', 'integer', '-5', '--add', 'pay.since',
                             'date', '2024-02-29', '--add', 'PAY.NOTE', 'varchar(3)', "'é,",
                             '--rename', 'PAY.CENTS=AMOUNT', '--rename', 'PAY.PP=VALID',
                             '--rename', 'PAY.S=START_DAY', '--rename', 'EMP.ENO=PERSON',
                             '--widen', 'EMP.NAME=60', '--drop', 'PAY.SINCE')
        self.assertEqual(found['PAY.csv'].splitlines()[:2], [
            'ENO,AMOUNT,START_DAY,E,SS,SE,BONUS,NOTE', '101,310000,2024-01-01,9999-12-31,'
            '2024-01-10 09:00:00,2024-06-20 09:00:00.250000,-5,"\'é,"'])
        self.assertEqual(found['EMP.csv'].splitlines()[0], 'PERSON,NAME,S,E,SS,SE')
        self.assertIn(' NAME VARCHAR(60),\n', found['tables.sql'])
        self.assertIn(' PRIMARY KEY (ENO, VALID WITHOUT OVERLAPS),\n FOREIGN KEY (ENO, PERIOD'
                      ' VALID) REFERENCES EMP (PERSON, PERIOD EP)', found['tables.sql'])
        self.assertEqual(found['dump.csv'].splitlines()[1:-1],
                         ['clock,2024-07-01 00:00:00', 'table,1,EMP,EMP.csv,2',
                          'table,2,PAY,PAY.csv,3'])

    def test_a_clock_that_is_ahead(self) -> None:
        """Each moment after the time of this machine becomes one of the last up to it, in order;
        all else stays, and the program runs --now over what is made."""
        store, new = self.made('ahead.store', PAY + AHEAD), self.path('new.store')
        before = copied_away(store)
        dry = self.tool('alter', store, '--clock-now', '--dry-run')[0].splitlines()
        begun = time.time_ns() // 1000
        *moves, last = self.tool('alter', store, '--to', new, '--clock-now')[0].splitlines()
        ended = time.time_ns() // 1000
        ahead, became = zip(*(line.split(' becomes ') for line in moves))
        self.assertEqual((copied_away(store), last), (before, f'{new}: 2 tables, 8 versions'))
        self.assertEqual([line.split(' becomes ')[0] for line in dry],
                         [*ahead, 'EMP: 3 versions with the same values',
                          'PAY: 5 versions with the same values'])
        self.assertEqual(ahead, ('2962-01-01 00:00:00', '2962-01-01 00:00:00.000001',
                                 '2963-01-01 00:00:00'))
        moments = [spelling.moment_of(moment) or 0 for moment in became]
        self.assertEqual(moments, [*range(moments[0], moments[0] + 3)])
        self.assertTrue(begun <= moments[2] <= ended, became)
        dumps = [self.path('old'), self.path('new')]
        for one, folder in zip((store, new), dumps):
            self.tool('dump', one, '--to', folder)
        wanted, found = map(texts, dumps)
        for kept in (wanted, found):
            kept['dump.csv'] = kept['dump.csv'].partition('sum,')[0]
        for name, text in wanted.items():
            for moment, other in sorted(zip(ahead, became), reverse=True):
                text = text.replace(moment, other)
            wanted[name] = text
        self.assertEqual(found, wanted)
        for one, status in (store, 2), (new, 0):
            done = subprocess.run(['bitemporal_file', one, '--now'], input=b'DELETE FROM PAY;',
                                  executable=os.environ['BITEMPORAL'], capture_output=True,
                                  check=False)
            self.assertEqual((done.returncode, done.stdout, b'is ahead' in done.stderr),
                             ((2, b'', True), (0, b'done,1,delete,1\n', False))[status == 0])
        self.assertEqual(self.tool('alter', new, '--clock-now', '--to', self.path('no')),
                         (f'{new} has no moment after the time of this machine\n', ''))
        self.assertFalse(os.path.exists(self.path('no')))

    def test_moments_that_stay_before_those_that_are_moved(self) -> None:
        last = spelling.moment_of('2024-08-01 00:00:00') or 0
        store = self.made('ahead.store', PAY + "AT TIMESTAMP '2024-08-01 00:00:00';"
                          'UPDATE PAY SET CENTS = 2;' + AHEAD)
        with reading.opened(store) as opened:
            for passed, first in (0, 1), (2, 1), (3, 1), (4, 2), (10, 8):
                with mock.patch('time.time_ns', lambda now=last + passed: now * 1000 + 999):
                    self.assertEqual([moment - last for moment in clock.moves_of(opened).values()],
                                     [*range(first, first + 3)])

    def test_tables(self) -> None:
        store = self.made('boss.store', BOSS)
        self.assertEqual(list(self.altered(store, '--drop-table', 'PAY')),
                         ['DEP.csv', 'EMP.csv', 'dump.csv', 'tables.sql'])
        found = self.altered(store, '--drop-reference', 'PAY.ENO=EMP.ENO', '--drop-table', 'EMP',
                             '--rename-table', 'PAY=SALARY', '--rename-table', 'DEP=PAY')
        self.assertEqual(found['dump.csv'].splitlines()[2:-1],
                         ['table,1,SALARY,SALARY.csv,3', 'table,2,PAY,PAY.csv,3'])

    def test_a_reference_to_a_later_table(self) -> None:
        """The tables get other numbers, and each version stays in its table."""
        store = self.made('boss.store', BOSS)
        found = self.altered(store, '--add-reference', 'EMP.ENO=DEP.DNO', '--drop-reference',
                             'EMP.ENO=DEP.DNO', '--drop-reference', 'PAY.ENO=EMP.ENO',
                             '--key', 'EMP=NAME,ENO', '--key', 'EMP=ENO')
        self.assertEqual(found['dump.csv'].splitlines()[2:-1], [
            'table,1,EMP,EMP.csv,2', 'table,2,PAY,PAY.csv,3', 'table,3,DEP,DEP.csv,3'])
        script = BOSS.replace("(8, 102,", "(8, 101,").replace(
            "VALUES (101, 'Ann', DATE '2024-01-01', DATE '9999-12-31')",
            "VALUES (8, 'Ann', DATE '2024-02-01', DATE '2024-04-01')").replace(
            "VALUES (101, 310000, DATE '2024-01-01', DATE '9999-12-31')",
            "VALUES (8, 310000, DATE '2024-02-01', DATE '2024-04-01')")
        store = self.made('later.store', script)
        found = self.altered(store, '--add-reference', 'EMP.ENO=DEP.DNO')
        self.assertEqual(found['dump.csv'].splitlines()[2:-1], [
            'table,1,DEP,DEP.csv,3', 'table,2,EMP,EMP.csv,2', 'table,3,PAY,PAY.csv,1'])
        self.assertIn('FOREIGN KEY (ENO, PERIOD EP) REFERENCES DEP (DNO, PERIOD DP)',
                      found['tables.sql'])

    def test_scripts(self) -> None:
        store = self.made('boss.store', BOSS)
        script = self.files.write('changes.sql', '''-- The changes of a year.
ALTER TABLE PAY ADD COLUMN BONUS INTEGER DEFAULT -5 NOT NULL;
ALTER TABLE PAY ADD SINCE DATE DEFAULT DATE '2024-02-29';
ALTER TABLE PAY ADD NOTE CHARACTER VARYING (3) DEFAULT '''  "'a''b'" ''';
ALTER TABLE PAY DROP COLUMN SINCE RESTRICT; alter table pay drop cents;
ALTER TABLE EMP ALTER COLUMN NAME SET DATA TYPE VARCHAR(60);
ALTER TABLE PAY DROP FOREIGN KEY (ENO, PERIOD PP) REFERENCES EMP;
ALTER TABLE EMP ADD PRIMARY KEY (NAME, EP WITHOUT OVERLAPS);
ALTER TABLE EMP ADD PRIMARY KEY (ENO, EP WITHOUT OVERLAPS);
ALTER TABLE PAY ADD FOREIGN KEY (ENO, PERIOD PP) REFERENCES EMP (ENO, PERIOD EP);
ALTER TABLE EMP RENAME COLUMN ENO TO PERSON;
ALTER TABLE EMP RENAME TO STAFF;
DROP TABLE DEP CASCADE
''')
        found = self.altered(store, '--script', script)
        self.assertEqual(found, self.altered(
            store, '--add', 'PAY.BONUS', 'INTEGER', '-5', '--add', 'PAY.NOTE', 'VARCHAR(3)', "a'b",
            '--drop', 'PAY.CENTS', '--widen', 'EMP.NAME=60', '--rename', 'EMP.ENO=PERSON',
            '--rename-table', 'EMP=STAFF', '--drop-table', 'DEP'))
        cascade = self.files.write('cascade.sql', 'DROP TABLE EMP CASCADE')
        self.assertNotIn('FOREIGN', self.altered(store, '--script', cascade)['tables.sql'])

    def test_versions_that_become_equal(self) -> None:
        """Equal versions stay two, if they begin at two moments or meet."""
        store = self.made('pay.store', PAY)
        self.assertEqual(self.altered(store, '--drop', 'PAY.CENTS')['PAY.csv'], '''ENO,S,E,SS,SE
101,2024-01-01,9999-12-31,2024-01-10 09:00:00,2024-06-20 09:00:00.250000
101,2024-01-01,2024-07-01,2024-06-20 09:00:00.250000,9999-12-31 23:59:59.999999
101,2024-07-01,9999-12-31,2024-06-20 09:00:00.250000,9999-12-31 23:59:59.999999
''')

    def test_dry_run(self) -> None:
        store = self.made('boss.store', BOSS)
        before = self.files.names()
        output, _ = self.tool('alter', store, '--dry-run', '--widen', 'EMP.NAME=60', '--add',
                              'PAY.B', 'INTEGER', '0', '--drop-table', 'DEP')
        self.assertEqual(self.files.names(), before)
        self.assertIn('- NAME VARCHAR(9),\n+ NAME VARCHAR(60),\n', output)
        self.assertEqual(output.splitlines()[-3:], [
            'EMP: 2 versions with the same values', 'PAY: 3 versions with other values',
            'DEP goes, with 3 versions'])

    def test_columns_of_random_stores(self) -> None:
        """Without a column, and with a new one, the versions are as before."""
        for seed in range(STORES):
            sample = Random(seed + 400)
            store = self.made(f'{seed}.store', sample.script)
            for table in sample.tables:
                free = [place for place in range(table.key, len(table.kinds)) if not any(
                    first <= place < first + sample.tables[parent].key
                    for parent, first in table.parents)]
                changes = [word for place in free for word in ('--drop', f'{table.name}.C{place}')]
                new = self.path(f'{seed}.{table.name}')
                self.tool('alter', store, '--to', new, *changes, '--add', f'{table.name}.NEW',
                          'VARCHAR(3)', 'new')
                before, after = (contents(path, [table.name]) for path in (store, new))
                gone = [before[1].index(f'C{place}') for place in free]
                self.assertEqual(sorted(after[2:]), sorted(
                    [*(cell for place, cell in enumerate(record) if place not in gone), 'new']
                    for record in before[2:]))
                others = [other.name for other in sample.tables if other != table]
                self.assertEqual(contents(new, others), contents(store, others))

    def test_random_stores_and_back(self) -> None:
        for seed in range(STORES):
            with self.subTest(seed=seed):
                self.there_and_back(seed)

    def there_and_back(self, seed: int) -> None:
        sample, chosen = Random(seed + 100), random.Random(seed)
        names = [table.name for table in sample.tables]
        store = self.made(f'{seed}.store', sample.script)
        there, back = list[str](), list[str]()
        for table in sample.tables:
            changes = reversible(table.name, table.kinds)
            for place in sorted(chosen.sample(range(len(changes)), 2)):
                change, undone = changes[place]
                there += change
                back[:0] = undone
            for parent, first in table.parents:
                referred, own = sample.tables[parent], table.columns()
                word = f'{table.name}.{",".join(own[first:first + referred.key])}=' \
                       f'{referred.name}.{",".join(referred.columns()[:referred.key])}'
                there[:0] = ['--drop-reference', word]
                back += ['--add-reference', word]
        other, again = self.path(f'{seed}.there'), self.path(f'{seed}.back')
        self.tool('alter', store, '--to', other, *there)
        self.tool('alter', other, '--to', again, *back)
        self.assertEqual(contents(again, names), contents(store, names))
        self.assertEqual(verified(again), verified(store))
        self.assertEqual(self.tool('diff', store, again), ('', ''))


def reversible(table: str, kinds: list[str]) -> list[tuple[list[str], list[str]]]:
    """Changes with those that undo them. A later one may follow an earlier one."""
    other_name = ['--rename-table', f'{table}=X{table}', '--rename-table', f'X{table}={table}']
    found = [
        (other_name, other_name),
        (['--add', f'{table}.NEW', 'VARCHAR(3)', 'x'], ['--drop', f'{table}.NEW']),
        (['--rename', f'{table}.C0=D'], ['--rename', f'{table}.D=C0']),
        (['--rename', f'{table}.P=EP', '--rename', f'{table}.S=P'],
         ['--rename', f'{table}.P=S', '--rename', f'{table}.EP=P'])]
    if 'VARCHAR' in kinds:
        as_wide = ['--widen', f'{table}.C{kinds.index("VARCHAR")}=9']
        found.insert(0, (as_wide, as_wide))
    return found


class Refusals(StoreTests):

    def test_changes(self) -> None:
        """Each change that these tables cannot take, with what is said of it."""
        store, new = self.made('boss.store', BOSS), self.path('new.store')
        self.made('new.sql', '')
        for words, said in (
                ('--add PAY.ENO INTEGER 0', 'PAY has a column or a period ENO already'),
                ('--add PAY.PP INTEGER 0', 'PAY has a column or a period PP already'),
                ('--add NONE.X INTEGER 0', 'no table NONE; the tables are EMP, PAY, DEP'),
                ('--add X INTEGER 0', "'X' is not of the form TABLE.COLUMN"),
                ('--add PAY.X TIMESTAMP 0', 'TIMESTAMP is no type of a new column'),
                ('--add PAY.X INTEGER 1.5', "'1.5' is no whole number of 64 bits"),
                ('--add PAY.X INTEGER 9223372036854775808', 'is no whole number of 64 bits'),
                ('--add PAY.X DATE 2024-02-30', "'2024-02-30' is no date YYYY-MM-DD"),
                ('--add PAY.X VARCHAR(2) abc', "PAY.X: 'abc' has 3 characters, and VARCHAR(2)"),
                ('--add PAY.ROW INTEGER 0', 'ROW is a reserved word and no name'),
                ('--add PAY.1X INTEGER 0', "'1X' is no name"),
                ('--drop PAY.X', 'PAY has no column X; its columns are ENO, CENTS, S, E, SS, SE'),
                ('--drop PAY.ENO', 'PAY.ENO is in the key: give the table another key first'),
                ('--drop PAY.S', 'PAY.S is a column of the period PP'),
                ('--drop PAY.SS', 'PAY.SS is a system column'),
                ('--key PAY=CENTS --drop PAY.ENO', 'PAY.ENO is in the reference ENO=EMP.ENO'),
                ('--rename PAY.X=Y', 'PAY has no column X'),
                ('--rename PAY.ENO=CENTS', 'PAY has a column or a period CENTS already'),
                ('--rename PAY.ENO=SELECT', 'SELECT is a reserved word and no name'),
                ('--rename PAY.ENO', "'PAY.ENO' is not of the form TABLE.COLUMN=NEW"),
                ('--rename-table X=Y', 'there is no table X'),
                ('--rename-table EMP=PAY', 'there is a table PAY already'),
                ('--widen EMP.NAME=8', 'EMP.NAME is VARCHAR(9): it can be made wider'),
                ('--widen EMP.ENO=8', 'EMP.ENO is INTEGER, and texts alone have a length'),
                ('--widen EMP.NAME=x', "'X' is no length"),
                ('--drop-table X', 'there is no table X'),
                ('--drop-table EMP', 'PAY refers to EMP by PAY.ENO=EMP.ENO: drop the reference'),
                ('--add-reference PAY.ENO=EMP.ENO', 'PAY has the reference ENO=EMP.ENO already'),
                ('--add-reference PAY.ENO=EMP.NAME', 'the key of EMP is ENO: a reference names'),
                ('--add-reference PAY.ENO,CENTS=EMP.ENO', 'does not pair columns'),
                ('--add-reference PAY.S=EMP.ENO', 'PAY.S is a column of the period PP'),
                ('--add-reference EMP.ENO=EMP.ENO', 'EMP cannot refer to itself'),
                ('--add-reference EMP.ENO=PAY.ENO', 'the references go round: EMP refers to PAY'),
                ('--add-reference EMP.ENO', 'is not of the form TABLE.COLUMN,..=PARENT.COLUMN'),
                ('--drop-reference EMP.ENO=DEP.DNO', 'EMP has no reference ENO=DEP.DNO; its ref'),
                ('--key EMP=NAME', 'PAY refers to the key of EMP by PAY.ENO=EMP.ENO'),
                ('--key PAY=ENO,ENO', 'PAY: a column is in the key twice'),
                ('--key PAY=SE', 'PAY.SE is a system column'),
                ('', 'no change is named')):
            with self.subTest(words=words):
                found = self.refused('alter', store, '--to', new, *words.split())
                self.assertEqual((found[:7], found.count('\n')), ('alter: ', 1))
                self.assertIn(said, found)

    def test_a_text_that_is_not_utf_8(self) -> None:
        store = self.made('boss.store', BOSS)
        self.assertIn("'\\udcff' is not UTF-8", self.refused(
            'alter', store, '--to', self.path('n'), '--add', 'PAY.X', 'VARCHAR(3)', '\udcff'))

    def test_scripts(self) -> None:
        store = self.made('boss.store', BOSS)
        for text, said in (
                ('ALTER TABLE PAY ADD X INTEGER', 'changes.sql:1:30: no ALTER TABLE or DROP TABLE'
                                                  ' goes on so; DEFAULT is expected'),
                ('SELECT', '1:1: no ALTER TABLE or DROP TABLE goes on so; ALTER or DROP is'),
                ('ALTER TABLE PAY ADD X INTEGER DEFAULT 9223372036854775808', '1:39: The number'),
                ("ALTER TABLE PAY ADD X DATE DEFAULT '2024-01-01'", 'PAY.X is DATE, and its value'),
                ('ALTER TABLE PAY ADD X TIMESTAMP DEFAULT 1', 'two system columns are TIMESTAMPs'),
                ('ALTER TABLE PAY ALTER ENO SET DATA TYPE DATE', 'and no type changes'),
                ('ALTER TABLE PAY DROP X;DROP', '1:28: no ALTER TABLE'),
                ('ALTER TABLE PAY DROP "X"', '3 BadToken 21')):
            with self.subTest(text=text):
                script = self.files.write('changes.sql', text)
                found = self.refused('alter', store, '--dry-run', '--script', script)
                self.assertIn(said, found)

    def test_definitions_that_the_program_refuses(self) -> None:
        store, new = self.made('boss.store', BOSS), self.path('new.store')
        columns = [word for number in range(27) for word in (
            '--add', f'PAY.N{number}', 'INTEGER', '0')]
        references = [word for number in range(8) for word in (
            '--add', f'DEP.N{number}', 'INTEGER', '0', '--add-reference',
            f'DEP.N{number}=EMP.ENO')]
        for words, said in (
                (columns, 'PAY: 21 LimitReached: These would be 33 columns of a table'),
                ([*references, '--add-reference', 'DEP.DNO=EMP.ENO'],
                 'DEP: 21 LimitReached: These would be 9 references of a table'),
                (['--widen', 'EMP.NAME=1001'], 'EMP: 28 BadDefinition: NAME is VARCHAR(1001): n is'
                                               ' from 1 to 1000.'),
                (['--add', 'EMP.X', 'VARCHAR(0)', ''], 'EMP: 28 BadDefinition'),
                (['--add', 'DEP.X', 'DATE', '2024-01-01', '--add-reference', 'DEP.X=EMP.ENO'],
                 'DEP: 30 TypeMismatch: X is DATE, and ENO of EMP is INTEGER.')):
            with self.subTest(said=said):
                self.assertIn(said, self.refused('alter', store, '--to', new, *words, status=1))

    def test_rows_that_break_a_key(self) -> None:
        store = self.made('boss.store', BOSS + "INSERT INTO DEP VALUES (9, 101, DATE '2024-02-20',"
                                               " DATE '2024-03-05');")
        found = self.refused('alter', store, '--to', self.path('n'), '--key', 'DEP=BOSS', status=1)
        self.assertEqual(found, '''alter: DEP: two rows of the key BOSS = 101 hold on 2024-02-20:
  DNO 9, BOSS 101 from 2024-02-20 to 2024-03-05, recorded at 2024-07-01 00:00:00
  DNO 7, BOSS 101 from 2024-02-01 to 2024-03-01, recorded at 2024-07-01 00:00:00
''')

    def test_many_rows_that_break_a_key(self) -> None:
        """Five of them are reported, and how many more there are."""
        rows = ', '.join(f"({number}, 101, DATE '2025-01-01', DATE '2025-01-02')"
                         for number in range(20, 31))
        store = self.made('boss.store', f'{BOSS}INSERT INTO DEP VALUES {rows};')
        found = self.refused('alter', store, '--to', self.path('n'), '--key', 'DEP=BOSS', status=1)
        self.assertEqual(found.count('two rows of the key BOSS = 101 hold on 2025-01-01:'), 5)
        self.assertEqual(found.splitlines()[-1], 'And 5 rows of DEP more.')

    def test_rows_without_a_parent(self) -> None:
        store = self.made('boss.store', BOSS)
        for words in (['--add-reference', 'DEP.BOSS=EMP.ENO'], ['--add', 'DEP.X', 'INTEGER', '101',
                      '--add-reference', 'DEP.X=EMP.ENO', '--add-reference', 'DEP.BOSS=EMP.ENO']):
            found = self.refused('alter', store, '--to', self.path('n'), *words, status=1)
            self.assertRegex(found, '^alter: DEP: EMP has no row with ENO = 102 on 2024-02-01, and'
                                    ' a row refers to it:\n  DNO 8, BOSS 102.* from 2024-02-01 to'
                                    ' 2024-03-01, recorded at 2024-07-01 00:00:00\n$')

    def test_versions_that_become_one(self) -> None:
        script = BOSS.replace("(8, 102,", "(9, 101,").replace("(8, 101,", "(9, 102,")
        store = self.made('boss.store', script)
        found = self.refused('alter', store, '--to', self.path('n'), '--key', 'DEP=BOSS', '--drop',
                             'DEP.DNO', status=1)
        self.assertEqual(found, 'alter: DEP: two versions would have the same values, first day and'
                                ' moment:\n  BOSS 101 from 2024-02-01 to 2024-03-01, recorded at'
                                ' 2024-07-01 00:00:00\n')

    def test_places(self) -> None:
        store, there = self.made('pay.store', PAY), self.files.write('there', 'kept')
        change = ['--widen', 'EMP.NAME=10']
        for words, said in ((('--to', there), 'there is there already'),
                            (('--to', self.path('no/n')), 'cannot write'),
                            ((), '--to NEW.store names')):
            self.assertIn(said, self.refused('alter', store, *words, *change))
        self.assertEqual(self.files.read('there'), 'kept')
        self.files.write('new.store-wal', '')
        self.assertIn('new.store-wal is there already', self.refused(
            'alter', store, '--to', self.path('new.store'), *change))


class Stores(StoreTests):
    """Logs, locks, forms, disks."""

    change = ('--add', 'EMP.X', 'INTEGER', '0')

    def open_session(self, store: str, script: str) -> subprocess.Popen[bytes]:
        """A program that has a store open and has run a script."""
        session = subprocess.Popen(['bitemporal_file', store], executable=os.environ['BITEMPORAL'],
                                   stdin=subprocess.PIPE, stdout=subprocess.PIPE)
        assert session.stdin and session.stdout
        session.stdin.write(script.encode('utf-8'))
        session.stdin.flush()
        for _ in range(script.count(';')):
            session.stdout.readline()
        return session

    def test_a_store_in_use(self) -> None:
        store = self.made('pay.store', PAY)
        with self.open_session(store, "AT TIMESTAMP '2025-01-01 00:00:00';") as session:
            for words in (('dump', store, '--to', self.path('d')), ('history', store, 'EMP'),
                          ('alter', store, '--to', self.path('n'), *self.change)):
                self.assertIn(f'another program has {store} open', self.refused(*words))
            session.kill()
            session.communicate()

    def test_a_log_is_taken_in(self) -> None:
        store = self.made('pay.store', PAY)
        with self.open_session(store, "AT TIMESTAMP '2025-01-01 00:00:00'; DELETE FROM PAY;") \
                as session:
            session.kill()
            session.communicate()
        log = pathlib.Path(f'{store}-wal')
        self.assertGreater(log.stat().st_size, 1000)
        before = copied_away(store), log.read_bytes(), self.files.names()
        self.tool('dump', store, '--to', self.path('d'))
        self.tool('alter', store, '--to', self.path('n'), *self.change)
        found = texts(self.path('d'))
        self.assertEqual(found['PAY.csv'].count('2025-01-01 00:00:00\n'), 2)
        self.assertIn('clock,2025-01-01 00:00:00', found['dump.csv'])
        self.assertEqual((copied_away(store), log.read_bytes(), self.files.names()),
                         (*before[:2], sorted([*before[2], 'd', 'n'])))
        self.assertEqual(len(contents(self.path('n'), ['EMP', 'PAY'])), 2 + 2 + 2 + 3)
        log.write_bytes(log.read_bytes()[:-4000])
        pathlib.Path(store).write_bytes(b'SQLite format 3\0' + bytes(4080))
        self.assertRegex(self.refused('dump', store, '--to', self.path('e')),
                         'with .*-wal beside it is refused: 60 BadStore')

    def test_a_store_of_form_1(self) -> None:
        """The moments are read as the moments of the store that the program makes of this one."""
        store = self.made('pay.store', PAY.replace('00.25', '00'))
        connection = sqlite3.connect(store)
        connection.executescript('''UPDATE bt_meta SET form = 1, clock = clock / 1000000;
            UPDATE bt_version SET ss = ss / 1000000, se = se / 1000000''')
        connection.close()
        before = copied_away(store)
        self.tool('dump', store, '--to', self.path('d'))
        self.tool('alter', store, '--to', self.path('n'), '--widen', 'EMP.NAME=9')
        self.assertEqual(copied_away(store), before)
        self.assertEqual(contents(self.path('n'), ['EMP', 'PAY']),
                         contents(self.made('other', PAY.replace('00.25', '00')), ['EMP', 'PAY']))
        answered(store, '')
        self.tool('dump', store, '--to', self.path('e'))
        self.assertEqual(texts(self.path('d')), texts(self.path('e')))

    def test_a_form_that_is_not_known(self) -> None:
        store = self.made('pay.store', PAY)
        connection = sqlite3.connect(store)
        connection.executescript('UPDATE bt_meta SET form = 3')
        connection.close()
        self.assertIn('is a store of form 3, and forms 1 and 2 are known',
                      self.refused('alter', store, '--to', self.path('n'), *self.change))

    def test_what_others_keep(self) -> None:
        """Tables, views and columns of other programs are no hindrance, and are not taken over."""
        store = self.made('pay.store', PAY)
        wanted = contents(store, ['EMP', 'PAY'])
        connection = sqlite3.connect(store)
        connection.executescript('''CREATE TABLE mine (x); CREATE VIEW seen AS SELECT * FROM mine;
            ALTER TABLE bt_version ADD COLUMN note TEXT;
            CREATE INDEX by_end ON bt_version (e)''')
        connection.close()
        self.tool('alter', store, '--to', self.path('n'), '--rename-table', 'EMP=E',
                  '--rename-table', 'E=EMP')
        self.assertEqual(contents(self.path('n'), ['EMP', 'PAY']), wanted)
        connection = sqlite3.connect(self.path('n'))
        self.assertEqual(connection.execute(
            "SELECT name FROM sqlite_master WHERE sql > '' ORDER BY name").fetchall(),
            [('bt_meta',), ('bt_table',), ('bt_version',)])
        connection.close()

    def test_a_file_system_without_second_names(self) -> None:
        store = self.made('pay.store', PAY)
        with mock.patch('os.link', side_effect=PermissionError(1, 'not permitted')), \
                mock.patch('bitemporal_tools.alter.write_output'):
            alter.main([store, '--to', self.path('n'), *self.change])
        self.assertEqual(len(contents(self.path('n'), ['EMP'])), 2 + 2)
        with mock.patch('os.link', side_effect=FileExistsError(17, 'there')):
            with self.assertRaisesRegex(Fault, 'is there already'):
                alter.main([store, '--to', self.path('m'), *self.change])
        self.assertFalse(os.path.exists(self.path('m')))

    def test_rights(self) -> None:
        store = self.made('pay.store', PAY)
        os.chmod(store, 0o640)
        self.tool('alter', store, '--to', self.path('n'), *self.change)
        self.assertEqual(os.stat(self.path('n')).st_mode & 0o777, 0o640)

    def test_a_full_disk(self) -> None:
        store = many_rows(self.path('many.store'), 5000)
        before = copied_away(store)

        def limited() -> None:
            resource.setrlimit(resource.RLIMIT_FSIZE, (100_000, 100_000))
        done = subprocess.run([TOOL, store, '--to', self.path('n'), *self.change], check=False,
                              preexec_fn=limited, stderr=subprocess.PIPE)
        self.assertEqual((done.returncode, self.files.names()), (2, ['many.store']))
        self.assertIn(f'alter: cannot write {self.path("n")}: ', done.stderr.decode('utf-8'))
        self.assertEqual(copied_away(store), before)

    def test_killed(self) -> None:
        """A run that is killed leaves no new store, or the whole one."""
        store = many_rows(self.path('many.store'), 20000)
        before, chosen = copied_away(store), random.Random(1)
        kept = 0
        for number in range(8):
            new = self.path(f'{number}.new')
            with subprocess.Popen([TOOL, store, '--to', new, *self.change],
                                  stdout=subprocess.DEVNULL, start_new_session=True) as run:
                time.sleep(chosen.random() * 2)
                os.killpg(run.pid, signal.SIGKILL)
            if os.path.exists(new):
                kept += 1
                self.assertEqual(len(contents(new, ['EMP'])), 20000 + 2)
        self.assertEqual(copied_away(store), before)
        self.assertLess(kept, 8)
        self.tool('alter', store, '--to', self.path('last.new'), *self.change)

    def test_many_versions(self) -> None:
        store = many_rows(self.path('many.store'), VERSIONS)
        for words in (['alter', store, '--to', self.path('n'), *self.change, '--drop', 'EMP.NAME'],
                      ['dump', store, '--to', self.path('d')],
                      ['restore', self.path('d'), '--to', self.path('r')]):
            with self.subTest(words=words[0]):
                with subprocess.Popen([str(ROOT / 'tools' / words[0]), *words[1:]],
                                      stdout=subprocess.DEVNULL) as run:
                    _, status, used = os.wait4(run.pid, 0)
                    run.returncode = status
                self.assertEqual(status, 0)
                print(f'{words[0]} of {VERSIONS:,} versions: {used.ru_utime + used.ru_stime:.1f} s'
                      f' of a processor, {used.ru_maxrss // 1024} MB', file=sys.stderr)
                self.assertLess(used.ru_utime + used.ru_stime, SECONDS)
                self.assertLess(used.ru_maxrss, KIBIBYTES)


def many_rows(path: str, count: int) -> str:
    """A store of so many versions, two thirds of which have ended."""
    answered(path, PAY.partition('CREATE TABLE PAY')[0] + "AT TIMESTAMP '2024-01-01 00:00:00';")
    connection, clock = sqlite3.connect(path), spelling.moment_of('2024-01-01 00:00:00') or 0
    connection.executemany('INSERT INTO bt_version VALUES (1, ?, 19000, 20000, ?, ?)', (
        (spelling.bytes_of([number, f'name {number % 9}']), clock - 100 + number % 50,
         spelling.FOREVER if number % 3 == 0 else clock - 1) for number in range(count)))
    connection.commit()
    connection.execute('PRAGMA wal_checkpoint(TRUNCATE)')
    connection.close()
    return path


if __name__ == '__main__':
    support.run_cases()
