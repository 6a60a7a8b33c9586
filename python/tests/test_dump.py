#!/usr/bin/env python3
"""Tests dump and restore, and what reads and writes stores for them: random values and stores there
and back, scripts that make a history again, dumps that are damaged."""
import datetime
import pathlib
import random
import shutil
import sqlite3
import unittest

import support
from bitemporal_tools.stores import reading, spelling, tables
from store_samples import VALUES, Random, StoreTests, answered, contents, copied_away, verified

STORES = 25
PAY = support.create_table('EMP', 'ENO INTEGER, NAME VARCHAR(9)', 'ENO', 'EP') + ''';
''' + support.create_table(
    'PAY', 'ENO INTEGER, CENTS INTEGER', 'ENO', 'PP',
    'FOREIGN KEY (ENO, PERIOD PP) REFERENCES EMP (ENO, PERIOD EP)') + ''';
AT TIMESTAMP '2024-01-10 09:00:00';
INSERT INTO EMP VALUES (101, 'Ann', DATE '2024-01-01', DATE '9999-12-31');
INSERT INTO PAY VALUES (101, 310000, DATE '2024-01-01', DATE '9999-12-31');
AT TIMESTAMP '2024-06-20 09:00:00.25';
UPDATE PAY FOR PORTION OF PP FROM DATE '2024-07-01' TO DATE '9999-12-31' SET CENTS = 325000;
UPDATE EMP SET NAME = 'A, "B"';
AT TIMESTAMP '2024-07-01 00:00:00';
'''
# Changes, and the same as a script of the history has them.
CHANGES = PAY + '''AT TIMESTAMP '2024-08-01 00:00:00';
UPDATE EMP FOR PORTION OF EP FROM DATE '2024-03-01' TO DATE '2024-04-01' SET NAME = 'X';
INSERT INTO EMP VALUES (102, 'Bob', DATE '2024-01-01', DATE '2024-12-31');
INSERT INTO PAY VALUES (102, 200000, DATE '2024-01-01', DATE '2024-12-31');
DELETE FROM PAY FOR PORTION OF PP FROM DATE '2025-01-01' TO DATE '9999-12-31';
DELETE FROM EMP FOR PORTION OF EP FROM DATE '2025-01-01' TO DATE '9999-12-31';
AT TIMESTAMP '2024-09-01 00:00:00';
UPDATE EMP SET NAME = 'Bob' WHERE ENO = 102;
UPDATE PAY FOR PORTION OF PP FROM DATE '2024-03-01' TO DATE '2024-04-01' SET CENTS = 1
 WHERE ENO = 101;
DELETE FROM PAY WHERE ENO = 102;
INSERT INTO PAY VALUES (102, 200000, DATE '2024-01-01', DATE '2024-06-01'),
 (102, 200000, DATE '2024-06-01', DATE '2024-12-31');
'''
CHANGES_IN_TURN = '''AT TIMESTAMP '2024-08-01 00:00:00';
INSERT INTO EMP VALUES
 (102, 'Bob', DATE '2024-01-01', DATE '2024-12-31');
INSERT INTO PAY VALUES
 (102, 200000, DATE '2024-01-01', DATE '2024-12-31');
UPDATE EMP FOR PORTION OF EP FROM DATE '2024-03-01' TO DATE '2024-04-01'
 SET NAME = 'X' WHERE ENO = 101;
DELETE FROM PAY FOR PORTION OF PP FROM DATE '2025-01-01' TO DATE '9999-12-31'
 WHERE ENO = 101;
DELETE FROM EMP FOR PORTION OF EP FROM DATE '2025-01-01' TO DATE '9999-12-31'
 WHERE ENO = 101;
AT TIMESTAMP '2024-09-01 00:00:00';
DELETE FROM PAY FOR PORTION OF PP FROM DATE '2024-01-01' TO DATE '2024-12-31'
 WHERE ENO = 102;
INSERT INTO PAY VALUES
 (102, 200000, DATE '2024-01-01', DATE '2024-06-01'),
 (102, 200000, DATE '2024-06-01', DATE '2024-12-31');
UPDATE EMP FOR PORTION OF EP FROM DATE '2024-01-01' TO DATE '2024-12-31'
 SET NAME = 'Bob' WHERE ENO = 102;
UPDATE PAY FOR PORTION OF PP FROM DATE '2024-03-01' TO DATE '2024-04-01'
 SET CENTS = 1 WHERE ENO = 101;
'''
PAY_FILES = {
    'dump.csv': '''bitemporal dump,2
clock,2024-07-01 00:00:00
table,1,EMP,EMP.csv,2
table,2,PAY,PAY.csv,3
sum,0a6d178c5f0f2b2edaf3d77ec0c937e0
''',
    'EMP.csv': '''ENO,NAME,S,E,SS,SE
101,"A, ""B""",2024-01-01,9999-12-31,2024-06-20 09:00:00.250000,9999-12-31 23:59:59.999999
101,Ann,2024-01-01,9999-12-31,2024-01-10 09:00:00,2024-06-20 09:00:00.250000
''',
    'PAY.csv': '''ENO,CENTS,S,E,SS,SE
101,310000,2024-01-01,9999-12-31,2024-01-10 09:00:00,2024-06-20 09:00:00.250000
101,310000,2024-01-01,2024-07-01,2024-06-20 09:00:00.250000,9999-12-31 23:59:59.999999
101,325000,2024-07-01,9999-12-31,2024-06-20 09:00:00.250000,9999-12-31 23:59:59.999999
'''}


def texts(folder: str) -> dict[str, str]:
    return {path.name: path.read_bytes().decode('utf-8')
            for path in sorted(pathlib.Path(folder).iterdir())}


class Spelling(unittest.TestCase):
    """docs/PROFILE.md section 11."""

    def test_examples(self) -> None:
        examples: list[tuple[list[spelling.Value], str]] = [
            ([22217, 3], '0180000000000056c9018000000000000003'),
            (['a', datetime.date(1970, 1, 1)], '0261000003000af93a'), ([''], '020000')]
        for values, spelled in examples:
            self.assertEqual(spelling.bytes_of(values).hex(), spelled)

    def test_random_lists(self) -> None:
        chosen, found = random.Random(1), list[tuple[bytes, list[spelling.Value]]]()
        for _ in range(2000):
            values = [chosen.choice(kind) for kind in chosen.choices(list(VALUES.values()), k=4)]
            data = spelling.bytes_of(values)
            self.assertEqual(spelling.values_of(data), values)
            self.assertEqual(b''.join(spelling.parts_of(data)), data)
            found.append((data, values))
        for kind in (int, str):
            same = [(data, values) for data, values in found if isinstance(values[0], kind)]
            first = [str(values[0]).encode() if kind is str else values[0]
                     for _, values in sorted(same, key=lambda pair: pair[0])]
            self.assertEqual(first, sorted(first))

    def test_bytes_of_nothing(self) -> None:
        for data in (b'\0', b'\1', b'\2', b'\2a', b'\2a\0', b'\2a\0\1', b'\3\0\0\0', b'\4',
                     b'\2\xff\0\0', b'\3\xff\xff\xff\xff'):
            with self.assertRaises(spelling.BadBytes, msg=str(data)):
                spelling.values_of(data)

    def test_moments(self) -> None:
        for number, text in ((spelling.FIRST_MOMENT, '0001-01-01 00:00:00'),
                             (0, '1970-01-01 00:00:00'),
                             (spelling.FOREVER, '9999-12-31 23:59:59.999999'),
                             (-1, '1969-12-31 23:59:59.999999'),
                             (1718874000250000, '2024-06-20 09:00:00.250000')):
            self.assertEqual(spelling.moment_text(number), text)
            self.assertEqual(spelling.moment_of(text), number)
        for text in ('2024-02-30 00:00:00', '2024-01-01', '2024-01-01 24:00:00',
                     '2024-01-01 00:00:00.'):
            self.assertIsNone(spelling.moment_of(text))


class Dump(StoreTests):

    def test_worked_example(self) -> None:
        store = self.made('pay.store', PAY)
        before = copied_away(store)
        self.tool('dump', store, '--to', self.path('d'))
        found = texts(self.path('d'))
        script = found.pop('tables.sql')
        self.assertEqual(found, PAY_FILES)
        self.assertEqual([record[:3] for record in answered(self.path('other'), script)],
                         [['done', '1', 'create'], ['done', '2', 'create']])
        self.assertEqual(copied_away(store), before)
        self.assertEqual(self.tool('restore', self.path('d'), '--to', self.path('new.store'))[0],
                         f'{self.path("new.store")}: 2 tables, 5 versions\n')
        self.assertEqual(contents(self.path('new.store'), ['EMP', 'PAY']),
                         contents(store, ['EMP', 'PAY']))
        self.assertIn(verified(store).decode().splitlines()[-1], found['dump.csv'].splitlines())
        refused = answered(self.path('new.store'), "AT TIMESTAMP '2024-06-30 23:59:59.999999';")
        self.assertEqual(refused, [['refused', '1', '40', 'MomentBack', '']])

    def test_random_stores(self) -> None:
        for seed in range(STORES):
            with self.subTest(seed=seed):
                self.of_random_store(seed)

    def of_random_store(self, seed: int) -> None:
        sample = Random(seed)
        names = [table.name for table in sample.tables]
        store, folder = self.made(f'{seed}.store', sample.script), self.path(f'd{seed}')
        made, wanted = self.path(f'{seed}.new'), contents(store, names)
        self.tool('dump', store, '--to', folder)
        self.assertEqual([line for name in names for line in dumped(folder, name)],
                         [record[2:] for record in wanted if record[0] in ('columns', 'version')])
        self.tool('restore', folder, '--to', made)
        self.assertEqual(contents(made, names), wanted)
        self.assertEqual(verified(made), verified(store))
        self.assertEqual(self.tool('diff', store, made), ('', ''))
        self.tool('dump', made, '--to', f'{folder}.again')
        self.assertEqual(texts(folder), texts(f'{folder}.again'))
        self.script_of(store, names, self.path(f'{seed}.sql'), self.path(f'{seed}.ran'))

    def script_of(self, store: str, names: list[str], script: str, ran: str) -> None:
        """A script of the history, run over an empty store, leaves the same answers as of each
        moment, and the very versions if it says so."""
        _, said = self.tool('dump', store, '--script', '--to', script)
        text = pathlib.Path(script).read_bytes().decode('utf-8')
        self.assertNotIn('refused', [record[0] for record in answered(ran, text)])
        with reading.opened(store) as opened:
            moments = sorted({moment for number in range(1, len(names) + 1)
                              for version in opened.versions(number)
                              for moment in (version.since, version.until)})[:-1]
            questions = ''.join(question(table, moment) for table in opened.tables
                                for moment in map(spelling.moment_text, moments))
        self.assertEqual(answered(store, questions), answered(ran, questions))
        self.assertEqual(contents(store, names) == contents(ran, names),
                         'the very versions' in said, said)

    def test_script_of_an_example(self) -> None:
        store = self.made('pay.store', PAY)
        output, said = self.tool('dump', store, '--script')
        self.assertEqual(said, 'dump: the script makes the very versions of the store\n')
        changes = output[output.index('AT TIMESTAMP'):]
        self.assertEqual(changes, '''AT TIMESTAMP '2024-01-10 09:00:00';
INSERT INTO EMP VALUES
 (101, 'Ann', DATE '2024-01-01', DATE '9999-12-31');
INSERT INTO PAY VALUES
 (101, 310000, DATE '2024-01-01', DATE '9999-12-31');
AT TIMESTAMP '2024-06-20 09:00:00.250000';
UPDATE EMP FOR PORTION OF EP FROM DATE '2024-01-01' TO DATE '9999-12-31'
 SET NAME = 'A, "B"' WHERE ENO = 101;
UPDATE PAY FOR PORTION OF PP FROM DATE '2024-07-01' TO DATE '9999-12-31'
 SET CENTS = 325000 WHERE ENO = 101;
AT TIMESTAMP '2024-07-01 00:00:00';
''')

    def test_script_of_many_changes_at_a_moment(self) -> None:
        """Rows come before those that refer to them and go after them; values change in between; a
        row that is touched and keeps its values is written, and rows that are cut anew are too."""
        store = self.made('pay.store', CHANGES)
        output, said = self.tool('dump', store, '--script')
        self.assertEqual(said, 'dump: the script makes the very versions of the store\n')
        self.assertEqual(output[output.index("AT TIMESTAMP '2024-08-01"):],
                         CHANGES_IN_TURN)

    def test_script_that_cuts_otherwise(self) -> None:
        """Two rows of a parent become one, under a row that refers to both: no statements do it."""
        days = "DATE '2024-01-01', DATE '2024-02-01'), (101, 'Ann', DATE '2024-02-01',"
        script = PAY.replace("'Ann', DATE '2024-01-01',", f"'Ann', {days}", 1)
        self.dumped_without_sum(script)
        path = pathlib.Path(self.path('d'), 'EMP.csv')
        lines = path.read_text('utf-8').splitlines(keepends=True)
        path.write_text(lines[0] + lines[1].replace('2024-02-01', '9999-12-31')
                        + ''.join(lines[3:]), 'utf-8')
        self.assertIn('9999-12-31,2024-06-20', path.read_text('utf-8'))
        self.change('dump.csv', 'EMP.csv,4', 'EMP.csv,3')
        self.tool('restore', self.path('d'), '--to', self.path('joined.store'))
        _, said = self.tool('dump', self.path('joined.store'), '--script')
        self.assertRegex(said, 'cuts their days otherwise: 3 versions in one store')

    def change(self, name: str, old: str, new: str) -> None:
        path = pathlib.Path(self.path('d'), name)
        text = path.read_text('utf-8')
        self.assertIn(old, text)
        path.write_text(text.replace(old, new, 1), 'utf-8')

    def dumped_without_sum(self, script: str) -> None:
        """A dump of a script's store in the form 1, which has no sum."""
        self.tool('dump', self.made('pay.store', script), '--to', self.path('d'))
        self.change('dump.csv', 'bitemporal dump,2', 'bitemporal dump,1')
        [line] = [line for line in texts(self.path('d'))['dump.csv'].splitlines(keepends=True)
                  if line.startswith('sum,')]
        self.change('dump.csv', line, '')

    def test_edited_dumps(self) -> None:
        """One in which a value, the clock or the order of versions is another is refused."""
        self.tool('dump', self.made('pay.store', PAY), '--to', self.path('whole'))
        first, *others = PAY_FILES['PAY.csv'].splitlines(keepends=True)
        for name, old, new in (
                ('EMP.csv', '101,Ann', '101,Eve'), ('EMP.csv', '2024-01-01', '2023-12-31'),
                ('EMP.csv', '2024-01-10 09:00:00', '2024-01-10 09:00:01'),
                ('dump.csv', 'clock,2024-07-01', 'clock,2024-07-02'),
                ('tables.sql', 'VARCHAR(9)', 'VARCHAR(10)'),
                ('PAY.csv', ''.join(others), ''.join(others[::-1])),
                ('dump.csv', 'sum,0', 'sum,1')):
            with self.subTest(new=new):
                shutil.rmtree(self.path('d'), ignore_errors=True)
                shutil.copytree(self.path('whole'), self.path('d'))
                self.change(name, old, new)
                found = self.refused('restore', self.path('d'), '--to', self.path('new.store'))
                self.assertIn('was edited', found)

    def test_dumps_for_all_and_for_one(self) -> None:
        """A dump may be read by whoever may read the store."""
        store = self.made('pay.store', PAY)
        for mode, of_folder in ((0o600, 0o700), (0o640, 0o750), (0o644, 0o755), (0o400, 0o700)):
            pathlib.Path(store).chmod(mode)
            folder, script = self.path(f'{mode:o}.d'), self.path(f'{mode:o}.sql')
            self.tool('dump', store, '--to', folder)
            self.tool('dump', store, '--script', '--to', script)
            self.assertEqual(pathlib.Path(folder).stat().st_mode & 0o777, of_folder)
            self.assertEqual({file.stat().st_mode & 0o777 for file in (
                *pathlib.Path(folder).iterdir(), pathlib.Path(script))}, {mode})

    def test_script_of_no_states(self) -> None:
        """A state from before a key was given breaks it."""
        self.dumped_without_sum(PAY)
        self.change('tables.sql', 'PRIMARY KEY (ENO, PP', 'PRIMARY KEY (CENTS, PP')
        self.change('PAY.csv', '101,310000,2024-01-01,9999-12-31,2024-01-10 09:00:00',
                    '7,310000,2024-03-01,2024-04-01,2024-01-10 09:00:00,2024-03-01 00:00:00\n'
                    '101,310000,2024-01-01,9999-12-31,2024-01-10 09:00:00')
        self.change('dump.csv', 'PAY.csv,3', 'PAY.csv,4')
        self.tool('restore', self.path('d'), '--to', self.path('odd.store'))
        said = self.refused('dump', self.path('odd.store'), '--script', status=1)
        self.assertEqual(said, 'dump: no statements make what is recorded at 2024-01-10 09:00:00:'
                               ' statement 5 would be refused by 42 KeyOverlap 2024-03-01\n')

    def test_damaged_dumps(self) -> None:
        self.tool('dump', self.made('pay.store', PAY), '--to', self.path('whole'))
        for name, old, new, said in (
                ('dump.csv', 'dump,2', 'dump,3', 'is of the form 3, and 2 is the last known'),
                ('dump.csv', 'dump,2', 'dump,1', 'is not the head of a dump'),
                ('dump.csv', 'sum,', 'sun,', 'is not the head of a dump'),
                ('dump.csv', 'bitemporal dump', 'other', 'is not the head of a dump'),
                ('dump.csv', 'clock,2024', 'clock,x024', "'x024-07-01 00:00:00' is no moment"),
                ('dump.csv', 'EMP,EMP', 'EMQ,EMP', 'lists other tables than'),
                ('dump.csv', 'PAY.csv,3', 'PAY.csv,4', 'has 3 versions, and'),
                ('tables.sql', 'INTEGER', 'INT', 'statement 1: '),
                ('tables.sql', 'CREATE', 'SELECT * FROM T; CREATE', 'statement 1: '),
                ('EMP.csv', 'ENO,NAME', 'NAME,ENO', 'the first line does not name the columns'),
                ('EMP.csv', '101,Ann', '1o1,Ann', ":3: ENO: '1o1' is no whole number"),
                ('EMP.csv', '101,Ann', '101,Annabel Lee', ":3: NAME: 'Annabel Lee' has 11 char"),
                ('EMP.csv', '101,Ann,2024-01-01', '101,Ann,2024-01-32', ":3: '2024-01-32' is no"),
                ('EMP.csv', '101,Ann,2024-01-01', '101,Ann,9999-12-31', ':3: the period ends on'),
                ('EMP.csv', '101,Ann,', '101,', ':3: 5 cells, and EMP has 6 columns'),
                ('EMP.csv', '2024-01-10 09:00:00,2024', '2025-01-10 09:00:00,2024',
                 ':3: no version is recorded from 2025'),
                ('EMP.csv', '2024-06-20 09:00:00.250000,9999', '2024-07-01 00:00:00.000001,9999',
                 ':2: no version is recorded from 2024-07-01 00:00:00.000001 to 9999'),
                ('EMP.csv', '09:00:00,2024-06-20 09:00:00.25', '09:00:00,2024-07-01 00:00:00.25',
                 ':3: no version is recorded from 2024-01-10 09:00:00 to 2024-07-01 00:00:00.25'),
                ('EMP.csv', '"A', 'A', 'is not CSV in UTF-8')):
            with self.subTest(new=new):
                shutil.rmtree(self.path('d'), ignore_errors=True)
                shutil.copytree(self.path('whole'), self.path('d'))
                self.change(name, old, new)
                found = self.refused('restore', self.path('d'), '--to', self.path('new.store'))
                self.assertIn(said, found)
        self.assertIn('dump.csv', self.refused('restore', self.path('none'), '--to', 'n.store'))

    def test_restored_row_without_parent(self) -> None:
        self.dumped_without_sum(PAY)
        self.change('PAY.csv', '101,325000', '102,325000')
        found = self.refused('restore', self.path('d'), '--to', self.path('new.store'), status=1)
        self.assertEqual(found, 'restore: PAY: EMP has no row with ENO = 102 on 2024-07-01, and a'
                                ' row refers to it:\n  ENO 102, CENTS 325000 from 2024-07-01 to'
                                ' 9999-12-31, recorded at 2024-06-20 09:00:00.250000\n')

    def test_places(self) -> None:
        store = self.made('pay.store', PAY)
        self.files.write('there', '')
        for words, said in (('--to there', 'there is there already'), ('', '--to FOLDER'),
                            ('--to no/d', 'cannot write'), ('--script --to there', 'is there al')):
            self.assertIn(said, self.refused('dump', store, *(
                word if word[:2] == '--' else self.path(word) for word in words.split())))

    def test_no_stores(self) -> None:
        self.files.write('text', 'no store')
        self.files.write('empty', '')
        for name, said in (('none', 'cannot read'), ('text', 'holds no good store'),
                           ('empty', 'holds no good store')):
            self.assertIn(said, self.refused('dump', self.path(name), '--to', self.path('d')))
        for change, said in (('UPDATE bt_version SET tab = 3 WHERE tab = 2', 'of no table'),
                             ("UPDATE bt_version SET vals = x'02'", 'bytes that spell no values'),
                             ("UPDATE bt_table SET def = x'02' WHERE id = 2", 'no good store'),
                             ('DELETE FROM bt_meta', 'no good store')):
            store = self.made('pay.store', PAY)
            connection = sqlite3.connect(store)
            connection.executescript(change)
            connection.close()
            self.assertIn(said, self.refused('dump', store, '--to', self.path('d')))
            for name in self.files.names():
                if name.startswith('pay.store'):
                    pathlib.Path(self.path(name)).unlink()


def question(table: tables.Table, moment: str) -> str:
    return (f'VALIDTIME SELECT DISTINCT {", ".join(table.value_names)} FROM {table.name}'
            f" FOR SYSTEM_TIME AS OF TIMESTAMP '{moment}';\n")


def dumped(folder: str, name: str) -> list[list[str]]:
    """The records of a file of a dump, read by another reader than the tools'."""
    text = pathlib.Path(folder, f'{name}.csv').read_bytes().decode('utf-8')
    found, fields, in_quotes = list[list[str]](), [''], False
    for letter in text:
        if letter == '"':
            in_quotes = not in_quotes
            if in_quotes and fields[-1]:
                fields[-1] += '"'
        elif letter in ',\n' and not in_quotes:
            if letter == '\n':
                found.append(fields)
                fields = ['']
            else:
                fields.append('')
        else:
            fields[-1] += letter
    return found


if __name__ == '__main__':
    support.run_cases()
