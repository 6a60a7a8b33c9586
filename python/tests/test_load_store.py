#!/usr/bin/env python3
"""Tests `tools/load --store` through the program: random nights of exports, late lines and changes
by hand, against a model by days; and small cases with the statements that they need.

The model knows no periods: it keeps of each day of each key what was recorded of it and when, and
walks through the lines of a file day by day.
"""
from __future__ import annotations

import datetime
import itertools
import pathlib
import random
import re
import subprocess
import tempfile
import unittest
from collections.abc import Iterator
from typing import NamedTuple, Optional

import support
from bitemporal_tools.reports.records import record, records
from support import tool

DAY = datetime.timedelta(1)
FIRST = datetime.date(2024, 2, 26)
DAYS = [FIRST + number * DAY for number in range(10)]
LAST, FOREVER = '9999-12-31', '9999-12-31 23:59:59.999999'
TEXTS = ['a', "O'Neil", 'x\0y', '\u00e9\u65e5']
# The key first, as the store sorts, and after another column.
TABLES = [support.create_table('T', columns, 'K, L') for columns in (
    'K INTEGER, L VARCHAR(9), V INTEGER', 'V INTEGER, L VARCHAR(9), K INTEGER')]
Place = tuple[int, str, datetime.date]  # a day of a key
Moments = [f'2024-03-{day:02} 10:00:00' for day in range(1, 25)]


class Line(NamedTuple):
    """A line of an export. `value` is None if it takes its days away."""
    record: int
    key: int
    letter: str
    value: Optional[int]
    start: datetime.date
    end: Optional[datetime.date]
    moment: str

    def places(self) -> list[Place]:
        return [(self.key, self.letter, day) for day in DAYS
                if self.start <= day and (self.end is None or day < self.end)]

    def cells(self) -> list[str]:
        return [str(self.record), str(self.key), self.letter, str(self.value or 0),
                str(self.start), str(self.end or ''), self.moment,
                'gone' if self.value is None else '']


def random_line(choose: random.Random, moment: str) -> Line:
    start = choose.choice(DAYS[:-1])
    return Line(choose.randrange(5), choose.randrange(2), choose.choice(TEXTS),
                None if choose.random() < 0.2 else choose.randrange(3), start,
                choose.choice([None, *(day for day in DAYS if day > start)]), moment)


class Said(NamedTuple):
    """The sayings of lines on some days: values by day, and the number of the line of each."""
    moment: str
    values: dict[Place, tuple[Optional[int], int]]


def said_of_days(lines: list[tuple[int, Line]]) -> list[Said]:
    """The sayings of lines at each moment; of lines of one moment the later one holds."""
    found = []
    for moment, group in itertools.groupby(sorted(lines, key=lambda pair: pair[1].moment),
                                           key=lambda pair: pair[1].moment):
        values = {place: (line.value, number) for number, line in group
                  for place in line.places()}
        found.append(Said(moment, values))
    return found


class TwoRecords(Exception):
    """Two records say something of one day."""


def said_of_records(lines: list[tuple[int, Line]]) -> list[Said]:
    """The sayings of lines each of which is the new state of a record."""
    states: dict[int, tuple[int, Line]] = {}
    found = []
    for moment, group in itertools.groupby(sorted(lines, key=lambda pair: pair[1].moment),
                                           key=lambda pair: pair[1].moment):
        values: dict[Place, tuple[Optional[int], int]] = {}
        new = {line.record: (number, line) for number, line in group}
        for name, (number, line) in new.items():
            if name in states:
                values.update({place: (None, number) for place in states[name][1].places()})
            states[name] = number, line
        states = {name: state for name, state in states.items() if state[1].value is not None}
        for name in new:
            if name in states:
                number, line = states[name]
                values.update({place: (line.value, number) for place in line.places()})
        places = [place for _, line in states.values() for place in line.places()]
        if len(places) > len(set(places)):
            raise TwoRecords
        found.append(Said(moment, values))
    return found


class Model:
    """The recorded values of each day, with their moments in order. None is no row."""

    def __init__(self) -> None:
        self.recorded: dict[Place, list[tuple[str, Optional[int]]]] = {}
        self.clock = '0001-01-01 00:00:00'

    def record(self, place: Place, moment: str, value: Optional[int]) -> None:
        states = self.recorded.setdefault(place, [])
        if states and states[-1][0] == moment:
            states.pop()
        states.append((moment, value))

    def at(self, place: Place, moment: str) -> Optional[int]:
        return next((value for since, value in reversed(self.recorded.get(place, []))
                     if since <= moment), None)

    def has_had(self, place: Place, value: Optional[int], moment: str) -> bool:
        """Whether the day has had a value at some moment from this one on."""
        return self.at(place, moment) == value or any(
            since > moment and other == value for since, other in self.recorded.get(place, []))

    def load(self, said: list[Said]) -> set[int]:
        """Loads what lines say. Gives the numbers of those that are late."""
        known = {place: (of_moment.moment, *values) for of_moment in said
                 if of_moment.moment <= self.clock for place, values in of_moment.values.items()}
        late = set()
        for place, (moment, value, number) in known.items():
            if not self.has_had(place, value, moment):
                self.record(place, self.clock, value)
                late |= {number} if moment < self.clock else set()
        for moment, values in said:
            if moment > self.clock:
                for place, (value, _) in values.items():
                    if self.at(place, moment) != value:
                        self.record(place, moment, value)
        self.clock = max(self.clock, *(states[-1][0] for states in self.recorded.values()), '')
        return late

    def state(self, moment: str) -> dict[Place, int]:
        found = {place: self.at(place, moment) for place in self.recorded}
        return {place: value for place, value in found.items() if value is not None}


class Stores(unittest.TestCase):
    """Tests over a store in a folder of their own."""

    def setUp(self) -> None:
        folder = tempfile.TemporaryDirectory()
        self.addCleanup(folder.cleanup)
        self.folder = pathlib.Path(folder.name)
        self.store = str(self.folder / 'x.store')

    def write(self, name: str, text: str) -> str:
        path = self.folder / name
        path.write_bytes(text.encode('utf-8'))
        return str(path)

    def run_script(self, script: str) -> list[list[str]]:
        """Runs a script over the store. Nothing of it is refused. (Two changes of one row at one
        moment replace what the first leaves of it, which is told.)"""
        done = subprocess.run(
            ['bitemporal_file', self.store, self.write('script.sql', script)], check=False,
            executable=support.program.PROGRAM, stdout=subprocess.PIPE, stderr=subprocess.PIPE)
        found = list(records(done.stdout.decode('utf-8')))
        refused = [fields for fields in found if fields[0] == 'refused']
        told = [line for line in done.stderr.splitlines() if b': versions ' not in line]
        self.assertEqual((done.returncode, refused, told), (0, [], []), script)
        return found


class Nights(Stores):
    def states(self, moments: list[str]) -> list[dict[Place, int]]:
        """The days of the rows of the store as of each moment."""
        found: list[dict[Place, int]] = []
        names: list[str] = []
        for kind, _, *fields in self.run_script(''.join(
                f"SELECT * FROM T FOR SYSTEM_TIME AS OF TIMESTAMP '{moment}';"
                for moment in moments)):
            if kind == 'versions':
                found.append({})
            elif kind == 'columns':
                names = fields
            else:
                row = dict(zip(names, fields))
                for day in DAYS:
                    if row['S'] <= day.isoformat() < row['E']:
                        place = int(row['K']), row['L'], day
                        self.assertNotIn(place, found[-1])
                        found[-1][place] = int(row['V'])
        return found

    def by_hand(self, choose: random.Random, model: Model, moment: str) -> None:
        """A change of the store by hand, at a moment."""
        key, letter = choose.randrange(2), choose.choice(TEXTS)
        start, end = sorted(choose.sample(DAYS, 2))
        value = choose.choice([None, 0, 1, 2])
        what = 'DELETE FROM T' if value is None else 'UPDATE T'
        sets = '' if value is None else f' SET V = {value}'
        text = letter.replace("'", "''")
        self.run_script(
            f"AT TIMESTAMP '{moment}'; {what} FOR PORTION OF P FROM DATE '{start}' TO DATE '{end}'"
            f"{sets} WHERE K = {key} AND L = '{text}'")
        model.clock = moment
        for day in DAYS:
            if start <= day < end and model.at((key, letter, day), moment) is not None:
                model.record((key, letter, day), moment, value)

    def load(self, file: str, *words: str) -> tuple[int, str, str]:
        return tool('load', file, '--store', self.store, '--recorded', 'at', '--open', LAST,
                    '--later-line-wins', '--removed', 'state=gone', *words)

    def night(self, lines: list[Line], said: list[Said], model: Model, words: list[str]) -> None:
        """A night: the late lines are the model's, and a second load adds nothing."""
        header = ['number', 'k', 'l', 'v', 's', 'e', 'at', 'state']
        file = self.write('x.csv', ''.join(map(record, [header, *(line.cells()
                                                                  for line in lines)])))
        status, script, told = self.load(file, *words)
        late = model.load(said)
        self.assertEqual({int(line) for line in re.findall(r'x\.csv:(\d+):.*: late: ', told)}, late)
        self.assertEqual(status, 1 if late else 0, told)
        if late:
            self.assertIn('--late now', told)
            self.assertEqual(script, '')
            status, script, told = self.load(file, *words, '--late', 'now')
            self.assertEqual(status, 0, told)
        self.run_script(script)
        self.assertEqual(self.load(file, *words)[:2], (0, ''))

    def nights(self, seed: int, by_record: bool) -> None:
        choose = random.Random(seed)
        table = self.write('t.sql', choose.choice(TABLES))
        lines = [random_line(choose, choose.choice(Moments))
                 for _ in range(choose.randrange(4, 24))]
        # A line is loaded in the night after its moment, or in a later one.
        nights = [(Moments.index(line.moment) // 6 + (choose.random() < 0.25)
                   * choose.randrange(3), line) for line in lines]
        has_all, model, coming = by_record or choose.random() < 0.5, Model(), list[Line]()
        for night in range(6):
            new = [line for number, line in nights if number == night]
            coming = coming + new if has_all else new
            numbered = list(enumerate(coming, 2))
            try:
                said = said_of_records(numbered) if by_record else said_of_days(numbered)
            except TwoRecords:
                self.skipped += 1
                return
            words = ['--table', table, *(('--record', 'number') if by_record else
                                         ('--ignore', 'number'))]
            if night == 0:
                self.run_script(table_text(table))
            self.night(coming, said, model, words)
            moments = [moment for moment in Moments if moment <= model.clock] + [model.clock]
            self.assertEqual(self.states(moments), list(map(model.state, moments)))
            if choose.random() < 0.6 and night < 4:
                moment = f'2024-03-{6 * night + 6:02} {choose.choice(["09", "11"])}:30:00'
                if moment > model.clock:
                    self.by_hand(choose, model, moment)

    def test_random_nights(self) -> None:
        """Each line says something of its own days."""
        for seed in range(12):
            with self.subTest(seed=seed):
                self.setUp()
                self.nights(seed, by_record=False)

    def test_random_nights_of_records(self) -> None:
        """Each line is the new state of a record, and a file has them all."""
        self.skipped = 0
        for seed in range(1000, 1015):
            with self.subTest(seed=seed):
                self.setUp()
                self.nights(seed, by_record=True)
        self.assertLess(self.skipped, 12)


PAY = support.create_table('PAY', 'ENO INTEGER, PAY INTEGER', 'ENO') + """;
"""
DEPARTMENTS = PAY.replace('TABLE PAY (ENO INTEGER, PAY', 'TABLE DEP (DNO INTEGER, SIZE').replace(
    'KEY (ENO', 'KEY (DNO')
JANUARY = '1,10,2024-01-01,,2024-01-10 09:00:00\n'
BY_HAND = """AT TIMESTAMP '2024-05-01 00:00:00';
UPDATE PAY FOR PORTION OF P FROM DATE '2024-04-01' TO DATE '2024-07-01' SET PAY = 12
"""


class Cases(Stores):
    """One worker's pay, which is 10 from January on, and from April to June 12 by hand."""

    def setUp(self) -> None:
        super().setUp()
        self.table = self.write('pay.sql', PAY)

    def load(self, lines: str, *words: str) -> tuple[int, str, str]:
        file = self.write('pay.csv', 'eno,pay,s,e,at\n' + lines)
        return tool('load', file, '--store', self.store, '--open', LAST, *words)

    def filled(self) -> None:
        """A first night, which makes the store, and the change by hand."""
        status, script, told = self.load(JANUARY, '--table', self.table, '--recorded', 'at')
        self.assertEqual((status, told), (0, 'load: 1 row, 2 statements after the head, 1 script\n'
                                          f'load: {self.store} is not there yet, and the script'
                                          ' makes its first tables\n'))
        self.assertTrue(script.startswith(PAY), script)
        self.run_script(script)
        self.run_script(BY_HAND)

    def test_correction_after_a_change_by_hand(self) -> None:
        """A line that says once more what the line before it said is needed after the change."""
        self.filled()
        line = '1,10,2024-04-01,2024-07-01,2024-05-02 10:00:00\n'
        wanted = """AT TIMESTAMP '2024-05-02 10:00:00';
UPDATE PAY FOR PORTION OF P FROM DATE '2024-04-01' TO DATE '2024-07-01'
 SET PAY = 10 WHERE ENO = 1;
"""
        for lines in (JANUARY + line, line):  # the lines of all nights, and of the last
            self.assertEqual(self.load(lines, '--recorded', 'at')[:2], (0, wanted))
        self.run_script(wanted)
        for lines in (JANUARY + line, line, JANUARY):
            self.assertEqual(self.load(lines, '--recorded', 'at')[:2], (0, ''))

    def test_line_that_the_store_said_at_its_moment(self) -> None:
        """A line from before the change by hand said nothing new then: the change stays."""
        self.filled()
        line = '1,10,2024-04-01,2024-07-01,2024-04-30 10:00:00\n'
        self.assertEqual(self.load(JANUARY + line, '--recorded', 'at')[:2], (0, ''))

    def test_late_lines(self) -> None:
        self.filled()
        lines = JANUARY + '1,11,2024-02-01,2024-03-01,2024-02-05\n' \
            '2,20,2024-01-01,,2024-06-01 10:00:00\n1,,2024-03-01,2024-04-01,2024-02-06\n'
        words = ['--recorded', 'at', '--removed', 'pay=']
        status, script, told = self.load(lines, *words)
        self.assertEqual((status, script), (1, ''))
        self.assertEqual(told.replace(str(self.folder), ''), """\
/pay.csv:3: column 5 (at): late: before the clock 2024-05-01 00:00:00 of the store
/pay.csv:5: column 5 (at): late: before the clock 2024-05-01 00:00:00 of the store
load: 2 bad lines, and nothing is written
load: the store lacks what late lines say: --late now records that at its clock
""")
        status, script, told = self.load(lines, *words, '--late', 'now')
        self.assertEqual((status, script), (0, """AT TIMESTAMP '2024-05-01 00:00:00';
DELETE FROM PAY FOR PORTION OF P FROM DATE '2024-03-01' TO DATE '2024-04-01'
 WHERE ENO = 1;
UPDATE PAY FOR PORTION OF P FROM DATE '2024-02-01' TO DATE '2024-03-01'
 SET PAY = 11 WHERE ENO = 1;
AT TIMESTAMP '2024-06-01 10:00:00';
INSERT INTO PAY VALUES
 (2, 20, DATE '2024-01-01', DATE '9999-12-31');
"""))
        self.run_script(script)
        self.assertEqual(self.load(lines, *words)[:2], (0, ''))

    def test_late_line_that_is_corrected(self) -> None:
        """A late line of which a later one of the file says all days otherwise isn't asked for."""
        self.filled()
        lines = JANUARY + '1,11,2024-02-01,2024-03-01,2024-01-11\n' \
            '1,10,2024-02-01,2024-03-01,2024-01-12\n'
        self.assertEqual(self.load(lines, '--recorded', 'at')[:2], (0, ''))

    def test_without_moments(self) -> None:
        """The file is what is known now; it has to be said when that is."""
        self.filled()
        words = ['--ignore', 'at']
        change = "UPDATE PAY FOR PORTION OF P FROM DATE '2024-04-01' TO DATE '2024-07-01'\n" \
            ' SET PAY = 10 WHERE ENO = 1;\n'
        status, script, told = self.load(JANUARY, *words)
        self.assertEqual((status, script), (0, change))
        self.assertIn('load: the changes have no moment, and are recorded at that of the store,'
                      ' 2024-05-01 00:00:00: --at says another\n', told)
        self.assertEqual(self.load(JANUARY, *words, '--at', '2024-05-03 00:00:00')[1],
                         "AT TIMESTAMP '2024-05-03 00:00:00';\n" + change)
        self.assertEqual(self.load(JANUARY, *words, '--at', '2024-04-30 00:00:00'), (
            2, '', 'load: --at 2024-04-30 00:00:00 is before the clock of the store,'
            ' 2024-05-01 00:00:00\n'))

    def test_tables(self) -> None:
        """The table is one of the store, or one that --table makes besides the store's."""
        self.filled()
        words = ['--recorded', 'at']
        for table, fault in (
                (PAY.replace('PAY INTEGER', 'PAY VARCHAR(9)'), 'has PAY with another definition'),
                (DEPARTMENTS + PAY, 'has PAY of'), (DEPARTMENTS, 'the file has no column for DNO')):
            path = self.write('other.sql', table)
            name = 'DEP' if table[:20] in DEPARTMENTS else 'PAY'
            status, script, told = self.load(JANUARY, *words, '--table', path, '--name', name)
            self.assertEqual((status, script), (2, ''))
            self.assertIn(fault, told)
        file = self.write('dep.csv', 'dno,size,s,e,at\n5,50,2024-01-01,,2024-06-01\n')
        words = ['load', file, '--store', self.store, '--open', LAST, '--recorded', 'at']
        status, script, _ = tool(*words, '--table', self.write('dep.sql', DEPARTMENTS))
        self.assertEqual(status, 0)
        self.run_script(script)
        self.assertIn('choose one by --name', tool(*words)[2])
        for more in (['--name', 'DEP'], ['--table', self.write('dep.sql', DEPARTMENTS)]):
            self.assertEqual(tool(*words, *more)[:2], (0, ''))
        self.assertEqual(tool('load', file, '--table', self.table, '--late', 'now'), (
            2, '', 'load: --late is about --store STORE and --recorded COLUMN\n'))

    def test_merged_over_a_store(self) -> None:
        """Two files of one night in the order of their moments, over the tables of the store."""
        references = PAY.replace(')\n WITH', ', FOREIGN KEY (PAY, PERIOD P) REFERENCES DEP (DNO,'
                                 ' PERIOD P))\n WITH')
        self.run_script(DEPARTMENTS + references)
        words = ['--store', self.store, '--recorded', 'at', '--open', LAST]
        first = self.write('dep.csv', 'dno,size,s,e,at\n10,1,2024-01-01,,2024-01-01\n'
                           '12,2,2024-01-01,,2024-06-01\n')
        merged = self.write('first.sql', tool('load', first, '--name', 'DEP', *words)[1])
        status, script, told = self.load(JANUARY + '2,12,2024-01-01,,2024-06-01\n',
                                         '--name', 'PAY', '--recorded', 'at', '--merge', merged)
        self.assertEqual((status, told),
                         (0, 'load: 2 rows, 7 statements after the head, 1 script\n'))
        self.run_script(script)

    def test_store_with_a_log(self) -> None:
        """After a kill the last changes are in the log next to the store."""
        self.assertEqual(self.load(JANUARY, '--recorded', 'at'), (
            2, '', f'load: {self.store} is not there yet, and --table is missing: the script that'
            ' makes the table (--guess prints a first guess of one)\n'))
        self.filled()
        for stage in range(2):
            script = self.load(JANUARY + '1,9,2025-01-01,,2024-06-01\n', '--recorded', 'at')[1]
            self.assertEqual(script.count('UPDATE'), 1 - stage)
            if stage == 0:
                self.change_and_kill(
                    b"AT TIMESTAMP '2024-06-01 00:00:00'; UPDATE PAY FOR PORTION OF P"
                    b" FROM DATE '2025-01-01' TO DATE '9999-12-31' SET PAY = 9;")

    def change_and_kill(self, statements: bytes) -> None:
        """Sends two statements to a session, and kills it. Meanwhile its store can't be read."""
        with subprocess.Popen(['bitemporal_file', self.store], executable=support.program.PROGRAM,
                              stdin=subprocess.PIPE, stdout=subprocess.PIPE, bufsize=0) as session:
            assert session.stdin and session.stdout
            session.stdin.write(statements)
            self.assertEqual(session.stdout.readline(), b'done,1,at,0\n')
            self.assertEqual(session.stdout.readline(), b'done,2,update,1\n')
            status, _, told = self.load(JANUARY, '--recorded', 'at')
            self.assertEqual(status, 2)
            self.assertIn('another program has', told)
            session.kill()


class Histories(Stores):
    """The history of one store, exported and loaded into another."""

    def test_random_histories(self) -> None:
        for seed in range(6):
            with self.subTest(seed=seed):
                self.setUp()
                self.history(random.Random(seed))

    def history(self, choose: random.Random) -> None:
        table = choose.choice(TABLES)
        self.run_script(table + ';' + ''.join(self.changes(choose)))
        every = ("SELECT * FROM T FOR SYSTEM_TIME FROM TIMESTAMP '0001-01-01 00:00:00' TO TIMESTAMP"
                 f" '{FOREVER}';")
        questions = ''.join(f"SELECT * FROM T FOR SYSTEM_TIME AS OF TIMESTAMP '{moment}';"
                            for moment in Moments)
        names, *versions = [fields[2:] for fields in self.run_script(every)[1:]]
        open_end = choose.choice([FOREVER, '', '2038-01-19 03:14:07.999999',
                                  '9999-12-31T23:59:59.9999999'])
        rows = [[open_end if cell == FOREVER else cell for cell in row] for row in versions]
        choose.shuffle(rows)
        file = self.write('x.csv', ''.join(map(record, [names, *rows])))
        before, self.store = self.run_script(questions), str(self.folder / 'y.store')
        words = ['load', file, '--store', self.store, '--recorded', 'ss', '--recorded-to', 'se',
                 '--table', self.write('t.sql', table)]
        status, script, told = tool(*words)
        self.assertEqual(status, 0, told)
        self.run_script(script)
        self.assertEqual(tool(*words)[:2], (0, ''))
        self.assertEqual(days_of_answers(self.run_script(questions)), days_of_answers(before))

    @staticmethod
    def changes(choose: random.Random) -> Iterator[str]:
        for moment in Moments[:12]:
            yield f"AT TIMESTAMP '{moment}';"
            key, letter = choose.randrange(2), choose.choice(TEXTS).replace("'", "''")
            start, end = sorted(choose.sample(DAYS, 2))
            portion = f"FOR PORTION OF P FROM DATE '{start}' TO DATE '{end}'"
            where = f"WHERE K = {key} AND L = '{letter}';"
            # An INSERT over days that exist would be refused.
            yield f'DELETE FROM T {portion} {where}'
            if choose.random() < 0.7:
                yield (f"INSERT INTO T (K, L, V, S, E) VALUES ({key}, '{letter}',"
                       f" {choose.randrange(3)}, DATE '{start}', DATE '{end}');")
            if choose.random() < 0.5:
                yield f'UPDATE T {portion} SET V = {choose.randrange(3)};'


def days_of_answers(report: list[list[str]]) -> list[set[tuple[str, ...]]]:
    """The days of the rows of each list of versions."""
    found: list[set[tuple[str, ...]]] = []
    names: list[str] = []
    for kind, _, *fields in report:
        if kind == 'versions':
            found.append(set())
        elif kind == 'columns':
            names = fields
        else:
            row = dict(zip(names, fields))
            found[-1] |= {(row['K'], row['L'], row['V'], str(day)) for day in DAYS
                          if row['S'] <= str(day) < row['E']}
    return found


class CompleteFiles(Stores):
    """Each night a file with all rows of the table and no moments."""

    def test_random_nights(self) -> None:
        for seed in range(4):
            with self.subTest(seed=seed):
                self.setUp()
                self.nights(random.Random(seed))

    def nights(self, choose: random.Random) -> None:
        self.run_script(DEPARTMENTS + choose.choice(TABLES))
        self.run_script("INSERT INTO DEP VALUES (1, 1, DATE '2024-01-01', DATE '9999-12-31')")
        wanted = []
        for night in range(1, 6):
            days = {(choose.randrange(3), choose.choice(TEXTS), day): choose.randrange(3)
                    for day in choose.sample(DAYS, 5)}
            rows = [[str(key), letter, str(value), str(day), str(day + DAY)]
                    for (key, letter, day), value in days.items()]
            file = self.write('x.csv', ''.join(map(record, [['k', 'l', 'v', 's', 'e'], *rows])))
            words = [file, '--store', self.store, '--name', 'T', '--complete', '--at',
                     f'2024-03-0{night} 10:00:00']
            status, script, told = tool('load', *words)
            self.assertEqual(status, 0, told)
            self.run_script(script)
            self.assertEqual(tool('load', *words)[:2], (0, ''))
            wanted.append(sorted(rows))
        for night, rows in enumerate(wanted, 1):
            moment = f'2024-03-0{night} 10:00:00'
            report = self.run_script(
                f"SELECT * FROM T FOR SYSTEM_TIME AS OF TIMESTAMP '{moment}';"
                'SELECT * FROM DEP')
            names = report[1][2:]
            found = [dict(zip(names, fields[2:])) for fields in report if fields[:2] == [
                'version', '1']]
            spread = sorted([row['K'], row['L'], row['V'], str(day), str(day + DAY)]
                            for row in found for day in DAYS
                            if row['S'] <= str(day) < row['E'])
            self.assertEqual(spread, rows)
            self.assertEqual(report[-1][2:6], ['1', '1', '2024-01-01', '9999-12-31'])

    def test_turned_away(self) -> None:
        table = self.write('pay.sql', PAY)
        file = self.write('pay.csv', 'eno,pay,s,e,at\n')
        words = ['load', file, '--store', self.store, '--complete', '--ignore', 'at']
        self.run_script(PAY)
        self.assertEqual(tool(*words)[:2], (1, ''))
        for more in (['--recorded', 'at'], ['--table', table, '--store', '']):
            self.assertEqual(tool(*words, *more), (
                2, '', 'load: --complete is about --store STORE, and a file without --recorded\n'))


def table_text(path: str) -> str:
    return pathlib.Path(path).read_text('utf-8')


def setUpModule() -> None:
    support.build()


if __name__ == '__main__':
    support.run_cases()
