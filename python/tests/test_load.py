#!/usr/bin/env python3
"""Tests tools/load through the program: random exports against a model by days, bad lines, the
guess, and files that are more than a script.

The model knows no periods and no changes: for each moment it walks through the lines that are
recorded by then, and keeps for each key and each of a few days which values the last of them gave.
The last of these days is for all days up to 9999-12-30.
"""
from __future__ import annotations

import datetime
import random
import re
import shlex
import subprocess
import support
import unittest.mock
from collections.abc import Iterator

from bitemporal_tools.reports.records import record, records
from bitemporal_tools.sql.lexis import lexed, pieces
from support import Case, tool

DAY = datetime.timedelta(1)
FIRST = datetime.date(2024, 2, 26)
DAYS = [FIRST + number * DAY for number in range(10)]
LAST = '9999-12-31'
TEXTS = ['', 'a', "O'Neil", 'x, "y"', 'two\nlines', 'a\rb', '\u00e9\u65e5', '; --', ' ']
TABLE = support.create_table(
    'T', 'K INTEGER, L VARCHAR(9), PAY INTEGER, NOTE VARCHAR(20)', 'K, L')

# For each key and day the values that hold, or 'two'.
States = dict[tuple[object, datetime.date], object]


class Line:
    """A line of an export: a state of a record, from a moment on."""

    def __init__(self, choose: random.Random, way: Way) -> None:
        self.number, self.key = choose.randrange(4), (choose.randrange(2), choose.choice('ab'))
        self.cents, self.note = choose.choice([0, 5, 1250, -99, 310000]), choose.choice(TEXTS)
        self.start = choose.choice(DAYS[:-1])
        self.end = choose.choice([None, *(day for day in DAYS if day > self.start)])
        self.moment = f'2024-03-0{choose.randrange(1, 4)} 0{choose.randrange(3)}:00:00' \
            + choose.choice(['', '', '.000001', '.250000', '.250001'])
        self.is_removed = way.removed and choose.random() < 0.2

    def holds(self, day: datetime.date) -> bool:
        return self.start <= day and (self.end is None or day < self.end)

    def cells(self, way: Way) -> list[str]:
        end = self.end - DAY if self.end and way.inclusive else self.end
        sign, cents = '-' * (self.cents < 0), abs(self.cents)
        moment = self.moment.rstrip('0') if '.' in self.moment else self.moment
        return [str(self.number), str(self.key[0]), self.key[1],
                f'{sign}{cents // 100}.{cents % 100:02}', self.note, str(self.start),
                str(end or ''), moment, 'gone' if self.is_removed else '']


class Way:
    """A way to read an export: the options, chosen at random."""

    def __init__(self, choose: random.Random) -> None:
        self.inclusive, self.removed = choose.random() < 0.5, choose.random() < 0.4
        self.by_record, self.in_turn = choose.random() < 0.4, choose.random() < 0.5

    def words(self) -> Iterator[str]:
        yield from ('--scale', 'pay=2', '--open', LAST, '--recorded', 'at')
        yield from ('--column', 'from=S', '--column', 'to=E', '--later-line-wins')
        if self.inclusive:
            yield '--inclusive-to'
        yield from ('--removed', 'state=gone') if self.removed else ('--ignore', 'state')
        yield from ('--record', 'number') if self.by_record else ('--ignore', 'number')


def in_order(lines: list[Line]) -> list[Line]:
    """The lines by moment; lines of one moment in the order of the file."""
    return sorted(lines, key=lambda line: line.moment)


def state(lines: list[Line], way: Way) -> States:
    """For each key and day the values that hold, or 'two' if two records say something of it."""
    found: States = {}
    if way.by_record:
        latest = {line.number: line for line in in_order(lines)}
        for line in latest.values():
            for day in DAYS:
                if line.holds(day) and not line.is_removed:
                    is_second = (line.key, day) in found
                    found[line.key, day] = 'two' if is_second else (line.cents, line.note)
        return found
    for line in in_order(lines):
        for day in filter(line.holds, DAYS):
            found.pop((line.key, day), None)
            if not line.is_removed:
                found[line.key, day] = (line.cents, line.note)
    return found


def loaded(rows: list[list[str]]) -> States:
    """The rows of the version records of a report."""
    found: dict[tuple[object, datetime.date], list[object]] = {}
    for key, letter, pay, note, start, end, *_ in rows:
        for day in DAYS:
            if start <= day.isoformat() < end:
                found.setdefault(((int(key), letter), day), []).append((int(pay), note))
    return {where: values[0] if len(values) == 1 else 'two' for where, values in found.items()}


PLAIN = support.create_table('T', 'K INTEGER, V INTEGER', 'K')
INSERTS = 'INSERT INTO T VALUES\n '
# Lines after the header k,v,s,e,at; options; and the statements after the CREATE TABLE.
STATEMENTS = [
    ('two rows', '1,10,2024-01-01,2024-02-01,\n2,-3,2024-01-01,2024-02-01,\n', '',
     [INSERTS + "(1, 10, DATE '2024-01-01', DATE '2024-02-01'),\n"
      " (2, -3, DATE '2024-01-01', DATE '2024-02-01')"]),
    ('one moment for all', '1,10,2024-01-01,2024-02-01,\n', "--at '2024-05-01 00:00:00'",
     ["AT TIMESTAMP '2024-05-01 00:00:00'",
      INSERTS + "(1, 10, DATE '2024-01-01', DATE '2024-02-01')"]),
    ('what is known already changes nothing',
     '1,10,2024-01-01,2024-03-01,2024-01-01\n1,10,2024-02-01,2024-03-01,2024-01-02\n',
     '--recorded at', ["AT TIMESTAMP '2024-01-01 00:00:00'",
                       INSERTS + "(1, 10, DATE '2024-01-01', DATE '2024-03-01')"]),
    ('days that are there are updated, new ones inserted',
     '1,10,2024-01-10,2024-01-20,2024-01-01\n1,11,2024-01-15,2024-02-01,2024-01-02T10:30\n',
     '--recorded at', ["AT TIMESTAMP '2024-01-01 00:00:00'",
                       INSERTS + "(1, 10, DATE '2024-01-10', DATE '2024-01-20')",
                       "AT TIMESTAMP '2024-01-02 10:30:00'",
                       "UPDATE T FOR PORTION OF P FROM DATE '2024-01-15' TO DATE '2024-01-20'\n"
                       " SET V = 11 WHERE K = 1",
                       INSERTS + "(1, 11, DATE '2024-01-20', DATE '2024-02-01')"]),
    ('fractions of a second', '1,10,2024-01-01,2024-02-01,2024-05-01 09:30:00.25\n'
     '2,10,2024-01-01,2024-02-01,2024-05-01T09:30:00.2500000\n'
     '3,10,2024-01-01,2024-02-01,2024-05-01 09:30:00.250001\n', '--recorded at',
     ["AT TIMESTAMP '2024-05-01 09:30:00.250000'",
      INSERTS + "(1, 10, DATE '2024-01-01', DATE '2024-02-01'),\n"
      " (2, 10, DATE '2024-01-01', DATE '2024-02-01')",
      "AT TIMESTAMP '2024-05-01 09:30:00.250001'",
      INSERTS + "(3, 10, DATE '2024-01-01', DATE '2024-02-01')"]),
    ('whole seconds', '1,10,2024-01-01,2024-02-01,2024-05-01 09:30:00.1234567\n',
     '--recorded at --whole-seconds', ["AT TIMESTAMP '2024-05-01 09:30:00'",
                                       INSERTS + "(1, 10, DATE '2024-01-01', DATE '2024-02-01')"]),
    ('the last second', '1,10,2024-01-01,2024-02-01,\n', "--at '9999-12-31 23:59:59.5'",
     ["AT TIMESTAMP '9999-12-31 23:59:59.500000'",
      INSERTS + "(1, 10, DATE '2024-01-01', DATE '2024-02-01')"]),
    ('a record that ends earlier',
     '1,10,2024-01-10,,2024-01-01\n1,10,2024-01-10,2024-06-30,2024-05-02\n',
     '--recorded at --record k,s --open 9999-12-31 --inclusive-to',
     ["AT TIMESTAMP '2024-01-01 00:00:00'",
      INSERTS + "(1, 10, DATE '2024-01-10', DATE '9999-12-31')",
      "AT TIMESTAMP '2024-05-02 00:00:00'",
      "DELETE FROM T FOR PORTION OF P FROM DATE '2024-07-01' TO DATE '9999-12-31'\n"
      " WHERE K = 1"]),
    ('rows of the whole time', '1,10,,,\n1,10,x,,\n', '--always',
     [INSERTS + "(1, 10, DATE '0001-01-01', DATE '9999-12-31')"]),
    ('numbers as others write them', ''.join(
        f'{key},{cell},2024-01-01,2024-02-01,\n'
        for key, cell in enumerate(('+4', '-5', '00', ' 6', '-0', '9223372036854775807'))), '',
     [INSERTS + ',\n '.join(
         f"({key}, {number}, DATE '2024-01-01', DATE '2024-02-01')"
         for key, number in enumerate((4, -5, 0, 6, 0, 9223372036854775807)))]),
    ('numbers with zeros before them', '0,007,2024-01-01,2024-02-01,\n1,0,2024-01-01,2024-02-01,\n',
     '', [INSERTS + "(0, 7, DATE '2024-01-01', DATE '2024-02-01'),\n"
          " (1, 0, DATE '2024-01-01', DATE '2024-02-01')"]),
    ('a day later', '1,10,2024-01-31,9999-12-31,\n', '--days-later 1',
     [INSERTS + "(1, 10, DATE '2024-02-01', DATE '9999-12-31')"]),
    ('other dates and fractions', '1,"10,5",1.2.2024,29.02.2024,\n',
     "--dates DD.MM.YYYY --decimal , --scale 2",
     [INSERTS + "(1, 1050, DATE '2024-02-01', DATE '2024-02-29')"]),
    ('empty cells', '1,,2024-01-01,2024-02-01,\n', '--empty v=-7',
     [INSERTS + "(1, -7, DATE '2024-01-01', DATE '2024-02-01')"]),
]
# Lines, options, and what is reported: the line and what follows it, in part.
BAD = [
    ('1,x,2024-01-01,2024-02-01,\n', '', '2: column 2 (v): \'x\' is no number'),
    ('1,,2024-01-01,2024-02-01,\n', '', '2: column 2 (v): empty: --empty V=VALUE'),
    ('1,1.5,2024-01-01,2024-02-01,\n', '', '2: column 2 (v): \'1.5\' has a fraction'),
    ('1,1.555,2024-01-01,2024-02-01,\n', '--scale 2', "column 2 (v): '1.555' has more than 2"),
    ('9223372036854775808,1,2024-01-01,2024-02-01,\n', '', '2: column 1 (k): '),
    ('1,1,2023-02-29,2024-02-01,\n', '', "2: column 3 (s): '2023-02-29' is no date YYYY-MM-DD"),
    ('1,1,2024-01-01,,\n', '', '2: column 4 (e): empty: with --open 9999-12-31'),
    ('1,1,2024-01-02,2024-01-02,\n', '', '2: column 4 (e): the period from 2024-01-02 ends on'),
    ('1,1,2024-01-01,2024-02-01,\n\n"1",1,2024-01-31,2024-02-01,\n', '',
     '4: key 1: line 2 says something of 2024-01-31 too'),
    ('1,1,2024-01-01,2024-02-01,x\n', '--recorded at', "2: column 5 (at): 'x' is no date"),
    ('1,1,2024-01-01,2024-02-01,2024-01-01 10:00:00.1234567\n', '--recorded at',
     "column 5 (at): '2024-01-01 10:00:00.1234567' has more than six digits of a second"),
    ('1,1,2024-01-01,2024-02-01,2024-01-01 10:00.5\n', '--recorded at', '2: column 5 (at): '),
    ('1,1,2024-01-01,2024-02-01,9999-12-31 23:59:59.999999\n', '--recorded at',
     '2: column 5 (at): '),
    ('1,1,2024-01-01,2024-02-01,2024-01-01\n1,2,2024-01-31,2024-03-01,2024-01-01\n',
     '--recorded at', '3: key 1: line 2 says something of 2024-01-31 too'),
    ('1,1,2024-01-01\n', '', '2: 3 fields, and the header has 5'),
    ('1,"1"x,2024-01-01,2024-02-01,\n', '', '2: no CSV'),
    ('1,"a\nb",2024-01-01,2024-02-01,\n1,y,2024-01-01,2024-02-01,\n', '',
     "4: column 2 (v): 'y' is no number"),
]


# Lines, options, and what is reported at the end.
TOLD = [
    ('1,1,2024-01-01,2024-02-01,2024-01-05\n1,2,2024-01-31,2024-03-01,2024-01-06\n', '',
     'load: if a later line corrects an earlier one, add --recorded COLUMN, the moment at which'
     ' each line was recorded, such as at\n'),
    (',1,2024-01-01,2024-02-01,\n'.join(['1', '1,2,2024-02-01,2024-03-01,\n']), '--always',
     'load: with --always each row holds on all days, so the key has to have the columns in which'
     ' rows differ: --guess --always makes such a table\n'),
    ('1,1,2024-01-01,2024-02-01,2024-01-05\n1,2,2024-01-31,2024-03-01,2024-01-05\n',
     '--recorded at', 'load: of two lines of one moment --later-line-wins takes the later one\n'),
    ('1,1,2024-01-01,2024-01-31,\n1,2,2024-02-01,2024-03-01,\n', '',
     'load: 1 row of the file would end on the day before one of their key begins. If the end is'
     ' the last day, add --inclusive-to\n'),
    ('1,1,2024-01-01,2024-01-31,\n1,2,2024-02-01,2024-03-01,\n', '--inclusive-to',
     'load: 2 rows, 1 statement after the head, 1 script\n'),
    ('1,1,2024-01-01,2024-02-01,\n1,2,2024-02-01,2024-03-01,\n1,2,2024-03-02,9999-12-31,\n', '',
     'load: 3 rows, 1 statement after the head, 1 script\n'),
]


def statements(script: str) -> list[str]:
    """The texts of a script's statements after the first."""
    return [script[piece[0].offset:piece[-1].end] for piece in pieces(lexed(script))][1:]


def read(words: str) -> list[str]:
    """The options, with one for the column of moments if nothing reads it."""
    found = shlex.split(words)
    return found if {'--recorded', '--removed', '--ignore'} & set(found) else \
        [*found, '--ignore', 'at']


DEPARTMENTS = PLAIN.replace('TABLE T (K INTEGER, V INTEGER', 'TABLE D (DNO INTEGER').replace(
    'KEY (K', 'KEY (DNO')
WORKERS = PLAIN.replace(
    ')\n WITH', ', FOREIGN KEY (V, PERIOD P) REFERENCES D (DNO, PERIOD P))\n WITH')


# Headers and lines of files that say little. Each guess makes a table and loads the file.
BARE = ['a\n', 'a\n1\n', 'a,b\nx,y\nx,y\n', 'a,,a\n1,2,3\n',
        'id,created\n1,2024-01-01T10:00:00.123\n',
        'id,created\n1,2024-01-01T10:00:00.1234567\n',
        '\u00fc,\u65e5\u672c\n1,2\n', 'x\n"a\nb"\n', '1a,select,date\n1.5,-2,2024-01-01\n',
        'id,end\n1,\n2,2024-01-01\n', 'id,from,to\n1,2024-01-01,\n',
        # Rows of one key meet; of another key some begin on the day after an end.
        'k,v,from,to\n1,1,2024-01-01,2024-02-10\n1,2,2024-02-10,2024-03-15\n'
        '2,1,2024-02-11,2024-02-20\n2,2,2024-03-16,2024-04-20\n']


# Of an answer whose rows are to hold on all days: one key, and several values of it.
EVER = 'k,v,valid_from,valid_to\n1,1,2024-01-01,2024-02-01\n1,2,2024-02-01,2024-03-01\n'


def apart(choose: random.Random) -> Iterator[tuple[object, ...]]:
    """Lines of some keys at random, each key's on days apart, in any order."""
    lines: list[tuple[object, ...]] = []
    for key in choose.sample(range(-50, 50), choose.randrange(1, 40)):
        days = sorted(choose.sample(range(60), 2 * choose.randrange(1, 4)))
        letter = choose.choice(['a', "O'Neil", '\u00e9\u65e5', ' '])
        for start, end in zip(days[::2], days[1::2]):
            lines.append((key, letter, choose.choice([0, 7, -99, 10 ** 18]),
                          choose.choice(['', 'a', "it''s", '; --', '\u65e5' * 20]),
                          FIRST + start * DAY, FIRST + end * DAY,
                          f'2024-03-0{choose.randrange(1, 9)} 00:00:00'))
    choose.shuffle(lines)
    yield from lines


def loaded_rows(status: int, script: str, told: str) -> tuple[int, list[tuple[str, str]], str]:
    """The end of a load, with the rows of its INSERTs after their moments."""
    found, moment = [], ''
    for line in script.partition('VERSIONING')[2].splitlines():
        moment = line if line.startswith('AT') else moment
        found += [(moment, line.rstrip(',;'))] if line.startswith(' (') else []
    return status, sorted(found), told


class Load(Case):
    def test_random_exports(self) -> None:
        for seed in range(40):
            self.random_export(seed)

    def random_export(self, seed: int) -> None:
        """One export at random: what the table says at each moment is what the model says."""
        choose = random.Random(seed)
        way, lines = Way(choose), []
        lines = [Line(choose, way) for _ in range(choose.randrange(1, 14))]
        if way.in_turn:
            lines = in_order(lines)
        moments = sorted({line.moment for line in lines})
        states = [state([line for line in lines if line.moment <= moment], way)
                  for moment in moments]
        header = ['number', 'k', 'L', 'Pay', 'note', 'from', 'to', 'at', 'state']
        export = self.files.write('x.csv', ''.join(map(record, [header, *(line.cells(way)
                                                                          for line in lines)])))
        status, script, told = tool('load', export, '--table', self.files.write('t.sql', TABLE),
                                    *way.words())
        if any('two' in found.values() for found in states):
            self.holds(f'random export {seed}, two records of one day',
                       status == 1 and not script and 'says something of' in told, told)
            return
        for moment in moments:
            script += f"SELECT * FROM T FOR SYSTEM_TIME AS OF TIMESTAMP '{moment}';\n"
        given = list(records(support.report(script)))
        self.holds(f'random export {seed}, nothing refused',
                   status == 0 and all(fields[0] != 'refused' for fields in given), told or given)
        found: list[list[list[str]]] = []
        for fields in given:
            if fields[0] == 'versions':
                found.append([])
            elif fields[0] == 'version':
                found[-1].append(fields[2:])
        self.equal(f'random export {seed}', [loaded(rows) for rows in found], states)

    def test_new_rows(self) -> None:
        """Lines that are all new rows are written column by column, and lines without quotes are
        read so: the script has the rows that it has by facts of each line."""
        table = self.files.write('t.sql', TABLE)
        for seed in range(40):
            choose, header = random.Random(seed), ['k', 'l', 'pay', 'note', 's', 'e', 'at']
            lines = [[str(cell) for cell in cells] for cells in apart(choose)]
            words = ['--recorded', 'at'] if seed % 2 else ['--ignore', 'at']
            words += ['--inclusive-to'] if seed % 3 else []
            plain = ''.join(f'{",".join(cells)}\n' for cells in [header, *lines])
            files = [plain, plain.replace('\n', '\r\n').rstrip(),
                     ''.join(f'"{field}"\n' for field in ['","'.join(cells)
                                                          for cells in [header, *lines]])]
            found = []
            for text in files:
                file = self.files.write('x.csv', text)
                found.append(loaded_rows(*tool('load', file, '--table', table, *words)))
            with unittest.mock.patch('bitemporal_tools.load.Load.are_new', lambda *_: False):
                by_facts = loaded_rows(*tool('load', file, '--table', table, *words))
            self.equal(f'new rows {seed}', found, [by_facts] * len(files))
            self.equal(f'new rows {seed}, the number', len(by_facts[1]), len(lines))

    def test_small_files(self) -> None:
        table = self.files.write('t.sql', PLAIN)
        for name, lines, words, wanted in STATEMENTS:
            file = self.files.write('x.csv', 'k,v,s,e,at\n' + lines)
            status, script, _ = tool('load', file, '--table', table, *read(words))
            self.equal(name, (status, statements(script)), (0, wanted))
            refused = [line for line in support.report(script).splitlines() if 'refused' in line]
            self.equal(f'{name}, run', refused, [])
        for lines, words, said in BAD:
            file = self.files.write('x.csv', 'k,v,s,e,at\n' + lines)
            status, script, told = tool('load', file, '--table', table, '--output',
                                        self.files.path('out'),
                                        *read(words))
            self.holds(f'bad line: {said}', (status, script) == (1, '') and said in told and
                       told.startswith(f'{file}:') and 'out' not in self.files.names(),
                       (status, told))
        for lines, words, said in TOLD:
            file = self.files.write('x.csv', 'k,v,s,e,at\n' + lines)
            told = tool('load', file, '--table', table, *read(words))[2]
            self.holds(f'told: {said}', told.endswith(said), told)
        for words in (f'{file}', f'{file} --table nowhere', f'{file} --table {file}',
                      'nowhere --guess', *(f'{file} --table {table} {option}' for option in (
                          '--column k=NO', '--at x', '"--at=9999-12-31 23:59:59.999999"',
                          '--recorded no', '--scale 2', '--scale W=2',
                          '--dates x', '--name U', '--open 2024', '--removed x', '--empty 1',
                          '--delimiter ab', '--record no', '--encoding no'))):
            status, script, told = tool('load', *shlex.split(words))
            self.holds(f'turned away: {words}', status == 2 and not script and
                       told.startswith('load: ') and told.count('\n') == 1, (status, told))

    def test_merged_files(self) -> None:
        """Two exports whose tables refer to each other: their moments in one order."""
        departments = self.files.write('d.csv', 'dno,s,e,at\n1,2024-01-01,9999-12-31,2024-01-05\n'
                                       '2,2024-06-01,9999-12-31,2024-05-20 10:00:00\n')
        workers = self.files.write('w.csv', 'k,v,s,e,at\n7,1,2024-01-01,9999-12-31,2024-02-01\n'
                                   '7,2,2024-06-01,9999-12-31,2024-05-20 10:00:00\n'
                                   '8,1,2024-03-01,2024-04-01,2024-03-01\n')
        made = self.files.write('dt.sql', DEPARTMENTS)
        first = self.files.write('d.sql', tool('load', departments, '--recorded', 'at', '--table',
                                               made)[1])
        table = self.files.write('wt.sql', WORKERS)
        status, script, told = tool('load', workers, '--recorded', 'at', '--table', table,
                                    '--merge', first)
        both = self.files.write('both.sql', DEPARTMENTS + ';' + WORKERS)
        in_one = tool('load', departments, '--recorded', 'at', '--table', both, '--name', 'D')[1]
        other = tool('load', workers, '--recorded', 'at', '--merge',
                     self.files.write('one.sql', in_one),
                     '--name', 'T')[1]
        self.equal('the same tables from one file', statements(other)[1:], statements(script)[1:])
        given = support.report(script + 'SELECT * FROM T').splitlines()
        self.equal('merged, run', (status, [line for line in given if line[:5] != 'done,'][2:]),
                   (0, [f'version,12,{row},9999-12-31 23:59:59.999999' for row in (
                       '7,1,2024-01-01,2024-06-01,2024-05-20 10:00:00',
                       '7,2,2024-06-01,9999-12-31,2024-05-20 10:00:00',
                       '8,1,2024-03-01,2024-04-01,2024-03-01 00:00:00')]))
        moments = [words for words in statements(script) if words.startswith('AT')]
        self.equal('moments, each once', [words[14:24] for words in moments],
                   ['2024-01-05', '2024-02-01', '2024-03-01', '2024-05-20'])

    def test_guesses(self) -> None:
        """The command that a guess gives loads the file."""
        export = self.files.write('pay 2024.csv',
                                  """Key;Full Name;Key;Zip;Pay;from;To;Entered at;Left
7;M\u00fcller, O'Neil;1;01234;4117.5;01.01.2024;31.01.2024;01.01.2024 09:30:00;
7;Ann;1;99999;4117;01.02.2024;;01.01.2024 09:30:00;2
8;Ann;1;99999;17.25;01.02.2024;29.02.2024;02.01.2024 09:30:00;
""")
        words = [export, '--delimiter', ';', '--dates', 'DD.MM.YYYY']
        status, table, told = tool('load', '--guess', *words)
        found = ' '.join(table.split('CREATE')[-1].split())
        for wanted in ('TABLE PAY_2024 (', 'KEY_ INTEGER,', 'FULL_NAME VARCHAR(20), -- "Full Name"',
                       'KEY_2 INTEGER', 'ZIP VARCHAR(10)', 'PAY INTEGER, -- in units of 0.01',
                       'LEFT INTEGER, -- with empty cells', 'FROM_ DATE, TO_ DATE,',
                       'PRIMARY KEY (KEY_, VALID WITHOUT OVERLAPS)'):
            self.holds(f'guessed: {wanted}', status == 0 and wanted in found, (told, table))
        self.files.write('FILE', table)
        command = shlex.split(table.splitlines()[1][len('--   tools/load '):])
        command[command.index('FILE')] = self.files.path('FILE')
        status, script, told = tool('load', *command)
        self.equal('the guessed command', status, 0)
        given = support.report(script + 'SELECT * FROM PAY_2024').splitlines()
        self.equal('what the guess loads', [line for line in given if 'version,' in line], [
            'version,6,7,Ann,1,99999,411700,2,2024-02-01,9999-12-31,2024-01-01 09:30:00,'
            '9999-12-31 23:59:59.999999',
            '''version,6,7,"M\u00fcller, O'Neil",1,01234,411750,0,2024-01-01,2024-02-01,'''
            '2024-01-01 09:30:00,9999-12-31 23:59:59.999999',
            'version,6,8,Ann,1,99999,1725,0,2024-02-01,2024-03-01,2024-01-02 09:30:00,'
            '9999-12-31 23:59:59.999999'])

    def test_bare_guesses(self) -> None:
        """The guesses of small self.files, and their commands."""
        for text in [*BARE, EVER]:
            words = ['--always'] * (text == EVER)
            self.files.write('FILE', tool('load', '--guess', self.files.write('bare.csv', text),
                                          *words)[1])
            command = shlex.split(self.files.read('FILE').splitlines()[1][len('--   tools/load '):])
            command[command.index('FILE')] = self.files.path('FILE')
            status, script, told = tool('load', *command)
            kinds = {line.split(',')[0] for line in support.report(script).splitlines()}
            self.equal(f'the guess of {text!r}', (status, kinds), (0, {'done'}))
        status, output, _ = tool('load', '--guess',
                                 self.files.write('bare.csv', 'from,to\n2024-01-01,\n'))
        self.equal('days alone', (status, output), (1, ''))

    def test_large_files(self) -> None:
        """999 rows of a number and two dates are one INSERT, and a file of more than a script is
    several scripts."""
        lines = ['k,s,e\n', *(f'{number},2024-01-01,2024-02-01\n' for number in range(2_000))]
        table = self.files.write('t.sql', PLAIN.replace('V INTEGER, ', ''))
        _, script, _ = tool('load', self.files.write('x.csv', ''.join(lines)), '--table', table)
        self.equal('rows of each INSERT',
                   [text.count("'2024-02-01'") for text in statements(script)],
                   [999, 999, 2])
        create = PLAIN.replace('V INTEGER', 'V VARCHAR(1000)')
        table, note = self.files.write('t.sql', create), 'x' * 950
        lines = ['k,v,s,e\n', *(f'{number},{note},2024-01-01,2024-02-01\n'
                                for number in range(4_300))]
        words = [self.files.write('x.csv', ''.join(lines)), '--table', table]
        status, script, told = tool('load', *words)
        self.holds('more than a script', status == 2 and not script and '--output' in told, told)
        status, script, told = tool('load', *words, '--output', self.files.path('y.sql'))
        parts = [name for name in self.files.names() if name.startswith('y')]
        self.equal('parts', (status, parts), (0, ['y-1.sql', 'y-2.sql']))
        first, second = [self.files.read(part) for part in parts]
        self.holds('the first part is full', 3_900_000 < len(first) <= 4_194_304, len(first))
        rows = [int(found) for found in re.findall(r"\((\d+), 'x", first + second)]
        self.equal('rows of the parts', rows, list(range(4_300)))
        given = support.report(create + ';' + second).splitlines()
        self.equal('the second part, run', {line.split(',')[0] for line in given}, {'done'})
        ran = subprocess.run(['bitemporal_file', self.files.path('y.store'),
                              *map(self.files.path, parts)],
                             executable=support.program.PROGRAM, stdout=subprocess.PIPE,
                             check=False)
        self.equal('the parts, run over a store',
                   (ran.returncode, {line.split(b',')[0] for line in ran.stdout.splitlines()}),
                   (0, {b'done'}))


if __name__ == '__main__':
    support.run_cases()
