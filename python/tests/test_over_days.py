#!/usr/bin/env python3
"""Tests tools/over_days by the program: random scripts in slices against the whole run, files of
rows, scripts of more bytes than a run takes, what is refused; and on a Dask cluster if there is
one.

The variables SEED and COUNT choose other random scripts.
"""
import contextlib
import datetime
import os
import pathlib
import random
import re
import unittest
from collections.abc import Iterator, Sequence
from typing import Any, Union

import support
from bitemporal_scale.dask_cluster import DEBIAN_PYTHON, cluster, has_dask
from bitemporal_tools.reports.records import record, records
from bitemporal_tools.sql.literals import literal
from bitemporal_tools.sql.tree import Value
from support import ROOT, Case, Files, chosen, program, run, tool
import random_scripts

DAY = datetime.timedelta(1)
FIRST = datetime.date(2024, 1, 1)
BORDERS = [str(datetime.date(2024, 2, 26) + number * DAY) for number in range(1, 8)]
BORDERS += ['0001-01-02', '1970-01-01', '9999-12-30']
TEXTS = ['', 'a', "O'Neil", 'x, "y"', 'two\nlines', 'a\rb', '\u00e9\u65e5', '; --', ' ', '"']
TABLE = support.create_table('T', 'K INTEGER, NOTE VARCHAR(1000)', 'K')
QUERIES = ['VALIDTIME SELECT DISTINCT NOTE FROM T', 'VALIDTIME SELECT DISTINCT K, NOTE FROM T',
           'VALIDTIME SELECT DISTINCT K FROM T EXCEPT SELECT DISTINCT K FROM T WHERE NOTE = \'\'']


def whole(files: Files, script: str, *words: str) -> tuple[Union[int, str], str, str]:
    """The report of `run` for the script, with the numbers left out that slices can't tell."""
    status, given, errors = program.got(['run', *words, files.write('whole.sql', script)])
    output = re.sub('(?m)^(done,[0-9]+,(?:update|delete),)[0-9]+$', r'\1', given.decode())
    return status, re.sub('(?m)^(audit,[0-9]+,agrees,)[0-9]+$', r'\1', output), errors.decode()


def sliced(files: Files, script: str, *words: str) -> tuple[int, str, str]:
    """The report of over_days; it may say on standard error that slices were run again."""
    status, output, errors = tool('over_days', *words, files.write('sliced.sql', script))
    kept = [line for line in errors.splitlines() if 'run again without it' not in line]
    return status, re.sub('(?m)^(audit,[0-9]+,agrees,)[0-9]+$', r'\1', output), '\n'.join(kept)


def rows(count: int, texts: list[str] = TEXTS) -> Iterator[list[Value]]:
    """Rows of keys and notes; each key has rows that meet, and some that end open."""
    chance = random.Random(5)
    for number in range(count):
        start = FIRST + chance.randrange(20) * DAY
        for note in chance.sample(texts, 2):
            end = start + chance.randint(1, 200) * DAY
            yield [number, note, start, end]
            start = end
        if number % 10 == 0:
            yield [number, texts[0], start, datetime.date.max]


def script_of(given: Sequence[Sequence[Any]]) -> str:
    inserts = [f"INSERT INTO T VALUES {','.join(tuple_of(row) for row in given[at:at + 500])}"
               for at in range(0, len(given), 500)]
    return ';\n'.join([TABLE, *inserts, *QUERIES])


def tuple_of(row: Sequence[Any]) -> str:
    return f"({', '.join(map(literal, row))})"


def csv_of(given: Sequence[Sequence[Any]]) -> str:
    """The rows as a file with another order of columns, one that isn't asked for, and open ends."""
    lines = [['e', 'Note', 'other', 'k', 's']]
    lines += [['' if row[3] == datetime.date.max else str(row[3]), str(row[1]), 'x', str(row[0]),
               str(row[2])] for row in given]
    return ''.join(map(record, lines))


def answers_in(report: str) -> list[str]:
    """The records of the answers without the numbers of their statements."""
    return re.findall('(?m)^(?:answer|columns|row),[0-9]+,(.*)$', report)


def row_days(report: str) -> list[list[str]]:
    """The rows of a report's answers without their witnesses."""
    return [fields[1:-2] for fields in records(report) if fields[0] == 'row']


def cut(found: list[list[str]], low: str, high: str) -> list[list[str]]:
    return [[*fields[:-2], max(fields[-2], low), min(fields[-1], high)] for fields in found
            if fields[-2] < high and fields[-1] > low]


def long_rows(count: int) -> Sequence[Sequence[Any]]:
    """Rows of some 930 bytes, each with a text of its own and three days."""
    return [[number, f'{number:04} ' + 'x' * 900, FIRST + number * DAY, FIRST + (number + 3) * DAY]
            for number in range(count)]


@contextlib.contextmanager
def program_named(path: str) -> Iterator[None]:
    """Has the tools run another program."""
    before = dict(os.environ)
    os.environ['BITEMPORAL'] = path
    try:
        yield
    finally:
        os.environ.clear()
        os.environ.update(before)


def run_cut(folder: str, words: list[str]) -> None:
    """Runs the slices in a folder that have no report yet."""
    for script in pathlib.Path(folder).glob('*.sql'):
        if not script.with_suffix('.report').exists():
            script.with_suffix('.report').write_bytes(program.got(['run', *words, script])[1])


class OverDays(Case):
    def test_random(self) -> None:
        first, count = chosen('SEED', 1), chosen('COUNT', 60)
        """Changes, keys, references, conditions, joins, windows; each third script is audited."""
        forms = ('changes', 'keys', 'queries')
        for seed, script in random_scripts.scripts(first, count, forms):
            borders = ','.join(random.Random(seed).sample(BORDERS, 4))
            audit = ['--audit'] * (seed % 3 == 0)
            self.equal(f'random script {seed} at {borders}',
                       sliced(self.files, script, '--borders', borders, '--jobs', '2', *audit),
                       whole(self.files, script, *audit))

    def test_loaded(self) -> None:
        given = list(rows(400))
        file = self.files.write('rows.csv', csv_of(given))
        wanted = answers_in(whole(self.files, script_of(given))[1])
        queries = ';\n'.join([TABLE, *QUERIES])
        for words in (['--slices', '1'], ['--slices', '7'], ['--slices', '40', '--jobs', '3']):
            status, output, errors = sliced(self.files, queries, '--load', f't={file}', *words)
            self.equal(f'loaded rows, {words}', (status, errors, answers_in(output)),
                       (0, '', wanted))
        file = self.files.write('few.csv', csv_of(list(rows(40))))
        status, output, errors = sliced(self.files, queries, '--load', f't={file}', '--audit')
        self.equal('loaded rows, audited', (status, errors, output.count('agrees')), (0, '', 3))

    def test_days(self) -> None:
        """Of some days alone the answers are what the whole answers say of those days."""
        given = list(rows(60))
        low, high = datetime.date(2024, 3, 1), datetime.date(2024, 5, 1)
        script = script_of(given)
        for words in (['--slices', '1'], ['--slices', '3']):
            status, output, errors = sliced(self.files, script, '--days', f'{low},{high}', *words)
            self.equal(f'some days, {words}', (status, errors, row_days(output)),
                       (0, '', cut(row_days(whole(self.files, script)[1]), str(low), str(high))))
        file = self.files.write('rows.csv', csv_of(given))
        status, output, errors = sliced(self.files, ';\n'.join([TABLE, *QUERIES]), '--load',
                                        f'T={file}',
                                        '--days', f'{low},{high}')
        self.equal('some days of loaded rows', (status, errors, answers_in(output)[-3:]),
                   (0, '', answers_in(sliced(self.files, script, '--days',
                                             f'{low},{high}')[1])[-3:]))

    def test_large(self) -> None:
        """A script that is too large for a run: 6 MB of texts, each in one row."""
        given = long_rows(6_500)
        script = script_of(given)
        refused = (2, '', 'bitemporal: 2 ScriptTooLarge\n')
        self.equal('a large script in one run', whole(self.files, script), refused)
        status, output, errors = sliced(self.files, script, '--jobs', '2')
        wanted = [f'{note},{start},{end},{start},{start - DAY}' for _, note, start, end in given]
        self.equal('a large script in slices', (status, errors), (0, ''))
        found = answers_in(output)
        self.holds('its first answer', found[2:6_502] == wanted, found[:5])

    def test_slices(self) -> None:
        """As many slices as are asked for, and a report whose reader has enough."""
        script = self.files.write('slices.sql', script_of(list(rows(4000))))
        for count in range(1, 9):
            folder = self.files.path(f'cut {count}')
            tool('over_days', '--slices', count, '--cut', folder, script)
            self.equal(f'{count} slices', len(list(pathlib.Path(folder).glob('*.sql'))), count)
        command = f'"{ROOT}/tools/over_days" "{script}" | head -n 1'
        self.equal('a reader that has enough', run(['sh', '-c', command]),
                   (0, b'done,1,create,0\n', b''))

    def test_refused(self) -> None:
        """Faults that are reported, and nothing is answered."""
        queries = ';\n'.join([TABLE, *QUERIES])
        script = self.files.write('queries.sql', queries)
        good = self.files.write('good.csv', 'K,NOTE,S,E\n1,a,2024-01-01,2024-03-01\n')
        clash = self.files.write('clash.csv',
                                 'K,NOTE,S,E\n1,a,2024-01-01,2024-03-01\n1,b,2024-02-01,\n')
        bad = self.files.write('bad.csv', 'K,NOTE,S,E\n1,a,2024-01-01,2024-01-01\n2,b,2024-02-30,\n'
                               'x,c,2024-01-01,\n3,d\n')
        stored = self.files.write('stored.sql', f'{TABLE}; SELECT * FROM T; {QUERIES[0]}')
        header = self.files.write('header.csv', 'K,S,E\n1,2024-01-01,2024-03-01\n')
        cases = [
            ('no file', [self.files.path('none.sql')], 'none.sql'),
            ('not UTF-8', [self.files.write('bytes.sql', b'\xff')], '1 NotUtf8'),
            ('a bad token', [self.files.write('token.sql', 'SELECT !')], '3 BadToken 7'),
            ('a stored query', [stored], 'statement 2 is a stored query'),
            ('no such table', ['--load', f'U={good}', script], 'the script makes no table U'),
            ('two files', ['--load', f'T={good}', '--load', f'T={good}', script], 'a file already'),
            ('a key clash', ['--load', f'T={clash}', script], '42 KeyOverlap 2024-02-01'),
            ('an empty period', ['--load', f'T={bad}', script], 'bad.csv:2: the start 2024-01-01'),
            ('no day', ['--load', f'T={bad}', script], 'bad.csv:3: column 3 (S)'),
            ('no number', ['--load', f'T={bad}', script], 'bad.csv:4: column 1 (K)'),
            ('few fields', ['--load', f'T={bad}', script], 'bad.csv:5: 2 fields'),
            ('no column', ['--load', f'T={header}', script], 'csv:1: the header has to name NOTE'),
            ('no border', ['--borders', '2024-1-1', script], '2024-1-1'),
            ('one day', ['--days', '2024-01-01', script], '--days'),
            ('no days', ['--days', '2024-01-02,2024-01-02', script], '--days'),
            ('no slices', ['--slices', '0', script], '--slices'),
        ]
        for name, words, said in cases:
            status, output, errors = tool('over_days', *words)
            self.equal(f'refused: {name}', (status, output, said in errors or errors),
                       (2, '', True))
        found = tool('over_days', '--without-stored', stored)
        wanted = 'done,1,create,0\nanswer,3,1,0\ncolumns,3,NOTE,valid_from,valid_to,held,absent\n'
        self.equal('a stored query left out', found, (0, wanted, ''))
        one_day = [[number, 'x' * 990, FIRST, FIRST + DAY] for number in range(4_400)]
        status, output, errors = sliced(self.files, script_of(one_day))
        self.equal('too many rows of one day',
                   (status, output, 'the rows of 2024-01-01' in errors), (2, '', True))
        status, output, errors = tool('over_days', '--help')
        self.equal('help', (status, '--dask' in output, errors), (0, True, ''))

    def test_program(self) -> None:
        """Programs that answer otherwise: another audit, memory, a report of another script."""
        script = self.files.write('audited.sql', script_of(list(rows(5))))
        for name, edit, status, said in (
                ('an audit', 's/^audit,3,agrees,[0-9]*/audit,3,differs,2024-01-05/', 3, ''),
                ('memory in one slice', '/^done,2/{s/.*/refused,2,61,Memory,/}', 2, 'statement 2'),
                ('a report that ends', '/^done,2/d', 2, 'statement 2')):
            wrong = self.files.write('wrong', '#!/bin/sh\nfor file; do :; done\n'
                                     'case $file in */0001*)\n'
                                     f'"{program.PROGRAM}" "$@" | sed "{edit}"; exit 0;; esac\n'
                                     f'exec "{program.PROGRAM}" "$@"\n')
            os.chmod(wrong, 0o755)
            with program_named(wrong):
                found, output, errors = tool('over_days', '--audit', script)
            self.equal(f'another program: {name}', (found, said in errors or errors),
                       (status, True))
            if status == 3:
                self.equal('its record', '\naudit,3,differs,2024-01-05\n' in output, True)
        with program_named(self.files.path('none')):
            self.equal('no program', tool('over_days', script)[:2], (2, ''))

    @unittest.skipUnless(has_dask(), 'no python3-distributed here')
    def test_dask(self) -> None:
        script = script_of(list(rows(400)))
        wanted = sliced(self.files, script, '--slices', '8')
        with cluster(self.files.folder.name, 2) as address:
            command = [DEBIAN_PYTHON, ROOT / 'tools/over_days', '--slices', '8', '--dask', address]
            status, output, errors = run([*command, self.files.path('sliced.sql')])
            self.equal('slices on a Dask cluster', (status, output.decode(), errors.decode()),
                       wanted)
            large = self.files.write('large.sql', script_of(long_rows(3_000)))
            status, output, errors = run([*command[:2], '--slices', '2', *command[4:], large])
            self.equal('large slices on a Dask cluster', (status, output.count(b'\nrow,') > 3_000,
                                                          errors), (0, True, b''))
        status, output, errors = run([*command[:-1], 'tcp://127.0.0.1:1',
                                      self.files.path('sliced.sql')])
        self.equal('no scheduler', (status, output, b'no Dask scheduler' in errors), (2, b'', True))

    def test_elsewhere(self) -> None:
        first, count = chosen('SEED', 1), chosen('COUNT', 60) // 3
        """Slices that are cut, run by others, and joined."""
        for seed, script in random_scripts.scripts(first, count, ('changes', 'keys', 'queries')):
            borders = ','.join(random.Random(seed).sample(BORDERS, 3))
            folder, file = self.files.path(f'cut{seed}'), self.files.write('cut.sql', script)
            audit = ['--audit'] * (seed % 3 == 0)
            found = tool('over_days', '--cut', folder, '--borders', borders, file)
            self.equal(f'random script {seed}, cut', found[:2], (0, ''))
            status, rounds = 4, 0
            while status == 4 and rounds < 100:
                run_cut(folder, audit)
                status, output, errors = tool('over_days', '--join', folder, file)
                rounds += 1
            output = re.sub('(?m)^(audit,[0-9]+,agrees,)[0-9]+$', r'\1', output)
            self.equal(f'random script {seed}, joined', (status, output, errors),
                       whole(self.files, script, *audit))

    def test_elsewhere_refused(self) -> None:
        """Paths that are no folder of slices, and what --join says if reports are missing or
        wrong."""
        script, folder = self.files.write('rows.sql',
                                          script_of(list(rows(40)))), self.files.path('elsewhere')
        other = self.files.write('other.sql', TABLE)
        stored = self.files.write('shown.sql', f'{TABLE}; SELECT * FROM T')
        self.equal('cut', tool('over_days', '--cut', folder, '--slices', '3', script)[:2], (0, ''))
        status, output, errors = tool('over_days', '--join', folder, script)
        self.equal('no reports', (status, output, errors.count('.sql has to be run\n')), (4, '', 3))
        run_cut(folder, [])
        wanted = whole(self.files, script_of(list(rows(40))))
        self.equal('joined', tool('over_days', '--join', folder, script), wanted)
        self.equal('joined again', tool('over_days', '--join', folder, script), wanted)
        broken = self.files.path('broken')
        os.mkdir(broken)
        self.files.write('broken/slices.json', '{"slices": 1}')
        cases = [('a folder that is not empty', ['--cut', folder, script], 'is not empty'),
                 ('a stored query', ['--cut', self.files.path('new'), stored],
                  'statement 2 is a stored'),
                 ('another script', ['--join', folder, other], 'not of this script'),
                 ('no folder', ['--join', self.files.path('none'), script], 'has no slices'),
                 ('another file', ['--join', broken, script], 'is not what over_days --cut writes'),
                 ('both', ['--join', folder, '--cut', folder, script], 'not allowed with')]
        for name, words, said in cases:
            status, output, errors = tool('over_days', *words)
            self.equal(f'refused: {name}', (status, output, said in errors or errors),
                       (2, '', True))
        report = next(pathlib.Path(folder).glob('*.report'))
        report.write_bytes(report.read_bytes().replace(b'done,2,', b'done,3,'))
        status, output, errors = tool('over_days', '--join', folder, script)
        self.equal('a report of another script',
                   (status, output, 'statement 2' in errors or errors),
                   (2, '', True))


if __name__ == '__main__':
    support.run_cases()
