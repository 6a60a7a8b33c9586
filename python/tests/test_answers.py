#!/usr/bin/env python3
"""Tests tools/answers: texts that a spreadsheet or a terminal would run, names of files, order, and
reports that aren't the script's. The last line is 'N passed, M failed'."""
import csv
import importlib.util
import io
import os
import pathlib
import subprocess
import sys
import types
from typing import Any, BinaryIO
from unittest import mock

import support
import program
from folders import ROOT
from support import tool

SCRIPT = support.create_table('T', 'K INTEGER, V VARCHAR(30)', 'K') + ''';
INSERT INTO T VALUES (1, 'b', DATE '2024-01-01', DATE '2024-02-01'),
 (1, 'a', DATE '2024-02-01', DATE '2024-03-01'), (-2, 'a', DATE '2024-01-15', DATE '2024-01-20');
'''
# Texts; how a spreadsheet gets them, as a field of CSV; and how a terminal does.
TEXTS = [
    ('plain', 'plain', 'plain'),
    ('=1+1', "'=1+1", '=1+1'),
    ('+1', "'+1", '+1'),
    ('-1', '-1', '-1'),
    ('-1+2', "'-1+2", '-1+2'),
    ('@SUM(A1)', "'@SUM(A1)", '@SUM(A1)'),
    ('\t=1', "'\t=1", '\\x09=1'),
    ('\r=1', '"\'\r=1"', '\\x0d=1'),
    ('\n=1', '"\'\n=1"', '\\x0a=1'),
    ('\uff1d1', "'\uff1d1", '\uff1d1'),
    ('a\x1b[2Jb', 'a\\x1b[2Jb', 'a\\x1b[2Jb'),
    ('a\x00\x7f\x9b', 'a\\x00\\x7f\\x9b', 'a\\x00\\x7f\\x9b'),
    ('\u202eabc', '\\u202eabc', '\\u202eabc'),
    ('a, "b"', '"a, ""b"""', 'a, "b"'),
    ('two\nlines', '"two\nlines"', 'two\\x0alines'),
    ('\u65e5\u672c', '\u65e5\u672c', '\u65e5\u672c'),
    ("'", "'", "'"),
    ('', '', ''),
    ('<script>', '<script>', '<script>'),
]


def queried(*queries: str) -> tuple[str, str]:
    """A script that asks these, and its report."""
    script = SCRIPT + ';\n'.join(queries)
    return script, support.report(script)


PAY = SCRIPT.partition('INSERT')[0] + '''INSERT INTO T VALUES
 (310000, '=x', DATE '2024-01-01', DATE '9999-12-31'),
 (-5, 'b', DATE '2024-02-01', DATE '2024-03-01'), (99, 'b', DATE '0001-01-01', DATE '0001-01-02');
-- Who gets what, in euros?
-- name: pay
VALIDTIME SELECT DISTINCT K, V FROM T;
-- name: whole pay
VALIDTIME SELECT DISTINCT K FROM T;
SELECT * FROM T WHERE K = -5
'''


class ArrowInvalid(ValueError):
    """pyarrow's, for a value that its type does not hold."""


def stand_in() -> dict[str, Any]:
    """Modules that play pyarrow's: a file has the text of what would be written."""
    def array(values: list[object], form: tuple[object, ...]) -> tuple[object, list[str]]:
        if form == ('int64',) and any(abs(int(str(value))) >= 2 ** 63 for value in values):
            raise OverflowError('too large')
        return form, [str(value) for value in values]

    def table(arrays: list[object], names: list[str]) -> list[tuple[str, object]]:
        return list(zip(names, arrays))

    def write_table(of: list[tuple[str, object]], file: BinaryIO) -> None:
        file.write(repr(of).encode())

    kinds = {name: lambda *words, name=name: (name, *words)
             for name in ('int64', 'date32', 'string', 'timestamp', 'decimal128')}
    return {'pyarrow': types.SimpleNamespace(
                array=array, table=table, ArrowInvalid=ArrowInvalid, **kinds),
            'pyarrow.parquet': types.SimpleNamespace(write_table=write_table)}


class Answers(support.Case):
    """Answers out of a report, in all forms."""

    def written(self, script: str) -> tuple[str, str]:
        """The files of a script and of its report."""
        return (self.files.write('x.sql', script),
                self.files.write('x.report', support.report(script)))

    def test_texts(self) -> None:
        """Each text as CSV, raw, on a terminal and on a web page."""
        rows = ',\n'.join("({}, '{}', DATE '2024-01-01', DATE '2024-02-01')".format(
            number, text.replace("'", "''")) for number, (text, _, _) in enumerate(TEXTS))
        script = SCRIPT.partition('INSERT')[0] + f'INSERT INTO T VALUES {rows};' \
            'VALIDTIME SELECT DISTINCT K, V FROM T'
        paths = self.written(script)
        days = ',2024-01-01,2024-02-01\n'
        wanted = ''.join(f'{number},{safe}{days}' for number, (_, safe, _) in enumerate(TEXTS))
        self.equal('for a spreadsheet', tool('answers', *paths),
                   (0, 'K,V,valid_from,valid_to\n' + wanted, ''))
        _, raw, _ = tool('answers', *paths, '--raw')
        file = io.StringIO(raw.replace('\x00', '\u2400'), newline='')
        self.equal('raw', [row[1] for row in csv.reader(file)][1:],
                   [text.replace('\x00', '\u2400') for text, _, _ in TEXTS])
        _, table, _ = tool('answers', *paths, '--table')
        lines = table.splitlines()[3:]
        self.equal('lines of the table', len(lines), len(TEXTS))
        for line, (number, (text, _, shown)) in zip(lines, enumerate(TEXTS)):
            self.equal(f'on a terminal: {text!r}', line.split('2024')[0].strip(),
                       f'{number:>2}  {shown}'.strip())
        _, page, _ = tool('answers', *paths, '--html')
        self.holds('on a web page', '&lt;script&gt;' in page and '<script' not in page.lower() and
                   'a\\x1b[2Jb' in page and '\x1b' not in page, page)

    def test_alignment(self) -> None:
        paths = self.written(SCRIPT + '-- Who is where?\n-- And when?\n'
                             'VALIDTIME SELECT DISTINCT K, V FROM T')
        self.equal('an aligned table', tool('answers', *paths, '--table'), (0, """\
3: Who is where? (3 rows)
 K  V  valid_from  valid_to
--  -  ----------  ----------
-2  a  2024-01-15  2024-01-20
 1  a  2024-02-01  2024-03-01
 1  b  2024-01-01  2024-02-01
""", ''))
        found = tool('answers', *paths, '--by', 'k,day', '--witness')
        self.equal('the history of each key', found, (0, """K,V,valid_from,valid_to,held,absent
-2,a,2024-01-15,2024-01-20,2024-01-15,2024-01-14
1,b,2024-01-01,2024-02-01,2024-01-01,2023-12-31
1,a,2024-02-01,2024-03-01,2024-02-01,2024-01-31
""", ''))
        self.equal('in the order of time', tool('answers', *paths, '--by', 'day')[1].split()[1:], [
            '1,b,2024-01-01,2024-02-01', '-2,a,2024-01-15,2024-01-20', '1,a,2024-02-01,2024-03-01'])
        self.equal('by no column', tool('answers', *paths, '--by', 'x')[0], 1)
        wide = SCRIPT.replace("'b'", "'\u65e5\u672c'") + 'VALIDTIME SELECT DISTINCT V FROM T'
        paths = self.written(wide)
        self.equal('wide characters', tool('answers', *paths, '--table')[1].splitlines()[1:], [
            'V     valid_from  valid_to', '----  ----------  ----------',
            'a     2024-01-15  2024-01-20',
            'a     2024-02-01  2024-03-01', '\u65e5\u672c  2024-01-01  2024-02-01'])

    def test_names(self) -> None:
        """A file for each answer, by number, by the comment above it, and by its name."""
        script, report = queried(
            'VALIDTIME SELECT DISTINCT K FROM T',
            ' -- not of the next one\n\n-- Who was there, and when? /../\n'
            'VALIDTIME SELECT DISTINCT K FROM T',
            '\n-- a question\n-- Name: staffed days\nVALIDTIME SELECT DISTINCT V FROM T',
            '\n-- far above\n\nSELECT * FROM T WHERE K = 1',
            '\n-- ' + 'long ' * 30 + '\nVALIDTIME SELECT DISTINCT K FROM T',
            '\n-- \u65e5\u672c\nVALIDTIME SELECT DISTINCT K FROM T')
        paths = self.files.write('x.sql', script), self.files.write('x.report', report)
        status, output, told = tool('answers', *paths, '--into', self.files.path('out/all'))
        written = sorted(os.listdir(self.files.path('out/all')))
        self.equal('names of files', (status, output, told, written), (0, '', '', [
            '3.csv', '4-who-was-there-and-when.csv', '6.csv',
            '7-long-long-long-long-long-long-long-long-long-long-long-long.csv', '8.csv',
            'staffed-days.csv']))
        self.equal('versions', self.files.read('out/all/6.csv'), """K,V,S,E,SS,SE
1,a,2024-02-01,2024-03-01,0001-01-01 00:00:00,9999-12-31 23:59:59.999999
1,b,2024-01-01,2024-02-01,0001-01-01 00:00:00,9999-12-31 23:59:59.999999
""")
        output = tool('answers', *paths, '--only', '6', '--by', 'day')[1]
        self.equal('versions by day', output.split('\n')[1][:4], '1,b,')
        for which in ('5', 'staffed-days', 'staffed days'):
            self.equal(f'only {which}', tool('answers', *paths, '--only', which)[1].splitlines()[0],
                       'V,valid_from,valid_to')
        status, _, told = tool('answers', *paths, '--only', '2')
        self.holds('an answer that is not there',
                   status == 1 and 'there is no answer 2' in told, told)
        status, _, told = tool('answers', *paths)
        self.holds('which of several', status == 2 and '--only' in told, told)
        status, page, _ = tool('answers', *paths, '--html', '--only', '3,5')
        self.equal('two on a page', (status, page.count('<table>')), (0, 2))

    def test_forms(self) -> None:
        """Cents with decimals, last days, a byte order mark, and a title instead of a name."""
        paths = self.written(PAY)
        found = tool('answers', *paths, '--only', 'pay', '--scale', 'k=2', '--inclusive')
        self.equal('decimals and last days', found, (0, """K,V,valid_from,last_day
-0.05,b,2024-02-01,2024-02-29
0.99,b,0001-01-01,0001-01-01
3100.00,'=x,2024-01-01,9999-12-31
""", ''))
        found = tool('answers', *paths, '--only', 'pay', '--table', '--scale', 'K=2', '--by', 'day')
        self.equal('a title beside a name', found, (0, """\
3: Who gets what, in euros? (3 rows)
      K  V   valid_from  valid_to
-------  --  ----------  ----------
   0.99  b   0001-01-01  0001-01-02
3100.00  =x  2024-01-01  9999-12-31
  -0.05  b   2024-02-01  2024-03-01
""", ''))
        for which in ('pay', '3', 'whole pay'):
            self.equal(f'only {which}', tool('answers', *paths, '--only', which)[0], 0)
        output = tool('answers', *paths, '--only', 'pay', '--excel')[1]
        self.holds('a byte order mark', output.startswith('\ufeffK,V,valid_from'), output)
        status, _, told = tool('answers', *paths, '--into', self.files.path('forms'), '--excel',
                               '--scale', 'K=2', '--inclusive')
        self.equal('files of all', (status, told), (0, ''))
        self.equal('a file of versions', self.files.read('forms/5.csv'), """\
\ufeffK,V,S,last_day,SS,SE
-0.05,b,2024-02-01,2024-02-29,0001-01-01 00:00:00,9999-12-31 23:59:59.999999
""")
        self.equal('a file for each', sorted(os.listdir(self.files.path('forms'))),
                   ['5.csv', 'pay.csv', 'whole-pay.csv'])
        page = tool('answers', *paths, '--only', 'pay', '--html', '--scale', 'K=2')[1]
        self.holds('decimals on a page', '<td class="number">3100.00</td>' in page, page)
        for words in (['--scale', 'V=2'], ['--scale', 'X=2'], ['--scale', 'K'], ['--scale', 'K=19'],
                      ['--scale', '2'], ['--excel', '--table'], ['--parquet'],
                      ['--parquet', '--into', 'x', '--excel'], ['--into', 'x', '--table']):
            self.equal(f'turned away: {words}', tool('answers', *paths, '--only', '3', *words)[:2],
                       (2, ''))

    def test_parquet(self) -> None:
        """The columns that pyarrow gets, by a stand-in for it; and what is read of a file, if it is
        here."""
        paths = self.written(PAY)
        words = ['answers', *paths, '--into', self.files.path('parquet'), '--parquet', '--scale',
                 'K=2']
        if importlib.util.find_spec('pyarrow'):
            self.equal('Parquet', tool(*words), (0, '', ''))
            read = importlib.import_module('pyarrow.parquet').read_table(
                self.files.path('parquet/pay.parquet')).to_pydict()
            self.equal('read of Parquet', [str(value) for value in read['K']],
                       ['-0.05', '0.99', '3100.00'])
            return
        print('Parquet by pyarrow: no pyarrow here, so a stand-in gets what would be written')
        status, output, told = tool(*words)
        self.equal('no pyarrow', (status, output), (2, ''))
        self.holds('what to do without it', 'pip install pyarrow' in told, told)
        with mock.patch.dict(sys.modules, stand_in()):
            self.equal('to Parquet', tool(*words), (0, '', ''))
            self.equal('types and values', self.files.read('parquet/pay.parquet'), repr([
                ('K', (('decimal128', 38, 2), ['-0.05', '0.99', '3100.00'])),
                ('V', (('string',), ['b', 'b', '=x'])),
                ('valid_from', (('date32',), ['2024-02-01', '0001-01-01', '2024-01-01'])),
                ('valid_to', (('date32',), ['2024-03-01', '0001-01-02', '9999-12-31']))]))
            moments = self.files.read('parquet/5.parquet').count("('timestamp', 'us')")
            self.equal('moments', moments, 2)
            self.equal('totals to Parquet', tool(
                'totals', *paths, '--only', 'pay', '--sum', 'K', '--parquet', '--into',
                self.files.path('parquet')), (0, '', ''))
            self.holds('the type of a sum',
                       "('SUM_K', (('int64',)" in self.files.read('parquet/pay.parquet'))

    def test_reports(self) -> None:
        """Refused statements are reported; reports of other scripts are turned away."""
        script, report = queried('VALIDTIME SELECT DISTINCT NO FROM T',
                                 'VALIDTIME SELECT DISTINCT K FROM T')
        path = self.files.write('x.sql', script)
        answer = 'K,valid_from,valid_to\n-2,2024-01-15,2024-01-20\n1,2024-01-01,2024-03-01\n'
        told = f'answers: statement 3 of {path} was refused: 24 UnknownColumn\n'
        self.equal('a refused statement', tool('answers', path, given=report.encode()),
                   (1, answer, told))
        audited = support.run([program.PROGRAM, 'run', '--audit', path])[1]
        self.equal('an audited report', tool('answers', path, given=audited), (1, answer, told))
        others = {
            'empty': '', 'cut': report[:-20], 'cut at a line': report[:report.rindex('row')],
            'longer': report + 'done,5,at,0\n', 'of other kinds': report.replace('create', 'at'),
            'of other numbers': report.replace('answer,4', 'answer,5'),
            'of more columns': report.replace('answer,4,1', 'answer,4,2'), 'no CSV': '"a"b\n',
            'of a check': 'checked,4,0\n', 'with an open quote': report + '"done'}
        for name, other in others.items():
            status, output, told = tool('answers', path, given=other.encode())
            self.equal(f'a report that is {name}', (status, output), (2, ''))
            self.holds('one line about it', told.startswith('answers: ') and told.count('\n') == 1,
                       told)
        script, report = queried('UPDATE T SET K = 4 WHERE K = 99',
                                 'VALIDTIME SELECT DISTINCT K FROM T')
        path = self.files.write('z.sql', script)
        self.equal('a report of over_days', tool('answers', path, given=report.replace(
            'done,3,update,0', 'done,3,update,').encode()), (0, answer, ''))
        turned_away: list[list[str]] = [[], ['nowhere'], [path, 'nowhere'],
                                        [path, '--table', '--html']]
        for words in turned_away:
            self.equal(f'turned away: {words}', tool('answers', *words)[0], 2)
        empty = self.files.write('y.sql', '-- nothing\n')
        self.equal('a script without answers', tool('answers', empty, '--table'), (0, '', ''))
        bad = self.files.write('y.sql', 'SELECT "x"')
        self.equal('a script that is refused', tool('answers', bad)[::2], (
            2, f'answers: {bad} is refused as a whole: 3 BadToken 7\n'))

    def test_runs(self) -> None:
        """A script that is run for its report: alone, and over a store, which it only asks."""
        path, report = self.written(PAY)
        for words in ['pay'], ['5', '--witness'], ['whole pay', '--table']:
            self.equal(f'--run, {words}', tool('answers', path, '--run', '--only', *words),
                       tool('answers', path, report, '--only', *words))
        store = self.files.path('x.store')
        subprocess.run(['bitemporal_file', store, path], executable=program.PROGRAM, check=True,
                       stdout=subprocess.PIPE)
        questions = self.files.write('q.sql', PAY[PAY.index('-- Who'):])
        for words in ['pay'], ['3'], ['whole pay', '--table']:
            status, output, told = tool('answers', questions, '--store', store, '--only', *words)
            self.equal(f'--store, {words}', (status, told), (0, ''))
            self.holds(f'--store, {words}', '0,b' in output or '-5' in output, output)
        refused = self.files.write('r.sql', 'VALIDTIME SELECT DISTINCT NO FROM T; SELECT * FROM T')
        status, output, told = tool('answers', refused, '--store', store)
        self.equal('a refused statement', (status, output[:9]), (1, 'K,V,S,E,S'))
        before = pathlib.Path(store).read_bytes()
        for words, said in (
                ([path, '--store', store], 'statement 1 of'),
                ([questions, '--store', self.files.path('none')], 'no store'),
                ([questions, '--store', questions], '60 BadStore'),
                ([questions, '--store', store, '--run'], 'without a store'),
                ([path, report, '--run'], 'take the place'), (['-', '--run'], 'take the place'),
                ([self.files.path('none.sql'), '--run'], 'none.sql')):
            status, output, told = tool('answers', *words)
            self.equal(f'turned away: {words}', (status, output), (2, ''))
            self.holds(f'why: {words}', said in told, told)
        self.equal('the store is as it was', pathlib.Path(store).read_bytes(), before)

    def test_examples(self) -> None:
        """Every answer of the examples, against their reports as Python's csv module reads them."""
        for path in sorted((ROOT / 'examples').glob('*.report')):
            records = list(csv.reader(io.StringIO(path.read_bytes().decode('utf-8'), newline='')))
            numbers = [fields[1] for fields in records if fields[0] in ('answer', 'versions')]
            for number in numbers:
                words = [path.with_suffix('.sql'), path, '--only', number, '--raw', '--witness']
                found = list(csv.reader(io.StringIO(tool('answers', *words)[1], newline='')))
                wanted = [fields[2:] for fields in records
                          if fields[1] == number and fields[0] in ('columns', 'row', 'version')]
                self.equal(f'{path}, {number}', found, wanted)


if __name__ == '__main__':
    support.run_cases()
