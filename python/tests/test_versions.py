#!/usr/bin/env python3
"""Tests tools/versions: versions loaded into sqlite3, and into PostgreSQL if it is installed,
are the rows of the report; and answers of others, cut at random, agree until a day of them is
changed."""
import csv
import datetime
import io
import os
import random
import shutil
import sqlite3
import subprocess
import unittest

import support
from bitemporal_scale.postgresql.server import is_installed
from bitemporal_tools.reports.records import record
from bitemporal_tools.reports.report import read
from bitemporal_tools.sql.catalog import Catalog
from support import Case, Files, ROOT, tool

CREATE = support.create_table('ORDER_', 'K INTEGER, V VARCHAR(20), D DATE', 'K') + ''';
'''
TEXTS = ['', 'a', 'NULL', "O'Neil", 'x, "y"', 'two\nlines', 'a\rb', '\\N', '\u00e9\u65e5', ' ',
         '=1+1', 'tab\t', '\\', "''"]
FIRST, DAY = datetime.date(2024, 1, 1), datetime.timedelta(1)


def odd_script() -> str:
    """Rows of odd texts, and changes of them."""
    rows = ',\n'.join("({}, '{}', DATE '{}', DATE '0001-01-01', DATE '9999-12-31')".format(
        number or -2 ** 63, text.replace("'", "''"), FIRST + number * DAY)
        for number, text in enumerate(TEXTS))
    return (CREATE + "AT TIMESTAMP '2024-01-10 09:30:00.25';\n"
            + f'INSERT INTO ORDER_ VALUES {rows};\n'
            "AT TIMESTAMP '2024-02-10 00:00:00';\nUPDATE ORDER_ FOR PORTION OF P FROM DATE"
            " '2024-01-01' TO DATE '2024-02-01' SET V = 'b', K = 99 WHERE V = 'a' -- no semicolon")


def copied(files: Files, kind: str) -> tuple[str, list[list[str]]]:
    """A folder with the files for a database, and the rows that these hold."""
    script = files.write('odd.sql', odd_script())
    asked = files.write('asked.sql', tool('versions', 'ask', script)[1])
    report = files.write('asked.report', support.report(files.read('asked.sql')))
    folder = files.path(kind)
    status, output, told = tool('versions', 'copy', asked, report, '--to', kind, '--into', folder)
    assert (status, output, told) == (0, '', ''), told
    return folder, read(asked, report, Catalog())[-1].outcome.rows


POSTGRES = '''set -eu
BITEMPORAL=true
cd "$1"
. bench/common
start_postgres "$2"
trap stop_postgres EXIT
cd "$3"
run() { psql -X -q -h "$2" -U postgres -d postgres -v ON_ERROR_STOP=1 "${@:3}"; }
run "$1" "$2" -f load.sql
run "$1" "$2" -c "COPY (SELECT k, v, d, s, e,
  replace(to_char(ss, 'YYYY-MM-DD HH24:MI:SS.US'), '.000000', ''),
  replace(to_char(se, 'YYYY-MM-DD HH24:MI:SS.US'), '.000000', '') FROM order_)
  TO STDOUT CSV" > rows.csv
run "$1" "$2" -c "COPY (SELECT k, v, unnest(range_agg(p)) FROM order_
  WHERE se = '9999-12-31 23:59:59.999999' GROUP BY k, v) TO STDOUT CSV HEADER" > answer.csv
'''


def days(start: int, end: int) -> list[datetime.date]:
    return [FIRST + number * DAY for number in range(start, end)]


class Versions(Case):
    def test_sqlite(self) -> None:
        folder, rows = copied(self.files, 'sqlite3')
        self.equal('rows that are shown', len(rows), len(TEXTS) + 3)
        if not shutil.which('sqlite3'):
            print('versions in sqlite3: no sqlite3 here, so they are left out')
            return
        with open(os.path.join(folder, 'load.sql'), 'rb') as script:
            done = subprocess.run(['sqlite3', 'x.db'], stdin=script, cwd=folder, check=False,
                                  stdout=subprocess.PIPE, stderr=subprocess.STDOUT)
        self.equal('sqlite3 says nothing', (done.returncode, done.stdout), (0, b''))
        database = sqlite3.connect(os.path.join(folder, 'x.db'))
        found = database.execute('SELECT * FROM ORDER_ ORDER BY k, v, s, ss').fetchall()
        self.equal('rows in sqlite3', sorted([str(cell) for cell in row] for row in found),
                   sorted(rows))
        self.holds('numbers in sqlite3', all(isinstance(row[0], int) for row in found))
        database.close()

    @unittest.skipUnless(is_installed(), 'no PostgreSQL here')
    def test_postgresql(self) -> None:
        folder, rows = copied(self.files, 'postgresql')
        os.chmod(self.files.folder.name, 0o755)
        server = self.files.path('server')
        os.mkdir(server)
        # A socket's name has at most some 100 bytes, which a temporary folder keeps.
        done = subprocess.run(['bash', '-c', POSTGRES, 'bash', ROOT, server, folder], check=False,
                              stdout=subprocess.PIPE, stderr=subprocess.STDOUT)
        self.equal('PostgreSQL says nothing', (done.returncode, done.stdout), (0, b''))
        if done.returncode:
            return
        found = list(csv.reader(io.StringIO(self.files.read('postgresql/rows.csv'), newline='')))
        self.equal('rows in PostgreSQL', sorted(found), sorted(rows))
        query = self.files.write('query.sql',
                                 odd_script() + '\n;VALIDTIME SELECT DISTINCT K, V FROM ORDER_')
        judge = tool('versions', 'judge', query, '6', os.path.join(folder, 'answer.csv'))[1]
        given = support.report(judge).splitlines()
        self.equal('the answer of PostgreSQL agrees',
                   [line for line in given if line.startswith(('answer,9', 'answer,10'))],
                   ['answer,9,2,0', 'answer,10,2,0'])

    def test_duckdb(self) -> None:
        duckdb = os.path.join(copied(self.files, 'duckdb')[0], 'load.sql')
        with open(duckdb, encoding='utf-8') as script:
            self.holds('a script for DuckDB', 'COPY "order_" (' in script.read())

    def test_random_judgements(self) -> None:
        for seed in range(10):
            self.random_judgement(seed)

    def random_judgement(self, seed: int) -> None:
        """An answer as another database may cut it agrees; with a day more or less it doesn't."""
        choose = random.Random(seed)
        script = CREATE.replace('V VARCHAR(20), D DATE, ', '')
        facts, rows = set[tuple[int, datetime.date]](), []
        for key in range(3):
            for value in days(0, 12):
                if choose.random() < 0.6:
                    facts.add((key, value))
                    rows.append(f"({key}, DATE '{value}', DATE '{value + DAY}')")
        script += f"INSERT INTO ORDER_ VALUES {', '.join(rows)};\n" \
            'VALIDTIME SELECT DISTINCT K FROM ORDER_; SELECT * FROM NOWHERE'
        less = choose.choice(sorted(facts))
        more = (less[0], FIRST + 40 * DAY)
        for name, theirs, missing, beside in (('agrees', facts, set(), set()),
                                              ('lacks a day', facts - {less}, {less}, set()),
                                              ('has a day more', facts | {more}, set(), {more})):
            inclusive = choose.random() < 0.5
            answer = [(key, value, value + (0 if inclusive else 1) * DAY) for key, value in theirs]
            for key, value in sorted(theirs):
                if (key, value + DAY) in theirs and choose.random() < 0.5:
                    answer.append((key, value, value + (1 if inclusive else 2) * DAY))
            choose.shuffle(answer)
            text = ''.join(record(map(str, row)) for row in [('k', 'from', 'to'), *answer])
            words = [self.files.write('r.sql', script), '3', self.files.write('a.csv', text)]
            status, judge, told = tool('versions', 'judge', *words, *['--inclusive-to'] * inclusive)
            given = [line.split(',') for line in support.report(judge).splitlines()]
            found = [{(int(fields[2]), datetime.date.fromisoformat(fields[3]))
                      for fields in given if fields[:2] == ['row', number]} for number in '67']
            self.equal(f'random answer {seed} {name}', (status, told, found),
                       (0, '', [missing, beside]))
            refused = [fields for fields in given if fields[0] == 'refused']
            self.equal(f'random answer {seed} {name}, nothing refused', refused, [])

    def test_words(self) -> None:
        script = self.files.write('x.sql',
                                  CREATE + "INSERT INTO ORDER_ VALUES (1, 'a', DATE '2024-01-01',"
                                  " DATE '0001-01-01', DATE '9999-12-31');\n"
                                  'VALIDTIME SELECT DISTINCT D, V FROM ORDER_ -- all of them\n')
        for header, row in (('d,v,from,to', '2024-01-01,a,,'),
                            ('d,v,from,to', '2024-01-01,a,-infinity,infinity'),
                            ('d,v,days', '2024-01-01,a,"[,)"'),
                            ('d,v,from,to,held,absent',
                             '2024-01-01,a,0001-01-01,9999-12-31,0001-01-01,none')):
            answer = self.files.write('a.csv', f'{header}\n{row}\n')
            status, judge, told = tool('versions', 'judge', script, '3', answer)
            self.holds(f'an answer of all days: {row}', status == 0 and
                       "DATE '0001-01-01', DATE '9999-12-31')" in judge.split('JUDGED VALUES')[1]
                       and
                       support.report(judge).count(',2,0\n') == 2, (status, told, judge))
        query = self.files.write('y.sql',
                                 CREATE + 'VALIDTIME SELECT DISTINCT D AS DAY, V, V FROM ORDER_\n')
        answer = self.files.write('a.csv', 'd,v,w,from,to\n2024-01-01,a,a,,\n')
        judge = tool('versions', 'judge', query, '2', answer)[1]
        self.equal('the names of an answer and of both differences',
                   [line.split(',')[2:5] for line in
                    support.report(judge).splitlines() if line.startswith('columns')],
                   [['DAY', 'V', 'V']] * 3)
        for row, words in (('x,a,,', "2: column 1 (d): 'x' is no date"),
                           ('2024-01-01,a,2024-01-02,2024-01-02',
                            '2: column 3 (from): the period')):
            answer = self.files.write('a.csv', 'd,v,from,to\n' + row + '\n')
            status, judge, told = tool('versions', 'judge', script, '3', answer)
            self.holds(f'a bad line: {words}', (status, judge) == (1, '') and words in told, told)
        for words in ('judge {} 2 {}', 'judge {} 9 {}', 'judge {} 3 nowhere', 'ask nowhere',
                      'copy {}',
                      'ask', '', 'copy {} {} --to oracle --into x', 'copy {} {} --to sqlite3'):
            self.equal(f'turned away: {words}',
                       tool('versions', *words.format(script, answer).split())[::2][0], 2)
        select = self.files.write('s.sql', 'SELECT * FROM ORDER_')
        status, asked, told = tool('versions', 'ask', select)
        self.equal('ask of no table', (status, asked, '--tables' in told), (2, '', True))
        listed = self.files.write('list',
                                  'clock,2024-01-01 00:00:00\ntable,1,ORDER_,1\ncolumn,1,D,DATE\n'
                                  'column,1,S,DATE\ncolumn,1,E,DATE\nperiod,1,P,S,E\nkey,1,D\n')
        status, asked, told = tool('versions', 'ask', select, '--tables', listed)
        self.equal('ask of the tables of a store',
                   (status, asked.count('SELECT * FROM ORDER_'), told),
                   (0, 2, ''))
        for text, kind in (('a\x00b', 'sqlite3'), ('a\n\\.\nb', 'postgresql')):
            odd = self.files.write('y.sql', odd_script().replace("'a'", f"'{text}'"))
            asked = self.files.write('z.sql', tool('versions', 'ask', odd)[1])
            report = self.files.write('z.report', support.report(self.files.read('z.sql')))
            status, _, told = tool('versions', 'copy', asked, report, '--to', kind, '--into',
                                   self.files.path('none'))
            self.holds(f'a text that {kind} does not take', status == 1 and 'a text' in told and
                       'none' not in self.files.names(), told)


if __name__ == '__main__':
    support.run_cases()
