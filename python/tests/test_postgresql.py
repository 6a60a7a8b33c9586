#!/usr/bin/env python3
"""Tests tools/to_postgresql and tools/compare_postgresql, if PostgreSQL is installed: by the
examples, by tests/scripts and by random scripts, on a private server.

The variables SEED and COUNT choose other random scripts.
"""
import os
import pathlib
import re
import unittest

import support
from bitemporal_scale.postgresql.server import PrivateServer, ServerFault, is_installed, psql
from bitemporal_scale.postgresql.translation import Options, translated
from support import ROOT, Case, chosen, program, tool
from collections.abc import Iterator

TABLES = support.create_table('A', 'K INTEGER, V VARCHAR(9)', 'K') + ''';
''' + support.create_table('B', 'K INTEGER, V VARCHAR(9)', 'K') + ''';
'''
# K and V on A's days and B's: they share the days from 03-01 on and before 05-01 for (1, 'x'), and
# two days of (2, 'y, z').
ROWS = '''INSERT INTO A VALUES (1, 'x', DATE '2024-01-01', DATE '2024-04-01'),
 (1, 'x', DATE '2024-04-01', DATE '2024-06-01'), (2, 'y, z', DATE '2024-01-01', DATE '9999-12-31');
INSERT INTO B VALUES (1, 'x', DATE '2024-03-01', DATE '2024-05-01'),
 (2, 'y, z', DATE '2024-02-01', DATE '2024-02-02'),
 (2, 'y, z', DATE '2024-03-01', DATE '2024-03-02');
'''
COMMON = '''answer,5,2,3
columns,5,K,V,valid_from,valid_to,held,absent
row,5,1,x,2024-03-01,2024-05-01,2024-03-01,2024-02-29
row,5,2,"y, z",2024-02-01,2024-02-02,2024-02-01,2024-01-31
row,5,2,"y, z",2024-03-01,2024-03-02,2024-03-01,2024-02-29
'''


def examples() -> Iterator[pathlib.Path]:
    """The scripts whose report is known, and is the one of `run` without more words."""
    for script in [*sorted((ROOT / 'examples').glob('*.sql')), *program.scripts()]:
        if script.with_suffix('.report').exists() and not script.with_suffix('.args').exists():
            yield script


class PostgreSQL(Case):
    def test_words(self) -> None:
        """Words that need no server."""
        for name in ('to_postgresql', 'compare_postgresql'):
            status, output, errors = tool(name, '--help')
            self.equal(f'{name} --help', (status, 'exit status' in output, errors), (0, True, ''))
        cases = [('not UTF-8', b'\xff', '1 NotUtf8'), ('a bad token', b'SELECT "', '3 BadToken 7'),
                 ('U+0000', TABLES.encode() + b"DELETE FROM A WHERE V = '\0'", 'U+0000')]
        for name, script, said in cases:
            status, output, errors = tool('to_postgresql', given=script)
            self.equal(f'refused: {name}', (status, output, said in errors or errors),
                       (2, '', True))
        status, output, errors = tool('to_postgresql', self.files.path('none.sql'))
        self.equal('no file', (status, output, 'none.sql' in errors), (2, '', True))
        for words in ((), ('x.sql', '--random', '1', '2')):
            self.equal(f'compare_postgresql {words}', tool('compare_postgresql', *words)[:2],
                       (2, ''))


@unittest.skipUnless(is_installed(), 'no PostgreSQL here')
class OverPostgreSQL(Case):
    """Comparisons over a server of its own."""
    server: PrivateServer

    @classmethod
    def setUpClass(cls) -> None:
        super().setUpClass()
        cls.server = PrivateServer()
        cls.server.__enter__()
        cls.addClassCleanup(cls.server.__exit__)

    def test_examples(self) -> None:
        """Each known report is what PostgreSQL prints too."""
        for script in examples():
            made = tool('to_postgresql', script)[1]
            self.equal(f'{script} by PostgreSQL', psql(self.server.connection, made.encode()),
                       script.with_suffix('.report').read_bytes())

    def test_random(self) -> None:
        count = chosen('COUNT', 200)
        found = tool('compare_postgresql', '--server', self.server.connection, '--random',
                     chosen('SEED', 1), count)
        self.equal(f'{count} random scripts', found, (0, f'{count} alike, 0 differ\n', ''))

    def test_statuses(self) -> None:
        script = self.files.write('good.sql', TABLES + ROWS + 'VALIDTIME SELECT DISTINCT K FROM A')
        token = self.files.write('token.sql', 'SELECT !')
        self.equal('a server of its own', tool('compare_postgresql', script, token),
                   (0, '2 alike, 0 differ\n', ''))
        wrong = self.files.write('wrong', f'#!/bin/sh\n"{program.PROGRAM}" "$@" |'
                                 ' sed s/2024-06-01/2024-06-02/\n')
        os.chmod(wrong, 0o755)
        before = os.environ.get('BITEMPORAL')
        for name, path, wanted, said in (
                ('a wrong program', wrong, 1, 'row,5,1,2024-01-01,2024-06-01'),
                ('no program', self.files.path('none'), 2, '')):
            os.environ['BITEMPORAL'] = path
            status, output, _ = tool('compare_postgresql', '--server', self.server.connection,
                                     script)
            self.equal(name, (status, said in output or output), (wanted, True))
        os.environ.pop('BITEMPORAL')
        if before:
            os.environ['BITEMPORAL'] = before
        found = tool('compare_postgresql', '--server', f'host={self.files.folder.name}', script)
        self.equal('no server', found[:2], (2, '0 alike, 0 differ, 1 not compared\n'))

    def test_options(self) -> None:
        """--keep, --schema and --constraints: what is left, and what it refuses."""
        script = self.files.write('kept.sql', TABLES + ROWS)
        made = tool('to_postgresql', '--keep', '--schema', 'Kept', '--constraints', script)[1]
        psql(self.server.connection, b'CREATE EXTENSION IF NOT EXISTS btree_gist')
        psql(self.server.connection, made.encode())
        self.equal('kept rows', psql(self.server.connection, b'SELECT count(*) FROM "kept".a'),
                   b'3\n')
        refused = "INSERT INTO kept.a SELECT * FROM kept.a WHERE k = 1"
        try:
            psql(self.server.connection, refused.encode())
            self.equal('a constraint', 'accepted', 'refused')
        except ServerFault as fault:
            self.equal('a constraint', 'exclusion constraint' in str(fault), True)

    def test_bare(self) -> None:
        """The tables and the queries alone, over rows that PostgreSQL got otherwise."""
        script = self.files.write('bare.sql', TABLES + ROWS + 'SELECT * FROM B WHERE K = 2;'
                                  ' VALIDTIME SELECT DISTINCT V, V, K VALID_TO FROM A'
                                  ' EXCEPT SELECT DISTINCT V, V, K FROM B')
        made = tool('to_postgresql', '--bare', script)[1]
        start = made.index('SELECT')
        rows = ''.join(f"INSERT INTO {table} VALUES ({values}, '2024-01-01',"
                       " '9999-12-31 23:59:59.999999');\n"
                       for table, values in (('a', "1, 'x', '[2024-01-01,2024-04-01)'"),
                                             ('a', "1, 'x', '[2024-03-01,2024-06-01)'"),
                                             ('b', "1, 'x', '[2024-03-01,2024-05-01)'"),
                                             ('b', "2, 'z', '[2024-03-01,2024-05-01)'")))
        got = psql(self.server.connection,
                   f'CREATE SCHEMA bare; SET search_path = bare;\n{made[:start]}{rows}'
                   f'{made[start:]}'.encode())
        wanted = ('2|z|[2024-03-01,2024-05-01)|2024-01-01 00:00:00|9999-12-31 23:59:59.999999\n'
                  'x|x|1|2024-01-01|2024-03-01\nx|x|1|2024-05-01|2024-06-01\n')
        self.equal('--bare', got.decode(), wanted)

    def test_intersect(self) -> None:
        """INTERSECT, and as it is defined by EXCEPT."""
        both = ('VALIDTIME SELECT DISTINCT K, V FROM A INTERSECT SELECT DISTINCT K, V FROM B',
                'VALIDTIME SELECT DISTINCT K, V FROM A EXCEPT'
                ' (SELECT DISTINCT K, V FROM A EXCEPT SELECT DISTINCT K, V FROM B)')
        for query in both:
            made = ''.join(translated(TABLES + ROWS + query, Options()))
            got = psql(self.server.connection, made.encode()).decode()
            self.equal(query, re.sub('(?m)^done.*\n', '', got), COMMON)


if __name__ == '__main__':
    support.run_cases()
