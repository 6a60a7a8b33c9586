#!/usr/bin/env python3
"""Tests what tools for charts ask a server: Grafana, Metabase and DBeaver, by the texts in
bi_queries/, which are written from the tools' sources and not recorded.

A text begins after an empty line. Before it are lines of comment: `--= CELL | CELL` for each row
that it gives (`none` if it gives none, `done` if it has no answer), `--! SQLSTATE` if it is
refused, and `--? SQLSTATE` if the log has a line of that; `--$ VALUE` is a parameter, of a type if
it is a number, and `--: NAME, NAME` are the columns that are looked at.

If PostgreSQL is installed, each text is a statement of its own, and those that name no columns
give the same rows there, unless `--~ WHY` says that they do not.

The program is the built one, or the one that the variable BITEMPORAL names.
"""
import contextlib
import pathlib
import random
import re
import unittest
from typing import Any, NamedTuple

import support
from test_server import connected, served
from wire_client import Answer, Refused, WireClient

from bitemporal_scale.postgresql.server import PrivateServer, ServerFault, is_installed, psql
from bitemporal_server import values

SCRIPT = """AT TIMESTAMP '2024-01-01 00:00:00';
""" + support.create_table('EMP', 'ENO INTEGER, NAME VARCHAR(20)', 'ENO', 'EP') + """;
""" + support.create_table(
    'PAY', 'ENO INTEGER, CENTS INTEGER', 'ENO', 'EP',
    'FOREIGN KEY (ENO, PERIOD EP) REFERENCES EMP (ENO, PERIOD EP)') + """;
INSERT INTO EMP VALUES (1, 'Ann', DATE '2020-01-01', DATE '9999-12-31'),
 (2, 'Max', DATE '2020-01-01', DATE '2025-01-01');
INSERT INTO PAY VALUES (1, 310000, DATE '2024-01-01', DATE '9999-12-31'),
 (2, 298050, DATE '2024-01-01', DATE '2024-07-01'),
 (2, 305000, DATE '2024-07-01', DATE '2025-01-01')"""
NOTED = 'a question is refused'
# The tables and rows of SCRIPT as PostgreSQL has them.
OTHER = """CREATE TABLE "EMP" ("ENO" BIGINT PRIMARY KEY, "NAME" VARCHAR(20) NOT NULL,
 "S" DATE NOT NULL, "E" DATE NOT NULL, "SS" TIMESTAMP NOT NULL, "SE" TIMESTAMP NOT NULL);
CREATE TABLE "PAY" ("ENO" BIGINT REFERENCES "EMP", "CENTS" BIGINT, "S" DATE, "E" DATE,
 "SS" TIMESTAMP, "SE" TIMESTAMP);
INSERT INTO "EMP" SELECT *, '2024-01-01', '9999-12-31 23:59:59.999999'::timestamp FROM (VALUES
 (1, 'Ann', '2020-01-01'::date, '9999-12-31'::date), (2, 'Max', '2020-01-01', '2025-01-01')) AS a;
INSERT INTO "PAY" SELECT *, '2024-01-01', '9999-12-31 23:59:59.999999'::timestamp FROM (VALUES
 (1, 310000, '2024-01-01'::date, '9999-12-31'::date), (2, 298050, '2024-01-01', '2024-07-01'),
 (2, 305000, '2024-07-01', '2025-01-01')) AS a;
SET TimeZone TO 'UTC';
\\pset null NULL
\\pset fieldsep ' | '
"""
FOLDER = pathlib.Path(__file__).parent / 'bi_queries'
TOKEN = re.compile(r"""'(?:[^']|'')*'|"[^"]*"|\w+|\s+|.""", re.S)
MORE = ["'2024-13-45'", '::date', '::text', "INTERVAL '5 day'", 'EXTRACT(', 'CAST(', ' AS DATE)',
        '$1', '(', ')', '"PAY"', 'public.', '[1]', "E'a\\'", "'", '"', ' ILIKE ', ';']


class Query(NamedTuple):
    """A text, and what is said of it: lists of words by their signs."""
    text: str
    said: 'dict[str, list[str]]'


def queries(text: str) -> 'list[Query]':
    """The queries of a file."""
    found = []
    for block in re.split(r'\n\n+', text.strip()):
        said: 'dict[str, list[str]]' = {sign: [] for sign in '=?!$:~'}
        lines = block.split('\n')
        while lines[0].startswith('--'):
            sign, word = lines[0][2], lines[0][4:]
            if sign not in said and any(said.values()):
                break
            if sign in said:
                said[sign].append(word)
            lines.pop(0)
        found.append(Query('\n'.join(lines), said))
    return found


def told(query: Query, answer: Answer) -> 'list[str]':
    """The rows of an answer, in the words of the files."""
    if answer.columns is None:
        return ['done']
    places = list(range(len(answer.columns)))
    if query.said[':']:
        names = query.said[':'][0].split(', ')
        places = [answer.columns.index(name) for name in names]
    return [' | '.join(str(row[place] or 'NULL') for place in places)
            for row in answer.rows] or ['none']


class Queries(unittest.TestCase):
    """Each query gets its answer, by both protocols, and the connection continues."""

    def setUp(self) -> None:
        stack = contextlib.ExitStack()
        self.addCleanup(stack.close)
        self.server: Any = stack.enter_context(served())
        self.client: WireClient = stack.enter_context(connected(self.server))
        self.client.query(SCRIPT)

    def ask(self, query: Query, is_extended: bool) -> 'list[str]':
        try:
            given = query.said['$']
            answer = self.client.ask(query.text, given, [
                values.INTEGER.oid if it.isdecimal() else 0 for it in given]) if is_extended else \
                (self.client.query(query.text) or [Answer('', None, [])])[0]
        except Refused as refused:
            return [refused.state]
        return told(query, answer)

    def check(self, name: str) -> None:
        """Asks the queries of a file."""
        for query in queries((FOLDER / name).read_text('utf-8')):
            for is_extended in [True] if query.said['$'] else [False, True]:
                with self.subTest(text=query.text, is_extended=is_extended):
                    self.server.log.truncate(self.server.log.seek(0))
                    found = self.ask(query, is_extended)
                    self.assertEqual(found, query.said['='] + query.said['?'] + query.said['!'])
                    self.assertEqual(NOTED in self.server.log.getvalue(), bool(query.said['?']))

    def test_garbled(self) -> None:
        """Each text with some of its tokens changed is answered or refused, and no connection ends.
        SEED and COUNT choose the texts."""
        chosen = random.Random(support.chosen('SEED', 1))
        texts = [query.text for file in FOLDER.glob('*.sql')
                 for query in queries(file.read_text('utf-8'))]
        pool = [token for text in texts for token in TOKEN.findall(text)] + MORE
        for number in range(support.chosen('COUNT', 1000)):
            tokens = TOKEN.findall(chosen.choice(texts))
            for _ in range(chosen.choice([1, 1, 2, 3, 6])):
                at = chosen.randrange(len(tokens) + 1)
                tokens[at:at + chosen.choice([0, 0, 1, 1, 3])] = \
                    [chosen.choice(pool)] * chosen.randint(0, 1)
            text = ''.join(tokens)
            with self.subTest(number=number, text=text):
                try:
                    if number % 2:
                        self.client.query(text)
                    else:
                        self.client.ask(text, ['5'] * chosen.choice([0, 0, 1, 2]))
                except Refused as refused:
                    self.assertNotEqual(refused.state, 'XX000')

    def test_grafana(self) -> None:
        self.check('grafana.sql')

    def test_metabase(self) -> None:
        self.check('metabase.sql')

    def test_dbeaver(self) -> None:
        self.check('dbeaver.sql')


@unittest.skipUnless(is_installed(), 'apt-get install postgresql')
class OfPostgresql(unittest.TestCase):
    """The texts are PostgreSQL's, and most give what PostgreSQL gives."""

    def rows(self, query: Query) -> 'list[str]':
        """The rows of a private server, which has the tables alone."""
        text = query.text
        for number, value in enumerate(query.said['$'], 1):
            text = text.replace(f'${number}', value if value.isdecimal() else f"'{value}'")
        found = psql(self.server.connection, f'BEGIN;{OTHER}{text};\nROLLBACK'.encode())
        return found.decode('utf-8').splitlines() or ['none']

    def test_queries(self) -> None:
        stack = contextlib.ExitStack()
        self.addCleanup(stack.close)
        self.server = stack.enter_context(PrivateServer())
        for file in sorted(FOLDER.glob('*.sql')):
            for query in queries(file.read_text('utf-8')):
                if query.said['~']:
                    continue
                with self.subTest(text=query.text):
                    if query.said['!']:
                        with self.assertRaises(ServerFault):
                            self.rows(query)
                        continue
                    found = self.rows(query)
                    if not (query.said[':'] or query.said['?']):
                        self.assertEqual(sorted(map(plain, found)), sorted(
                            map(plain, ['none' if it == 'done' else it for it in query.said['=']])))


def plain(row: str) -> str:
    """A row with its numbers without zeros after a point."""
    return re.sub(r'\.0+(?![0-9])', '', row)


if __name__ == '__main__':
    support.run_cases()
