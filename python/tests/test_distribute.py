#!/usr/bin/env python3
"""Tests tools/distribute: its rule by the program alone, and what it writes by three PostgreSQL
servers if PostgreSQL is installed.

The variables SEED and COUNT choose other random scripts.

The rule: random tables are cut into parts by a function of their columns of distribution, random
queries are run over each part and over the whole, and if the rule lets a query through the
answers of the parts are together the answer.
"""
import contextlib
import random
import re
import support
import unittest
from collections.abc import Callable, Iterator, Mapping, Sequence
from typing import Any, Union

from bitemporal_scale.postgresql.partitions import WHOLE, Crossing, verdict
from bitemporal_scale.postgresql.server import PrivateServer, is_installed, psql
from bitemporal_tools.reports.records import records
from bitemporal_tools.sql.catalog import Catalog
from bitemporal_tools.sql.script import judge
from bitemporal_tools.sql.tree import Sequenced
from support import Case, chosen, tool

NODES = 3
QUERIES = 30  # of a random script
MOMENTS = ('2024-01-01 00:00:00', '2024-01-01 00:00:00.000001')
SYSTEM = (' SS TIMESTAMP GENERATED ALWAYS AS ROW START, SE TIMESTAMP GENERATED ALWAYS AS ROW END,\n'
          ' PERIOD FOR SYSTEM_TIME (SS, SE),')


# The values of a row of an answer, its first day and its end.
Row = tuple[tuple[str, ...], str, str]


def table(name: str, columns: list[tuple[str, str]], key: str) -> str:
    listed = ', '.join(f'{column} {kind}' for column, kind in columns)
    return (f'CREATE TABLE {name} ({listed}, S DATE, E DATE,\n{SYSTEM} PERIOD FOR P (S, E),'
            f' PRIMARY KEY ({key}, P WITHOUT OVERLAPS))\n WITH SYSTEM VERSIONING')


class RandomQueries:
    """Queries over T, U and W."""

    def __init__(self, chance: random.Random) -> None:
        self.chance, self.choice = chance, chance.choice

    def query(self, width: int, depth: int) -> str:
        if not depth or self.chance.random() < 0.4:
            return self.select(width)
        left, right = (self.choice(('({})', '{}')).format(self.query(width, depth - 1))
                       for _ in range(2))
        return f"{left} {self.choice(('UNION', 'EXCEPT', 'INTERSECT'))} {right}"

    def select(self, width: int) -> str:
        names = 'XYZ'[:self.choice((1, 1, 2, 2, 2, 3))]
        tables = [f'{self.choice("TTUUW")}{self.window()} {name}' for name in names]
        text, first = tables[0], 0  # of the chain of joins, whose tables ON sees
        for place, one in enumerate(tables[1:], 1):
            if self.chance.random() < 0.5:
                text, first = f'{text}, {one}', place
            else:
                text += f' JOIN {one} ON {self.condition(names[first:place + 1])}'
        items = ', '.join(f'{self.column(names)} C{place}' for place in range(width))
        where = f' WHERE {self.condition(names)}' if self.chance.random() < 0.7 else ''
        return f'SELECT DISTINCT {items} FROM {text}{where}'

    def window(self) -> str:
        if self.chance.random() < 0.8:
            return ''
        return f" FOR SYSTEM_TIME AS OF TIMESTAMP '{self.choice(MOMENTS)}'"

    def column(self, names: str) -> str:
        return f'{self.choice(names)}.{self.choice("KKKVV")}'

    def condition(self, names: str) -> str:
        if len(names) > 1 and self.chance.random() < 0.6:  # a join of two by one column, or by both
            one, two = self.chance.sample(names, 2)
            tie = f'{one}.K = {two}.K'
            more = self.choice(('', f' AND {one}.V = {two}.V', f' AND {self.test(names)}'))
            return tie + more
        way = self.choice(('', '', 'AND', 'OR', 'NOT'))
        if way in ('AND', 'OR'):
            return f'({self.condition(names)} {way} {self.test(names)})'
        return f'{way} {self.test(names)}'.strip()

    def test(self, names: str) -> str:
        other = self.column(names) if self.chance.random() < 0.5 else self.choice('0123')
        return f'{self.column(names)} {self.choice(("=", "=", "=", "<>", "<"))} {other}'


def random_rows(chance: random.Random) -> Iterator[tuple[tuple[int, int, int], int, int, int]]:
    """Rows K, V, ID, first and last month, each with the number of its moment."""
    for number in range(chance.randint(3, 14)):
        start = chance.randint(1, 11)
        yield ((chance.randrange(4), chance.randrange(3), number), start,
               chance.randint(start + 1, 12), chance.randrange(2))


def script_of(rows: Mapping[str, Sequence[Any]], is_chosen: Callable[[str, Any], bool],
              queries: list[str]) -> str:
    """The script of the rows that `is_chosen` lets through."""
    kinds = [('K', 'INTEGER'), ('V', 'INTEGER'), ('ID', 'INTEGER')]
    parts = [table(name, kinds, 'K, V, ID') for name in rows]
    for moment, at in enumerate(MOMENTS):
        parts.append(f"AT TIMESTAMP '{at}'")
        for name, those in rows.items():
            texts = [f"({values[0]}, {values[1]}, {values[2]}, DATE '2024-{start:02}-01',"
                     f" DATE '2024-{end:02}-01')" for values, start, end, recorded in those
                     if recorded == moment and is_chosen(name, values)]
            if texts:
                parts.append(f"INSERT INTO {name} VALUES {', '.join(texts)}")
    return ';\n'.join(parts + [f'VALIDTIME {query}' for query in queries])


def answers(script: str) -> list[list[Row]]:
    """The rows of each answer, in turn: values, first day and end."""
    found: list[list[Row]] = []
    for fields in records(support.report(script)):
        if fields[0] == 'answer':
            found.append([])
        elif fields[0] == 'row':
            found[-1].append((tuple(fields[2:-4]), fields[-4], fields[-3]))
        elif fields[0] == 'refused':
            raise AssertionError((fields, script))
    return found


def merged(rows: list[Row]) -> list[Row]:
    """The shortest list that says the same as rows of several answers."""
    found: list[Row] = []
    for values, start, end in sorted(rows):
        if found and found[-1][0] == values and start <= found[-1][2]:
            found[-1] = (values, found[-1][1], max(end, found[-1][2]))
        else:
            found.append((values, start, end))
    return found


def is_told(kind: str, parts: list[list[Row]],
            whole: list[Row]) -> bool:
    """Whether the answers of the parts are together what the rule says."""
    rows = [row for part in parts for row in part]
    if kind == WHOLE:
        return all(part == whole for part in parts)
    if kind == 'disjoint':
        values = [set(row[0] for row in part) for part in parts]
        return sum(map(len, values)) == len(set().union(*values)) and sorted(rows) == sorted(whole)
    return merged(rows) == sorted(whole)


def judged(queries: list[str], by: dict[str, list[str]]) -> list[str]:
    """The verdict on each query, if the tables of `by` are in parts."""
    kinds, catalog = [], Catalog()
    for statement in judge(script_of({name: [] for name in 'TUW'}, lambda *_: True, queries)):
        assert not statement.faults, statement.told
        catalog.take(statement.tree)
        if isinstance(statement.tree, Sequenced):
            try:
                kinds.append(verdict(statement.tree.query, catalog, by))
            except Crossing:
                kinds.append('no')
    return kinds


def node_of(name: str, values: tuple[int, int, int], by: dict[str, list[str]]) -> int:
    """The node of a row: a function of the values of its columns of distribution, in turn."""
    chosen = [values['KV'.index(column)] for column in by[name]]
    return sum((2 + place) * value + value // 2 for place, value in enumerate(chosen)) % NODES


# Servers.

STAFF = ';\n'.join([
    table('DEP', [('DNO', 'INTEGER'), ('NAME', 'VARCHAR(20)')], 'DNO'),
    table('EMP', [('ENO', 'INTEGER'), ('DEPT', 'INTEGER'), ('PAY', 'INTEGER')], 'ENO'),
    table('WRK', [('ENO', 'INTEGER'), ('PNO', 'INTEGER')], 'ENO, PNO')])
STAFF_QUERIES = [
    ('merge', 'SELECT DISTINCT DEPT FROM EMP'),
    ('disjoint', 'SELECT DISTINCT ENO, DEPT FROM EMP'),
    ('disjoint', 'SELECT DISTINCT EMP.ENO, PNO FROM EMP JOIN WRK ON EMP.ENO = WRK.ENO'),
    ('merge', 'SELECT DISTINCT NAME, NAME FROM EMP JOIN DEP ON DEPT = DNO'),
    ('disjoint', 'SELECT DISTINCT ENO FROM EMP EXCEPT SELECT DISTINCT ENO FROM WRK'),
    ('merge', 'SELECT DISTINCT DEPT FROM EMP EXCEPT SELECT DISTINCT DNO FROM DEP WHERE DNO < 2'),
    ('disjoint', 'SELECT DISTINCT ENO FROM EMP INTERSECT SELECT DISTINCT ENO FROM WRK'),
    ('merge', 'SELECT DISTINCT DEPT FROM EMP INTERSECT SELECT DISTINCT DNO FROM DEP WHERE DNO < 2'),
    ('disjoint', 'SELECT DISTINCT ENO FROM EMP EXCEPT SELECT DISTINCT ENO FROM EMP WHERE DEPT = 1'
                 ' INTERSECT SELECT DISTINCT ENO FROM WRK'),
    ('no', 'SELECT DISTINCT DEPT FROM EMP INTERSECT SELECT DISTINCT PNO FROM WRK'),
    ('whole', 'SELECT DISTINCT NAME FROM DEP'),
    ('no', 'SELECT DISTINCT DEPT FROM EMP EXCEPT SELECT DISTINCT PNO FROM WRK')]


def staff_rows(chance: random.Random) -> dict[str, list[Any]]:
    """Rows of each table: values, and the numbers of the first and the last month."""
    rows: dict[str, list[Any]] = {
            'DEP': [((number, f'dept. {number % 3}'), 1, 12) for number in range(5)],
            'EMP': [], 'WRK': []}
    for number in range(60):
        start = chance.randint(1, 9)
        for end in (start + 1, start + 3):
            rows['EMP'].append(((number, chance.randrange(5), 100 * number), start, end))
            start = end
        rows['WRK'].append(((number % 40, number // 40),
                            chance.randint(1, 5), chance.randint(6, 12)))
    return rows


def values_of(rows: list[tuple[tuple[Union[int, str], ...], int, int]], period: str) -> str:
    return ', '.join('(' + ', '.join(repr(value) for value in values) + period.format(start, end)
                     + ')' for values, start, end in rows)


def ours(rows: dict[str, list[tuple[tuple[Union[int, str], ...], int, int]]]) -> list[list[str]]:
    """The rows of each answer as psql shows them."""
    inserts = [f'INSERT INTO {name} VALUES '
               + values_of(those, ", DATE '2024-{:02}-01', DATE '2024-{:02}-01'")
               for name, those in rows.items()]
    asked = [f'VALIDTIME {query}' for _, query in STAFF_QUERIES]
    return [['|'.join([*values, start, end]) for values, start, end in answer]
            for answer in answers(';\n'.join([STAFF, *inserts, *asked]))]


STAFF_SCRIPT = ';\n'.join([STAFF, *(f'VALIDTIME {query}' for _, query in STAFF_QUERIES)])


class Distribute(Case):
    def test_rule(self) -> None:
        first, count = chosen('SEED', 1), chosen('COUNT', 40)
        numbers = {'disjoint': 0, 'merge': 0, WHOLE: 0, 'no': 0, 'wrong': 0}
        for seed in range(first, first + count):
            chance = random.Random(seed)
            rows = {name: list(random_rows(chance)) for name in 'TUW'}
            makes = RandomQueries(chance)
            queries = [makes.query(chance.randint(1, 3), chance.choice((0, 0, 1, 1, 2)))
                       for _ in range(QUERIES)]
            by = chance.choice(({'T': ['K'], 'U': ['K']}, {'T': ['K', 'V'], 'U': ['K', 'V']},
                                {'T': ['V'], 'U': ['K']}, {'T': ['V', 'K'], 'U': ['K', 'V']}))
            whole = answers(script_of(rows, lambda name, values: True, queries))
            parts = []
            for node in range(NODES):
                def is_there(name: str, values: Any) -> bool:
                    return name not in by or node == node_of(name, values, by)
                parts.append(answers(script_of(rows, is_there, queries)))
            kinds = judged(queries, by)
            for number, kind in enumerate(kinds):
                numbers[kind] += 1
                found = [part[number] for part in parts]
                if kind == 'no':
                    numbers['wrong'] += not is_told('merge', found, whole[number])
                elif not is_told(kind, found, whole[number]):
                    self.equal(f'script {seed}, {by}: {queries[number]}', found, whole[number])
        print('queries over parts:', ', '.join(f'{kind} {number}' for kind,
                                               number in numbers.items()))
        self.equal('each kind is there, and the rule refuses what would be wrong',
                   min(numbers.values()) > 0, True)

    def test_verdicts(self) -> None:
        """The tool's words without servers."""
        script = self.files.write('staff.sql', STAFF_SCRIPT)
        status, output, errors = tool('distribute', '--whole', 'DEP', script)
        said = re.findall('(?m)^-- ([0-9]+): (\\w+)', output)
        wanted = [(str(number), kind) for number, (kind, _) in enumerate(STAFF_QUERIES, 4)]
        self.equal('verdicts', (status, errors, said), (1, '', wanted))
        self.equal('help', tool('distribute', '--help')[0], 0)
        split = self.files.write('split.sql', f'{STAFF}; VALIDTIME {STAFF_QUERIES[0][1]}')
        self.equal('all split', tool('distribute', split)[0], 0)
        for words, why in ((['--by', 'EMP=PAY', split], 'no column of the key'),
                           (['--by', 'NONE=K', split], 'no such table'),
                           (['--whole', 'NONE', split], 'no such table'),
                           (['--nodes', '0', split], '--nodes'),
                           ([self.files.path('none.sql')], 'none.sql'),
                           ([self.files.write('token.sql', '!')], '3 BadToken 0'),
                           ([self.files.write('clash.sql', STAFF.replace('WRK', 'EMP_1'))],
                            'EMP_1')):
            status, output, errors = tool('distribute', *words)
            self.equal(f'refused: {why}', (status, output, why in errors or errors),
                       (2, '', True))

    @unittest.skipUnless(is_installed(), 'no PostgreSQL here')
    def test_servers(self) -> None:
        """The tables over three servers, filled through the coordinator, and all answers."""
        rows, script = staff_rows(random.Random(1)), self.files.write('staff.sql', STAFF_SCRIPT)
        with contextlib.ExitStack() as stack:
            servers = [stack.enter_context(PrivateServer()) for _ in range(NODES)]
            psql(servers[0].connection, b'CREATE DATABASE coordinator')
            coordinator = servers[0].connection.replace('dbname=postgres', 'dbname=coordinator')
            words = [word for server in servers for word in ('--partitions', server.connection)]
            status, setup, errors = tool('distribute', '--whole', 'DEP', *words, script)
            self.equal('the setup', (status, errors), (1, ''))
            psql(coordinator, setup.encode())
            for name, those in rows.items():
                insert = (f'INSERT INTO bitemporal.{name.lower()} VALUES ' + values_of(
                    those, ", '[2024-{:02}-01,2024-{:02}-01)', '2024-01-01',"
                    " '9999-12-31 23:59:59.999999'"))
                wholes = [server.connection for server in servers] if name == 'DEP' else []
                for connection in [coordinator, *wholes]:
                    psql(connection, insert.encode())
            counts = [int(psql(server.connection, b'SELECT count(*) FROM bitemporal.emp'))
                      for server in servers]
            self.equal('each node has a part', (min(counts) > 0, sum(counts)), (True, 120))
            for number, ((kind, query), wanted) in enumerate(zip(STAFF_QUERIES, ours(rows)), 4):
                if kind != 'no':
                    got = psql(coordinator, f'SELECT * FROM bitemporal.answer_{number}'.encode())
                    self.equal(f'over {NODES} servers: {query}', got.decode().splitlines(), wanted)
            plan = psql(coordinator, b'EXPLAIN (VERBOSE) SELECT *'
                                     b' FROM bitemporal.answer_4').decode()
            self.equal('all nodes are asked at once', plan.count('Async Foreign Scan'), NODES)
            self.equal('what they are asked', plan.count('FROM bitemporal.answer_4'), NODES)


if __name__ == '__main__':
    support.run_cases()
