"""Stores for the tests of the tools that read and write them: random ones, which the program makes
from scripts, and what it answers over them."""
import dataclasses
import datetime
import os
import pathlib
import random
import subprocess
import tempfile

import support
from bitemporal_tools.reports.records import records
from bitemporal_tools.sql.literals import literal
from bitemporal_tools.stores.spelling import Value

FIRST_DAY, DAYS = datetime.date(2024, 1, 1), 40
VALUES: dict[str, list[Value]] = {
    'INTEGER': [0, 1, 2, 3, -1, 2 ** 63 - 1, -2 ** 63],
    'VARCHAR': ['', 'a', "O'Neil", 'x, "y"', 'two\nlines', 'a\rb', 'a\n.help', 'a\0b', '\0',
                '\u00e9\u65e5', '=1'],
    'DATE': [datetime.date.min, datetime.date.max, datetime.date(2024, 2, 29)]}
MEMORY = '/dev/shm'
ALL_MOMENTS = ("FOR SYSTEM_TIME FROM TIMESTAMP '0001-01-01 00:00:00'"
               " TO TIMESTAMP '9999-12-31 23:59:59.999999'")


@dataclasses.dataclass
class Sample:
    """A table of a random script: its value columns with their kinds, how many of them are the key,
    and a reference: the number of the parent, from 0, and the first of the columns that have it."""
    name: str
    kinds: list[str]
    key: int
    parents: list[tuple[int, int]]

    def columns(self) -> list[str]:
        return [f'C{place}' for place in range(len(self.kinds))]


class Random:
    """A random script, whose statements may be refused."""

    def __init__(self, seed: int, statements: int = 60) -> None:
        self.chosen, self.tables = random.Random(seed), list[Sample]()
        for number in range(self.chosen.randint(1, 6)):
            self.tables.append(self.sample(number))
        self.script = ''.join(map(self.create, self.tables)) + ''.join(
            self.statement() + ';\n' for _ in range(statements))

    def sample(self, number: int) -> Sample:
        kinds = self.chosen.choices(['INTEGER', 'VARCHAR', 'DATE'], [4, 2, 1],
                                    k=self.chosen.randint(1, 4))
        key = self.chosen.randint(1, min(2, len(kinds)))
        parents: list[tuple[int, int]] = []
        while number and self.chosen.random() < 0.6 and len(parents) < 3 and len(kinds) < 8:
            parent = self.chosen.randrange(number)
            other = self.tables[parent]
            parents.append((parent, len(kinds)))
            kinds += other.kinds[:other.key]
        return Sample(f'T{number}', kinds, key, parents)

    def create(self, table: Sample) -> str:
        lines = [f'{name} {kind}{"(9)" * (kind == "VARCHAR")}'
                 for name, kind in zip(table.columns(), table.kinds)]
        dates = ['S DATE', 'E DATE', 'SS TIMESTAMP GENERATED ALWAYS AS ROW START',
                 'SE TIMESTAMP(6) GENERATED ALWAYS AS ROW END']
        place = self.chosen.randrange(len(lines) + 1)
        lines[place:place] = dates
        names = table.columns()
        lines += ['PERIOD FOR P (S, E)', 'PERIOD FOR SYSTEM_TIME (SS, SE)',
                  f'PRIMARY KEY ({", ".join(names[:table.key])}, P WITHOUT OVERLAPS)']
        for parent, first in table.parents:
            other = self.tables[parent]
            own = ', '.join(names[first:first + other.key])
            lines.append(f'FOREIGN KEY ({own}, PERIOD P) REFERENCES {other.name}'
                         f' ({", ".join(other.columns()[:other.key])}, PERIOD P)')
        return f'CREATE TABLE {table.name} ({", ".join(lines)}) WITH SYSTEM VERSIONING;\n'

    def value(self, kind: str) -> str:
        values = VALUES[kind]
        return literal(self.chosen.choice(values[:3] if self.chosen.random() < 0.8 else values))

    def days(self) -> tuple[str, str]:
        first, last = sorted(self.chosen.sample(range(DAYS), 2))
        if self.chosen.random() < 0.3:
            first, last = 0, DAYS
        return (literal(FIRST_DAY + datetime.timedelta(first)),
                literal(FIRST_DAY + datetime.timedelta(last)))

    def statement(self) -> str:
        table = self.chosen.choice(self.tables)
        kind = self.chosen.choice(['at', 'insert', 'insert', 'insert', 'update', 'delete'])
        if kind == 'at':
            self.moment = getattr(self, 'moment', datetime.datetime(2024, 1, 1)) + \
                datetime.timedelta(microseconds=self.chosen.choice([0, 1, 86400000000]))
            return f"AT TIMESTAMP '{self.moment}'"
        if kind == 'insert':
            rows = ', '.join(f'({", ".join([*map(self.value, table.kinds), *self.days()])})'
                             for _ in range(self.chosen.randint(1, 2)))
            return f'INSERT INTO {table.name} ({", ".join([*table.columns(), "S", "E"])}) VALUES' \
                   f' {rows}'
        start, end = self.days()
        portion = f' FOR PORTION OF P FROM {start} TO {end}' if self.chosen.random() < 0.7 else ''
        where = f' WHERE C0 = {self.value(table.kinds[0])}' if self.chosen.random() < 0.7 else ''
        if kind == 'delete':
            return f'DELETE FROM {table.name}{portion}{where}'
        place = self.chosen.randrange(len(table.kinds))
        value = self.value(table.kinds[place])
        return f'UPDATE {table.name}{portion} SET C{place} = {value}{where}'


def answered(store: str, script: str) -> list[list[str]]:
    """The records of the program's report of a session over a store."""
    done = subprocess.run(['bitemporal_file', store], executable=os.environ['BITEMPORAL'],
                          input=script.encode('utf-8'), stdout=subprocess.PIPE, check=False)
    return list(records(done.stdout.decode('utf-8')))


def verified(store: str) -> bytes:
    """The program's words on a store by --verify: they are equal for equal histories."""
    return subprocess.run(['bitemporal_file', store, '--verify'], check=True,
                          executable=os.environ['BITEMPORAL'], stdout=subprocess.PIPE).stdout


def contents(store: str, tables: list[str]) -> list[list[str]]:
    """All versions of some tables, as the program shows them."""
    return answered(store, ''.join(f'SELECT * FROM {name} {ALL_MOMENTS};\n' for name in tables))


def copied_away(store: str) -> bytes:
    """The bytes of a store."""
    return pathlib.Path(store).read_bytes()


class StoreTests(support.Case):
    """Tests over stores in a folder of their own."""

    @classmethod
    def setUpClass(cls) -> None:
        super().setUpClass()
        # In memory, if that is: each statement over a store waits for the disk.
        if os.access(MEMORY, os.W_OK):
            tempfile.tempdir = MEMORY

    def path(self, name: str) -> str:
        return str(self.files.path(name))

    def made(self, name: str, script: str) -> str:
        """A new store that a script leaves."""
        path = self.path(name)
        answered(path, script)
        return path

    def tool(self, *words: str, status: int = 0) -> tuple[str, str]:
        """The output and standard error of a tool, which ends with this status."""
        found, output, errors = support.tool(*words)
        self.assertEqual(found, status, (words, output, errors))
        return output, errors

    def refused(self, *words: str, status: int = 2) -> str:
        """The words of a tool that ends with this status and leaves nothing new in the folder."""
        before = self.files.names()
        output, errors = self.tool(*words, status=status)
        self.assertEqual((output, self.files.names()), ('', before))
        return errors
