#!/usr/bin/env python3
"""Tests that the program and the tools open a store of each form that there ever was.

tests/forms has one of each, which the program of its time wrote: the first by the last build
that counted moments in seconds. Both are of one script, but that the moment of its changes has a
fraction in form 2. A store of a new form is added here, and none is taken away.
"""
import pathlib
import shutil
import sqlite3

import support
from folders import ROOT
from store_samples import StoreTests, answered, copied_away
from test_dump import texts

FOLDER = ROOT / 'tests/forms'
CHANGED = {1: '2024-06-20 09:00:00', 2: '2024-06-20 09:00:00.250000'}
OPEN = '9999-12-31 23:59:59.999999'
SUMS = {1: 'db03231c2c4796147e9a3cf80c8e156c', 2: '6173858f2f73fceb89dda61a7f85878a'}
FILES = {
    'dump.csv': '''bitemporal dump,2
clock,2024-07-01 00:00:00
table,1,EMP,EMP.csv,4
table,2,PAY,PAY.csv,3
sum,SUM
''',
    'EMP.csv': '''ENO,NAME,SINCE,S,E,SS,SE
-102,"O'Neil, ""Bob""",0001-01-01,0001-01-01,9999-12-31,0001-01-01 00:00:00,CHANGED
-102,"O'Neil, ""Bob""",0001-01-01,0001-01-01,2020-01-01,CHANGED,OPEN
-102,"O'Neil, ""Bob""",0001-01-01,2021-01-01,9999-12-31,CHANGED,OPEN
101,Ann,2023-12-01,2024-01-01,9999-12-31,0001-01-01 00:00:00,OPEN
''',
    'PAY.csv': '''ENO,CENTS,S,E,SS,SE
101,310000,2024-01-01,9999-12-31,2024-01-10 09:00:00,CHANGED
101,310000,2024-01-01,2024-07-01,CHANGED,OPEN
101,325000,2024-07-01,9999-12-31,CHANGED,OPEN
''',
    'tables.sql': '''CREATE TABLE EMP (
 ENO INTEGER,
 NAME VARCHAR(20),
 SINCE DATE,
 S DATE,
 E DATE,
 SS TIMESTAMP(12) GENERATED ALWAYS AS ROW START,
 SE TIMESTAMP GENERATED ALWAYS AS ROW END,
 PERIOD FOR EP (S, E),
 PERIOD FOR SYSTEM_TIME (SS, SE),
 PRIMARY KEY (ENO, EP WITHOUT OVERLAPS)) WITH SYSTEM VERSIONING;
CREATE TABLE PAY (
 ENO INTEGER,
 CENTS INTEGER,
 S DATE,
 E DATE,
 SS TIMESTAMP GENERATED ALWAYS AS ROW START,
 SE TIMESTAMP GENERATED ALWAYS AS ROW END,
 PERIOD FOR PP (S, E),
 PERIOD FOR SYSTEM_TIME (SS, SE),
 PRIMARY KEY (ENO, PP WITHOUT OVERLAPS),
 FOREIGN KEY (ENO, PERIOD PP) REFERENCES EMP (ENO, PERIOD EP)) WITH SYSTEM VERSIONING;
'''}


class Forms(StoreTests):

    def test_each_form(self) -> None:
        for form, changed in CHANGED.items():
            with self.subTest(form=form):
                wanted = {name: text.replace('CHANGED', changed).replace('OPEN', OPEN)
                          .replace('SUM', SUMS[form])
                          for name, text in FILES.items()}
                self.of_form(form, self.path(f'{form}.store'), wanted)

    def of_form(self, form: int, store: str, wanted: dict[str, str]) -> None:
        shutil.copyfile(FOLDER / f'form_{form}.store', store)
        before = copied_away(store)
        self.assertEqual(form_of(store), form)
        for words in (['dump', store, '--to', f'{store}.before'],
                      ['alter', store, '--to', f'{store}.altered', '--widen', 'EMP.NAME=20']):
            self.tool(*words)
        self.assertEqual((texts(f'{store}.before'), copied_away(store)), (wanted, before))
        self.assertEqual(answered(store, "AT TIMESTAMP '2024-06-30 23:59:59.999999';"),
                         [['refused', '1', '40', 'MomentBack', '']])
        self.assertEqual(form_of(store), max(CHANGED))
        for path in (store, f'{store}.altered'):
            self.tool('dump', path, '--to', f'{path}.after')
            self.assertEqual(texts(f'{path}.after'), wanted)

    def test_each_is_there(self) -> None:
        self.assertEqual(sorted(path.name for path in pathlib.Path(FOLDER).iterdir()),
                         [f'form_{form}.store' for form in CHANGED])


def form_of(store: str) -> int:
    """The form that sqlite3 reads in a store which no program has open."""
    connection = sqlite3.connect(f'file:{store}?mode=ro&immutable=1', uri=True)
    [(form,)] = connection.execute('SELECT form FROM bt_meta')
    connection.close()
    return int(form)


if __name__ == '__main__':
    support.run_cases()
