#!/usr/bin/env python3
"""Tests what tools/explain says of wrong scripts, and that what it says to do works.

The cases are in explain_cases/*.cases: `=== head`, statements that come before each script of the
file; and of each case `=== wrong: NAME` with the script, `=== explained` with what has to be
said of it and of its report, and `=== mended` with the script as it is after what is to be done,
which the program has to take as a whole. Then scripts of random_checks.py and random_runs.py,
of which something has to be said if a statement or the script is refused, and nothing else.

Last, changes that were spoilt in a word: what the mended statement changes has to be part of what
the right one does, the rows, the days and the columns.

The program is the built one, or the one that the variable BITEMPORAL names.
"""
import datetime
import pathlib
import re
import support
from collections.abc import Iterator
from typing import Optional, Union

from bitemporal_tools.explanation.explaining import Explanation
from bitemporal_tools.explanation.mends import Mending
from bitemporal_tools.sql.catalog import Catalog, Table
from bitemporal_tools.sql.current_rows import CurrentRows
from bitemporal_tools.sql.lexis import lexed
from bitemporal_tools.sql.parser import parsed
from bitemporal_tools.sql.refusals import Refused
from bitemporal_tools.sql.script import judge
from bitemporal_tools.sql.tree import Delete, Insert, Tree, Update
from random_scripts import check_script, run_script
from support import ROOT, Case, program

RANDOM_SCRIPTS = 30

EMPLOYEES = """
""" + support.create_table('EMP', 'ENO INTEGER, NAME VARCHAR(20), DEPT INTEGER, BORN DATE', 'ENO',
                           'EP') + """;
INSERT INTO EMP VALUES (1, 'Ann', 3, DATE '1990-01-01', DATE '2024-01-01', DATE '2024-04-01'),
 (2, '', 3, DATE '1980-01-01', DATE '2024-02-10', DATE '9999-12-31'),
 (3, 'Bob', 4, DATE '9999-12-31', DATE '2024-01-01', DATE '2024-03-01'),
 (4, 'Ann', 0, DATE '1990-01-01', DATE '2024-02-01', DATE '2024-02-20'),
 (150, 'Anna', 5, DATE '1970-01-01', DATE '2024-01-15', DATE '2024-02-15')"""
RIGHT = """DELETE FROM EMP WHERE ENO = 1
DELETE FROM EMP WHERE NAME < 'Bob' AND ( DEPT = 3 OR ENO = 4 )
DELETE FROM EMP FOR PORTION OF EP FROM DATE '2024-02-01' TO DATE '2024-02-15'
 WHERE ENO = 1 OR DEPT = 3
UPDATE EMP SET DEPT = 4 WHERE ENO = 1 OR DEPT = 3 AND NOT NAME = 'Ann'
UPDATE EMP FOR PORTION OF EP FROM DATE '2024-02-01' TO DATE '9999-12-31'
 SET NAME = 'x' , DEPT = 4 WHERE NOT ( ENO = 1 OR ENO = 2 ) AND BORN < DATE '1990-01-01'
SELECT * FROM EMP WHERE ENO = 1
VALIDTIME SELECT DISTINCT ENO FROM EMP WHERE ENO = 1
 EXCEPT SELECT DISTINCT DEPT FROM EMP""".replace('\n ', ' ').split('\n')
# Edits that spoil a statement, as words and with ~ for a space.
SPOILERS = """
HISTORY ONLY NOT AND OR XOR NOR ( ) , = < <> . * X ENO 3 1.5 'x' NULL AS SELECT ALL UNDO
LIMIT~1 ORDER~BY~ENO TOP~1 RETURNING~* IS~NULL IS~NOT~NULL =~NULL LIKE~'A_' LIKE~'An%' NOT~LIKE~'%n'
ILIKE~'ann' NOT~ILIKE~'Ann' IN~(1,2) NOT~IN~(1,2) BETWEEN~1~AND~2 +~1 *~2 EXISTS~(SELECT~1)
ENO~IN~(SELECT~ENO~FROM~EMP) =~ANY~(SELECT~ENO~FROM~EMP) EP~CONTAINS~DATE~'2024-02-01'
EP~PRECEDES~PERIOD~(DATE~'2024-02-01',DATE~'2024-03-01') FOR~SYSTEM_TIME~ALL UPPER(NAME)~=
USING~EMP~E AT~TIMESTAMP~'2024-01-01~00:00:00' INSERT~INTO~EMP DELETE~FROM~EMP UPDATE~EMP~SET
SET WHERE FROM EXPLAIN UNDELETE SELETE DELET DEFAULT""".split()
DAYS = [datetime.date(2024, 1, 1) + datetime.timedelta(7 * number) for number in range(20)]


def cases(path: pathlib.Path) -> Iterator[tuple[str, str, str, str]]:
    """Of each case its name, the wrong script, what has to be said of it, and the mended script."""
    parts = re.split(r'^=== (\w+)(?:: (.*))?\n', path.read_text('utf-8'), flags=re.M)[1:]
    head, case = '', ('', '', '')
    for kind, name, text in zip(parts[::3], parts[1::3], parts[2::3]):
        if kind == 'head':
            head = text
        elif kind == 'wrong':
            case = name, head + text, ''
        elif kind == 'explained':
            case = *case[:2], text
        else:
            yield (*case, head + text)


def explained(mode: str, script: bytes) -> tuple[Union[int, str], str]:
    """The sentences on a script, given as bytes, and of its report."""
    status, report, _ = program.got([mode], script)
    texts = Explanation('x.sql', script, report.decode('utf-8'), Catalog()).texts
    return status, '\n\n'.join(texts) + '\n' * bool(texts)


def changed(rows: CurrentRows, tree: Optional[Tree]) -> set[tuple[object, ...]]:
    """The changes of a tree: a column of a row on a day, each."""
    if not isinstance(tree, (Update, Delete)):
        return {('all',)} if isinstance(tree, Insert) else set()
    table = rows.of(tree.table)
    columns = [name for name, _ in tree.sets] if isinstance(tree,
                                                            Update) else table.table.value_names
    gone, _ = rows.changed(tree, table)
    first, end = (tree.portion.start.value, tree.portion.end.value) if tree.portion else \
        (DAYS[0], datetime.date.max)
    return {(type(tree), row.values, day, column) for row in gone for column in columns
            for day in DAYS if max(first, row.start) <= day < min(end, row.end)}


def spoilt(text: str) -> Iterator[str]:
    """The statement with a word less, twice, elsewhere, misspelled; or a spoiler in or for it."""
    words = re.findall(r"'[^']*'|\S+", text)
    for place, word in enumerate(words):
        before, after = words[:place], words[place + 1:]
        others = [[], [word, word], [word[:-1]], [word[0] + word[2:]], [word[:2][::-1] + word[2:]]]
        others += [[*spoiler, *kept] for spoiler in ([it.replace('~', ' ')] for it in SPOILERS)
                   for kept in ([], [word])]
        for other in others:
            yield ' '.join([*before, *other, *after])
        yield ' '.join([*before, *after[:1], word, *after[1:]])
    for spoiler in SPOILERS:
        yield f"{text} {spoiler.replace('~', ' ')}"


def mended(text: str, tables: dict[str, Table]) -> tuple[list[str], Optional[Tree]]:
    """The sentences about a wrong statement, and its tree with all mends, or None."""
    mending = Mending(lexed(text), tables)
    sentences = [advice.what for advice in mending.advice()]
    return sentences, mending.parsed.tree if mending.tokens else None


class Mends(Case):
    def test_cases(self) -> None:
        for path in sorted(ROOT.glob('python/tests/explain_cases/*.cases')):
            for name, wrong, text, mended in cases(path):
                status, said = explained('run', wrong.encode('utf-8'))
                self.equal(f'{path.name}: {name}', (status != 0, said), (True, text))
                self.equal(f'{path.name}: {name}, mended', explained('run', mended.encode('utf-8')),
                           (0, ''))

    def test_random_scripts(self) -> None:
        for seed in range(1, RANDOM_SCRIPTS + 1):
            for mode, script in ('check', check_script(seed)), ('run', run_script(seed)):
                status, said = explained(mode, script)
                self.equal(f'{mode}, random script {seed}', bool(said), status != 0)

    def test_changes(self) -> None:
        """No mend does more than what was asked."""
        catalog = Catalog()
        rows = CurrentRows(catalog)
        create, insert = (statement.tree for statement in judge(EMPLOYEES))
        catalog.take(create)
        assert isinstance(insert, Insert)
        rows.change(insert)
        for text in RIGHT:
            asked, worse, count = changed(rows, parsed(lexed(text)).tree), [], 0
            for wrong in dict.fromkeys(spoilt(text)):
                try:
                    is_wrong = wrong and parsed(lexed(wrong)).stop is not None
                except Refused:
                    continue
                if is_wrong:
                    count += 1
                    sentences, tree = mended(wrong, catalog.tables)
                    try:
                        more = changed(rows, tree) - asked
                    except (KeyError, StopIteration, ValueError, AttributeError, TypeError):
                        more = set()  # refused for a name of nothing
                    if more:
                        worse.append((wrong, sentences))
            self.equal(f'{text}: {count} times spoilt', (worse,), ([],))


if __name__ == '__main__':
    support.run_cases()
