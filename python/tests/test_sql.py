#!/usr/bin/env python3
"""Compares bitemporal_tools.sql with the program, on random scripts. The variables SEED, CHECKS and
RUNS choose the scripts.

The scripts are made by random_checks.py and random_runs.py. Of the first the module has to
tell the report, the status and standard error of `check`. In every eighth it also has to tell of
each statement without the right syntax the first token that no statement can have there, and all
that could be there, as the grammar of fuzz/random_checks.py has it, which is data. Of the second it
has to tell each refusal of `run`, the days of 42 and 43 too.

The program is the built one, or the one that the variable BITEMPORAL names.
"""
import re
import support
from typing import Any, Optional, Union

from bitemporal_tools.sql.catalog import Catalog
from bitemporal_tools.sql.current_rows import CurrentRows
from bitemporal_tools.sql.lexis import Token, decoded, lexed, pieces
from bitemporal_tools.sql.parser import parsed
from bitemporal_tools.sql.reader import A_NAME, A_NUMBER, A_TEXT, THE_END
from bitemporal_tools.sql.refusals import NAMES, Refused
from bitemporal_tools.sql.script import Statement
from bitemporal_tools.sql.tree import Delete, Insert, Query, Select, Sequenced, Update
import random_checks
from random_scripts import check_script, run_script
from support import Case, chosen, program

CLASSES = {'name': A_NAME, 'number': A_NUMBER, 'text': A_TEXT, 'end': THE_END}
# The place of what is wrong is compared so often, and in pieces so long: it takes long.
EACH, MOST_TOKENS = 8, 300


def statements_of(text: str) -> list[Statement]:
    return [Statement(number, piece) for number, piece in enumerate(pieces(lexed(text)), 1)]


def check_told(statements: list[Statement]) -> tuple[str, bool]:
    """The report of `check`."""
    refused = [(it.number, it.syntax_refusal) for it in statements if it.syntax_refusal]
    records = [f'refused,{number},{code},{NAMES[code]},\n' for number, code in refused]
    return ''.join(records) + f'checked,{len(statements)},{len(refused)}\n', bool(refused)


class Grammar:
    """The grammar of fuzz/random_checks.py, which is data, and what it tests of a piece."""

    def __init__(self, checks: Any) -> None:
        self.rules = checks.RULES
        self.tested: dict[int, set[str]] = {}

    def stop(self, statement: Statement) -> tuple[int, set[str]]:
        """The last place at which some spelling tests a token, and what is tested there."""
        self.tested = {}
        classes = [self.class_of(token) for token in statement.tokens] + ['end']
        for place in self.ends(('rule', 'statement'), classes, {0}):
            self.tested.setdefault(place, set()).add('end')
        place = max(self.tested)
        return place, {CLASSES.get(what, what) for what in self.tested[place]}

    def class_of(self, token: Token) -> str:
        if token.kind == 'word':
            return 'name' if token.is_name else token.word
        return token.word or token.kind

    def ends(self, node: tuple[str, Any], classes: list[str], starts: set[int]) -> set[int]:
        """All places at which a spelling of the node ends that begins at one of the starts."""
        kind, content = node
        if not starts or kind == 'rule':
            return self.ends(self.rules[content], classes, starts) if starts else starts
        if kind == 'token':
            for start in starts:
                self.tested.setdefault(start, set()).add(content)
            return {start + 1 for start in starts if classes[start] == content}
        if kind == 'sequence':
            for part in content:
                starts = self.ends(part, classes, starts)
            return starts
        if kind == 'choice':
            return {end for part in content for end in self.ends(part, classes, starts)}
        if kind == 'optional':
            return starts | self.ends(content, classes, starts)
        reached = set(starts)
        while starts:
            starts = self.ends(content, classes, starts) - reached
            reached |= starts
        return reached


def check_differs(script: bytes, grammar: Optional[Grammar]) -> Optional[tuple[object, object]]:
    """The difference between the module and `check`, or else between it and a grammar."""
    got = program.got(['check'], script)
    try:
        statements = statements_of(decoded(script))
    except Refused as refused:
        refusal = 2, b'', f'bitemporal: {refused}\n'.encode()
        return None if got == refusal else (got, refusal)
    report, is_refused = check_told(statements)
    wanted = int(is_refused), report.encode(), b''
    if got != wanted:
        return got, wanted
    for it in statements:
        if grammar and it.stop is not None and len(it.tokens) <= MOST_TOKENS:
            stop = grammar.stop(it)
            if (it.stop, set(it.expected)) != stop:
                return f'statement {it.number}: {(it.stop, it.expected)}', stop
    return None


def refusals_told(text: str) -> dict[int, tuple[str, str]]:
    """The refusals of `run` that the module tells: the number and the day of each statement."""
    catalog, told = Catalog(), {}
    rows = CurrentRows(catalog)
    for statement in statements_of(text):
        statement.judge(catalog)
        if statement.refusal:
            told[statement.number] = NAMES[statement.refusal], ''
            continue
        catalog.take(statement.tree)
        if isinstance(statement.tree, (Insert, Update, Delete)):
            clash = rows.change(statement.tree)
            if clash:
                told[statement.number] = NAMES[clash.number], clash.day.isoformat()
    return told


def run_differs(script: bytes) -> Optional[tuple[object, object]]:
    _, report, _ = program.got(['run'], script)
    records = [line.split(',') for line in report.decode('utf-8').split('\n')
               if line.startswith('refused,')]
    got = {int(number): (name, day) for _, number, _, name, day in records}
    told = refusals_told(decoded(script))
    return None if got == told else (sorted(told.items() - got.items()),
                                     sorted(got.items() - told.items()))


def shape(query: Query) -> Union[str, list[Any]]:
    """The reading of a query: its tables, with a list for each run of operators of one strength."""
    if isinstance(query, Select):
        return query.references[0].table
    return [shape(query.first),
            *(part for operand in query.rest for part in (operand.operator, shape(operand.query)))]


def strength_differs() -> Optional[tuple[object, object]]:
    """A fault of the strength of set operators: INTERSECT is the strongest, the rest are
    of one strength, and all apply from left to right."""
    asked = ('A INTERSECT B', 'A UNION B INTERSECT DISTINCT C EXCEPT D',
             'A INTERSECT B INTERSECT C UNION DISTINCT D', '(A EXCEPT B) INTERSECT (C UNION D)')
    wanted = [['A', 'INTERSECT', 'B'],
              ['A', 'UNION', ['B', 'INTERSECT', 'C'], 'EXCEPT', 'D'],
              [['A', 'INTERSECT', 'B', 'INTERSECT', 'C'], 'UNION', 'D'],
              [['A', 'EXCEPT', 'B'], 'INTERSECT', ['C', 'UNION', 'D']]]
    got = []
    for query in asked:
        text = re.sub(r'\b([A-D])\b', r'SELECT DISTINCT X FROM \1', query)
        [piece] = pieces(lexed(f'VALIDTIME {text}'))
        tree = parsed(piece).tree
        assert isinstance(tree, Sequenced)
        got.append(shape(tree.query))
    return None if got == wanted else (got, wanted)


class Sql(Case):
    def test_checks(self) -> None:
        grammar = Grammar(random_checks)
        for seed in range(chosen('SEED', 1), chosen('SEED', 1) + chosen('CHECKS', 2000)):
            self.equal(f'check, script {seed}',
                       check_differs(check_script(seed), None if seed % EACH else grammar), None)

    def test_runs(self) -> None:
        for seed in range(chosen('SEED', 1), chosen('SEED', 1) + chosen('RUNS', 400)):
            self.equal(f'run, script {seed}', run_differs(run_script(seed)), None)

    def test_strength(self) -> None:
        self.equal('set operators', strength_differs(), None)


if __name__ == '__main__':
    support.run_cases()
