"""A whole script, judged statement by statement."""
from collections.abc import Callable, Iterator
from typing import Any, Optional

from .catalog import Catalog
from .changes import faults_of_at, faults_of_change, faults_of_insert
from .definitions import Definition
from .lexis import Token, lexed, pieces
from .parser import parsed
from .queries import faults_of_sequenced, faults_of_stored
from .refusals import Fault
from .scope import unknown_table
from .tree import At, Create, Delete, Insert, Sequenced, Stored, Update

JUDGES: dict[type, Callable[[Any, Catalog], Iterator[Fault]]] = {
    At: faults_of_at, Create: lambda tree, catalog: Definition(tree, catalog).faults(),
    Insert: faults_of_insert, Update: faults_of_change, Delete: faults_of_change,
    Stored: faults_of_stored, Sequenced: faults_of_sequenced}


class Statement:
    """A statement of a script: its number, its tokens, its tree (None if the syntax is wrong)
    and all faults that the script alone decides. Of a piece that is refused by 10 `stop` is the
    place of the first token that no statement can have there, and `expected` is what could be."""

    def __init__(self, number: int, tokens: list[Token]) -> None:
        self.number, self.tokens = number, tokens
        self.tree, self.faults, self.stop, self.expected = parsed(tokens)

    @property
    def syntax_refusal(self) -> int:
        """The number by which `check` refuses the statement, or 0: of the faults of its text."""
        return min((fault.number for fault in self.faults
                    if fault.number < 21 or self.tree is None), default=0)

    @property
    def refusal(self) -> int:
        """The number by which the statement is refused, or 0 if the script alone doesn't."""
        return min((fault.number for fault in self.faults), default=0)

    @property
    def told(self) -> list[Fault]:
        """The faults of the number that is reported."""
        return [fault for fault in self.faults if fault.number == self.refusal]

    def judge(self, catalog: Catalog) -> None:
        """Adds the faults of names and values over these tables."""
        if self.tree is not None and not self.faults:
            table = getattr(self.tree, 'table', None)
            self.faults = list(JUDGES[type(self.tree)](self.tree, catalog)) \
                if table is None or table in catalog.tables else [unknown_table(table, catalog)]


def judge(text: str, catalog: Optional[Catalog] = None) -> list[Statement]:
    """The statements of a script's text, in turn. Each is judged over the tables and the clock that
    those before it leave, the first over a catalog's. `refusals.Refused` if the whole
    script is refused."""
    catalog, statements = catalog.copy() if catalog else Catalog(), []
    for number, tokens in enumerate(pieces(lexed(text)), 1):
        statement = Statement(number, tokens)
        statement.judge(catalog)
        if not statement.faults:
            catalog.take(statement.tree)
        statements.append(statement)
    return statements
