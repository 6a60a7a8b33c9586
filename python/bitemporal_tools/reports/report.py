"""A report read with its script: what became of each statement.

A `Reader` gives the outcome of each statement in turn: Done, Refused, Answer or Versions. `read`
gives the statements of a script with them: each has its number, its tree (of bitemporal_tools.sql),
the lines of the comment above it, and its text. A report that isn't the script's is
NotOfScript.
"""
import itertools
import sys
from collections.abc import Callable, Iterable, Iterator, Sequence
from typing import Any, NamedTuple, NoReturn, Optional, Union

from bitemporal_tools.command_line import Fault, read_text
from bitemporal_tools.days.numbers import ordinal
from bitemporal_tools.reports.records import BadRecord, record, records
from bitemporal_tools.sql.catalog import Catalog, Table
from bitemporal_tools.sql.lexis import lexed, pieces
from bitemporal_tools.sql.literals import date_of
from bitemporal_tools.sql.parser import parsed
from bitemporal_tools.sql.queries import columns_of
from bitemporal_tools.sql.refusals import NAMES
from bitemporal_tools.sql.refusals import Refused as RefusedScript
from bitemporal_tools.sql.tree import (At, Create, Delete, Insert, Sequenced, Stored, Update,
                                       selects)


class Done(NamedTuple):
    """A statement that was done, and with how many rows, as far as that is reported."""
    what: str
    rows: Optional[int]


class Refused(NamedTuple):
    number: str
    name: str
    day: str


class Row(NamedTuple):
    """Days are texts YYYY-MM-DD, which compare as the days do. `absent` may be `none`."""
    values: tuple[str, ...]
    start: str
    end: str
    held: str
    absent: str


class Answer(NamedTuple):
    """`audit` has the fields of the audit's record from its third on. `kinds` are the types of the
    columns; none if a table of the query isn't known."""
    names: list[str]
    rows: list[Row]
    audit: Optional[list[str]]
    kinds: list[str]


class Version(NamedTuple):
    """Values, the days on which they hold, as numbers, and the moments from which and to which
    they were recorded."""
    values: tuple[str, ...]
    start: int
    end: int
    since: str
    until: str


class Versions(NamedTuple):
    """Rows of a table as lists of cells."""
    names: list[str]
    rows: list[list[str]]
    table: Table

    def versions(self) -> Iterator[Version]:
        """The rows by their parts."""
        table, places = self.table, {name: place for place, name in enumerate(self.names)}
        values = [places[name] for name in table.value_names]
        start, end = places[table.period.start], places[table.period.end]
        moments = {column.generated: places[column.name] for column in table.system}
        for row in self.rows:
            yield Version(tuple(row[place] for place in values), ordinal(row[start]),
                          ordinal(row[end]), row[moments['START']], row[moments['END']])


Outcome = Union[Done, Refused, Answer, Versions]


class Statement(NamedTuple):
    """A statement: its number, its tree (None if the syntax is wrong), the lines of the comment
    above it, its text, and what became of it."""
    number: int
    tree: Any
    comment: list[str]
    text: str
    outcome: Any


DONE = {At: 'at', Create: 'create', Insert: 'insert', Update: 'update', Delete: 'delete'}
FIRST_DAY, LAST_DAY = '0001-01-01', '9999-12-31'
WHOLE_SCRIPT, OF_A_STORE, WITH_DAY = (1, 2, 3), (60,), (42, 43)
MOST_SHOWN = 96  # characters of a record


class NotOfScript(Exception):
    """The report is none, or another script's: why."""


def read(script_path: str, report_path: Optional[str], catalog: Catalog) -> list[Statement]:
    """The statements of the script in a file, with what the report in another says of each. They
    were run over the tables of a catalog."""
    return beside(script_path, read_text(script_path), read_text(report_path), catalog)


def beside(script_path: str, text: str, report: str, catalog: Catalog) -> list[Statement]:
    """The statements of the texts of both."""
    try:
        tokens = list(pieces(lexed(text)))
        reader = Reader(report, len(tokens))
        return statements(text, tokens, reader, catalog.copy())
    except RefusedScript as refused:
        raise Fault(f'{script_path} is refused as a whole: {refused}') from None
    except NotOfScript as why:
        raise Fault(f'{script_path}: {why}') from None


def statements(text: str, tokens: Iterable[Any], reader: 'Reader',
               catalog: Catalog) -> list[Statement]:
    found: list[Statement] = []
    before = 0
    for number, piece in enumerate(tokens, 1):
        tree = parsed(piece).tree
        outcome = reader.outcome(number, tree, catalog)
        if isinstance(outcome, Done):
            catalog.take(tree)
        first, end = piece[0].offset, piece[-1].end
        found.append(Statement(number, tree, comment_above(text[before:first], before == 0),
                               text[first:end], outcome))
        before = end
    reader.ends()
    return found


def comment_above(text: str, is_first: bool) -> list[str]:
    """The lines of the comment that ends just above a statement. `text` is what is between the
    statement before and this one. What is on the line of the statement before isn't of this one,
    and of several comments with empty lines between them the last is."""
    lines = text.lstrip('\ufeff').split('\n')[not is_first:-1]
    comment = itertools.takewhile(lambda line: line.startswith('--'),
                                  map(str.strip, reversed(lines)))
    return [line.lstrip('-').strip() for line in comment][::-1]


def shown(fields: Sequence[str]) -> str:
    """A record for a line of a terminal."""
    text = ''.join(letter if letter.isprintable() else ' ' for letter in record(fields).rstrip())
    return repr(text if len(text) <= MOST_SHOWN else text[:MOST_SHOWN - 3] + ' ..')


def kinds_of(query: Any, catalog: Catalog) -> list[str]:
    """The types of a query's columns; none if one of its tables isn't known."""
    tables = {reference.table for select in selects(query) for reference in select.references}
    if not tables <= set(catalog.tables):
        return []
    return [str(kind) for _, kind in columns_of(query, catalog)]


class Reader:
    """Reads the records of a report one after the other. Its script has `count` statements."""

    def __init__(self, text: str, count: int) -> None:
        self.count, self.at = count, 0
        try:
            self.records = list(records(text))
        except BadRecord as bad:
            raise NotOfScript(f'the report is not CSV in its record {bad}') from None

    def fail(self, why: str) -> NoReturn:
        raise NotOfScript(f'the report is not of this script, which has {self.count} statements:'
                          f' {why}')

    def fail_at(self, number: int) -> NoReturn:
        """The next record is none of this statement."""
        if self.at < len(self.records):
            self.fail(f'it has the record {shown(self.records[self.at])} in the place of statement'
                      f' {number}')
        self.fail(f'it has no outcome of statement {number}')

    def take(self, kind: str, number: int, count: int,
             is_right: Callable[..., bool] = lambda *fields: True) -> list[str]:
        """The fields of the next record after its kind and number, `count` of them."""
        fields = self.records[self.at] if self.at < len(self.records) else []
        if fields[:2] != [kind, str(number)] or len(fields) != 2 + count or \
                not is_right(*fields[2:]):
            self.fail_at(number)
        self.at += 1
        return fields[2:]

    def next_kind(self) -> str:
        return self.records[self.at][0] if self.at < len(self.records) else ''

    def refusal(self, number: int) -> Refused:
        """The number, the name and the day of the next record, which is a refused one."""
        fields = self.records[self.at]
        if fields[:2] != ['refused', str(number)]:
            self.fail_at(number)
        for code, name in NAMES.items():
            if fields[2:4] == [str(code), name] and len(fields) == 5 and \
                    code not in (*WHOLE_SCRIPT, *OF_A_STORE):
                if date_of(fields[4]) if code in WITH_DAY else not fields[4]:
                    self.at += 1
                    return Refused(*fields[2:])
        raise NotOfScript(f'unknown record {shown(fields)}')

    def outcome(self, number: int, tree: Any, catalog: Catalog) -> Outcome:
        kind = self.next_kind()
        if kind == 'refused':
            return self.refusal(number)
        if isinstance(tree, Sequenced) and kind == 'answer':
            return self.answer(number, kinds_of(tree.query, catalog))
        if isinstance(tree, Stored) and kind == 'versions':
            return self.versions(number, catalog.tables.get(tree.table))
        # `over_days` gives no number of rows that an UPDATE or a DELETE touched.
        may_lack = isinstance(tree, (Delete, Update))
        what, rows = self.take('done', number, 2, lambda what, rows: what == DONE.get(type(tree))
                               and (is_count(rows) or may_lack and rows == ''))
        return Done(what, int(rows) if rows else None)

    def size(self, kind: str, number: int) -> Iterator[int]:
        """The numbers of columns and rows that the next record promises."""
        return map(int, self.take(kind, number, 2, lambda *counts: all(map(is_count, counts))))

    def answer(self, number: int, kinds: list[str]) -> Answer:
        columns, count = self.size('answer', number)
        names = self.take('columns', number, columns + 4)
        rows = []
        for _ in range(count):
            fields = self.take('row', number, columns + 4)
            rows.append(Row(tuple(fields[:-4]), *fields[-4:]))
        audit = self.take('audit', number, 2) if self.next_kind() == 'audit' else None
        return Answer(names[:-4], rows, audit, kinds)

    def versions(self, number: int, table: Optional[Table]) -> Versions:
        columns, count = self.size('versions', number)
        names = self.take('columns', number, columns)
        rows = [self.take('version', number, columns) for _ in range(count)]
        if table is None:
            self.fail(f'statement {number} asks of a table that the script does not make: where it'
                      ' was run over a store, name its tables by --tables')
        if names != [column.name for column in table.columns]:
            self.fail(f'it has not the columns of statement {number}')
        return Versions(names, rows, table)

    def ends(self) -> None:
        if self.at < len(self.records):
            self.fail(f'it has the record {shown(self.records[self.at])} after the last')


def is_count(text: str) -> bool:
    return text.isascii() and text.isdigit() and len(text) < 20


def tell_refused(name: str, statements: Iterable[Statement], script_path: Optional[str]) -> int:
    """Writes to standard error, after a tool's name, the statements that were refused. Gives the
    exit status: 1 if there are any."""
    refused = [statement for statement in statements if isinstance(statement.outcome, Refused)]
    for statement in refused:
        outcome = statement.outcome
        print(f'{name}: statement {statement.number} of {script_path} was refused:'
              f' {outcome.number} {outcome.name} {outcome.day}'.rstrip(), file=sys.stderr)
    return 1 if refused else 0
