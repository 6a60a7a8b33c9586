"""The table that a file is loaded into: of a script, of the script that the file is merged with, or
of a store."""
from __future__ import annotations

import argparse
from typing import Optional

from bitemporal_tools import command_line
from bitemporal_tools.command_line import Fault
from bitemporal_tools.sql.catalog import Catalog, Table
from bitemporal_tools.sql.lexis import lexed
from bitemporal_tools.sql.refusals import Refused
from bitemporal_tools.sql.script import Statement, judge
from bitemporal_tools.sql.tree import At, Create, Insert

# Groups of a script: a moment, or an empty text, and the statements of that moment.
Groups = list[tuple[str, list[str]]]


def judged(text: str, path: str) -> list[Statement]:
    """The statements of a script, none of which may be refused."""
    try:
        statements: list[Statement] = judge(text)
    except Refused as refused:
        raise Fault(f'{path} is refused as a whole: {refused}') from None
    for statement in statements:
        if statement.faults:
            fault = statement.told[0]
            raise Fault(f'{path}: statement {statement.number} is refused'
                        f' ({statement.refusal}). {fault.why}'.rstrip())
    return statements


def ended(text: str, path: str) -> str:
    """A script's text with a semicolon after its last statement, on a line of its own, since there
    may be a comment before it."""
    text = text.lstrip('\ufeff').rstrip()
    try:
        tokens = lexed(text)
    except Refused as refused:
        raise Fault(f'{path} is refused as a whole: {refused}') from None
    return text + ('\n' if not tokens or tokens[-1].word == ';' else '\n;\n')


def read_ended(path: Optional[str]) -> str:
    return ended(command_line.read_text(path), path) if path else ''


def tables_of(text: str, path: str) -> dict[str, Table]:
    """The tables that a script makes, by name."""
    catalog = Catalog()
    for statement in judged(text, path):
        catalog.take(statement.tree)
    return catalog.tables


def chosen(names: list[str], name: Optional[str], path: str) -> str:
    """The name of the one table that is meant."""
    found = [known for known in names if not name or known == name.upper()]
    if len(found) != 1:
        raise Fault(f'{path} has {", ".join(names) or "no table"}: choose one by --name')
    return found[0]


def definitions(text: str, path: str) -> dict[str, Create]:
    """The CREATE TABLEs of a script, by name, whatever tables they refer to."""
    try:
        trees = [statement.tree for statement in judge(text)]
    except Refused as refused:
        raise Fault(f'{path} is refused as a whole: {refused}') from None
    return {tree.name: tree for tree in trees if isinstance(tree, Create)}


def table_of(wanted: argparse.Namespace, of_store: str) -> tuple[Table, str]:
    """The table to load, and the text that makes it: none for a table of the store. `of_store` is
    what makes those. Without --table the table is one of --merge, or one of the store."""
    before = of_store + read_ended(wanted.merge)
    if not wanted.table:
        path = wanted.merge or wanted.store
        known = tables_of(before, path)
        return known[chosen(list(known), wanted.name, path)], ''
    own = read_ended(wanted.table)
    made = definitions(own, wanted.table)
    name = chosen(list(made), wanted.name, wanted.table)
    kept = tables_of(of_store, wanted.store or '')
    both = sorted(set(made) & set(kept))
    if not both:
        return tables_of(before + own, wanted.table)[name], own
    if len(both) < len(made):
        raise Fault(f'{wanted.store} has {", ".join(both)} of {wanted.table} and not the other'
                    ' tables: name a script without what is there')
    for other in both:
        if not is_definition(made[other], kept[other]):
            raise Fault(f'{wanted.store} has {other} with another definition than {wanted.table}')
    return kept[name], ''


def is_definition(create: Create, table: Table) -> bool:
    """Whether a CREATE TABLE makes a table as this one; the system columns may differ."""
    try:
        return shape(Table(create)) == shape(table)
    except ValueError:  # not one period and one key
        return False


def shape(table: Table) -> object:
    """The parts of a definition that are compared."""
    columns = [(column.name, column.kind, column.number, column.generated)
               for column in table.columns if not column.generated]
    references = [(reference.columns, reference.table, reference.table_columns)
                  for reference in table.references]
    return columns, table.period, table.key, references


def statements_after(before: str, path: str) -> tuple[str, list[Statement]]:
    """A script that is run after another, and its statements, whose offsets are in both."""
    text = before + command_line.read_text(path).lstrip('\ufeff')
    return text, judged(text, path)[len(judged(before, path)):]


def script_groups(before: str, path: str) -> Groups:
    """The statements of a script by their moments, which is run after another. The first group is
    what is before its first AT."""
    found: Groups = [('', [])]
    text, statements = statements_after(before, path)
    for statement in statements:
        words = text[statement.tokens[0].offset:statement.tokens[-1].end]
        if isinstance(statement.tree, At):
            found.append((statement.tree.moment.value, []))
        else:
            found[-1][1].append(words)
    return found


def has_rows(before: str, path: str, table: Table) -> bool:
    """Whether a script, which is run after another, inserts into the table."""
    return any(isinstance(statement.tree, Insert) and statement.tree.table == table.name
               for statement in statements_after(before, path)[1])
