"""The changes that the options of `alter` name, in the order of the command line."""
import argparse
import re
from collections.abc import Callable, Sequence
from functools import partial
from typing import Any, Optional, Union

from bitemporal_tools.alteration import changes
from bitemporal_tools.alteration.changes import Change
from bitemporal_tools.alteration.statements import changes_of
from bitemporal_tools.command_line import Fault, read_text
from bitemporal_tools.sql.literals import GREATEST_NUMBER, LEAST_NUMBER, date_of
from bitemporal_tools.stores.spelling import DATE, VARCHAR, Value
from bitemporal_tools.stores.tables import KINDS, Column, Reference

TEXT_TYPE = re.compile(r'(?:VARCHAR|CHARACTER VARYING) *\( *([0-9]{1,9}) *\)')


def halves(word: str, sign: str, form: str) -> tuple[str, str]:
    """The texts before and after a sign, in upper case. A fault shows the form that the whole
    should have."""
    first, found, second = word.partition(sign)
    if not (first and found and second):
        raise Fault(f'{word!r} is not of the form {form}')
    return first.strip().upper(), second.strip().upper()


def names(word: str) -> tuple[str, ...]:
    return tuple(name.strip().upper() for name in word.split(','))


def typed(name: str, kind: str) -> Column:
    """The column of a type."""
    kind = ' '.join(kind.upper().split())
    text = TEXT_TYPE.fullmatch(kind)
    if text:
        return Column(name, VARCHAR, int(text[1]))
    if kind not in ('INTEGER', 'DATE'):
        raise Fault(f'{kind} is no type of a new column: write INTEGER, DATE or VARCHAR(n)')
    return Column(name, KINDS[kind])


def value_of(column: Column, word: str) -> Value:
    """The value that a word of the command line names in a column."""
    if column.kind == VARCHAR:
        if any('\ud800' <= letter <= '\udfff' for letter in word):
            raise Fault(f'{word!r} is not UTF-8')
        return word
    if column.kind == DATE:
        date = date_of(word)
        if date is None:
            raise Fault(f'{word!r} is no date YYYY-MM-DD')
        return date
    if not re.fullmatch(r'[+-]?[0-9]{1,19}', word) or \
            not LEAST_NUMBER <= int(word) <= GREATEST_NUMBER:
        raise Fault(f'{word!r} is no whole number of 64 bits')
    return int(word)


# One for each option.

def add(where: str, kind: str, value: str) -> Change:
    table, name = halves(where, '.', 'TABLE.COLUMN')
    column = typed(name, kind)
    return partial(changes.add_column, table, column, value_of(column, value))


def rename(word: str) -> Change:
    where, new = halves(word, '=', 'TABLE.COLUMN=NEW')
    return partial(changes.rename, *halves(where, '.', 'TABLE.COLUMN=NEW'), new)


def widen(word: str) -> Change:
    where, length = halves(word, '=', 'TABLE.COLUMN=N')
    if not re.fullmatch('[0-9]{1,9}', length):
        raise Fault(f'{length!r} is no length')
    return partial(changes.widen, *halves(where, '.', 'TABLE.COLUMN=N'), int(length))


def reference(word: str) -> tuple[str, Reference]:
    form = 'TABLE.COLUMN,..=PARENT.COLUMN,..'
    own, other = halves(word, '=', form)
    table, columns = halves(own, '.', form)
    parent, parent_columns = halves(other, '.', form)
    return table, Reference(parent, names(columns), names(parent_columns))


def key(word: str) -> Change:
    table, columns = halves(word, '=', 'TABLE=COLUMN,..')
    return partial(changes.set_key, table, names(columns))


# The options with the names of their words, and what each does.
OPTIONS: dict[str, tuple[Callable[..., Union[Change, list[Change]]], tuple[str, ...], str]] = {
    '--add': (add, ('TABLE.COLUMN', 'TYPE', 'VALUE'),
              'a column behind the others, with this value in all versions'),
    '--drop': (lambda where: partial(changes.drop_column, *halves(where, '.', 'TABLE.COLUMN')),
               ('TABLE.COLUMN',), 'a column less'),
    '--rename': (rename, ('TABLE.COLUMN=NEW',), 'another name for a column or a period'),
    '--rename-table': (lambda word: partial(changes.rename_table, *halves(word, '=', 'TABLE=NEW')),
                       ('TABLE=NEW',), 'another name for a table'),
    '--widen': (widen, ('TABLE.COLUMN=N',), 'a greater length of a text column'),
    '--drop-table': (lambda word: partial(changes.drop_table, word.upper(), False), ('TABLE',),
                     'a table less, with its history'),
    '--add-reference': (lambda word: partial(changes.add_reference, *reference(word)),
                        ('TABLE.COLUMN,..=PARENT.COLUMN,..',),
                        'a reference of a table to the key of another'),
    '--drop-reference': (lambda word: partial(changes.drop_reference, *reference(word)),
                         ('TABLE.COLUMN,..=PARENT.COLUMN,..',), 'a reference less'),
    '--key': (key, ('TABLE=COLUMN,..',), 'another key of a table'),
    '--script': (lambda path: changes_of(path, read_text(path)), ('FILE',),
                 'changes as ALTER TABLE and DROP TABLE'),
}


class Adds(argparse.Action):
    """Adds the change that an option names, or those of a script, to those before it."""

    def __call__(self, parser: argparse.ArgumentParser, namespace: argparse.Namespace,
                 values: Union[str, Sequence[Any], None],
                 option_string: Optional[str] = None) -> None:
        make = OPTIONS[option_string or ''][0]
        made = make(*values or ())
        namespace.changes = [*namespace.changes, *(made if isinstance(made, list) else [made])]


def add_options(parser: argparse.ArgumentParser) -> None:
    for option, (_, shown, what) in OPTIONS.items():
        parser.add_argument(option, action=Adds, dest='changes', metavar=shown, help=what,
                            nargs=len(shown), default=[])
