"""The tables of a store, as `bitemporal_file STORE --tables` lists them.

A report of `bitemporal_file` is of a script whose tables may be the store's: what reads it
with the script needs them.
"""
import re
from typing import Optional

from bitemporal_tools.command_line import Fault, read_text
from bitemporal_tools.sql.catalog import Catalog
from bitemporal_tools.sql.tree import Column, Create, Key, Name, Period, Reference

from .records import BadRecord, records

# The option that names such a list.
TABLES = {'--tables LIST': 'what `bitemporal_file STORE --tables` printed, where the script was run'
                           ' over a store'}


def catalog_of(text: str) -> Catalog:
    """The tables and the clock of a list. ValueError if the text is none."""
    catalog, found = Catalog(), dict[str, Create]()
    try:
        for kind, *fields in records(text):
            if kind == 'clock':
                [catalog.clock] = fields
            elif kind == 'table':
                number, name, _ = fields
                found[number] = Create(Name(name), [], [], [], [], [])
            else:
                ADDED[kind](found[fields[0]], fields[1:], found)
        for create in found.values():
            catalog.take(create)
    except (BadRecord, KeyError, IndexError, ValueError) as error:
        raise ValueError('it is no list of bitemporal_file STORE --tables') from error
    return catalog


def add_column(create: Create, fields: list[str], _: dict[str, Create]) -> None:
    name, kind = fields
    found = re.fullmatch(r'VARCHAR\((\d+)\)|ROW (.*)', kind)
    length, generated = found.groups() if found else (None, None)
    kind = 'VARCHAR' if length else 'TIMESTAMP' if found else kind
    create.columns.append(Column(Name(name), kind, int(length) if length else None, generated))


def add_period(create: Create, fields: list[str], _: dict[str, Create]) -> None:
    period = Period(*map(Name, fields))
    (create.systems if period.name == 'SYSTEM_TIME' else create.periods).append(period)


def add_key(create: Create, names: list[str], _: dict[str, Create]) -> None:
    create.keys.append(Key(list(map(Name, names)), create.periods[0].name))


def add_reference(create: Create, fields: list[str], found: dict[str, Create]) -> None:
    names = [Name(field) for field in fields[1:]]
    [parent] = [other for other in found.values() if other.name == fields[0]]
    create.references.append(Reference(names[::2], create.periods[0].name, parent.name, names[1::2],
                                       parent.periods[0].name))


ADDED = {'column': add_column, 'period': add_period, 'key': add_key, 'reference': add_reference}


def named_catalog(path: Optional[str]) -> Catalog:
    """The catalog of the list in a file; one without tables if there is no path."""
    try:
        return catalog_of(read_text(path)) if path else Catalog()
    except ValueError as error:
        raise Fault(f'{path}: {error}') from None
