"""The command line of tools/load."""
import argparse
from collections.abc import Sequence
from typing import Any

from bitemporal_tools import command_line
from bitemporal_tools.options import add

GROUPS = {
    '': {
        'FILE.csv': '',
        '--guess': 'print a CREATE TABLE for the file',
        '--table FILE': 'a script with the CREATE TABLE',
        '--name TABLE': 'the table, if there are several'},
    'the file': {
        '--delimiter SIGN': 'between fields: ,',
        '--encoding NAME': 'UTF-8',
        '--dates FORM': 'such as DD.MM.YYYY',
        '--decimal SIGN': 'before a fraction: .',
        '--column HEADER=COLUMN': 'the column of the table for one of the file',
        '--ignore HEADER': 'a column of the file that the table does not have',
        '--empty COLUMN=VALUE': 'what an empty cell means, or a column that the file does not have',
        '--scale [COLUMN=]DIGITS': 'money in whole cents: 2; without COLUMN each one with a'
                                   ' fraction'},
    'days and moments': {
        '--inclusive-to': 'the end is the last day on which the row holds',
        '--open DATE': 'the end if it is empty: 9999-12-31',
        '--always': 'each row holds on all days, and equal rows are one',
        '--days-later N': 'all days moved by so many',
        '--recorded COLUMN': 'the moment of each row',
        '--recorded-to COLUMN': 'the moment at which each row ended, of an export with a history',
        '--whole-seconds': 'cut fractions of a second, of which six digits are kept',
        '--at MOMENT': 'one moment for all rows'},
    'a store': {
        '--store STORE': 'only what brings this store to what the file says',
        '--complete': 'delete what the store has and the file has not',
        '--late {now}': 'record lines from before the clock of the store at its clock'},
    'corrections': {
        '--record COLUMNS': 'a later row with these cells replaces the earlier one',
        '--removed COLUMN=VALUE': 'a row with this cell takes its days (its record) away',
        '--later-line-wins': 'of rows of one moment for one day the later line holds'},
    'the script': {
        '--output NAME.sql': 'the file to write',
        '--rows-only': 'without the CREATE TABLE',
        '--merge SCRIPT': 'a script to which this file is added'}}
LIST: dict[str, Any] = {'action': 'append', 'default': []}
MORE: dict[str, dict[str, Any]] = {
    '--delimiter': {'default': ','}, '--encoding': {'default': 'utf-8-sig'},
    '--dates': {'default': 'YYYY-MM-DD'}, '--decimal': {'default': '.'}, '--column': LIST,
    '--ignore': LIST, '--empty': LIST, '--scale': LIST, '--late': {'choices': ['now']},
    '--days-later': {'type': int, 'default': 0}}


def options(words: Sequence[str], description: str) -> argparse.Namespace:
    """The options that these words of a command line are."""
    parser = command_line.parser('load', description,
                                 'FILE.csv --table FILE | --store STORE [OPTIONS]')
    for title, of_group in GROUPS.items():
        group = parser.add_argument_group(title) if title else parser
        for written, what in of_group.items():
            add(group, {written: what}, **MORE.get(written.split()[0], {}))
    return parser.parse_args(words)
