"""Tools for the users of bitemporal: a module for each command, and what they are made of.

    command_line    what the commands do alike: their words, files, faults that end them
    program         where the program is
    sql             the language
    reports         reports read with their scripts, and answers as tables
    days            what is reckoned over the days of answers: totals, durations, ever and never
    loading         CSV files to statements
    explanation     what is said of refusals
    pictures        time lines
    databases       versions of rows as files that other databases load
    foreign_answer  the answer of another database as rows, and the queries that judge it
"""
from typing import TYPE_CHECKING

if TYPE_CHECKING:
    from bitemporal_server.dbapi import Connection


def connect(store: str, script_clock: bool = False, clock_ahead: bool = False) -> 'Connection':
    """A connection of the DB-API (PEP 249) to a store, which is made if there is none."""
    from bitemporal_server import dbapi  # pylint: disable=import-outside-toplevel
    return dbapi.connect(store, script_clock, clock_ahead)
