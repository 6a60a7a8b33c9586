"""The words that the tools which read a report with its script take alike."""
import argparse
import dataclasses
import functools
from collections.abc import Mapping
from typing import Optional

from bitemporal_tools import command_line, options
from bitemporal_tools.command_line import Fault, Parser, read_text
from bitemporal_tools.days.csv_table import csv_table
from bitemporal_tools.days.rows import DayTable, day_table
from bitemporal_tools.reports import report
from bitemporal_tools.reports.answer_tables import Called, by_name, called, names_of
from bitemporal_tools.reports.listing import TABLES, named_catalog
from bitemporal_tools.reports.runs import catalog_and_report

ABOUT = """
REPORT is what `run` printed for SCRIPT; if it is left out or `-`, it is standard input. With
--run SCRIPT is run for it, and with --store STORE over a store, which it may not change. WHICH is
the number or the name of a statement.

The exit status is 0; 1 if the report has a refused statement, written to standard error, or an
answer that is asked for is missing; and 2 if the command line or a file is wrong, or the report
isn't the script's."""


RUNS = {'--run': 'run SCRIPT, in place of a REPORT',
        '--store STORE': 'run SCRIPT, which has queries alone, over this store', **TABLES}
OPTIONS = {'SCRIPT': '', '[REPORT]': '', **RUNS}
# The options of a tool that takes one answer, of a report or of a file.
OPTIONS_OF_ONE = {
    '[SCRIPT]': '', '[REPORT]': '', '--only WHICH': 'this answer, by number or name',
    '--csv FILE': 'an answer that was written as CSV, in place of SCRIPT and REPORT; -: standard'
                  ' input', **RUNS}


def parser(name: str, description: Optional[str], words: Mapping[str, str] = OPTIONS,
           usage: str = 'SCRIPT [REPORT] [OPTIONS]') -> Parser:
    """The parser of a tool that takes these words, to which it adds its own."""
    found = command_line.parser(name, description, usage)
    found.epilog = ABOUT
    options.add(found, words)
    return found


def read(name: str, wanted: argparse.Namespace) -> tuple[list[report.Statement], int]:
    """The statements that answered, and the exit status: 1 if one was refused, which is reported
    after a tool's name."""
    if wanted.run or wanted.store:
        if wanted.report is not None or wanted.tables is not None or wanted.script == '-':
            raise Fault('--run and --store take the place of REPORT and --tables, and need a file')
        script = read_text(wanted.script)
        catalog, printed = catalog_and_report(wanted, script)
        statements = report.beside(wanted.script, script, printed, catalog)
    else:
        statements = report.read(wanted.script, wanted.report, named_catalog(wanted.tables))
    status = report.tell_refused(name, statements, wanted.script)
    return [statement for statement in statements
            if isinstance(statement.outcome, (report.Answer, report.Versions))], status


@dataclasses.dataclass
class Asked(Called):
    """A statement that answered, and what it is called."""
    statement: report.Statement

    @functools.cached_property
    def days(self) -> DayTable:
        return day_table(self.statement)


def answers(name: str, wanted: argparse.Namespace) -> tuple[list[Asked], int]:
    """The answers by what they are called, and the exit status."""
    statements, status = read(name, wanted)
    return [Asked(*called(statement), statement) for statement in statements], status


def one(name: str, wanted: argparse.Namespace) -> tuple[DayTable, int]:
    """The answer that is named, or the only one, with days as numbers; and the exit status."""
    if wanted.csv is not None:
        if any((wanted.script, wanted.only, wanted.run, wanted.store, wanted.tables)):
            raise Fault('--csv takes the place of SCRIPT, REPORT and what belongs to them')
        return csv_table(wanted.csv), 0
    if wanted.script is None:
        raise Fault('write SCRIPT, or --csv FILE')
    found, status = answers(name, wanted)
    if wanted.only is not None:
        return by_name(found, wanted.only).days, status
    if len(found) != 1:
        raise Fault(f'{len(found)} answers ({names_of(found)}): choose one by --only',
                    status=1 if not found else 2)
    return found[0].days, status
