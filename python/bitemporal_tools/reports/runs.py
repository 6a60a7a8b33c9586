"""The report of a script that is run for it: in memory, or over a store that it only asks."""
import argparse
import os

from bitemporal_tools.command_line import Fault
from bitemporal_tools.reports.listing import catalog_of
from bitemporal_tools.reports.report import DONE
from bitemporal_tools.sql.catalog import Catalog
from bitemporal_tools.sql.lexis import lexed, pieces
from bitemporal_tools.sql.parser import parsed
from bitemporal_tools.sql.refusals import Refused
from bitemporal_tools.stores.asking import ran


def printed(name: str, *words: str) -> str:
    """The output of the program after these words. A fault if it ends otherwise than by refusals
    of statements."""
    status, output, told = ran(name, list(words), b'')
    if status not in (0, 1):
        raise Fault(told.partition(': ')[2] or told or f'{name} ended with status {status}')
    return output.decode('utf-8')


def judge_questions(path: str, script: str) -> None:
    """Turns away a script that would change the store that it asks."""
    try:
        for number, piece in enumerate(pieces(lexed(script)), 1):
            if type(parsed(piece).tree) in DONE:
                raise Fault(f'statement {number} of {path} would change the store, which is only'
                            ' asked here: tools/run --store runs changes')
    except Refused as refused:
        raise Fault(f'{path} is refused as a whole: {refused}') from None


def catalog_and_report(wanted: argparse.Namespace, script: str) -> tuple[Catalog, str]:
    """The tables over which the script of a file is run, and its report."""
    if wanted.run and wanted.store:
        raise Fault('--run is without a store: leave out --run or --store')
    if wanted.run:
        return Catalog(), printed('bitemporal', 'run', wanted.script)
    if not os.path.exists(wanted.store):
        raise Fault(f'no store {wanted.store}')
    judge_questions(wanted.script, script)
    catalog = catalog_of(printed('bitemporal_file', wanted.store, '--tables'))
    return catalog, printed('bitemporal_file', wanted.store, wanted.script)
