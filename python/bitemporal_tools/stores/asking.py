"""Asks the program: what it says of a store in a file, and its report of a script."""
import os
import shutil
import tempfile
from collections.abc import Iterable
from typing import IO, Union

from bitemporal_tools import engine_session
from bitemporal_tools.command_line import Fault
from bitemporal_tools.reports.records import records

BAD_STORE = '60 BadStore'
# A folder in memory, and how many times the bytes of a store have to be free there.
MEMORY, ROOM = '/dev/shm', 4


def ran(name: str, words: list[str], given: Union[bytes, IO[bytes]]) -> tuple[int, bytes, str]:
    """The status, the output and the last line on standard error of the program by a name."""
    done = engine_session.ran(name, words, given)
    lines = done.stderr.decode('utf-8', 'replace').splitlines() or ['']
    return done.returncode, done.stdout, lines[-1]


def refusal_to_open(store: str) -> str:
    """Why the program does not open a store, in its own words; an empty text if it does."""
    status, _, told = ran('bitemporal_file', [store, '--tables'], b'')
    if not status:
        return ''
    return told.partition(': ')[2] or told or f'the program ended with status {status}'


def scratch(size: int) -> 'tempfile.TemporaryDirectory[str]':
    """A folder for a store that is only asked, which has about so many bytes: in memory, if that
    has room, since each statement over a store waits for the disk."""
    free = shutil.disk_usage(MEMORY).free if os.access(MEMORY, os.W_OK) else 0
    return tempfile.TemporaryDirectory(dir=MEMORY if free > ROOM * size else None)


def report(statements: Iterable[str], store: str) -> list[list[str]]:
    """The records of a session over a store, which is sent these statements. Each of them has its
    semicolon."""
    with tempfile.TemporaryFile() as script:
        for statement in statements:
            script.write(statement.encode('utf-8'))
        script.seek(0)
        return report_of_file(script, store)


def report_of_file(script: IO[bytes], store: str) -> list[list[str]]:
    """The records of a session over a store, which is sent a script from its beginning on."""
    return read_report(*ran('bitemporal_file', [store], script))


def read_report(status: int, output: bytes, told: str) -> list[list[str]]:
    """The records of a run that has come to its end."""
    if status not in (0, 1):
        raise Fault(told or f'the program ended with status {status}')
    return list(records(output.decode('utf-8')))
