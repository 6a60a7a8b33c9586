"""Runs scripts by `bitemporal` and by PostgreSQL, and compares the reports.

    compare_postgresql [--server CONNECTION] FILE..
    compare_postgresql [--server CONNECTION] --random FIRST COUNT

Each script is translated by to_postgresql and run by psql on a private server, which is started
for it and removed at the end; or on the server that CONNECTION names, in psql's words ('host=h
dbname=d'). There each script makes the schema `bitemporal` and is rolled back. --random takes
COUNT random scripts of fuzz/random_runs.py, with the seeds from FIRST on. The program is the one
that BITEMPORAL names, or this repository's.

The exit status is 0 if all reports are alike, 1 if some differ (the first record of each
that does is shown), 2 if a script could not be compared: no server, no psql, no program, a text
with U+0000, or out of memory.
"""
import argparse
import contextlib
import pathlib
import sys
from collections.abc import Iterable, Iterator

from bitemporal_scale.postgresql.server import PrivateServer, ServerFault, psql
from bitemporal_scale.postgresql.translation import Options, translated
from bitemporal_scale.postgresql.words import NotTranslated
from bitemporal_tools import command_line
from bitemporal_tools.command_line import Fault
from bitemporal_tools.engine_session import ran
from bitemporal_tools.sql.lexis import decoded
from bitemporal_tools.sql.refusals import Refused


class NotCompared(Exception):
    """A script that one of the two can't run."""


def ours(script: bytes) -> bytes:
    """The report of `bitemporal run`, or what it says if it refuses the whole script."""
    done = ran('bitemporal', ['run'], script)
    if done.returncode == 2:
        said = done.stderr.decode(errors='replace').strip().rpartition('bitemporal: ')[2]
        if said[:2] not in ('1 ', '2 ', '3 '):
            raise NotCompared(f'the program: {said}')
        return said.encode()
    if done.returncode not in (0, 1):
        raise NotCompared(f'the program ended with status {done.returncode}')
    for record in done.stdout.split(b'\n'):
        if record.startswith(b'refused,') and record.split(b',')[2] in (b'61', b'62'):
            raise NotCompared(f'the program: {record.decode()}')
    return done.stdout


def theirs(script: bytes, connection: str) -> bytes:
    """The output of PostgreSQL for the translated script."""
    try:
        made = ''.join(translated(decoded(script), Options()))
    except Refused as refused:
        return str(refused).encode()
    except NotTranslated as fault:
        raise NotCompared(str(fault)) from None
    return psql(connection, made.encode())


def difference(got: bytes, wanted: bytes) -> str:
    """The first line in which PostgreSQL's report isn't ours."""
    one, two = got.split(b'\n'), wanted.split(b'\n')
    at = next((place for place, pair in enumerate(zip(one, two)) if pair[0] != pair[1]),
              min(len(one), len(two)))
    found, ours_there = ((lines[at:at + 1] or [b'(the end)'])[0] for lines in (one, two))
    return (f'line {at + 1} of the report\n  PostgreSQL: {found.decode(errors="replace")}\n'
            f'  bitemporal: {ours_there.decode(errors="replace")}')


def random_scripts(first: int, count: int) -> Iterator[tuple[str, bytes]]:
    import random_scripts as fuzz  # pylint: disable=import-outside-toplevel
    for seed, text in fuzz.scripts(first, count, without=('\0',)):
        yield f'seed {seed}', text.encode()


def files(paths: list[str]) -> Iterator[tuple[str, bytes]]:
    for path in paths:
        yield path, pathlib.Path(path).read_bytes()


def compared(scripts: Iterable[tuple[str, bytes]], connection: str) -> list[int]:
    """Compares each script; counts those that are alike, that differ, and that neither can say."""
    counts = [0, 0, 0]
    for name, script in scripts:
        try:
            got, wanted = theirs(script, connection), ours(script)
        except (NotCompared, ServerFault) as fault:
            print(f'{name}: not compared: {fault}', file=sys.stderr)
            counts[2] += 1
            continue
        if got != wanted:
            print(f'{name}: differs at {difference(got, wanted)}')
        counts[got != wanted] += 1
    return counts


def words(arguments: list[str]) -> argparse.Namespace:
    parser = command_line.parser('compare_postgresql', __doc__)
    parser.add_argument('files', nargs='*', metavar='FILE', help='a script')
    parser.add_argument('--random', nargs=2, type=int, metavar=('FIRST', 'COUNT'),
                        help='random scripts')
    parser.add_argument('--server', metavar='CONNECTION', help='a server that is there already')
    options = parser.parse_args(arguments)
    if bool(options.files) == bool(options.random):
        parser.error('either files or --random FIRST COUNT')
    return options


def main(arguments: list[str]) -> int:
    options = words(arguments)
    scripts = random_scripts(*options.random) if options.random else files(options.files)
    try:
        with contextlib.ExitStack() as stack:
            connection = options.server
            if not connection:
                connection = stack.enter_context(PrivateServer()).connection
            alike, differ, unknown = compared(scripts, connection)
    except (OSError, ServerFault) as fault:
        raise Fault(fault) from None
    print(f'{alike} alike, {differ} differ' + (f', {unknown} not compared' if unknown else ''))
    return 1 if differ else 2 if unknown else 0
