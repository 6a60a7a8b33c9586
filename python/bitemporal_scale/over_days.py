"""Runs a script in slices of days, several runs of `bitemporal` at once, and joins the answers.

    over_days [--slices N] [--jobs N] [--audit] [--dask SCHEDULER] FILE
    over_days --load TABLE=FILE.csv [--load ..] FILE
    over_days --cut FOLDER FILE, then over_days --join FOLDER FILE

For more rows than a script or a machine takes. What a sequenced query answers on a day, what a
change makes of it, and whether a key or a reference holds on it depend on the rows of that day
alone. So the script is cut into slices: each has its days of every row and of every portion, is a
script of its own, and is run by itself. Rows of equal values that meet at a border are joined. A
statement that one slice refuses (42, 43) is refused in all, and those that did it are run once
more without it.

The script may have more bytes than a run takes. --load inserts the rows of a CSV file right after
the CREATE TABLE of their table: its header names the columns, days are YYYY-MM-DD, an empty end
is 9999-12-31. Bad lines are reported with file, line and column, and then nothing is run.

The report is the one of `bitemporal run`, but for what periods as they are stored decide: `done`
records of UPDATE and DELETE have an empty number of rows; DAYS of `audit,N,agrees,DAYS` is the
sum over the slices; and a stored query (SELECT *) is refused, unless --without-stored leaves such
queries out.

--days asks for some days alone: all is cut to these, and so are the rows of the answers.

--dask SCHEDULER (tcp://host:8786) runs the slices on the workers of a Dask cluster. The program
and the slices are sent to them. It needs Python's module distributed (in Debian:
python3-distributed, for /usr/bin/python3).

--cut writes the slices as scripts into a new folder and runs nothing. Run each of them if you
like: `bitemporal run DAY.sql > DAY.report`, with --audit or without. --join then reads the reports
in the folder and prints the script's. If some slices refuse a statement that the rest did,
it takes the statement out of those, removes their reports, and names them: run them once more, and
join again.

The exit status is as for `bitemporal run`: 0, 1 if a statement was refused, 3 if an audit
does not agree, 2 if there is no report; and 4 if --join waits for reports.
"""
import argparse
import contextlib
import datetime
import pathlib
import sys
import tempfile
import time
from typing import Union

from bitemporal_scale.slices.borders import TooManyRows
from bitemporal_scale.slices.csv_rows import BadLines, CsvRows
from bitemporal_scale.slices.cutting import Cutter
from bitemporal_scale.slices.elsewhere import BadFolder, Elsewhere, Waiting, keep, new_folder, read
from bitemporal_scale.slices.outcomes import BadReport
from bitemporal_scale.slices.report import Report
from bitemporal_scale.slices.rounds import Disagreement, RefusedRows, settled
from bitemporal_scale.slices.slice_file import SliceFile
from bitemporal_scale.slices.source import END, FIRST_DAY, Source
from bitemporal_scale.slices.workers import Cluster, Here, RunFault
from bitemporal_tools import command_line, program
from bitemporal_tools.command_line import Fault, Parser, read_bytes
from bitemporal_tools.sql.refusals import Refused

FAULTS = (BadFolder, BadLines, BadReport, Disagreement, OSError, Refused, RefusedRows, RunFault,
          TooManyRows)
WAITS = 4  # the status if reports are missing


def words(arguments: list[str]) -> argparse.Namespace:
    parser = command_line.parser('over_days', __doc__)
    parser.add_argument('file', metavar='FILE', help='the script')
    parser.add_argument('--load', action='append', default=[], metavar='TABLE=FILE',
                        help='a CSV file with the rows of a table')
    parser.add_argument('--slices', type=int, metavar='N',
                        help='how many slices, as many as jobs if not said; more where they would'
                             ' be too large')
    parser.add_argument('--borders', metavar='DAY,DAY..', help='the days on which slices begin')
    parser.add_argument('--days', default=f'{FIRST_DAY},{END}', metavar='DAY,DAY',
                        help='answer for the days from the first on and before the second alone')
    parser.add_argument('--jobs', type=int, default=4, metavar='N',
                        help='how many runs at once, 4 if not said')
    parser.add_argument('--audit', action='store_true', help='check each answer, as `run --audit`')
    parser.add_argument('--dask', metavar='SCHEDULER', help='run on the workers of a Dask cluster')
    elsewhere = parser.add_mutually_exclusive_group()
    elsewhere.add_argument('--cut', metavar='FOLDER', help='write the slices as scripts alone')
    elsewhere.add_argument('--join', metavar='FOLDER',
                           help='join the reports of slices that --cut wrote')
    parser.add_argument('--without-stored', action='store_true', help='leave stored queries out')
    parser.add_argument('--keep', metavar='FOLDER', help='keep what the slices are and report')
    parser.add_argument('--times', action='store_true', help='tell how long each step took')
    options = parser.parse_args(arguments)
    if options.jobs < 1 or options.slices is not None and options.slices < 1:
        parser.error('--jobs and --slices take 1 and more')
    options.borders = options.borders and sorted(days_of(options.borders, parser))
    options.days = days_of(options.days, parser)
    if len(options.days) != 2 or options.days[0] >= options.days[1]:
        parser.error('--days takes two days, the first before the second')
    return options


def days_of(text: str, parser: Parser) -> list[datetime.date]:
    try:
        return [datetime.date.fromisoformat(day) for day in text.split(',')]
    except ValueError:
        parser.error(f'{text}: write days as YYYY-MM-DD')


def read_source(script: bytes) -> Source:
    """The script, of any size."""
    try:
        return Source(script.decode())
    except UnicodeDecodeError:
        raise Refused(1) from None


def look_for_stored(options: argparse.Namespace, source: Source) -> None:
    stored = source.stored_queries()
    if stored and not options.without_stored:
        raise Fault(f'statement {stored[0]} is a stored query, which tells of periods as they are'
                    ' stored, and slices cut these: --without-stored leaves it out')


def read_files(options: argparse.Namespace, source: Source) -> dict[str, CsvRows]:
    """The CSV file of each table that is loaded."""
    files = {}
    for pair in options.load:
        name, equals, path = pair.partition('=')
        name = name.strip().upper()
        if not equals or name not in source.catalog.tables:
            raise Fault(f'--load {pair}: the script makes no table {name}')
        if name in files:
            raise Fault(f'--load {pair}: {name} has a file already')
        files[name] = CsvRows(source.catalog.tables[name], path)
    return files


def runner(options: argparse.Namespace) -> Union[Cluster, Here]:
    command = ['run', *['--audit'] * options.audit]
    if options.dask:
        return Cluster(options.dask, program.path(), command)
    return Here(program.path(), command, options.jobs)


def tell(line: str) -> None:
    print(f'over_days: {line}', file=sys.stderr)


class Clock:
    """Says how long each step took, if that is asked for."""

    def __init__(self, is_asked: bool) -> None:
        self.is_asked, self.since = is_asked, time.perf_counter()

    def tell(self, step: str) -> None:
        now = time.perf_counter()
        if self.is_asked:
            tell(f'{step}: {now - self.since:.2f} s')
        self.since = now


def cut(options: argparse.Namespace, source: Source, folder: pathlib.Path,
        clock: Clock) -> list[SliceFile]:
    """The slices, each in a file of the folder."""
    look_for_stored(options, source)
    cutter = Cutter(source, read_files(options, source), options.days)
    cuts = options.borders or cutter.cuts(options.slices or options.jobs)
    slices = cutter.cut(cuts, folder)
    clock.tell(f'cutting into {len(slices)} slices')
    return slices


def join(source: Source, slices: list[SliceFile], refused: dict[int, list[str]],
         clock: Clock) -> int:
    """Writes the report of the script. Gives the exit status."""
    report = Report(source, slices, refused, sys.stdout.buffer)
    report.write()
    sys.stdout.buffer.flush()
    clock.tell('joining')
    return report.status


def numbers_of(source: Source) -> list[int]:
    return [statement.number for statement in source.statements]


def run_slices(options: argparse.Namespace, folder: pathlib.Path) -> int:
    """Cuts, runs and joins; the exit status."""
    def tell_round(number: int, again: list[SliceFile]) -> None:
        tell(f'statement {number} is refused in some slices and not in {len(again)} others, which'
             ' are run again without it')

    clock = Clock(options.times)
    source = read_source(read_bytes(options.file))
    slices = cut(options, source, folder, clock)
    with contextlib.closing(runner(options)) as runs:
        refused = settled(slices, numbers_of(source), runs.run, tell_round)
    clock.tell('runs')
    return join(source, slices, refused, clock)


def cut_alone(options: argparse.Namespace) -> int:
    """Cuts, for runs elsewhere; the exit status."""
    folder = pathlib.Path(options.cut)
    new_folder(folder)
    script = read_bytes(options.file)
    slices = cut(options, read_source(script), folder, Clock(options.times))
    keep(folder, script, slices)
    tell(f'{len(slices)} scripts in {folder}: run each DAY.sql, its report to DAY.report, then'
         ' join them')
    return 0


def join_alone(options: argparse.Namespace) -> int:
    """Joins slices that were run elsewhere; the exit status."""
    def tell_round(number: int, again: list[SliceFile]) -> None:
        tell(f'statement {number} is refused in some slices and not in {len(again)} others, from'
             ' which it is taken out')

    folder, script = pathlib.Path(options.join), read_bytes(options.file)
    slices = read(folder, script)
    source, clock = read_source(script), Clock(options.times)
    runs = Elsewhere(folder, script, slices)
    try:
        refused = settled(slices, numbers_of(source), runs.run, tell_round)
    except Waiting as waiting:
        for part in waiting.slices:
            tell(f'{part.path} has to be run')
        return WAITS
    return join(source, slices, refused, clock)


def reported(options: argparse.Namespace) -> int:
    if options.cut:
        return cut_alone(options)
    if options.join:
        return join_alone(options)
    if options.keep:
        folder = pathlib.Path(options.keep)
        folder.mkdir(parents=True, exist_ok=True)
        return run_slices(options, folder)
    with tempfile.TemporaryDirectory() as name:
        return run_slices(options, pathlib.Path(name))


def main(arguments: list[str]) -> int:
    options = words(arguments)
    try:
        return reported(options)
    except BrokenPipeError:  # whoever reads the report has enough
        raise
    except FAULTS as fault:
        raise Fault(fault) from None
