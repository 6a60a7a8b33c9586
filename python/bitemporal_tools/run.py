"""Runs a script: its report is written to standard output, notes on it to standard error.

    tools/run [--stop] [--audit] [--store STORE] [FILE]

Standard error gets the explanation of each refused statement, and other notes, as tools/explain
has them, and then a last line such as

    bitemporal: 12 statements, 1 refused, 5 answers, 5 audits agree

Answers are of sequenced and of stored queries. Without --audit nothing is said of audits.

Before it are lines about the moments at which changes are recorded:

    statement 3: no AT stands before this change, so it is recorded at 0001-01-01 00:00:00
                   of the first UPDATE or DELETE; with --store of an INSERT too, if the clock of the
                   store is there, and not with --now
    statement 3: versions of this very moment, replaced or deleted and not kept: 1
                   of the first UPDATE or DELETE that ends versions at the moment at which they
                   began; and then how many that were in all. With --store the program itself says
                   this. Else, if a change may have done so, `bitemporal_file` runs the script once
                   more, over a store that is thrown away

    --stop         ends at the first refused statement: no statement after it is in the report, or
                   does anything
    --store STORE  runs the script by `bitemporal_file` over the store in the file STORE
    --audit        is passed on to the program, as each other word is that begins with -

Without FILE, or if it is -, standard input is read. The exit status is as for `bitemporal run`:
0, or 1 if a statement was refused, 2 if the script or the command line was, and 3 if an
audit did not agree. It is 2 too if FILE cannot be read; a line says which and why.
"""
import argparse
import io
import os
import pathlib
import subprocess
import sys
import tempfile
from collections.abc import Iterable, Sequence
from typing import Optional

from bitemporal_tools import command_line
from bitemporal_tools.command_line import counted
from bitemporal_tools.engine_session import ran
from bitemporal_tools.explanation.explaining import Explanation
from bitemporal_tools.explanation.moments import WITHOUT_AT, first_without_at, may_replace
from bitemporal_tools.reports.listing import catalog_of
from bitemporal_tools.reports.records import records
from bitemporal_tools.reports.report import NotOfScript
from bitemporal_tools.sql.catalog import Catalog
from bitemporal_tools.sql.lexis import decoded, lexed, pieces
from bitemporal_tools.stores.asking import scratch

# A store that a script leaves may have so many times its bytes.
GROWTH = 4
NOT_KNOWN = 'bitemporal: how many versions changes replaced or deleted at their moment is not known'


def printed(called: str, words: Sequence[str], given: bytes) -> tuple[int, bytes]:
    """The status and the output of the program by one of its two names. Standard error is its
    own."""
    done = ran(called, words, given, stderr=None)
    return done.returncode, done.stdout


def tables_of(store: str) -> Catalog:
    """The tables and the clock of a store, of which there may be no file yet."""
    if not os.path.lexists(store):
        return Catalog()
    status, listed = printed('bitemporal_file', [store, '--tables'], b'')
    if status:
        sys.exit(status)
    return catalog_of(listed.decode('utf-8'))


def told_of_replaced(script: bytes) -> list[str]:
    """The lines of `bitemporal_file` about versions that a script's changes replaced, over a store
    that is thrown away."""
    try:
        with scratch(GROWTH * len(script)) as folder:
            file = pathlib.Path(folder, 'script.sql')
            file.write_bytes(script)
            run = ran('bitemporal_file', [os.path.join(folder, 'store'), file],
                      stdout=subprocess.DEVNULL)
    except OSError as error:
        return [f'{NOT_KNOWN}: {error.strerror}']
    told = [line.partition(': ')[2] for line in run.stderr.decode('utf-8').splitlines()]
    if run.returncode in (0, 1):
        return [f'bitemporal: {line}' for line in told]
    return [f'{NOT_KNOWN}: {told[-1] if told else f"status {run.returncode}"}']


class Run:
    """A script, given as bytes, with its report. `count` is how many statements it has; those that
    were not run for the sake of --stop are cut off."""

    def __init__(self, name: str, script: bytes, options: argparse.Namespace,
                 words: Sequence[str]) -> None:
        self.name, self.script = name, script
        self.is_stored, self.is_timed = bool(options.store), '--now' in words
        self.count: Optional[int] = None
        self.catalog = tables_of(options.store) if options.store else Catalog()
        if options.store:
            words = [options.store, *words, *['--stop'] * options.stop]
            # As a file: a script on standard input may be run statement by statement.
            with tempfile.NamedTemporaryFile(suffix='.sql') as file:
                file.write(script)
                file.flush()
                self.status, self.report = printed('bitemporal_file', [*words, file.name], b'')
        else:
            self.words = ['run', *words]
            self.status, self.report = printed('bitemporal', self.words, script)
        if options.store and options.stop and self.report:
            *_, last = records(self.report.decode('utf-8'))
            self.cut(int(last[1]))

    def cut(self, number: int) -> None:
        """Leaves the statements up to this number."""
        text = decoded(self.script)
        found = list(pieces(lexed(text)))
        self.count = len(found)
        self.script = text[:found[number - 1][-1].end].encode('utf-8')

    def explanation(self) -> Explanation:
        return Explanation(self.name, self.script, self.report.decode('utf-8'), self.catalog)

    def told_of_moments(self, explanation: Explanation) -> list[str]:
        """The lines about the moments at which changes are recorded."""
        number = None if self.is_timed else first_without_at(explanation.accepted, self.catalog,
                                                             self.is_stored)
        told = [f'bitemporal: statement {number}: {WITHOUT_AT}'] if number else []
        if not self.is_stored and may_replace(explanation.accepted, self.catalog):
            told += told_of_replaced(self.script)
        return told

    def stop(self, number: int) -> None:
        """Runs the statements up to this number alone, of a run without a store."""
        self.cut(number)
        self.status, self.report = printed('bitemporal', self.words, self.script)


def last_line(explanation: Explanation, count: int) -> str:
    """The numbers of statements that were run, refused and answered, and of audits that agree."""
    if explanation.texts and not explanation.statements:
        return 'bitemporal: the whole script is refused'
    kinds = [record[0] for record in explanation.records]
    statements, audits = len(explanation.statements), kinds.count('audit')
    parts = [counted(statements, 'statement') if statements == count else
             f'{statements} of {counted(count, "statement")}',
             f'{len(explanation.refusals)} refused',
             counted(kinds.count('answer') + kinds.count('versions'), 'answer')]
    if audits:
        agree = sum(record[0] == 'audit' and record[2] == 'agrees'
                    for record in explanation.records)
        parts.append(f'{counted(audits, "audit")} agree{"s" * (audits == 1)}' if agree == audits
                     else f'{agree} of {counted(audits, "audit")} agree')
    return f'bitemporal: {", ".join(parts)}'


def written(report: bytes) -> list[str]:
    """Writes the report, and gives the lines about what went wrong there."""
    try:
        sys.stdout.buffer.write(report)
        sys.stdout.buffer.flush()
    except OSError as error:
        os.dup2(os.open(os.devnull, os.O_WRONLY), sys.stdout.fileno())
        return [f'run: cannot write the report: {error.strerror}']
    return []


def tell(lines: Iterable[str]) -> None:
    """Reports them on standard error. If that takes nothing, the status still says it."""
    if isinstance(sys.stderr, io.TextIOWrapper):
        sys.stderr.reconfigure(encoding='utf-8', errors='backslashreplace')
    try:
        print(*lines, sep='\n', file=sys.stderr, flush=True)
    except OSError:
        os.dup2(os.open(os.devnull, os.O_WRONLY), sys.stderr.fileno())


def main(arguments: Sequence[str]) -> int:
    parser = command_line.parser('run', __doc__)
    parser.add_argument('file', metavar='FILE', nargs='?', default='-')
    parser.add_argument('--stop', action='store_true')
    parser.add_argument('--store', metavar='STORE')
    options, words = parser.parse_known_args(arguments)
    name = 'standard input' if options.file == '-' else options.file
    run = Run(name, command_line.read_bytes(options.file), options, words)
    try:
        explanation = run.explanation()
        if options.stop and explanation.refusals and not options.store:
            run.stop(explanation.refusals[0].statement.number)
            explanation = run.explanation()
        said = [*(f'{text}\n' for text in explanation.texts + explanation.notes),
                *run.told_of_moments(explanation),
                last_line(explanation, run.count or len(explanation.statements))]
    except NotOfScript:  # memory was refused outside the statements, or the command line is wrong
        said = ['bitemporal: there is no whole report']
    wrong = written(run.report)
    tell([*said, *wrong])
    return 2 if wrong else run.status
