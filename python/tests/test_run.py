#!/usr/bin/env python3
"""Tests tools/run, also by what README.md and docs/PROFILE.md show of it.

The program is the built one, or the one that the variable BITEMPORAL names.
"""
import os
import pathlib
import subprocess
import support
from collections.abc import Sequence
from typing import BinaryIO, Union

from support import ROOT, Case, program

REFUSALS = 'python/tests/explain_cases/refusals'
# Over the store that examples/library leaves.
WRONG = b"""AT TIMESTAMP '2024-06-22 23:00:00';
INSERT INTO PAY VALUES (101, 1, DATE '2024-01-01', DATE '2024-02-01');
VALIDTIME SELECT DISTINCT ENO FROM PAYS;
VALIDTIME SELECT DISTINCT ENO, CENT FROM PAY;
AT TIMESTAMP '2024-06-19 23:00:00';
SELECT * FROM PAY WHERE ENO = 7"""
WRONG_REPORT = b"""done,1,at,0
refused,2,42,KeyOverlap,2024-01-01
refused,3,23,UnknownTable,
refused,4,24,UnknownColumn,
refused,5,40,MomentBack,
versions,6,6,0
columns,6,ENO,CENTS,S,E,SS,SE
"""
# Two rows, of which the second is changed twice.
TWO = support.create_table('T', 'K INTEGER, V INTEGER', 'K') + """;
INSERT INTO T VALUES (1, 7, DATE '2024-01-01', DATE '2024-02-01'),
 (2, 7, DATE '2024-01-01', DATE '2024-02-01');
{}UPDATE T SET V = 8 WHERE K = 2;
{}DELETE FROM T;
"""
AT = ["AT TIMESTAMP '2024-03-01 00:00:00';\n", "AT TIMESTAMP '2024-04-01 00:00:00';\n"]
WITHOUT_AT = ('bitemporal: statement {}: no AT stands before this change, so it is recorded at'
              ' 0001-01-01 00:00:00\n')
REPLACED = ('{0}: statement {1}: versions of this very moment, replaced or deleted and not kept:'
            ' {2}\n{0}: versions replaced or deleted at the moment of their recording, not kept:'
            ' {3} (an AT between the changes keeps them)\n')
COUNTS = 'bitemporal: {} statements, {} refused, 0 answers\n'
WRONG_CAUSES = [
    'Cause: On 2024-01-01 two rows of PAY would have one key. SELECT * FROM PAY WHERE PP CONTAINS',
    'Cause at 3:36: There is no table PAYS. The only table is PAY. Is PAY meant?',
    'Cause at 4:32: PAY has no column CENT. The value columns of PAY are ENO and CENTS. Is CENTS',
    'Cause at 5:14: 2024-06-19 23:00:00 is before 2024-06-22 23:00:00, the moment of the clock.']


def run(words: Sequence[Union[pathlib.Path, str]], given: bytes = b'',
        folder: pathlib.Path = ROOT, output: Union[int, BinaryIO] = subprocess.PIPE) -> tuple[
            int, bytes, bytes]:
    """The status, the output and standard error of tools/run."""
    done = subprocess.run([ROOT / 'tools/run', *words], input=given, stderr=subprocess.PIPE,
                          stdout=output, cwd=folder, check=False)
    return done.returncode, done.stdout, done.stderr


def block(path: str, *words: str) -> str:
    """The first block of a document that has these words."""
    parts = (ROOT / path).read_text('utf-8').split('```')[1::2]
    return next(part.split('\n', 1)[1] for part in parts if all(word in part for word in words))


def last_line(text: bytes) -> str:
    return text.decode('utf-8').split('\n')[-2]


class Run(Case):
    def test_documents(self) -> None:
        """The outputs that the documents show are what one gets."""
        script = block('docs/PROFILE.md', 'SELECT DISTINCT PAY FROM EMP;', "DATE '2024-05-01'")
        report = block('docs/PROFILE.md', 'done,1,create,0', '2024-05-01,2024-01-01')
        said = block('docs/PROFILE.md', 'staff.sql:9:1: statement 4: 24 UnknownColumn')
        (self.folder / 'staff.sql').write_text(script, 'utf-8')
        self.equal('docs/PROFILE.md: staff.sql', run(['staff.sql'], folder=self.folder),
                   (1, report.encode(), said.encode()))
        shown = block('README.md', '$ tools/run examples/register.sql > register.report')
        command, _, said = shown.partition('\n')
        self.equal('README.md: ' + command, run([command.split()[2]]),
                   (1, (ROOT / 'examples/register.report').read_bytes(), said.encode()))
        for path in 'README.md', 'docs/PROFILE.md', 'bitemporal', 'tools/explain':
            text = (ROOT / path).read_text('utf-8')
            self.equal(f'{path}: no report in a pipe', ('| tools/explain' in text,), (False,))

    def test_stops(self) -> None:
        """--stop ends at the first refused statement."""
        report = (ROOT / f'{REFUSALS}.report').read_bytes()
        status, found, error = run(['--stop', f'{REFUSALS}.sql'])
        first = report[:report.index(b'\n', report.index(b'refused,')) + 1]
        self.equal('--stop', (status, found, last_line(error)),
                   (1, first, 'bitemporal: 4 of 25 statements, 1 refused, 1 answer'))
        self.equal('--stop: one explanation', (error.count(b': statement '),), (1,))
        status, found, error = run(['--audit', '--stop', f'{REFUSALS}.sql'])
        self.equal('--stop --audit', (status, found.count(b'audit,3,agrees,'), last_line(error)),
                   (1, 1, 'bitemporal: 4 of 25 statements, 1 refused, 1 answer, 1 audit agrees'))
        status, found, error = run(['examples/payroll.sql', '--stop'])
        self.equal('--stop without a refusal', (status, found, error),
                   (0, (ROOT / 'examples/payroll.report').read_bytes(),
                    b'bitemporal: 8 statements, 0 refused, 4 answers\n'))
        # A text that looks like a record of a refusal is none.
        script = (b"CREATE TABLE T (A VARCHAR(40), S DATE, E DATE, B TIMESTAMP GENERATED ALWAYS AS"
                  b" ROW START, C TIMESTAMP GENERATED ALWAYS AS ROW END, PERIOD FOR P (S, E),"
                  b" PERIOD FOR SYSTEM_TIME (B, C), PRIMARY KEY (A, P WITHOUT OVERLAPS))"
                  b" WITH SYSTEM VERSIONING;"
                  b"INSERT INTO T VALUES ('\nrefused,2,10,Syntax,\n', DATE '2024-01-01',"
                  b" DATE '2024-01-02'); SELECT * FROM T; VALIDTIME SELECT DISTINCT A FROM T;")
        status, found, error = run(['--stop'], script)
        self.equal('a text like a record', (status, found, error),
                   (0, program.got(['run'], script)[1],
                    b'bitemporal: 4 statements, 0 refused, 2 answers\n'))
        self.equal('a byte order mark before a refusal',
                   run(['--stop'], b'\xef\xbb\xbfSELECT 1; SELECT 2')[:2],
                   (1, b'refused,1,10,Syntax,\n'))

    def test_stores(self) -> None:
        """--store: the tables, the clock and the rows of a store that the script does not show."""
        first, second = 'examples/library/first.sql', 'examples/library/second.sql'
        store = self.folder / 'pay.store'
        for script in first, second:
            report = (ROOT / script).with_suffix('.report').read_bytes()
            status, found, error = run(['--store', store, '--stop', script])
            self.equal(f'--store {script}', (status, found, error.count(b'\n')), (0, report, 1))
        status, found, error = run(['--store', store], WRONG)
        told = [line.strip() for line in error.decode().split('\n') if 'Cause' in line]
        self.equal('--store with refusals', (status, found, told, last_line(error)),
                   (1, WRONG_REPORT, WRONG_CAUSES,
                    'bitemporal: 6 statements, 4 refused, 1 answer'))
        status, found, error = run(['--store', store, '--stop'], WRONG)
        self.equal('--store --stop', (status, found, last_line(error)),
                   (1, b'done,1,at,0\nrefused,2,42,KeyOverlap,2024-01-01\n',
                    'bitemporal: 2 of 6 statements, 1 refused, 0 answers'))
        self.equal('--store with a bad token', run(['--store', store], b'SELECT ?')[:2], (2, b''))
        self.equal('--store that is none', run(['--store', self.folder], b''),
                   (2, b'', b'bitemporal_file: cannot open the store\n'))
        self.of_lists(store)

    def test_moments(self) -> None:
        """A change before any AT, and versions that are replaced at their moment, in memory."""
        def told(script: str, *words: str) -> str:
            return run(words, script.encode())[2].decode()

        none = COUNTS.format(2, 0)
        self.equal('an INSERT alone', told(TWO.partition('{}')[0]), none)
        self.equal('changes at one moment', told(TWO.format('', '')),
                   WITHOUT_AT.format(3) + REPLACED.format('bitemporal', 3, 1, 3)
                   + COUNTS.format(4, 0))
        self.equal('an AT between', told(TWO.format(AT[0], AT[1])), COUNTS.format(6, 0))
        self.equal('an AT before both', told(TWO.format(AT[0], '')),
                   REPLACED.format('bitemporal', 5, 1, 1) + COUNTS.format(5, 0))
        self.equal('none is touched', told(TWO.format('', AT[0]).replace('K = 2', 'K = 3')),
                   WITHOUT_AT.format(3) + COUNTS.format(5, 0))
        refused = TWO.format('SELECT 1;' + AT[0], 'SELECT 2;')
        self.equal('--stop', told(refused, '--stop').split('\n\n')[-1],
                   'bitemporal: 3 of 7 statements, 1 refused, 0 answers\n')
        self.equal('refused ones', told(refused).split('\n\n')[-1],
                   REPLACED.format('bitemporal', 7, 1, 1) + COUNTS.format(7, 2))
        self.equal('an audited run', told(TWO.format('', ''), '--audit'),
                   told(TWO.format('', '')))

    def test_moments_of_stores(self) -> None:
        """Versions that changes to a store replace are noted in the words of the program."""
        def told(store: str, script: str, *words: str) -> str:
            return run(['--store', self.folder / store, *words], script.encode())[2].decode()

        first, rest = TWO.format('', '').split(';\n', 1)
        self.equal('a table alone', told('a', first),
                   'bitemporal: 1 statement, 0 refused, 0 answers\n')
        replaced = REPLACED.format('bitemporal_file', 2, 1, 3)
        self.equal('an INSERT before any AT', told('a', rest),
                   replaced + WITHOUT_AT.format(1) + COUNTS.format(3, 0))
        self.equal('with --now', told('b', TWO.format('', ''), '--now'), COUNTS.format(4, 0))
        self.equal('and then without', told('b', rest), replaced + COUNTS.format(3, 0))
        self.equal('an AT first', told('a', AT[0] + rest),
                   replaced.replace('2:', '3:') + COUNTS.format(4, 0))
        self.equal('an AT of the run before', told('a', rest), replaced + COUNTS.format(3, 0))
        self.equal('a refused INSERT', told('c', first + ';' + rest.replace('1, 7,', '2, 7,', 1)
                                            ).split('\n\n')[-1],
                   WITHOUT_AT.format(3) + COUNTS.format(4, 1))

    def of_lists(self, store: pathlib.Path) -> None:
        """--tables: the same for the tools that read a report."""
        script, report, tables = (self.folder / name for name in ('x.sql', 'x.report', 'x.tables'))
        script.write_text('VALIDTIME SELECT DISTINCT ENO FROM PAY; SELECT * FROM PAY')
        tables.write_bytes(run(['--store', store, script])[1])
        for path, asked in (tables, '--tables'), (report, str(script)):
            with open(path, 'wb') as output:
                subprocess.run(['bitemporal_file', store, asked], executable=program.PROGRAM,
                               stdout=output, check=True)
        copied = f'--to sqlite3 --into {self.folder / "copied"}'
        for tool, command, options in (('answers', '', '--table'), ('timeline', '', ''),
                                       ('explain', '', ''), ('versions', 'copy', copied)):
            words = [str(ROOT / 'tools' / tool), *command.split(), str(script), str(report),
                     *options.split()]
            done = subprocess.run([*words, '--tables', str(tables)], capture_output=True,
                                  check=False)
            self.equal(f'{tool} --tables', (done.returncode, done.stderr), (0, b''))
            done = subprocess.run(words, capture_output=True, check=False)
            self.equal(f'{tool} without --tables',
                       (done.returncode, b'statement ' in done.stderr), (2, True))
            done = subprocess.run([*words, '--tables', str(report)], capture_output=True,
                                  check=False)
            self.equal(f'{tool} --tables of a report',
                       (done.returncode, b'is no list of' in done.stderr), (2, True))

    def test_ends(self) -> None:
        """Files that are no scripts, and those that cannot be read or written."""
        for path, why in ((self.folder / 'none.sql', 'No such file or directory'),
                          (self.folder, 'Is a directory')):
            self.equal(f'cannot read: {why}', run([path]),
                       (2, b'', f'run: cannot read {path}: {why}\n'.encode()))
        status, found, error = run([], b"SELECT 1;\nSELECT * FROM T WHERE A != 2")
        self.equal('a bad token', (status, found, error.decode().split('\n')[:2], last_line(error)),
                   (2, b'', ['bitemporal: 3 BadToken 34', 'standard input:2:25: the whole script: 3'
                             ' BadToken'], 'bitemporal: the whole script is refused'))
        self.equal('no statement', run([], b'-- nothing'),
                   (0, b'', b'bitemporal: 0 statements, 0 refused, 0 answers\n'))
        status, found, error = run(['--nothing', 'examples/first.sql'])
        self.equal('a word of none', (status, found, last_line(error)),
                   (2, b'', 'bitemporal: there is no whole report'))
        if os.path.exists('/dev/full'):
            with open('/dev/full', 'wb') as full:
                status, _, error = run(['examples/first.sql'], output=full)
            self.equal('a full disk', (status, last_line(error)),
                       (2, 'run: cannot write the report: No space left on device'))
            with open('/dev/full', 'wb') as full:
                for script, wanted in ('first', 0), ('register', 1):
                    done = subprocess.run([ROOT / 'tools/run', f'examples/{script}.sql'], cwd=ROOT,
                                          stdout=subprocess.PIPE, stderr=full,
                                          check=False)
                    report = (ROOT / f'examples/{script}.report').read_bytes()
                    self.equal('standard error is full', (done.returncode, done.stdout),
                               (wanted, report))
                done = subprocess.run([ROOT / 'tools/run', 'examples/first.sql'], cwd=ROOT,
                                      stdout=full, stderr=full, check=False)
            self.equal('both are full', (done.returncode,), (2,))
        status, found, error = run(['--audit', 'examples/register.sql'])
        self.equal('audits', (status, found == program.got(
            ['run', '--audit', ROOT / 'examples/register.sql'])[1], last_line(error)),
                     (1, True, 'bitemporal: 8 statements, 2 refused, 4 answers, 4 audits agree'))
        self.equal('help', (run(['--help'])[0], run(['one', 'two'])[0]), (0, 2))


if __name__ == '__main__':
    support.run_cases()
