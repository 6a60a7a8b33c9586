"""Things that the tests of the tools share: runs of a tool and of the program, files, and cases
that compare."""
from __future__ import annotations

import functools
import os
import pathlib
import subprocess
import sys
import tempfile
import traceback
import unittest
from collections.abc import Sequence
from typing import NoReturn, Union

from folders import ROOT as ROOT
import program as program
from bitemporal_tools.__main__ import main
from bitemporal_tools.program import VARIABLE


def run(words: Sequence[object], given: bytes = b'',
        folder: Union[str, pathlib.Path] = ROOT) -> tuple[int, bytes, bytes]:
    """The status, the output and what standard error got of a command in a folder."""
    done = subprocess.run([str(word) for word in words], input=given, cwd=folder, timeout=900,
                          stdout=subprocess.PIPE, stderr=subprocess.PIPE, check=False)
    return done.returncode, done.stdout, done.stderr


def tool(name: str, *words: object, given: bytes = b'') -> tuple[int, str, str]:
    """A run of a tool, its output and standard error as texts. It runs in a copy of this process,
    if the modules that tools share are compiled already."""
    sys.stdout.flush()
    sys.stderr.flush()
    with tempfile.TemporaryFile() as read, tempfile.TemporaryFile() as output, \
            tempfile.TemporaryFile() as errors:
        read.write(given)
        read.seek(0)
        child = os.fork()
        if child == 0:
            for number, file in enumerate((read, output, errors)):
                os.dup2(file.fileno(), number)
            run_here(name, words)
        status = os.waitpid(child, 0)[1]
        texts = [os.pread(file.fileno(), os.fstat(file.fileno()).st_size, 0).decode('utf-8')
                 for file in (output, errors)]
    return os.WEXITSTATUS(status) if os.WIFEXITED(status) else -status, texts[0], texts[1]


def run_here(name: str, words: Sequence[object]) -> NoReturn:
    """Runs a tool as the main program, and ends this process with its status."""
    status = 70
    try:
        try:
            main([name, *map(str, words)])
        except SystemExit as end:
            status = end.code if isinstance(end.code, int) else 1 if end.code else 0
        sys.stdout.flush()
        sys.stderr.flush()
    except BaseException:  # pylint: disable=broad-except
        traceback.print_exc()
        sys.stderr.flush()
    finally:
        os._exit(status)


def create_table(name: str, columns: str, key: str, period: str = 'P', more: str = '') -> str:
    """A CREATE TABLE with these value columns, S, E, SS and SE, with this key, and with what is to
    follow the key, such as a reference."""
    more = f',\n {more}' if more else ''
    return f'''CREATE TABLE {name} ({columns}, S DATE, E DATE,
 SS TIMESTAMP GENERATED ALWAYS AS ROW START, SE TIMESTAMP GENERATED ALWAYS AS ROW END,
 PERIOD FOR {period} (S, E), PERIOD FOR SYSTEM_TIME (SS, SE),
 PRIMARY KEY ({key}, {period} WITHOUT OVERLAPS){more}) WITH SYSTEM VERSIONING'''


def report(script: str) -> str:
    """The report of the program for a script's text."""
    status, output, errors = program.got(['run'], script.encode('utf-8'))
    if errors or status not in (0, 1):
        raise AssertionError((status, errors, script[:2000]))
    return output.decode('utf-8')


def chosen(name: str, usual: int) -> int:
    """The number that a variable of the environment gives, as SEED and COUNT of random scripts."""
    return int(os.environ.get(name, usual))


@functools.lru_cache(None)
def build() -> None:
    """Has the tools run the program that is tested."""
    program.build()
    os.environ[VARIABLE] = os.path.realpath(program.PROGRAM)


def run_cases() -> NoReturn:
    """Runs the test cases of the main program. Those that are skipped are named; the last line has
    the counts, 'N passed, M failed'."""
    build()
    result = unittest.main(exit=False).result
    for case, why in result.skipped:
        print(f'{case}: {why}, so it is left out')
    failed = len(result.failures) + len(result.errors)
    passed = max(0, result.testsRun - failed - len(result.skipped))
    print(f'{passed} passed, {failed} failed')
    sys.exit(1 if failed or not result.testsRun else 0)


class Files:
    """A folder for a test's files, which is removed with it."""

    def __init__(self) -> None:
        self.folder = tempfile.TemporaryDirectory()

    def __enter__(self) -> Files:
        return self

    def __exit__(self, *_: object) -> None:
        self.folder.cleanup()

    def path(self, name: str) -> str:
        return os.path.join(self.folder.name, name)

    def write(self, name: str, text: Union[str, bytes]) -> str:
        """The path of a new file of this text."""
        data = text if isinstance(text, bytes) else text.encode('utf-8')
        pathlib.Path(self.path(name)).write_bytes(data)
        return self.path(name)

    def read(self, name: str) -> str:
        return pathlib.Path(self.path(name)).read_bytes().decode('utf-8')

    def names(self) -> list[str]:
        return sorted(os.listdir(self.folder.name))


class Case(unittest.TestCase):
    """Tests with files of their own. Each comparison has a name, and those after one that fails are
    made all the same."""
    maxDiff = 4000

    @classmethod
    def setUpClass(cls) -> None:
        build()

    def setUp(self) -> None:
        self.files = Files()
        self.addCleanup(self.files.folder.cleanup)
        self.folder = pathlib.Path(self.files.folder.name)

    def equal(self, name: str, found: object, wanted: object) -> None:
        with self.subTest(name):
            self.assertEqual(found, wanted)

    def holds(self, name: str, is_so: object, shown: object = '') -> None:
        with self.subTest(name):
            self.assertTrue(is_so, shown)


class Reported(Case):
    """Tests of a tool over a script and its report, whose files are `words`."""
    script = ''

    def setUp(self) -> None:
        super().setUp()
        self.words = (self.files.write('x.sql', self.script),
                      self.files.write('x.report', report(self.script)))
