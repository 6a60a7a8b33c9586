"""Things that the tests of the program share: a run of it, and how many tests passed."""
import os
import pathlib
import subprocess
from collections.abc import Sequence
from typing import BinaryIO, Union

from folders import ROOT
from bitemporal_tools.program import PROVED, QUICK, VARIABLE, named_or

PROGRAM = named_or(PROVED)
# The status, the output, and what standard error got.
Outcome = tuple[Union[int, str], bytes, bytes]


def build() -> None:
    """Has PROGRAM be the proved build, if that is of the sources as they are; else the quick
    one, which is made if it is missing."""
    global PROGRAM  # pylint: disable=global-statement
    if VARIABLE in os.environ:
        return
    looked = subprocess.run([ROOT / 'build/make', 'proved', '--sources', '--only-look'],
                            check=False)
    PROGRAM = str(PROVED if looked.returncode == 0 else QUICK)
    if not is_proved():
        subprocess.run([ROOT / 'build/make', 'quick'], check=True)


def is_proved() -> bool:
    """Whether it is the proved build that is tested."""
    return pathlib.Path(PROGRAM).resolve() == PROVED


def either_build() -> pathlib.Path:
    """The file of the program, which is made if it is missing."""
    build()
    return pathlib.Path(PROGRAM)


def scripts(folder: pathlib.Path = ROOT / 'tests/scripts') -> list[pathlib.Path]:
    """The scripts in a folder and in the folders below it, by folder and name. No two have one
    name."""
    found = sorted(folder.rglob('*.sql'))
    names = [script.stem for script in found]
    assert len(names) == len(set(names)), sorted(name for name in names if names.count(name) > 1)
    return found


def got(words: Sequence[object], given: Union[bytes, BinaryIO] = b'', **how: object) -> Outcome:
    """The status, the output and what standard error got, after these words and this input."""
    streams: dict[str, object] = {'stdout': subprocess.PIPE, 'stderr': subprocess.PIPE,
                                  'input' if isinstance(given, bytes) else 'stdin': given, **how}
    try:
        run = subprocess.run(['bitemporal', *words], executable=PROGRAM, timeout=300,
                             check=False, **streams)  # type: ignore[call-overload]
    except subprocess.TimeoutExpired:
        return 'none within five minutes', b'', b''
    return run.returncode, run.stdout, run.stderr


def commands(block: str) -> list[list[str]]:
    """The commands of a block of a page, each with what it prints: `$ COMMAND`, with a backslash at
    the end of a line that continues, and the lines after it."""
    found: list[list[str]] = []
    for line in block.splitlines(keepends=True):
        if line.startswith('$ '):
            found.append([line[2:], ''])
        elif found[-1][0].endswith('\\\n'):
            found[-1][0] += line
        else:
            found[-1][1] += line
    return found


def folder_for_commands(name: str) -> pathlib.Path:
    """Fills a folder in which the commands of a page find what they name: `./bitemporal` and
    `./bitemporal_file` are the program."""
    folder = pathlib.Path(name)
    for part in ('tools', 'tests', 'examples', 'docs'):
        (folder / part).symlink_to(ROOT / part)
    for start in ('bitemporal', 'bitemporal_file'):
        (folder / start).symlink_to(pathlib.Path(PROGRAM).resolve())
    return folder


class Tests:
    """Counts the tests that passed, and names the failed ones."""

    def __init__(self) -> None:
        self.passed = self.failed = 0

    def expect(self, name: str, found: object, wanted: object) -> None:
        """Counts a test whose outcome is `found` and should be `wanted`."""
        if found == wanted:
            self.passed += 1
            return
        self.failed += 1
        print(f'failed: {name}')
        if not (isinstance(found, tuple) and isinstance(wanted, tuple)):
            found, wanted = (found,), (wanted,)
        parts = ('status', 'output', 'standard error', 'audits that agree')
        for part, text, other in zip(parts, found, wanted):
            if text != other:
                print(f'  {part}: {shortened(text)}\n  wanted: {shortened(other)}')

    def end(self) -> int:
        """Prints the counts, and gives the exit status."""
        print(f'{self.passed} passed, {self.failed} failed')
        return 0 if self.failed == 0 and self.passed else 1


def shortened(text: object) -> str:
    return repr(text) if len(repr(text)) < 2000 else repr(text)[:1000] + ' .. ' + repr(text)[-900:]
