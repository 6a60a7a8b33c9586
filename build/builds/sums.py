"""The two builds of the program, what each is made from, and the sums by which a build is known to
be of the sources as they are.

Next to a build is its stamp, a file with three sums: of the sources that it was made from, of the
proofs, and of the build itself. Times alone don't tell: a checkout is newer than a build that was
restored from a cache, and a file may be put back to what it was. The launcher reads times first,
since that is quick, and asks for the sums only if something is newer than the stamp.
"""
from __future__ import annotations

import hashlib
import os
import pathlib
import shutil
from collections.abc import Iterable, Iterator, Sequence

ROOT = pathlib.Path(__file__).resolve().parent.parent.parent
PROGRAM = 'bitemporal_cli'
OUT = ROOT / 'crates' / PROGRAM / 'out'
# The crates of a repository, each with those that it depends on.
Crates = dict[str, list[str]]
# Files by which the quick build is made, and that are linked with it.
QUICK_PARTS = ['build/builds/quick.py', 'build/builds/fault.c']


def repository_crates() -> Crates:
    """Each crate of crates.txt with the words of its line."""
    crates: Crates = {}
    for line in (ROOT / 'crates.txt').read_text(encoding='utf-8').splitlines():
        name, colon, words = line.partition('#')[0].partition(':')
        if colon:
            crates[name.strip()] = words.split()
    return crates


def crates_below(crates: Crates, name: str) -> set[str]:
    """The crates that this one depends on, whether by its own line or by one below it."""
    found: set[str] = set()
    for other in crates[name]:
        if other in crates:
            found |= {other} | crates_below(crates, other)
    return found


def program_crates() -> list[str]:
    """The crates that the program is made from, in the order of their names."""
    crates = repository_crates()
    return sorted(crates_below(crates, PROGRAM) | {PROGRAM})


class Build:
    """A build of the program: its file, and the parts of each crate that it is made from.

    What a proof is does not change what is proved, so the proofs of a proved build have a sum of
    their own: only a call that asks for a proof reads it.
    """

    def __init__(self, file: pathlib.Path, parts: list[str], more: list[str]) -> None:
        self.file, self.parts, self.more = file, parts, more
        self.stamp = file.with_name(f'{file.name}.sums')

    def sources(self) -> str:
        return sum_of(['crates.txt', *self.more, *folders(self.parts)])

    def source_sums(self) -> list[str]:
        """The lines of a stamp for the sources and the proofs as they are now."""
        return [f'sources {self.sources()}', f"proofs {sum_of(folders(['proofs']))}"]

    def sums(self, sources: list[str] | None = None) -> list[str]:
        """The lines of a stamp for the build as it is now, of the sources, else of today's."""
        return [*(sources or self.source_sums()), f'build {sum_of_file(self.file)}']

    def is_current(self, with_proofs: bool) -> bool:
        """Whether the build is of the sources as they are, by the sums of its stamp."""
        if not (os.access(self.file, os.X_OK) and self.stamp.is_file()):
            return False
        stamped, now = self.stamp.read_text(encoding='utf-8').splitlines(), self.sums()
        return stamped == now or not with_proofs and stamped[::2] == now[::2]

    def is_newer_than_sources(self) -> bool:
        """Whether nothing that it is made from, proofs among it, was changed since it was made."""
        if not os.access(self.file, os.X_OK):
            return False
        made = self.file.stat().st_mtime_ns
        parts = ['crates.txt', *self.more, *folders([*self.parts, 'proofs'])]
        return all(changed(at) < made for part in parts for at in within(ROOT / part))

    def write_stamp(self, sources: list[str]) -> None:
        """Writes the stamp of the build as it is now. `sources` are the sums of what it was made
        from, read before. A source may have been changed since, and is older than a stamp written
        now: so the stamp gets a time before all of them, and the sums decide the next time."""
        made = self.stamp.with_name(f'{self.stamp.name}.made')
        made.write_text('\n'.join(self.sums(sources)) + '\n', encoding='utf-8')
        os.utime(made, ns=(0, 0))
        made.replace(self.stamp)


PROVED = Build(OUT / PROGRAM, ['src', 'specs'], [])
QUICK = Build(OUT / 'bitemporal_unproved', ['src'], QUICK_PARTS)


def folders(parts: Iterable[str]) -> list[str]:
    return [f'crates/{name}/{part}' for name in program_crates() for part in parts]


def within(path: pathlib.Path) -> Iterator[pathlib.Path]:
    """The file or folder itself, and what is in it, in a fixed order."""
    if path.exists():
        yield path
    for at, names, files in os.walk(path):
        names.sort()
        yield from (pathlib.Path(at, name) for name in sorted([*names, *files]))


def changed(path: pathlib.Path) -> int:
    """The time at which its bytes or its status were last changed: a copy may keep the first, not
    the second."""
    status = path.stat()
    return max(status.st_mtime_ns, status.st_ctime_ns)


def sum_of_file(file: pathlib.Path) -> str:
    return hashlib.sha256(file.read_bytes()).hexdigest() if file.is_file() else 'none'


def sum_of(parts: Iterable[str]) -> str:
    """The sum of the names and the bytes of files, and of the files in folders."""
    found = hashlib.sha256()
    for part in parts:
        for file in within(ROOT / part):
            if file.is_file():
                found.update(f'{file.relative_to(ROOT)} {sum_of_file(file)}\n'.encode())
    return found.hexdigest()


def lay_crates(copy: pathlib.Path, crates: Crates) -> None:
    """Copies what a build without a proof reads, if each crate depends on these."""
    copy.mkdir(parents=True, exist_ok=True)
    for name in crates:
        shutil.copytree(ROOT / 'crates' / name / 'src', copy / 'crates' / name / 'src')
    lines = ''.join(f"{name}: {' '.join(words)}\n" for name, words in crates.items())
    (copy / 'crates.txt').write_text(lines, encoding='utf-8')
    shutil.copy(ROOT / 'HANDLES', copy)


def lay_copy(copy: pathlib.Path, main: pathlib.Path, uses: Sequence[str] = ()) -> None:
    """Copies what a build without a proof reads, with another file as the program's main, which may
    use further crates."""
    crates = repository_crates()
    crates[PROGRAM] += uses
    lay_crates(copy, crates)
    shutil.copy(main, copy / 'crates' / PROGRAM / 'src/main.rt')
