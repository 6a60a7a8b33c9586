"""A crate as the kit's `rt` knows it: how it calls `rattle` for it, and the stamp by which it
knows that what was built is of the files as they are.

`rt lib` proves a library over earlier checks' work, and leaves its proofs in what it builds, up
to 200 MB that each process of a crate above loads. The gate builds it with what those crates need
alone, its statements; but `rt` has no command that keeps that. So the proved build calls `rattle`
itself, with the words that `rt` would use. They are in the module that `rt` is made of, which lies
next to it.
"""
from __future__ import annotations

import functools
import importlib.machinery
import importlib.util
import pathlib
import shutil
from typing import Any

from . import sums


@functools.cache
def module() -> Any:
    """The module that `rt` is made of."""
    rt = shutil.which('rt')
    if rt is None:
        raise FileNotFoundError('there is no `rt` on the path')
    spec = importlib.util.spec_from_file_location('rtlib', pathlib.Path(rt).resolve().with_name(
        'rtlib.py'))
    if spec is None or spec.loader is None:
        raise ImportError('there is no rtlib.py beside `rt`')
    rtlib: Any = importlib.util.module_from_spec(spec)
    spec.loader.exec_module(rtlib)
    # (each crate's files are read once, and not once for each crate above it)
    rtlib.Crate.stamp = functools.cache(rtlib.Crate.stamp)
    return rtlib


def gate() -> Any:
    """The command `rt` as a module: what it adds to the one above is the gate, and how that judges
    an edit."""
    rt = shutil.which('rt')
    if rt is None:
        raise FileNotFoundError('there is no `rt` on the path')
    loader = importlib.machinery.SourceFileLoader('rt_gate', str(pathlib.Path(rt).resolve()))
    spec = importlib.util.spec_from_loader(loader.name, loader)
    if spec is None:
        raise ImportError('`rt` is no module')
    made: Any = importlib.util.module_from_spec(spec)
    loader.exec_module(made)
    return made


class Library:
    """A library of the repository, with its files as they are now. Libraries that are looked at
    together share `known`, the crates that were read."""

    def __init__(self, name: str, known: dict[str, Any] | None = None) -> None:
        folder, known = str(sums.ROOT / 'crates' / name), {} if known is None else known
        self.crate = known.get(folder) or module().Crate(folder, str(sums.ROOT), known)
        known[folder] = self.crate
        self.stamp = self.crate.stamp()

    def is_built(self) -> bool:
        """Whether it exists, from the files and over the libraries."""
        return bool(self.crate.is_built())

    def build_words(self, jobs: int) -> list[str]:
        """The command that proves and builds it. If a check has left work in its out/, that is
        used, and it is built with its proofs, as by `rt lib`."""
        how = module().KEPT if self.crate.has_kept() else ['--statements']
        return [module().RATTLE, 'build', *self.crate.words(['--jobs', str(jobs)]), *how,
                '-o', self.crate.rlib]

    def begin(self) -> None:
        """Removes what was built."""
        folder = pathlib.Path(self.crate.rlib).parent
        shutil.rmtree(folder, ignore_errors=True)
        folder.mkdir(parents=True)

    def end(self) -> None:
        """Has `rt` know what is built, unless a file was changed meanwhile."""
        if Library(self.crate.name).stamp == self.stamp:
            stamp = pathlib.Path(self.crate.rlib).with_name('stamp')
            stamp.write_text(self.stamp, encoding='utf-8')
