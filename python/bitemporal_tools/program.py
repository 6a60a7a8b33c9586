"""The place of the program.

In the repository there are up to two builds of it, and a launcher that chooses one and makes it
if there is none. Installed tools have only the launcher, and tools that
`pip` installed nothing of it: then the program is the one that a shell would run.
"""
import os
import pathlib
import shutil

# The repository, or the folder in which tools/install puts all.
ROOT = pathlib.Path(__file__).resolve().parent.parent.parent
OUT = ROOT / 'crates/bitemporal_cli/out'
PROVED, QUICK = OUT / 'bitemporal_cli', OUT / 'bitemporal_unproved'
# The variable that names another program.
VARIABLE = 'BITEMPORAL'


def named_or(other: pathlib.Path) -> str:
    """The program that the variable names, else another."""
    return os.environ.get(VARIABLE) or str(other)


def launcher(called: str = 'bitemporal') -> str:
    """The launcher of this name; of the installed program, if there is none here."""
    here = ROOT / called
    return named_or(here if here.exists() else pathlib.Path(shutil.which(called) or called))


def path(called: str = 'bitemporal') -> str:
    """The program to run, whose name has to be that by which it is called."""
    return named_or(PROVED) if PROVED.exists() else launcher(called)
