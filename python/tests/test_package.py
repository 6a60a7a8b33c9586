#!/usr/bin/env python3
"""The package itself: its types by mypy and its style by flake8, each if that is installed; what
the oldest Python makes of it, if one is here; and what `pip install ./python` does without a
network, if setuptools, wheel and pip are installed."""
import os
import pathlib
import shutil
import subprocess
import sys
import unittest
from typing import Optional

import support
from bitemporal_tools.__main__ import SUBCOMMANDS
from support import ROOT, Case, run, tool

FOLDER = ROOT / 'python'
BUILD = 'import setuptools.build_meta as build; build.build_wheel("../built")'


def python_with(modules: str) -> Optional[str]:
    """A Python that has these modules: the system's may, if the user's has not."""
    return next((python for python in (sys.executable, '/usr/bin/python3') if subprocess.run(
        [python, '-c', f'import {modules}'], stderr=subprocess.DEVNULL,
        check=False).returncode == 0), None)


def runs(python: str) -> bool:
    """Whether a Python of this name is here: a file of that name may be of one that is not."""
    return shutil.which(python) is not None and subprocess.run(
        [python, '--version'], capture_output=True, check=False).returncode == 0


OLDEST = next(filter(runs, ('python3.9', 'python3.10')), '')
BUILDER, INSTALLER = python_with('setuptools, wheel'), python_with('pip')


class Package(Case):
    @unittest.skipUnless(shutil.which('mypy'), 'no mypy here')
    def test_types(self) -> None:
        status, output, told = run(['mypy', '--cache-dir', self.folder], folder=FOLDER)
        self.equal('mypy', (status, told), (0, b''))
        self.holds('all modules', output.startswith(b'Success'), output)

    @unittest.skipUnless(shutil.which('flake8'), 'no flake8 here')
    def test_style(self) -> None:
        self.equal('flake8', run(['flake8'], folder=FOLDER), (0, b'', b''))

    @unittest.skipUnless(OLDEST, 'no Python 3.9 or 3.10 here')
    def test_oldest_python(self) -> None:
        """Queries that sqlite computes, since the module of it has less there, and a load."""
        for words in (['test_bi.py', 'Queries'], ['test_load.py']):
            status, told, errors = run([OLDEST, FOLDER / 'tests' / words[0], *words[1:]])
            self.equal(f'{OLDEST} {words}', (status, errors * (status != 0)), (0, b''))

    def test_help(self) -> None:
        """Each subcommand has a help, and a program in tools/."""
        status, listed, _ = run([sys.executable, '-Bm', 'bitemporal_tools', '--help'],
                                folder=FOLDER)
        self.equal('--help', (status, [line.strip() for line in listed.decode().splitlines()
                                       if line.startswith('    ')][1:]), (0, list(SUBCOMMANDS)))
        for name in SUBCOMMANDS:
            status, text, told = tool(name, '--help')
            self.equal(f'{name} --help', (status, text[:6], told), (0, 'usage:', ''))
            self.holds(f'tools/{name}', os.access(ROOT / 'tools' / name.replace('-', '_'), os.X_OK))
        status, text, told = tool('nothing')
        self.equal('no subcommand', (status, text, 'no subcommand nothing' in told), (2, '', True))

    @unittest.skipUnless(BUILDER and INSTALLER, 'no setuptools, wheel and pip here')
    def test_pip(self) -> None:
        """The command of the installed package, outside of the repository. (The two steps of pip,
        since one Python may have what builds, and another what installs.)"""
        source, target = self.folder / 'source', self.folder / 'target'
        shutil.copytree(FOLDER, source, ignore=shutil.ignore_patterns('tests', '__pycache__'))
        status, _, told = run([BUILDER, '-c', BUILD], folder=source)
        self.holds('a wheel', status == 0, told.decode())
        [wheel] = (self.folder / 'built').iterdir()
        status, _, told = run([INSTALLER, '-m', 'pip', 'install', '--no-index', '--target', target,
                               wheel], folder=self.folder)
        self.holds('pip', status == 0, told.decode())
        example = pathlib.Path('examples/first')
        environment = {**os.environ, 'PYTHONPATH': str(target), 'PYTHONDONTWRITEBYTECODE': '1'}
        done = subprocess.run([sys.executable, target / 'bin/bitemporal-tools', 'run',
                               ROOT / example.with_suffix('.sql')], cwd=self.folder,
                              env=environment, capture_output=True, check=False)
        self.equal('a run', (done.returncode, done.stdout, done.stderr),
                   (0, (ROOT / example.with_suffix('.report')).read_bytes(),
                    b'bitemporal: 3 statements, 0 refused, 1 answer\n'))


if __name__ == '__main__':
    support.run_cases()
