#!/usr/bin/env python3
"""Tests the tools that write stores and dumps on a disk that gets full, a tmpfs of a megabyte, and
killed while they write: what exists then is the whole of it, or nothing.

The program is the built one, or the one that the variable BITEMPORAL names.
"""
import os
import pathlib
import random
import signal
import subprocess
import sys
import time
import unittest

import support
from folders import ROOT
from store_samples import StoreTests, copied_away, contents
from test_alter import many_rows
from test_dump import texts

ROWS = 20_000   # a store of some two megabytes
KEPT = 'kept'
# Runs a command with a small disk at the place of the first word, and then lists what it left.
SMALL = ('where="$1"; shift; mount -t tmpfs -o size=1m tmpfs "$where" && echo kept > "$where/kept"'
         ' || exit 70; cd "$where"; "$@" >&2; status=$?; ls -A "$where"; exit $status')
OWN = ['unshare', '--mount', *['--map-root-user'][:os.getuid() != 0]]


def can_mount() -> bool:
    """Whether a mount of one's own can be made here."""
    try:
        return subprocess.run([*OWN, 'mount', '-t', 'tmpfs', 'tmpfs', '/mnt'], check=False,
                              capture_output=True).returncode == 0
    except OSError:
        return False


class Disks(StoreTests):

    def setUp(self) -> None:
        super().setUp()
        self.store = many_rows(self.path('many.store'), ROWS)
        self.files.write('gone.csv', 'EMP.ENO\n1\n')
        self.tool('dump', self.store, '--to', self.path('dump'))

    def commands(self, new: str) -> 'dict[str, list[str]]':
        """The commands that make `new` of the store or of its dump, by the name of the tool."""
        tools = {'alter': [self.store, '--add', 'EMP.X', 'INTEGER', '0'],
                 'restore': [self.path('dump')], 'dump': [self.store],
                 'dump --script': [self.store, '--script'],
                 'forget': [self.store, '--keys', self.path('gone.csv')]}
        return {name: [sys.executable, str(ROOT / 'tools' / name.split()[0]), *words, '--to', new]
                for name, words in tools.items()}

    @unittest.skipUnless(can_mount(), 'no file system can be mounted here')
    def test_full(self) -> None:
        """Each tool says so by a line and by status 2, and leaves nothing. The disk of the store is
        another, so that the program can judge what is small enough."""
        small, before = self.path('small'), copied_away(self.store)
        os.mkdir(small)
        for name, words in self.commands('new').items():
            with self.subTest(name=name):
                done = subprocess.run([*OWN, 'sh', '-c', SMALL, 'sh', small, *words],
                                      capture_output=True, check=False)
                told = done.stderr.decode('utf-8')
                self.assertEqual((done.returncode, done.stdout.decode()), (2, 'kept\n'), told)
                self.assertIn('cannot write new: ', told)
                self.assertNotIn('Traceback', told)
        self.assertEqual(copied_away(self.store), before)

    def test_killed(self) -> None:
        """A run that is killed leaves nothing by the name, or the whole of it."""
        before, chosen = copied_away(self.store), random.Random(5)
        wholes: 'dict[str, object]' = {}
        for name, words in self.commands(self.path('whole')).items():
            subprocess.run(words, check=True, capture_output=True)
            wholes[name] = self.taken('whole')
        for number in range(2):
            for name, words in self.commands(self.path('new')).items():
                with self.subTest(name=name, number=number):
                    with subprocess.Popen(words, stdout=subprocess.DEVNULL,
                                          stderr=subprocess.DEVNULL,
                                          start_new_session=True) as run:
                        time.sleep(chosen.random())
                        os.killpg(run.pid, signal.SIGKILL)
                    if os.path.lexists(self.path('new')):
                        self.assertEqual(self.taken('new'), wholes[name])
        self.assertEqual(copied_away(self.store), before)

    def taken(self, name: str) -> object:
        """The content of a store, a dump or a script, which is gone then."""
        path = pathlib.Path(self.path(name))
        if path.is_dir():
            found: object = texts(str(path))
            for file in path.iterdir():
                file.unlink()
            path.rmdir()
            return found
        found = path.read_bytes()
        if found.startswith(b'SQLite'):
            found = contents(str(path), ['EMP'])
        path.unlink()
        return found


if __name__ == '__main__':
    support.run_cases()
