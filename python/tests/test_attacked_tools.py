#!/usr/bin/env python3
"""Attacks on the tools: an output without room, and signals while they have copies of a store.
(Dumps that are edited are in test_dump.py, disks that get full in test_disks.py.)

The program is the built one, or the one that the variable BITEMPORAL names.
"""
import contextlib
import os
import pathlib
import shutil
import signal
import subprocess
import sys
import time
import unittest
from typing import Callable, Sequence

import support
from folders import ROOT
from served import CREATE, INSERT
from store_samples import StoreTests, verified

SCRIPT = f"{CREATE};\n{INSERT.format(1, 'Secret')};\n"
FULL = '/dev/full'
# The program, which is slow to open a store.
SLOW_PROGRAM = '''#!/bin/bash
if [ "$1" = run ]; then exec -a bitemporal "{0}" "$@"; fi
sleep 10
exec -a bitemporal_file "{0}" "$@"
'''


class Tools(StoreTests):

    def setUp(self) -> None:
        super().setUp()
        self.store = self.made('a.store', SCRIPT)
        self.temporary = pathlib.Path(self.path('temporary'))
        self.temporary.mkdir()

    def command(self, *words: str) -> 'list[str]':
        return [sys.executable, str(ROOT / 'tools' / words[0]), *words[1:]]

    @unittest.skipUnless(os.path.exists(FULL), 'there is no /dev/full here')
    def test_output_without_room(self) -> None:
        """A full output is told by one line and by status 2, with what exists then."""
        script = self.files.write('s.sql', f"{INSERT.format(2, 'x')};\n")
        rows = self.files.write('f.csv', 'ENO,NAME,S,E\n2,Max,2024-01-01,9999-12-31\n')
        self.tool('alter', self.store, '--to', self.path('other'), '--rename', 'PAY.NAME=N')
        self.tool('dump', self.store, '--to', self.path('d'))
        for words, made in (
                (('alter', self.store, '--to', self.path('b'), '--rename', 'PAY.NAME=N'), 'b'),
                (('alter', self.store, '--dry-run', '--rename', 'PAY.NAME=N'), ''),
                (('forget', self.store, '--to', self.path('c'), '--before', '0001-01-01'), 'c'),
                (('forget', self.store, '--dry-run', '--before', '0001-01-01'), ''),
                (('restore', self.path('d'), '--to', self.path('e')), 'e'),
                (('load', rows, '--store', self.store, '--name', 'PAY'), ''),
                (('load', rows, '--guess'), ''), (('diff', self.store, self.path('other')), ''),
                (('dump', self.store, '--script'), ''), (('history', self.store, 'PAY'), ''),
                (('history', self.store, 'PAY', '--csv'), ''), (('run', script), ''),
                (('run', '--store', self.store, script), '')):
            with self.subTest(words=words), open(FULL, 'wb') as full:
                done = subprocess.run(self.command(*words), stdout=full, stderr=subprocess.PIPE,
                                      check=False, timeout=60)
                told = done.stderr.decode()
                self.assertEqual(done.returncode, 2, told)
                self.assertNotIn('Traceback', told)
                self.assertRegex(told, r'(?m)^\w+: .*cannot write.*: No space left on device$')
                if made:
                    self.assertIn(f'{self.path(made)} is made', told)
                    verified(self.path(made))

    def test_a_reader_that_stops(self) -> None:
        """The tool ends by status 2, without a line."""
        with subprocess.Popen(self.command('history', self.store, 'PAY'), stdout=subprocess.PIPE,
                              stderr=subprocess.PIPE) as run:
            assert run.stdout and run.stderr
            run.stdout.close()
            self.assertEqual((run.wait(30), run.stderr.read()), (2, b''))

    def with_a_log(self) -> str:
        """A store whose log has the changes, since its program was killed."""
        path = self.path('log.store')
        with subprocess.Popen(['bitemporal_file', path], executable=os.environ['BITEMPORAL'],
                              stdin=subprocess.PIPE, stdout=subprocess.PIPE) as session:
            assert session.stdin and session.stdout
            session.stdin.write(SCRIPT.encode())
            session.stdin.flush()
            for _ in range(2):
                self.assertTrue(session.stdout.readline().startswith(b'done'))
            session.kill()
        self.assertGreater(os.stat(f'{path}-wal').st_size, 1000)
        return path

    def ended(self, words: Sequence[str], is_time: Callable[[], bool], number: int) -> None:
        """Has a tool get a signal when it is time, while its program is slow, and end by it."""
        slow = self.files.write('slow', SLOW_PROGRAM.format(os.environ['BITEMPORAL']))
        os.chmod(slow, 0o755)
        environment = {**os.environ, 'BITEMPORAL': slow, 'TMPDIR': str(self.temporary)}
        with subprocess.Popen(self.command(*words), env=environment, stderr=subprocess.PIPE,
                              stdout=subprocess.DEVNULL) as run:
            for _ in range(1500):
                if is_time() or run.poll() is not None:
                    break
                time.sleep(0.01)
            self.assertIsNone(run.poll(), words)
            while run.poll() is None:  # Python loses one that comes as it compiles a module
                for _ in range(2):  # a second one ends no cleaning
                    run.send_signal(number)
                    time.sleep(0.01)
                with contextlib.suppress(subprocess.TimeoutExpired):
                    run.wait(2)
            assert run.stderr
            told = run.stderr.read()
            self.assertNotIn(b'Traceback', told)
            # One that comes after all is cleaned ends Python as it ends.
            self.assertIn(run.returncode, (128 + number, -number), told)

    def with_secret(self) -> 'set[str]':
        """The files of the folder that have the text of the store's row."""
        return {str(file.relative_to(self.folder)) for file in self.folder.rglob('*')
                if file.is_file() and b'Secret' in file.read_bytes()}

    def test_signals(self) -> None:
        """SIGTERM and SIGHUP end a tool that has a copy of a store, or half of a new one, as Ctrl-C
        does: nothing of it is left."""
        store, keys = self.with_a_log(), self.files.write('keys.csv', 'PAY.ENO\n7\n')
        self.tool('dump', self.store, '--to', self.path('d'))
        before, new = self.with_secret(), self.path('new')
        for words in (('forget', store, '--to', new, '--keys', keys),
                      ('forget', self.store, '--to', new, '--keys', keys),
                      ('forget', store, '--dry-run', '--keys', keys), ('diff', self.store, store),
                      ('alter', self.store, '--to', new, '--rename', 'PAY.NAME=N'),
                      ('restore', self.path('d'), '--to', new)):
            for number in (signal.SIGTERM, signal.SIGHUP):
                with self.subTest(words=words, number=number):
                    self.ended(words, lambda: self.with_secret() > before, number)
                    self.assertEqual(self.with_secret(), before)
                    self.assertEqual(list(self.temporary.iterdir()), [])
                    self.assertEqual([name for name in self.files.names() if '.part' in name], [])

    def test_copies_for_forget(self) -> None:
        """A copy of the store is next to the new one, and not in a folder of all."""
        store, keys = self.with_a_log(), self.files.write('keys.csv', 'PAY.ENO\n7\n')
        os.mkdir(self.path('there'))
        seen: 'set[str]' = set()

        def is_time() -> bool:
            seen.update(self.with_secret())
            return any(name.startswith('there/') for name in seen)

        self.ended(('forget', store, '--to', self.path('there/new'), '--keys', keys), is_time,
                   signal.SIGTERM)
        self.assertFalse([name for name in seen if name.startswith('temporary/')], seen)

    def test_nohup(self) -> None:
        """A tool that is to outlive its terminal does."""
        done = subprocess.run(
            ['sh', '-c', "trap '' HUP; \"$@\" & sleep 0.1; kill -HUP $!; wait $!", 'sh',
             *self.command('history', self.store, 'PAY')], capture_output=True, check=False)
        self.assertEqual((done.returncode, b'Secret' in done.stdout), (0, True), done.stderr)


class Targets(StoreTests):
    """Names of what is made that are there already, that are links, or that look otherwise."""

    def setUp(self) -> None:
        super().setUp()
        self.store = self.made('a.store', SCRIPT)
        self.tool('dump', self.store, '--to', self.path('d'))

    def makers(self, new: str) -> 'list[tuple[str, ...]]':
        """The words of each tool that makes something by this name."""
        self.files.write('keys.csv', 'PAY.ENO\n7\n')
        return [('alter', self.store, '--to', new, '--rename', 'PAY.NAME=N'),
                ('forget', self.store, '--to', new, '--keys', self.path('keys.csv')),
                ('restore', self.path('d'), '--to', new), ('dump', self.store, '--to', new),
                ('dump', self.store, '--script', '--to', new)]

    def test_names_that_are_there(self) -> None:
        """Nothing is replaced: no file, folder, link, or log of another store."""
        self.files.write('file', 'other')
        self.files.write('old-wal', 'other')
        os.mkdir(self.path('folder'))
        os.symlink('nowhere', self.path('dangling'))
        os.symlink('a.store', self.path('link'))
        before = {name: os.lstat(self.path(name)) for name in self.files.names()}
        for name in ('file', 'folder', 'dangling', 'link', 'a.store', 'old'):
            for words in self.makers(self.path(name)):
                if name != 'old' or words[0] != 'dump':  # a dump has no log
                    self.assertIn('is there already', self.refused(*words))
        os.unlink(self.path('keys.csv'))
        self.assertEqual({name: os.lstat(self.path(name))[:7] for name in self.files.names()},
                         {name: found[:7] for name, found in before.items()})

    def test_odd_names(self) -> None:
        """A name may have blanks and letters of any kind, and begin with a dash."""
        for name in ('with space \u00e9', '-dash', "'quote'", 'x' * 200):
            for number, words in enumerate(self.makers(name)):
                with self.subTest(words=words):
                    done = subprocess.run(
                        [sys.executable, str(ROOT / 'tools' / words[0]), *(
                            f'--to={name}' if word == name else word
                            for word in words[1:] if word != '--to')],
                        cwd=self.folder, capture_output=True, check=False)
                    self.assertEqual(done.returncode, 0, done.stderr)
                    os.rename(self.path(name), self.path(f'{number}.made'))
                    self.assertEqual([it for it in self.files.names() if '.part' in it], [])
                    shutil.rmtree(self.path(f'{number}.made'), ignore_errors=True)

    def test_links_to_a_store(self) -> None:
        os.symlink('a.store', self.path('link'))
        os.symlink('d', self.path('dump'))
        self.tool('dump', self.path('link'), '--to', self.path('again'))
        self.tool('restore', self.path('dump'), '--to', self.path('r.store'))
        self.assertEqual(self.tool('diff', self.path('link'), self.path('r.store')), ('', ''))

    def test_open_store(self) -> None:
        """One that another program has open is left alone."""
        with subprocess.Popen(['bitemporal_file', self.store], executable=os.environ['BITEMPORAL'],
                              stdin=subprocess.PIPE, stdout=subprocess.PIPE) as session:
            assert session.stdin and session.stdout
            session.stdin.write(b'SELECT * FROM PAY;\n')
            session.stdin.flush()
            session.stdout.readline()
            for words in self.makers(self.path('new')):
                if words[0] != 'restore':
                    self.assertIn('has ', self.refused(*words))
            session.stdin.close()

    def test_files_that_a_dump_names(self) -> None:
        """The files of a dump are those in its folder, whatever its head names."""
        head = pathlib.Path(self.path('d'), 'dump.csv')
        head.write_text(head.read_text('utf-8').replace('PAY.csv', '../../../etc/passwd'), 'utf-8')
        self.assertIn('d/passwd: No such file',
                      self.refused('restore', self.path('d'), '--to', self.path('new')))


class Outputs(support.Case):
    """Files that tools write over earlier ones."""

    def setUp(self) -> None:
        super().setUp()
        self.table = self.files.write('t.sql', CREATE.replace('(200)', '(1000)') + ';\n')

    def load(self, count: int, output: str) -> str:
        """The words on standard error of a load of so many rows of a kilobyte."""
        rows = self.files.write('f.csv', 'ENO,NAME,S,E\n' + ''.join(
            f'{number},{"x" * 1000},2024-01-01,2025-01-01\n' for number in range(count)))
        status, text, told = support.tool('load', rows, '--table', self.table, '--output',
                                          self.files.path(output))
        self.equal('load', (status, text), (0, ''))
        return told

    def nights(self) -> 'list[str]':
        return [name for name in self.files.names() if name.startswith('night')]

    def test_parts_of_an_earlier_load(self) -> None:
        """No script of an earlier load is left beside those of this one."""
        self.files.write('night-2024.sql', 'another')
        self.load(9000, 'night.sql')
        parts = ['night-1.sql', 'night-2.sql', 'night-2024.sql', 'night-3.sql']
        self.equal('three', self.nights(), parts)
        told = self.load(6000, 'night.sql')
        self.equal('two', self.nights(), parts[:-1])
        self.holds('told', 'night-3.sql of an earlier load is removed' in told, told)
        self.load(9, 'night.sql')
        self.equal('one', self.nights(), ['night-2024.sql', 'night.sql'])
        self.load(6000, 'night.sql')
        self.equal('two again', self.nights(), parts[:-1])
        self.equal('another', self.files.read('night-2024.sql'), 'another')

    def test_files_are_whole(self) -> None:
        """A file is replaced by one that is whole, with its rights, behind a link too."""
        path = pathlib.Path(self.files.write('real.sql', 'old'))
        path.chmod(0o600)
        os.symlink('real.sql', self.files.path('night.sql'))
        with path.open(encoding='utf-8') as opened:
            self.load(1, 'night.sql')
            self.equal('the old file', opened.read(), 'old')
        self.equal('rights', path.stat().st_mode & 0o777, 0o600)
        self.holds('link', os.path.islink(self.files.path('night.sql')))
        self.holds('text', 'INSERT' in path.read_text('utf-8'))
        self.equal('files', self.files.names(), ['f.csv', 'night.sql', 'real.sql', 't.sql'])

    def test_devices(self) -> None:
        """A pipe, and what is no file, is written to and stays."""
        done = subprocess.run(
            [sys.executable, str(ROOT / 'tools/load'), self.files.write(
                'f.csv', 'ENO,NAME,S,E\n1,x,2024-01-01,2025-01-01\n'), '--table', self.table,
             '--output', '/dev/stdout'], capture_output=True, check=False)
        self.holds('a pipe', b'INSERT INTO PAY' in done.stdout, done)
        self.holds('/dev/stdout', os.path.islink('/dev/stdout'))


if __name__ == '__main__':
    support.run_cases()
