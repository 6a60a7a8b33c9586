"""A PostgreSQL server of our own in a folder, and what psql gives for a script.

A private server listens on a socket in its folder alone, and is stopped and removed with it. As
root its processes run as the user postgres, since PostgreSQL refuses to run as root.
"""
from __future__ import annotations

import glob
import os
import pathlib
import re
import shutil
import signal
import subprocess
import sys
import tempfile
from typing import Optional

# A server that need not survive a crash.
SETTINGS = ('-c listen_addresses= -c fsync=off -c full_page_writes=off -c jit=off -c work_mem=256MB'
            ' -c log_min_messages=fatal')


class ServerFault(Exception):
    """A server or psql is missing, or did not do what it was asked for."""


def programs() -> Optional[pathlib.Path]:
    """The folder of the newest PostgreSQL of Debian that is here, or of initdb on the path."""
    folders = [folder for folder in glob.glob('/usr/lib/postgresql/*/bin')
               if os.access(os.path.join(folder, 'initdb'), os.X_OK)]
    if folders:
        return pathlib.Path(max(folders, key=lambda folder: [
            int(number) for number in re.findall('[0-9]+', folder)]))
    found = shutil.which('initdb')
    return pathlib.Path(found).parent if found else None


def is_installed() -> bool:
    """Whether a server can be started and asked here."""
    if programs() is None or shutil.which('psql') is None:
        return False
    return os.geteuid() != 0 or shutil.which('setpriv') is not None


def as_server(name: str, *words: object) -> None:
    """A program of PostgreSQL as the user who runs servers."""
    before: list[str] = []
    if os.geteuid() == 0:
        before = ['setpriv', '--reuid=postgres', '--regid=postgres', '--clear-groups']
    ran = subprocess.run([*before, f'{programs()}/{name}', *map(str, words)],
                         stdin=subprocess.DEVNULL,
                         stdout=subprocess.PIPE, stderr=subprocess.STDOUT, check=False)
    if ran.returncode:
        raise ServerFault(f'{name}: {ran.stdout.decode(errors="replace").strip()}')


class PrivateServer:
    """A server of our own, from `with` to its end; `connection` is what psql connects by."""

    def __init__(self) -> None:
        if not is_installed():
            raise ServerFault('no PostgreSQL server is installed here')
        self.folder = pathlib.Path(tempfile.mkdtemp(prefix='bitemporal_postgresql_'))
        self.connection = ''

    def __enter__(self) -> PrivateServer:
        # A process that is asked to end stops its servers first.
        signal.signal(signal.SIGTERM, lambda *_: sys.exit(128 + signal.SIGTERM))
        try:
            self.start()
        except BaseException:
            self.__exit__()
            raise
        return self

    def start(self) -> None:
        data = self.folder / 'data'
        if os.geteuid() == 0:
            shutil.chown(self.folder, 'postgres')
        as_server('initdb', '-D', data, '-A', 'trust', '-U', 'postgres',
                  '-E', 'UTF8', '--locale=C', '--no-sync')
        as_server('pg_ctl', '-D', data, '-w', '-l', self.folder / 'log',
                  '-o', f'-k {self.folder} {SETTINGS}', 'start')
        self.connection = f"host='{self.folder}' user=postgres dbname=postgres"

    def __exit__(self, *_: object) -> None:
        if self.connection:
            as_server('pg_ctl', '-D', self.folder / 'data', '-m', 'immediate', 'stop')
        shutil.rmtree(self.folder)


def psql(connection: str, script: bytes) -> bytes:
    """The output of psql for a script (bytes), rows alone; the first error ends it."""
    words = ['psql', '-qAtX', '-v', 'ON_ERROR_STOP=1', '-d', connection, '-f', '-']
    environment = dict(os.environ, PGCLIENTENCODING='UTF8', PGOPTIONS='')
    try:
        ran = subprocess.run(words, input=script, stdout=subprocess.PIPE, stderr=subprocess.PIPE,
                             env=environment, check=False)
    except FileNotFoundError:
        raise ServerFault('psql is not installed here') from None
    if ran.returncode:
        raise ServerFault(f'psql: {ran.stderr.decode(errors="replace").strip()}')
    return ran.stdout
