"""The parts of tests/all: the test programs of the repository, what each takes, and the packages
that some of what they try needs."""
import dataclasses
import glob
import os
import shutil
import subprocess
from collections.abc import Callable
from typing import Any

DEBIAN_PYTHON = '/usr/bin/python3'


@dataclasses.dataclass(frozen=True)
class Package:
    """A thing that a test may need, whether it is here, and the line that installs it on Debian."""
    name: str
    is_here: Callable[[], bool]
    install: str


def on_path(*names: str) -> Callable[[], bool]:
    """Whether one of the programs exists."""
    return lambda: any(shutil.which(name) for name in names)


def has_postgresql() -> bool:
    servers = glob.glob('/usr/lib/postgresql/*/bin/initdb')
    return bool(servers or shutil.which('initdb')) and shutil.which('psql') is not None


def debian_has(modules: str) -> Callable[[], bool]:
    """Whether Debian's Python has these modules."""
    return lambda: shutil.which(DEBIAN_PYTHON) is not None and subprocess.run(
        [DEBIAN_PYTHON, '-c', f'import {modules}'], capture_output=True,
        check=False).returncode == 0


def has_clients() -> bool:
    """Whether those that test_clients runs are there."""
    return debian_has('psycopg2, psycopg, asyncpg, sqlalchemy, pandas')() \
        and shutil.which('javac') is not None \
        and os.path.exists('/usr/share/java/postgresql.jar')


COMPILER = Package('a C compiler', on_path('cc'), 'apt-get install gcc libc6-dev')
POSTGRESQL = Package('PostgreSQL', has_postgresql, 'apt-get install postgresql')
SQLITE = Package('sqlite3', on_path('sqlite3'), 'apt-get install sqlite3')
CHROMIUM = Package('Chromium', on_path('chromium-headless-shell', 'chromium', 'chromium-browser'),
                   'apt-get install chromium-headless-shell')
MANDOC = Package('mandoc', on_path('mandoc'), 'apt-get install mandoc')
ZSH = Package('zsh', on_path('zsh'), 'apt-get install zsh')
DPKG = Package('dpkg-deb', on_path('dpkg-deb'), 'apt-get install dpkg')
LINTIAN = Package('lintian', on_path('lintian'), 'apt-get install lintian')
MYPY = Package('mypy', on_path('mypy'), 'apt-get install mypy')
FLAKE8 = Package('flake8', on_path('flake8'), 'apt-get install flake8')
WHEEL = Package('wheel', debian_has('setuptools, wheel'), 'apt-get install python3-wheel')
DASK = Package('Dask', debian_has('distributed'), 'apt-get install python3-distributed')
PSQL = Package('psql', on_path('psql'), 'apt-get install postgresql-client')
OPENSSL = Package('openssl', on_path('openssl'), 'apt-get install openssl')
CLIENTS = Package('clients of PostgreSQL', has_clients,
                  'apt-get install python3-psycopg2 python3-psycopg python3-asyncpg'
                  ' python3-sqlalchemy python3-pandas libpostgresql-jdbc-java default-jdk-headless')


@dataclasses.dataclass(frozen=True)
class Part:
    """A test program with its words. `seconds` of a processor, of which only the order depends;
    gigabytes of memory, and processors, that it takes at most; what it needs for all that it tries;
    and whether --quick runs it."""
    words: str
    seconds: int = 1
    gigabytes: float = 0.5
    processors: int = 1
    needs: tuple[Package, ...] = ()
    is_quick: bool = True


# A program that `rt try` builds, which some tests run over their own main.
BUILDS: dict[str, Any] = {'gigabytes': 6, 'is_quick': False}

PARTS = [
    # The sources and the pages, as texts.
    Part('tests/sources'),
    Part('tests/calls'),
    Part('tools/definitions_test'),
    # The program, by scripts, limits, odd bytes, long scripts and command lines.
    Part('tests/run', 4),
    Part('tests/limits', 4),
    Part('tests/bytes', 2),
    Part('tests/large', 2),
    Part('tests/commands', 4, needs=(COMPILER,)),
    Part('tests/untrusted', 2),
    Part('tests/examples', 5),
    Part('tests/pages', 28, needs=(POSTGRESQL,)),
    # The launcher, and the quick build next to the proved one.
    Part('tests/builds stamps first', 300, **BUILDS),
    Part('tests/builds bugs', 250, **BUILDS),
    # The installed program, and the packages.
    Part('tests/installed', 25, needs=(MANDOC, ZSH, DPKG, LINTIAN)),
    # Stores in files, and memory, disks and writers that fail.
    Part('tests/stores', 3),
    Part('tests/store_program', 15),
    Part('tests/failures', 850, processors=2, needs=(COMPILER,), **BUILDS),
    # The public calls of the libraries, and a program that embeds the engine.
    Part('tests/libraries', 180, **BUILDS),
    Part('tests/embedding', 150, **BUILDS),
    # The tools.
    Part('python/tests/test_package.py', 60, needs=(MYPY, FLAKE8, WHEEL)),
    Part('python/tests/test_explain.py', 5),
    Part('python/tests/test_mends.py', 10),
    Part('python/tests/test_run.py', 5),
    Part('python/tests/test_session.py', 5),
    Part('python/tests/test_sql.py', 45),
    Part('python/tests/test_load.py', 13),
    Part('python/tests/test_load_store.py', 40),
    Part('python/tests/test_handovers.py', 5),
    Part('python/tests/test_answers.py', 10),
    Part('python/tests/test_totals.py', 5, needs=(POSTGRESQL,)),
    Part('python/tests/test_durations.py', 2),
    Part('python/tests/test_ever.py', 2),
    Part('python/tests/test_questions.py', 26),
    Part('python/tests/test_timeline.py', 10, needs=(CHROMIUM,)),
    Part('python/tests/test_dump.py', 13),
    Part('python/tests/test_alter.py', 36),
    Part('python/tests/test_disks.py', 30),
    Part('python/tests/test_history.py', 6),
    Part('python/tests/test_forms.py', 2),
    Part('python/tests/test_versions.py', 6, needs=(SQLITE, POSTGRESQL)),
    Part('python/tests/test_postgresql.py', 26, needs=(POSTGRESQL,)),
    Part('python/tests/test_distribute.py', 6, needs=(POSTGRESQL,)),
    Part('python/tests/test_over_days.py', 50, needs=(DASK,)),
    # The server of PostgreSQL's protocol, its page, and the connection from Python.
    Part('python/tests/test_engine.py', 3),
    Part('python/tests/test_texts.py', 10),
    Part('python/tests/test_attacks.py', 25, needs=(PSQL,)),
    Part('python/tests/test_attacked_tools.py', 10),
    Part('python/tests/test_rights.py', 12),
    Part('python/tests/test_server.py', 45, needs=(PSQL, OPENSSL)),
    Part('python/tests/test_ends.py', 30),
    Part('python/tests/test_bi.py', 10, needs=(POSTGRESQL,)),
    Part('python/tests/test_clients.py', 15, needs=(CLIENTS,)),
    Part('python/tests/test_page.py', 10, needs=(CHROMIUM,)),
    Part('python/tests/test_dbapi.py', 3),
    Part('fuzz/random_clients.py --seconds 20', 20),
    # Each allocation of a run refused in turn, and several; more scripts without --short.
    Part('fuzz/refuse_allocations --short', 45, processors=2, needs=(COMPILER,), is_quick=False),
    # Random scripts, the same each time, against the models.
    Part('fuzz/model_reports', 1),
    Part('fuzz/random_checks.py --seed 1 --count 500', 9),
    Part('fuzz/random_runs.py --seed 1 --count 1000', 11),
    Part('fuzz/random_runs.py --seed 5001 --count 1000 --audit', 13),
    Part('fuzz/random_stores --seed 1 --count 200', 11),
    Part('fuzz/random_sessions --seed 1 --count 30', 15),
]
