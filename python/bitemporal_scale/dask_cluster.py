"""A Dask cluster of our own on this machine, for tests and benches: a scheduler and workers, by the
Python of Debian, whose python3-distributed has them."""
import contextlib
import json
import os
import pathlib
import subprocess
import time
from collections.abc import Iterator
from typing import Union

DEBIAN_PYTHON = '/usr/bin/python3'
SECONDS = 120  # in which the workers have to be there


def has_dask() -> bool:
    if not os.path.exists(DEBIAN_PYTHON):
        return False
    found = subprocess.run([DEBIAN_PYTHON, '-c', 'import distributed'], stderr=subprocess.DEVNULL,
                           check=False)
    return found.returncode == 0


@contextlib.contextmanager
def cluster(name: Union[str, pathlib.Path], workers: int) -> Iterator[str]:
    """`workers` workers of one thread, with their files in a folder; the address of their
    scheduler."""
    folder = pathlib.Path(name)
    file = folder / 'scheduler.json'
    with contextlib.suppress(FileNotFoundError):
        file.unlink()
    with contextlib.ExitStack() as stack:
        def start(name: str, *words: str) -> None:
            log = stack.enter_context(open(folder / f'{name}.log', 'ab'))
            command = [DEBIAN_PYTHON, '-m', f'distributed.cli.dask_{name}', *words,
                       '--no-dashboard', '--host', '127.0.0.1', '--scheduler-file', str(file)]
            started = subprocess.Popen(command, cwd=folder, stdin=subprocess.DEVNULL, stdout=log,
                                       stderr=log)
            stack.callback(started.wait)
            stack.callback(started.terminate)

        start('scheduler', '--port', '0')
        address = told(file, folder)
        for _ in range(workers):
            start('worker', '--no-nanny', '--nthreads', '1', '--local-directory',
                  str(folder / 'workers'))
        wait_for(address, workers)
        yield address


def told(file: pathlib.Path, folder: pathlib.Path) -> str:
    """The address in the scheduler's file, which exists once it listens."""
    deadline = time.monotonic() + SECONDS
    while time.monotonic() < deadline:
        with contextlib.suppress(OSError, ValueError):
            return str(json.loads(file.read_text(encoding='utf-8'))['address'])
        time.sleep(0.1)
    raise TimeoutError((folder / 'scheduler.log').read_text(encoding='utf-8'))


def wait_for(address: str, workers: int) -> None:
    """Waits until this number of workers is running."""
    code = ('import sys, distributed\n'
            f'distributed.Client(sys.argv[1], timeout={SECONDS}).wait_for_workers({workers},'
            f' timeout={SECONDS})')
    subprocess.run([DEBIAN_PYTHON, '-c', code, address], check=True)
