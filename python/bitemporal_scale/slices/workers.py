"""Slices as runs of the program: several at once here, or on the workers of a Dask cluster."""
import concurrent.futures
import logging
import pathlib
from typing import Any

from bitemporal_tools.engine_session import ran

from .slice_file import SliceFile

GOOD_STATUSES = (0, 1, 3)  # all done, a statement refused, an audit that does not agree


class RunFault(Exception):
    """A slice that could not be run."""


def judged(part: SliceFile, status: int, errors: bytes) -> None:
    if status not in GOOD_STATUSES:
        said = errors.decode(errors='replace').strip()
        raise RunFault(f'{part}: status {status}: {said}')


class Here:
    """Several runs at once on this machine, `jobs` of them."""

    def __init__(self, program: str, words: list[str], jobs: int) -> None:
        self.program, self.words, self.jobs = program, words, jobs

    def run(self, slices: list[SliceFile]) -> None:
        with concurrent.futures.ThreadPoolExecutor(self.jobs) as pool:
            for _ in pool.map(self.run_one, slices):
                pass

    def run_one(self, part: SliceFile) -> None:
        with open(part.report, 'wb') as report:
            done = ran('bitemporal', [*self.words, part.path], path=self.program, stdout=report)
        judged(part, done.returncode, done.stderr)

    def close(self) -> None:
        """Nothing stays between runs."""


class Cluster:
    """The workers of a Dask cluster. Each worker gets the program once, a slice with its task;
    as many tasks are under way at once as keep each worker busy."""

    def __init__(self, scheduler: str, program: str, words: list[str]) -> None:
        try:
            import cloudpickle  # pylint: disable=import-outside-toplevel
            import distributed  # pylint: disable=import-outside-toplevel
        except ImportError as error:
            raise RunFault(f'--dask needs the Python module {error.name} (in Debian:'
                           ' python3-distributed, for /usr/bin/python3)') from None
        # A client that is closed while a message waits has asyncio complain as the program ends.
        logging.getLogger('asyncio').setLevel(logging.CRITICAL)
        sent = pathlib.Path(program).read_bytes()
        if sent.startswith(b'#!'):
            raise RunFault(f'{program} is a script, and workers get programs: build it first')
        from . import task  # pylint: disable=import-outside-toplevel
        cloudpickle.register_pickle_by_value(task)
        self.distributed: Any = distributed
        self.task, self.words = task.run, words
        try:
            self.client: Any = self.distributed.Client(scheduler, timeout=20)
        except (OSError, ValueError) as error:
            raise RunFault(f'no Dask scheduler at {scheduler}: {error}') from None
        if not self.client.scheduler_info()['workers']:
            self.client.close()
            raise RunFault(f'the Dask scheduler at {scheduler} has no workers')
        self.program = self.client.scatter(sent, broadcast=True)

    def run(self, slices: list[SliceFile]) -> None:
        waiting, tasks = list(slices), dict[Any, SliceFile]()
        most = 2 * len(self.client.scheduler_info()['workers'])
        done = self.distributed.as_completed()
        for part in waiting[:most]:
            self.submit(part, tasks, done)
        del waiting[:most]
        for future in done:
            part = tasks.pop(future)
            status, output, errors = future.result()
            part.report.write_bytes(output)
            judged(part, status, errors)
            if waiting:
                self.submit(waiting.pop(0), tasks, done)

    def submit(self, part: SliceFile, tasks: dict[Any, SliceFile], done: Any) -> None:
        # Sent ahead of its task: in it a slice of a megabyte is warned of.
        script = self.client.scatter(part.path.read_bytes(), hash=False)
        future = self.client.submit(self.task, self.program, self.words, script, pure=False)
        tasks[future] = part
        done.add(future)

    def close(self) -> None:
        self.client.close()
