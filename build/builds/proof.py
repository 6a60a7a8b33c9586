"""The proved build: each crate proved as soon as those that it depends on are, several at one time,
the longest chain first.
"""
from __future__ import annotations

import os
import re
import signal
import subprocess
import tempfile
import time
from collections.abc import Callable, Iterable
from typing import Any

from . import kit, sums

# The seconds of a processor that the proof of each crate took once. Only the order depends on them.
SECONDS = sums.ROOT / 'build/builds/seconds.txt'
# The most memory that a process of a proof takes, in bytes.
MEMORY_OF_A_PROCESS = 2_500_000_000


class Proof:
    """A crate that is being proved."""

    def __init__(self, name: str, jobs: int, has_priority: bool) -> None:
        self.name, self.jobs, self.begun = name, jobs, time.monotonic()
        self.library = None if name == sums.PROGRAM else kit.Library(name)
        if self.library is None:
            # `rt run` also runs the program that it built: with `--help`, and with nothing to read.
            words = ['rt', 'run', '--jobs', str(jobs), '--', '--help']
        else:
            words = self.library.build_words(jobs)
            self.library.begin()
        self.output = tempfile.TemporaryFile()
        # (a group of its own, so that a proof that is interrupted ends whole; but no session of its
        # own, since a system may give each session the same share of the processors)
        self.process = subprocess.Popen(
            words if has_priority else ['nice', '-n', '5', *words], cwd=sums.ROOT / 'crates' / name,
            stdin=subprocess.DEVNULL, stdout=self.output, stderr=self.output, preexec_fn=os.setpgrp)

    def has_ended(self) -> bool:
        """Whether it has ended; then `status` and `seconds`, of a processor, are known."""
        pid, status, used = os.wait4(self.process.pid, os.WNOHANG)
        if pid == 0:
            return False
        self.status = os.WEXITSTATUS(status) if os.WIFEXITED(status) else -os.WTERMSIG(status)
        self.process.returncode = self.status
        self.seconds = used.ru_utime + used.ru_stime
        if self.status == 0 and self.library is not None:
            self.library.end()
        return True

    def refusal(self) -> str:
        """The messages about functions that were not proved, and the last lines."""
        self.output.seek(0)
        lines = self.output.read().decode(errors='replace').splitlines(keepends=True)
        errors = [line for line in lines[:-8] if re.search(r'error|not proved|no proof', line)]
        return ''.join([*errors[:30], *lines[-8:]])

    def stop(self) -> None:
        os.killpg(self.process.pid, signal.SIGTERM)
        self.process.wait()


def processes_at_once() -> int:
    """The most processes at one time: two more than processors, since one alone reads a crate
    before several prove it, but no more than the free memory allows."""
    free = MEMORY_OF_A_PROCESS
    with open('/proc/meminfo', encoding='utf-8') as file:
        for line in file:
            if line.startswith('MemAvailable:'):
                free = 1024 * int(line.split()[1])
    return max(1, min(len(os.sched_getaffinity(0)) + 2, free // MEMORY_OF_A_PROCESS))


def jobs_of(name: str, is_first: bool, are_few: bool, most: int) -> int:
    """The number of processes that a crate gets, at most `most`.

    Two prove a crate in two thirds of the time of one, four in half of it or a little less, with a
    seventh and half as much again of a processor's time. So while there are crates enough to keep
    the processors busy, only the first, which has the longest chain of crates above it, gets two.
    Of a program there is next to nothing to prove.
    """
    if name == sums.PROGRAM or not is_first:
        return 1
    return min(4 if are_few else 2, most)


def longest_chain_first(crates: sums.Crates, names: Iterable[str]) -> list[str]:
    """The names by the seconds of the longest chain of crates above each, itself among them."""
    seconds = dict(line.split() for line in SECONDS.read_text(encoding='utf-8').splitlines()
                   if not line.startswith('#'))

    def chain(name: str) -> int:
        above = [it for it in names if name in sums.crates_below(crates, it)]
        return int(seconds.get(name, 0)) + max(map(chain, above), default=0)

    return sorted(names, key=chain, reverse=True)


def build(tell: Callable[[str], object]) -> str | None:
    """Proves and builds the program. `tell` gets a line for each crate that is proved. Gives what
    was said of a crate that was not proved, else None."""
    crates = sums.repository_crates()
    waiting = longest_chain_first(crates, sums.program_crates())
    before = sums.PROVED.source_sums()
    said = prove(crates, waiting, tell)
    if said is None and before != sums.PROVED.source_sums():
        # (it is newer than the sources: without a stamp, it would be taken for theirs)
        sums.PROVED.file.unlink()
        return 'a source was changed during the proof\n'
    if said is None:
        sums.PROVED.write_stamp(before)
    return said


def prove(crates: sums.Crates, waiting: list[str],
          tell: Callable[[str], object]) -> str | None:
    """Proves these crates, and gives what was said of one that was not proved."""
    begun, total = time.monotonic(), len(waiting)
    running: list[Proof] = []
    most, order = processes_at_once(), {name: place for place, name in enumerate(waiting)}
    done = built(crates, waiting)
    waiting = [name for name in waiting if name not in done]
    try:
        while waiting or running:
            ready = [it for it in waiting if sums.crates_below(crates, it) <= done]
            for name in ready:
                before = sum(order[it.name] < order[name] for it in running)
                are_few = len({*ready, *(it.name for it in running)}) <= 2
                jobs = jobs_of(name, before == 0, are_few, most)
                if sum(it.jobs for it in running) + jobs <= most:
                    waiting.remove(name)
                    # (the second too: its chain may be nearly as long)
                    running.append(Proof(name, jobs, before <= 1))
            time.sleep(0.2)
            for proof in [it for it in running if it.has_ended()]:
                running.remove(proof)
                if proof.status != 0:
                    return f'{proof.refusal()}{proof.name} is not proved\n'
                done.add(proof.name)
                tell(f'proved {len(done)} of {total}: {proof.name}, in {minutes(proof.begun)} '
                     f'({proof.seconds:.0f} s of a processor); {minutes(begun)} so far')
        return None
    finally:
        for proof in running:
            proof.stop()


def built(crates: sums.Crates, names: Iterable[str]) -> set[str]:
    """The libraries that exist, of the files as they are, with all that they depend on."""
    found: set[str] = set()
    known: dict[str, Any] = {}
    for name in sorted(names, key=lambda it: len(sums.crates_below(crates, it))):
        if name != sums.PROGRAM and sums.crates_below(crates, name) <= found:
            if kit.Library(name, known).is_built():
                found.add(name)
    return found


def minutes(since: float) -> str:
    return f'{(time.monotonic() - since) / 60:.1f} minutes'
