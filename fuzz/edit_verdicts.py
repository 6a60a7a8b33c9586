"""The verdicts of the prover on planted edits, many of a crate by one check.

An edit in the bodies of functions leaves all that others see of them, so edits of different
functions are tried together, by a check of these functions and of those that they call. Each edit
has its verdict by what is said of its own functions. While a callee is not proved, some goals of
its callers are not tried: such an edit is tried again, without the edits of its callees.
"""
from __future__ import annotations

import dataclasses
import pathlib
import re
from collections.abc import Iterable, Iterator
from typing import Any

import edit_places
from edit_places import Edit

# (more take few further seconds each, and none has a verdict before all do)
MOST_AT_ONCE = 24
REFUSED, BY_NAME, NOT_REFUSED, BAD = (
    'refused', 'refused by a name only', 'NOT REFUSED', 'BAD EDIT')
FUNCTION = re.compile(r'fn (\S+): (.*)')
WAITS = re.compile(r'it (calls|passes) ')
PLACE = re.compile(r'(?:note: )?(?:\./)?((?:src|specs|proofs)/\S+?):(\d+):\d+: ')
# Said where a proof file names something that the edit took away, and of all that cites that.
NAMES = re.compile(r'(\./)?proofs/.*(has no field|is not in scope|has no `|was not admitted'
                   r'|declarations? that depends? on )')
MOST_TOLD = 200


@dataclasses.dataclass
class Verdict:
    """A verdict on an edit: one of the four kinds above, and the reason."""

    kind: str
    reason: str = ''

    def __str__(self) -> str:
        return ': '.join(filter(None, [self.kind, self.reason[:MOST_TOLD]]))


def refusal(lines: Iterable[str], otherwise: str) -> Verdict:
    """A refusal by the first of these lines that is no mere name. If no line has a place, the
    reason is the other one."""
    told = [line for line in lines if PLACE.match(line)
            and (': error' in line or line.startswith('note: '))]
    for line in told:
        if not NAMES.match(line):
            return Verdict(REFUSED, line.removeprefix('note: ').removeprefix('./'))
    return Verdict(BY_NAME, told[0].removeprefix('./')) if told else Verdict(REFUSED, otherwise)


class Trial:
    """The trials of a crate's edits, over the work that checks keep in a folder. The gate's module
    has what `rt must-fail` makes of an edit."""

    def __init__(self, gate: Any, crate: Any, jobs: int, kept: pathlib.Path) -> None:
        self.gate, self.crate, self.kept = gate, crate, str(kept)
        self.folder = pathlib.Path(crate.folder)
        self.flags = ['--jobs', str(jobs)]
        self.sources = edit_places.Sources(self.folder)
        self.printed: list[str] = []

    def check(self, texts: dict[str, str], more: Iterable[str] = ()) -> tuple[int, list[str]]:
        """The exit status and the lines of a check of the crate with these texts."""
        ran = self.gate.checked(self.crate, texts, [*self.flags, *more], self.kept)
        return ran.returncode, ran.stdout.rstrip('\n').split('\n')

    def begin(self) -> str | None:
        """Proves the crate as it is, or gives the last line of what was said."""
        status, lines = self.check({})
        self.printed = [found[1] for line in lines if (found := FUNCTION.match(line))]
        return lines[-1] if status else None

    def try_all(self, paths: Iterable[pathlib.Path]) -> Iterator[tuple[pathlib.Path, Verdict]]:
        """The verdicts on the edits of these files, as they come."""
        edits = []
        for path in paths:
            texts, why = self.gate.read_edit(str(path), str(self.folder))
            if why:
                yield path, Verdict(BAD, why)
            else:
                edits.append(edit_places.edit_of(path, texts, self.sources, self.folder))
        of_bodies = [edit for edit in edits if self.paths_of(edit)]
        batches = edit_places.batches_of(
            of_bodies, MOST_AT_ONCE, lambda one, other: one.clashes(other))
        while batches:
            open_ones = []
            for batch in batches:
                for edit, verdict in self.try_batch(batch):
                    if verdict:
                        yield edit.path, verdict
                    elif len(batch) == 1:
                        yield edit.path, self.try_one(edit)
                    else:
                        open_ones.append(edit)
            batches = edit_places.batches_of(
                open_ones, MOST_AT_ONCE, lambda one, other: one.meets(other, self.sources))
        for edit in edits:
            if edit not in of_bodies:
                yield edit.path, self.try_one(edit)

    def paths_of(self, edit: Edit) -> list[str]:
        """The paths, as a check prints them, of the functions of an edit; none if it is not of
        bodies alone, or some function's path is not known."""
        found = [it.paths(self.crate.name, self.printed) for it in edit.functions]
        return [path for paths in found for path in paths] if all(found) else []

    def try_batch(self, batch: list[Edit]) -> Iterator[tuple[Edit, Verdict | None]]:
        """The verdicts on edits that are tried together, or None where this check has none."""
        texts = edit_places.texts_of(batch, self.folder)
        only = [word for edit in batch for path in self.paths_of(edit) for word in ('--only', path)]
        _, lines = self.check(texts, only)
        if lines[-1].startswith('only='):
            for edit in batch:
                yield edit, self.verdict_in(lines, edit)
            return
        # The texts could not be read: the edits at fault are tried alone.
        places = [(found[1], int(found[2]) - 1) for line in lines
                  if ': error' in line and (found := PLACE.match(line))]
        wrong = [edit for edit in batch if any(edit.has(*place) for place in places)]
        for edit in wrong:
            yield edit, self.try_one(edit)
        rest = [edit for edit in batch if edit not in wrong]
        half = len(rest) if wrong else len(rest) // 2
        for part in filter(None, [rest[:half], rest[half:]]):
            yield from self.try_batch(part) if len(part) < len(batch) else [(part[0], None)]

    def verdict_in(self, lines: list[str], edit: Edit) -> Verdict | None:
        """The verdict of a check, by its lines, on an edit, or None if they do not decide."""
        said = dict(found.groups() for line in lines if (found := FUNCTION.match(line)))
        ends = [said.get(path, '') for path in self.paths_of(edit)]
        failed = [end for end in ends if end != 'proved']
        if not failed:
            return self.try_one(edit)
        told = [line for line in lines if (found := PLACE.match(line))
                and (edit.has(found[1], int(found[2]) - 1) or self.is_proof_of(edit, found[1]))]
        verdict = refusal(told, failed[0])
        is_decided = all(failed) and 'could not tell' not in failed[0]
        if any(map(WAITS.search, failed)):
            is_decided = is_decided and verdict.kind == REFUSED and verdict.reason[:4] == 'src/'
        return verdict if is_decided else None

    def is_proof_of(self, edit: Edit, file: str) -> bool:
        """Whether a file is one of the proof of a function of the edit."""
        parts = pathlib.PurePosixPath(file.replace('/+', '/')).parts[1:-1]
        return '::'.join([self.crate.name, *parts]) in self.paths_of(edit)

    def try_one(self, edit: Edit) -> Verdict:
        """The verdict on an edit by a check of the whole crate, as the gate judges it."""
        status, lines = self.check(edit.texts)
        unread = next((line for line in lines if self.gate.unread(line, edit.texts)), None)
        if unread:
            return Verdict(BAD, f'the prover cannot read the edited text: {unread}')
        if any(map(self.gate.rtlib.STALE.search, lines)):
            return Verdict(BAD, 'the kept work of a library could not be used')
        if status == 1 and lines[-1].startswith('logic=not-proved'):
            return refusal(lines, '')
        if status == 0:
            return Verdict(NOT_REFUSED)
        return Verdict(BAD, f'it did not reach the prover: {lines[-1]}')
