"""Lines that were recorded before the clock of a store, and that it lacks.

A line is recorded by the store if on each of its days the store has had the line's values at some
moment from the line's on; a line that takes days away, if the store has had nothing on them.
What was changed later, by other lines or by hand, stays as it is. Lines that later lines of the
file correct before the clock are not asked for.
"""
from __future__ import annotations

from collections.abc import Iterable, Iterator
from typing import TYPE_CHECKING

from bitemporal_tools.loading.corrections import Fact, Others, Said, override, uncovered
from bitemporal_tools.sql.literals import FOREVER
if TYPE_CHECKING:
    from bitemporal_tools.loading.stored_rows import Recorded


def last_said(sayings: Iterable[Said]) -> Said:
    """The last saying of each day of each key, of the sayings of lines in turn."""
    found: Said = {}
    for said in sayings:
        for key, facts in said.items():
            if key in found:
                for fact in facts:
                    override(found[key], fact)
            else:
                found[key] = list(facts)
    return found


def differing(said: list[Fact], held: list[Fact]) -> list[Fact]:
    """The parts of what is said of a key in which the table has something else."""
    others, found = Others(held), []
    for fact in said:
        parts = [fact._replace(start=max(fact.start, other.start), end=min(fact.end, other.end))
                 for other in others.meeting(fact) if other.values != fact.values]
        if fact.values is not None:
            parts += [fact._replace(start=start, end=end) for start, end in uncovered(fact, others)]
        found += parts
    return found


def unrecorded(part: Fact, history: Iterable[Recorded]) -> Iterator[Fact]:
    """The parts of what a line says that the store has not recorded from the line's moment on."""
    later = [version for version in history
             if version.until > part.moment and version.fact.start < part.end
             and part.start < version.fact.end]
    borders = sorted({part.start, part.end, *(
        day for version in later for day in (version.fact.start, version.fact.end)
        if part.start < day < part.end)})
    for start, end in zip(borders, borders[1:]):
        if not is_recorded(part, [version for version in later
                                  if version.fact.start <= start < version.fact.end]):
            yield part._replace(start=start, end=end)


def is_recorded(part: Fact, of_day: list[Recorded]) -> bool:
    """Whether the store has had on a day what a line says, by its versions of that day."""
    if part.values is not None:
        return any(version.fact.values == part.values for version in of_day)
    since = part.moment
    for version in sorted(of_day, key=lambda version: version.since):
        if version.since > since:
            return True
        since = version.until
    return since < FOREVER


def joined(parts: Iterable[Fact]) -> list[Fact]:
    """Parts of one line that meet made one; they are sorted and apart."""
    found: list[Fact] = []
    for part in sorted(parts, key=lambda part: part.start):
        if found and found[-1].end == part.start and found[-1].line == part.line:
            part = part._replace(start=found.pop().start)
        found.append(part)
    return found
