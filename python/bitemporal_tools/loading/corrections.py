"""Facts in the order of their recording, to changes of portions.

A fact says of a key which values it has on the days of a period, from a moment on. Facts are taken
moment by moment: a model gives what one moment's say, for each key in facts that are sorted
and apart (Portions or Records); and what they say is compared with what the table has (TableDays),
so that only the days on which it differs are changed: DELETE of days of which nothing is said any
more, UPDATE of days with other values, INSERT of days that are new. So after each moment the table
has on each day what the facts up to it say, and what didn't change keeps the moment at which it was
first recorded.

Two readings of a later fact: it says something of its own days alone (Portions); or it replaces
what its record said before, days and all (Records).
"""
from __future__ import annotations

import bisect
import collections
import datetime
import functools
import operator
from collections.abc import Callable, Iterable, Iterator, Sequence
from typing import NamedTuple, Optional, Union, cast

Value = Union[int, str, datetime.date]
Values = tuple[Value, ...]
Days = tuple[datetime.date, datetime.date]


class Fact(NamedTuple):
    """A line from a moment on: the values of the columns that are not in the key, or None
    if it takes its days away. `record` says which record it is a state of. `is_end` if it is the
    end of what was recorded, which what else is said at that moment overrides."""
    line: int
    moment: str
    key: Values
    values: Optional[Values]
    start: datetime.date
    end: datetime.date
    record: tuple[str, ...] = ()
    is_end: bool = False


class Change(NamedTuple):
    """`kind` is delete or update. `places` are the places of the values that an update sets."""
    kind: str
    key: Values
    start: datetime.date
    end: datetime.date
    values: Values
    places: Sequence[int]


# Facts by key: of each key sorted and apart.
Said = dict[Values, list[Fact]]
# Called with two facts of one key that share a day. `is_lasting` if they are of two records.
Clash = Callable[..., None]


# A fact of a tuple of its fields, in a third of the time of a call of Fact.
fact_of = cast(Callable[[object], Fact], functools.partial(tuple.__new__, Fact))
first_day = operator.attrgetter('start')


def with_days(fact: Fact, start: datetime.date, end: datetime.date) -> Fact:
    """A fact that says as much of other days."""
    line, moment, key, values, _, _, record, is_end = fact
    return fact_of((line, moment, key, values, start, end, record, is_end))


def overlaps(facts: Iterable[Fact]) -> Iterator[tuple[Fact, Fact]]:
    """Pairs of facts, sorted by their start, that share a day, each fact in at most one pair."""
    last = None
    for fact in facts:
        if last and fact.start < last.end:
            yield last, fact
        if last is None or fact.end > last.end:
            last = fact


def touched_places(facts: list[Fact], new: Fact) -> tuple[int, int]:
    """The places of the facts, sorted and apart, that share a day with a new one: that of the first
    and that after the last; if there are none, twice that of the new one."""
    if facts[-1].start <= new.start:  # as most often
        return len(facts) - (facts[-1].end > new.start), len(facts)
    starts = [fact.start for fact in facts]
    first = bisect.bisect_right(starts, new.start)
    return first - (first > 0 and facts[first - 1].end > new.start), \
        bisect.bisect_left(starts, new.end)


def override(facts: list[Fact], new: Fact, is_kept: bool = True) -> list[Fact]:
    """Takes the days of a new fact from facts that are sorted and apart, and adds it if it is to be
    kept. Gives the facts that had some of these days."""
    first, last = touched_places(facts, new) if facts else (0, 0)
    touched = facts[first:last]
    kept = [new] if is_kept else []
    if touched:
        one, other = touched[0], touched[-1]
        if one.start < new.start:
            kept.insert(0, with_days(one, one.start, new.start))
        if other.end > new.end:
            kept.append(with_days(other, new.end, other.end))
    facts[first:last] = kept
    return touched


class TableDays:
    """The rows of the table: of each key the facts that hold, sorted and apart."""

    def __init__(self) -> None:
        self.facts: dict[Values, list[Fact]] = {}

    def take(self, said: Said) -> tuple[list[Change], list[Fact]]:
        """Has the table be as the facts of one moment say. Gives the changes of days that exist
        and the rows of new days that do it."""
        changed: list[Change] = []
        new: list[Fact] = []
        for key, of_key in said.items():
            facts = self.facts.get(key)
            if facts is None:
                self.facts[key] = [fact for fact in of_key if fact.values is not None]
                new += self.facts[key]
                continue
            for fact in of_key:
                touched = override(facts, fact, fact.values is not None)
                if touched:
                    add_changes(key, touched, fact, changed, new)
                elif fact.values is not None:
                    new.append(fact)
        return changed, new


class Portions:
    """Each fact says something of its own days, and nothing of other days."""

    def said(self, facts: Iterable[Fact], clash: Clash) -> Said:
        """The sayings of facts of one moment. Facts that share days are reported to `clash`."""
        found: Said = {}
        for fact in facts:
            found.setdefault(fact.key, []).append(fact)
        for key, of_key in found.items():
            if len(of_key) > 1:  # in the order of their lines
                for pair in overlaps(sorted((fact for fact in of_key if not fact.is_end),
                                            key=first_day)):
                    clash(key, *pair)
                last_said: list[Fact] = []
                for fact in of_key:
                    override(last_said, fact)
                found[key] = last_said
        return found


class Records:
    """Each fact is the state of a record, in place of the state before."""

    def __init__(self) -> None:
        self.states: dict[tuple[str, ...], Fact] = {}
        self.keys: dict[Values, dict[tuple[str, ...], Fact]] = collections.defaultdict(dict)

    def said(self, facts: Iterable[Fact], clash: Clash) -> Said:
        """The sayings of facts of one moment: days that a record no longer has are taken away."""
        before: dict[Values, list[Fact]] = {}
        seen: dict[tuple[str, ...], Fact] = {}
        latest: dict[Values, Fact] = {}
        for fact in facts:
            old = self.states.pop(fact.record, None)
            for key in (old.key if old else fact.key, fact.key):
                if key not in before:
                    before[key] = self.facts(key)
                latest[key] = fact
            if old:
                del self.keys[old.key][fact.record]
            if fact.record in seen:
                clash(fact.key, seen[fact.record], fact)
            seen[fact.record] = fact
            if fact.values is not None:
                self.states[fact.record] = fact
                self.keys[fact.key][fact.record] = fact
        said = {key: self.said_of(old, latest[key]._replace(key=key, values=None), clash)
                for key, old in before.items()}
        return {key: of_key for key, of_key in said.items() if of_key}

    def said_of(self, before: list[Fact], gone: Fact, clash: Clash) -> list[Fact]:
        """The sayings of facts of one moment on a key: its new states, and `gone` on the days that
        only its states before them had."""
        after = self.facts(gone.key)
        for pair in overlaps(after):
            clash(gone.key, *pair, is_lasting=True)
        others = Others(after)
        said = [with_days(gone, start, end)
                for fact in before for start, end in uncovered(fact, others)]
        said += [fact for fact in after if fact.moment == gone.moment]
        return sorted(said, key=first_day)

    def facts(self, key: Values) -> list[Fact]:
        return sorted(self.keys[key].values(), key=first_day)


class Others:
    """Facts that are sorted and apart, to be compared with one."""

    def __init__(self, facts: list[Fact]) -> None:
        self.facts, self.ends = facts, [fact.end for fact in facts]

    def meeting(self, fact: Fact) -> Iterator[Fact]:
        """The facts that share a day with this one."""
        for at in range(bisect.bisect_right(self.ends, fact.start), len(self.facts)):
            if self.facts[at].start >= fact.end:
                return
            yield self.facts[at]


def uncovered(fact: Fact, others: Others) -> Iterator[Days]:
    """The days of a fact that no other has, as pairs."""
    start = fact.start
    for other in others.meeting(fact):
        if start < other.start:
            yield start, other.start
        start = other.end
    if start < fact.end:
        yield start, fact.end


def add_changes(key: Values, old: Iterable[Fact], new: Fact, changed: list[Change],
                added: list[Fact]) -> None:
    """Adds the changes that a new fact makes of the facts that had some of its days, which are
    sorted and apart: of days that exist, and new ones."""
    values, day = new.values, new.start
    for fact in old:
        start, end = max(fact.start, day), min(fact.end, new.end)
        if values is None:
            add_change(changed, Change('delete', key, start, end, (), ()))
            continue
        if day < start:
            added.append(with_days(new, day, start))
        places = [place for place, (it, was) in enumerate(zip(values, fact.values or ()))
                  if it != was]
        if places:
            add_change(changed, Change('update', key, start, end, values, places))
        day = end
    if values is not None and day < new.end:
        added.append(with_days(new, day, new.end))


def add_change(changed: list[Change], new: Change) -> None:
    """Adds a change. One of the days after the last change, to the same values, is one with it."""
    last = changed[-1] if changed else new
    if last.end == new.start and last.key is new.key and last.kind == new.kind \
            and last.values is new.values:
        new = new._replace(start=last.start, places=sorted({*last.places, *new.places}))
        changed.pop()
    changed.append(new)
