"""Counts and sums on each day, as the fewest periods.

A row adds its amounts to its group on each of its days. The totals of a group change on no day but
one on which a row begins or ends, so a sweep over these days finds them all.
"""
from collections.abc import Iterable, Iterator, Sequence
from typing import NamedTuple, Optional

from bitemporal_tools.days.rows import Values, grouped


class Share(NamedTuple):
    """The share of a row in the totals of its group, from day `start` on and before day `end`."""
    group: Values
    amounts: tuple[int, ...]
    start: int
    end: int


class Step(NamedTuple):
    """The totals of a group on each day from `start` on and before `end`."""
    group: Values
    totals: tuple[int, ...]
    start: int
    end: int


def steps(shares: Iterable[Share], keeps_gaps: bool = False) -> Iterator[Step]:
    """The steps of each group in turn, in the order in which the groups come first. A group has no
    step on days on which it has no row. With `keeps_gaps` it has one with totals of 0 there, if
    that is between two of its rows."""
    for found in grouped(shares, lambda share: share.group).values():
        yield from joined(swept(found, keeps_gaps))


def swept(shares: Sequence[Share], keeps_gaps: bool) -> Iterator[Step]:
    """The totals of one group between each two days on which a row of it begins or ends."""
    changes: dict[int, list[int]] = {}
    for share in shares:
        for day, sign in ((share.start, 1), (share.end, -1)):
            added = changes.setdefault(day, [0] * (1 + len(share.amounts)))
            for place, amount in enumerate((1, *share.amounts)):
                added[place] += sign * amount
    days = sorted(changes)
    rows, *totals = [0] * (1 + len(shares[0].amounts))
    for day, following in zip(days, days[1:]):
        rows += changes[day][0]
        totals = [total + added for total, added in zip(totals, changes[day][1:])]
        if rows or keeps_gaps:
            yield Step(shares[0].group, tuple(totals), day, following)


def joined(found: Iterable[Step]) -> Iterator[Step]:
    """Steps that meet and have the same totals made one."""
    last: Optional[Step] = None
    for step in found:
        if last and last.end == step.start and last.totals == step.totals:
            last = last._replace(end=step.end)
            continue
        if last:
            yield last
        last = step
    if last:
        yield last
