"""Days in a row, and the gaps between them. A period is a pair of its first day and its end."""
from collections.abc import Iterable

Period = tuple[int, int]


def stretches(periods: Iterable[Period]) -> list[Period]:
    """The days of the periods as the fewest periods, in their order."""
    found: list[Period] = []
    for start, end in sorted(periods):
        if found and start <= found[-1][1]:
            found[-1] = found[-1][0], max(end, found[-1][1])
        else:
            found.append((start, end))
    return found


def gaps(found: list[Period]) -> list[Period]:
    """The days between stretches."""
    return [(end, start) for (_, end), (start, _) in zip(found, found[1:])]


def days(periods: Iterable[Period]) -> int:
    """The number of days of periods that share none."""
    return sum(end - start for start, end in periods)


def within(period: Period, window: Period) -> list[Period]:
    """The part of a period that is in a window, or none."""
    start, end = max(period[0], window[0]), min(period[1], window[1])
    return [(start, end)] if start < end else []
