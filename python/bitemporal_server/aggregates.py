"""Aggregates of PostgreSQL's that sqlite lacks: variances, standard deviations and percentiles."""
import functools
import math
from typing import Any, Callable, Optional

NUMBER_BYTES = 48  # of a number that is kept, sorted too


class Spread:
    """The variance of numbers, NULL left out, by one pass."""

    def __init__(self, is_sample: bool, is_root: bool) -> None:
        self.is_sample, self.is_root = is_sample, is_root
        self.count, self.mean, self.squares = 0, 0.0, 0.0

    def step(self, number: Optional[float]) -> None:
        """Takes a number."""
        if number is not None:
            self.count += 1
            apart = number - self.mean
            self.mean += apart / self.count
            self.squares += apart * (number - self.mean)

    def finalize(self) -> Optional[float]:
        """The variance, or its root."""
        if self.count <= self.is_sample:
            return None
        found = self.squares / (self.count - self.is_sample)
        return math.sqrt(found) if self.is_root else found


class Percentile:
    """The number below which a share of the numbers is, between two of them in proportion."""

    def __init__(self, add: Callable[[int], None]) -> None:
        self.share, self.add = 0.0, add
        self.numbers: 'list[float]' = []

    def step(self, share: float, number: Optional[float]) -> None:
        """Takes a number."""
        self.share = share
        if number is not None:
            self.add(NUMBER_BYTES)
            self.numbers.append(number)

    def finalize(self) -> Optional[float]:
        """The percentile."""
        if not self.numbers:
            return None
        numbers, place = sorted(self.numbers), self.share * (len(self.numbers) - 1)
        low, high = numbers[math.floor(place)], numbers[math.ceil(place)]
        return low + (high - low) * (place - math.floor(place))


AGGREGATES: 'dict[str, Callable[[], Any]]' = {
    'var_pop': functools.partial(Spread, False, False),
    'stddev_pop': functools.partial(Spread, False, True),
    **dict.fromkeys(('variance', 'var_samp'), functools.partial(Spread, True, False)),
    **dict.fromkeys(('stddev', 'stddev_samp'), functools.partial(Spread, True, True))}
