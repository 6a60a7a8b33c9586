"""The versions that one history has and another lacks."""
from collections.abc import Iterable, Iterator

from bitemporal_tools.stores.reading import Store, Version


def sort_key(version: Version) -> tuple[bytes, int, int]:
    """Values, first day and moment, by which a store gives its versions, and has each once."""
    return version.values, version.start, version.since


def difference(first: Iterable[Version], second: Iterable[Version]) \
        -> Iterator[tuple[bool, Version]]:
    """The versions that only one of two lists in their order has, each after whether that is the
    second; of two of one place the one of the first list first."""
    ones, others = iter(first), iter(second)
    one, other = next(ones, None), next(others, None)
    while one is not None or other is not None:
        if one == other:
            one, other = next(ones, None), next(others, None)
        elif other is None or one is not None and sort_key(one) <= sort_key(other):
            assert one is not None
            yield False, one
            one = next(ones, None)
        else:
            yield True, other
            other = next(others, None)


def differing_versions(first: Store, second: Store) -> int:
    """The number of versions that only one of two stores of the same tables has."""
    return sum(1 for number in range(1, len(first.tables) + 1)
               for _ in difference(first.versions(number), second.versions(number)))
