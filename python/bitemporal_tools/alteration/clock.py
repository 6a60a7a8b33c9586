"""The moments of a store that are after the time of this machine, and what they become."""
import time

from bitemporal_tools.stores.reading import Store
from bitemporal_tools.stores.spelling import FOREVER, moment_text


def moves_of(store: Store) -> dict[int, int]:
    """Each moment after the time of this machine, in order, with the one that it becomes: one of
    the last microseconds up to that time, and after all moments that stay."""
    now, moments = time.time_ns() // 1000, {store.clock}
    for number in range(1, len(store.tables) + 1):
        for version in store.versions(number, 'ss'):
            moments.update((version.since, version.until))
    ahead = sorted(moment for moment in moments - {FOREVER} if moment > now)
    last = max({now - len(ahead), *(moment for moment in moments if moment <= now)})
    return {moment: last + place for place, moment in enumerate(ahead, 1)}


def told(moves: dict[int, int]) -> str:
    return ''.join(f'{moment_text(ahead)} becomes {moment_text(moment)}\n'
                   for ahead, moment in moves.items())
