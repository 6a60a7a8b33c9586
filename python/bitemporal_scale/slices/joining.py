"""The answers of the slices joined at the borders.

Each slice's answer is the answer on its days. So the rows of all slices are the answer's on all
days, and where a row ends at a border and one of equal values begins there, they are one row. All
slices give their rows in the order of answers, and so does what is joined. A row keeps the
witness of its first part: its values do not hold on the day before, or that part would have been
joined to another.
"""
import heapq
from collections.abc import Callable, Iterator
from typing import Optional, Union

from .outcomes import rows
from .slice_file import SliceFile

Order = tuple[list[Union[int, str]], str]


def ordered(kinds: list[Optional[str]]) -> Callable[[list[str]], Order]:
    """The order of rows of values of the given types: by the values, then by first day. Texts go by
    their code points, which are in the order of their UTF-8 bytes."""
    def key(row: list[str]) -> Order:
        return [int(cell) if kind == 'INTEGER' else cell
                for cell, kind in zip(row, kinds)], row[-4]
    return key


def joined(slices: list[SliceFile], number: int, kinds: list[Optional[str]]) -> Iterator[list[str]]:
    """The rows of an answer: values, first day, end, held and absent."""
    streams = [rows(part, number) for part in slices]
    row = None
    for other in heapq.merge(*streams, key=ordered(kinds)):
        if row is not None and row[-3] == other[-4] and row[:-4] == other[:-4]:
            row[-3] = other[-3]
            continue
        if row is not None:
            yield row
        row = other
    if row is not None:
        yield row
