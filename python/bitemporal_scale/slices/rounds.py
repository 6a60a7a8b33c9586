"""Runs until all slices agree which statements are refused.

A statement that breaks a key or a reference on some day (42, 43) is refused in the slice of that
day, and no other slice knows of it. It changes nothing in any slice then. So after the first
statement that one slice refuses and another does not, the reports of those that did it are wrong:
it is taken out of those slices, which are run again.
"""
from collections.abc import Callable
from typing import Optional

from .outcomes import outcomes
from .slice_file import Loaded, SliceFile

KEY_OVERLAP, PERIOD_REFERENCE = '42', '43'


class Disagreement(Exception):
    """Slices that refuse a statement in a way that no rows explain."""


class RefusedRows(Exception):
    """Loaded rows that break a key or a reference."""


def settled(slices: list[SliceFile], numbers: list[int], run: Callable[[list[SliceFile]], None],
            told: Callable[[int, list[SliceFile]], None]) -> dict[int, list[str]]:
    """Runs the slices, and gives the fields of the refused record of each statement that rows
    decide to refuse. `run` runs slices; before each round after the first `told` gets the number of
    the statement, and the slices that are run again without it."""
    refused, again = dict[int, list[str]](), slices
    while True:
        run(again)
        for part in again:
            part.outcomes = outcomes(part)
            check_loaded(part)
        number = first_divided(slices, numbers, refused)
        if number is None:
            return refused
        again = [part for part in slices if number in part.outcomes
                 and part.outcomes[number].kind != 'refused']
        for part in again:
            part.take_out(number)
        told(number, again)


def check_loaded(part: SliceFile) -> None:
    for number, outcome in part.outcomes.items():
        if isinstance(number, Loaded) and outcome.kind == 'refused':
            raise RefusedRows(f"{number.path}: its rows are refused: {' '.join(outcome.fields)}")


def first_divided(slices: list[SliceFile], numbers: list[int],
                  refused: dict[int, list[str]]) -> Optional[int]:
    """The first statement that some slices refuse and some do not. What those refuse that come
    before it, or that all refuse, is added to `refused`."""
    for number in numbers:
        found = [part.outcomes[number] for part in slices if number in part.outcomes]
        kinds = {outcome.kind for outcome in found}
        if 'refused' not in kinds:
            continue
        records = [outcome.fields for outcome in found if outcome.kind == 'refused']
        if {code for code, _, _ in records} <= {KEY_OVERLAP, PERIOD_REFERENCE}:
            if number not in refused:
                refused[number] = min(records, key=lambda record: (int(record[0]), record[2]))
            if len(kinds) > 1:
                return number
        elif len(kinds) > 1 or any(record != records[0] for record in records):
            code, name, _ = min(records)
            raise Disagreement(f'statement {number} is refused in some slices by {code} {name}')
        else:
            refused[number] = records[0]
    return None
