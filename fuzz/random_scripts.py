"""The random scripts of the two models as texts, by the numbers of their seeds."""
import random
from collections.abc import Collection, Iterator

import random_checks
import random_runs

FORMS = ('changes', 'keys', 'queries', 'stored')


def check_script(seed: int) -> bytes:
    """The script of random_checks with this number."""
    return bytes(random_checks.Author(seed).script())


def run_script(seed: int) -> bytes:
    """The script of random_runs with this seed, with all forms."""
    return text_of(seed, random_runs.RUNS.split(',')).encode()


def text_of(seed: int, forms: Collection[str]) -> str:
    """A script of random_runs with these forms; every second one is written in odd ways."""
    statements = random_runs.Generator(random.Random(seed), set(forms)).script()
    writer = random_runs.Writer(random.Random(str(seed)) if seed % 2 else None)
    return str(writer.script([writer.statement(statement) for statement in statements]))


def scripts(first: int, count: int, forms: Collection[str] = FORMS,
            without: Collection[str] = ()) -> Iterator[tuple[int, str]]:
    """Pairs of a seed and a script of random_runs, for so many seeds from the first on. The texts
    in `without` are in none."""
    for text in without:
        random_runs.TEXTS.remove(text)
    for seed in range(first, first + count):
        yield seed, text_of(seed, forms)
