"""Many audited scripts in one run of the program, which is built without a proof in a copy outside
the repository, as it is or with edits.

It is `rt try` that builds it, with the checks of the address sanitizer. It keeps no executable, and
takes seconds for each run, so tests/laid_main.rs runs all scripts. A build takes some two minutes.
"""
import pathlib
import re
import subprocess
import tempfile
from collections.abc import Mapping, Sequence

from folders import ROOT
from builds.sums import lay_copy

MAIN = ROOT / 'tests/laid_main.rs'
CRATE = 'crates/bitemporal_cli'
Edits = Mapping[str, Sequence[tuple[str, str]]]
AT_ONCE = 20  # scripts in a run: `rt try` takes no more than 1 MiB of their reports


def lay(copy: pathlib.Path, edits: Edits) -> None:
    """Copies what a build reads, and not what earlier builds made, and makes the edits: files, each
    with pairs of an old text, which has to be there just once, and a new one."""
    lay_copy(copy, MAIN)
    for name, pairs in edits.items():
        text = (copy / name).read_text(encoding='utf-8')
        for old, new in pairs:
            if text.count(old) != 1:
                raise SystemExit(f'{name} has {text.count(old)} times, and not once: {old}')
            text = text.replace(old, new)
        (copy / name).write_text(text, encoding='utf-8')


def run(scripts: Sequence[str], edits: Edits) -> list[tuple[int, bytes]]:
    """The status and the report of each script."""
    with tempfile.TemporaryDirectory() as name:
        copy, cases = pathlib.Path(name, 'copy'), pathlib.Path(name, 'cases')
        copy.mkdir()
        cases.mkdir()
        lay(copy, edits)
        for start in range(0, len(scripts), AT_ONCE):
            (cases / f'from{start:05}').write_bytes(b''.join(
                script.encode() + b'\xff' for script in scripts[start:start + AT_ONCE]))
        tried = subprocess.run(
            ['rt', 'try', '--steps', '1', '--seconds', '900', '--cases', cases],
            cwd=copy / CRATE, stdin=subprocess.DEVNULL, capture_output=True, check=False)
    # The first lines of the parts are `rt try`'s.
    printed = re.sub(rb'^== from\d+\n', b'', tried.stdout, flags=re.M)
    *reports, _ = re.split(rb'^== (\d+)\n', printed, flags=re.M)
    if len(reports) != 2 * len(scripts):
        raise SystemExit(f'it did not run all: {tried.stderr.decode(errors="replace")}')
    return list(zip(map(int, reports[1::2]), reports[::2]))
