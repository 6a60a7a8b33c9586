"""The origin of a build: the release or the commit of its sources, and whether it is proved."""
from __future__ import annotations

import shutil
import subprocess

from . import sums

# Digits of a commit and of a sum that are reported.
DIGITS = 12
# Places of the files that a build is made from.
SOURCES = ['crates', 'crates.txt']


def git(*words: str) -> str | None:
    """The answer of `git` about the repository, if it is one and has what is asked for."""
    if not (sums.ROOT / '.git').exists() or shutil.which('git') is None:
        return None
    ran = subprocess.run(['git', *words], cwd=sums.ROOT, capture_output=True, text=True,
                         check=False)
    return ran.stdout.strip() if ran.returncode == 0 else None


def sources(build: sums.Build) -> str:
    """The release whose tag is at the commit, or else the commit; outside a repository the sum
    of the sources."""
    tag = git('describe', '--tags', '--exact-match')
    commit = git('rev-parse', f'--short={DIGITS}', 'HEAD')
    if not commit:
        return f'sources {build.sources()[:DIGITS]}'
    named = f'release {tag}' if tag else f'commit {commit}'
    return f'{named} with changes' if git('status', '--porcelain', '--', *SOURCES) else named


def made_from(name: str) -> str:
    """The line that `--version` ends with, of the build of this name, which is of the sources as
    they are."""
    build, kind = (sums.PROVED, 'proved') if name == 'proved' else (sums.QUICK, 'unproved')
    return f'{sources(build)}, {kind}'
