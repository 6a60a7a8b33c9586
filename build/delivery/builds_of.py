"""The build that is installed or packed."""
import subprocess

from builds import sums

MISSING = ('there is no proved program of these sources; ./bitemporal --prove makes it, and'
           ' --unproved takes the quick build')


def is_there(kind: str) -> bool:
    """Whether there is a build of this kind of the sources as they are. A quick one is made."""
    words = ['proved', '--sources', '--only-look'] if kind == 'proved' else ['quick']
    return subprocess.run([sums.ROOT / 'build/make', *words], check=False).returncode == 0
