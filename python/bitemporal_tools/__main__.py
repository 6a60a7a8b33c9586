"""The command `bitemporal-tools`: a tool by its name, with the words after it.

    bitemporal-tools SUBCOMMAND ..

Each subcommand shows its own help by --help:

{}
"""
import importlib
import sys
from collections.abc import Sequence
from typing import Optional

from bitemporal_tools import command_line

# The module of each subcommand. Its `main` takes the words, and gives the exit status.
SUBCOMMANDS = {name: f'{package}.{name.replace("-", "_")}' for package, names in {
    'bitemporal_tools': ('run', 'explain', 'load', 'answers', 'totals', 'durations', 'ever',
                         'timeline', 'versions', 'session', 'alter', 'dump', 'restore', 'history',
                         'diff', 'forget'),
    'bitemporal_server': ('serve',),
    'bitemporal_scale': ('over-days', 'to-postgresql', 'compare-postgresql', 'distribute'),
}.items() for name in names}


def main(words: Optional[Sequence[str]] = None) -> None:
    """Runs a tool, and ends with its status. The words are the command line's."""
    name, *rest = words if words is not None else sys.argv[1:] or ['--help']
    name = name.replace('_', '-')
    if name in ('-h', '--help'):
        print((__doc__ or '').format('\n'.join(f'    {known}' for known in SUBCOMMANDS)), end='')
    elif name not in SUBCOMMANDS:
        print(f'bitemporal-tools: there is no subcommand {name}; --help lists them',
              file=sys.stderr)
        sys.exit(2)
    else:
        tool = importlib.import_module(SUBCOMMANDS[name])
        command_line.run(name.replace('-', '_'), lambda: int(tool.main(rest)))


if __name__ == '__main__':
    main()
