"""The words of a tool as a table: how each is written, and its help."""
import argparse
from collections.abc import Mapping
from typing import Any


def add(parser: 'argparse._ActionsContainer', words: Mapping[str, str], **more: Any) -> None:
    """Adds SCRIPT, [REPORT] (may be left out), --raw (a sign) and --by COLUMNS (has a value). What
    else is given is the same for all of them."""
    for written, what in words.items():
        *names, last = written.split()
        if last.startswith('-'):
            parser.add_argument(*names, last, action='store_true', help=what, **more)
        elif names:
            parser.add_argument(*names, metavar=last, help=what, **more)
        else:
            name = last.strip('[]')
            count: dict[str, Any] = {} if name == last else {'nargs': '?'}
            parser.add_argument(name.partition('.')[0].lower(), metavar=name, help=what or None,
                                **count, **more)
