"""Runs a tool of the packages in python/, for the programs of this folder."""
import sys

import folders  # noqa: F401  (by which the packages are found)
from bitemporal_tools.__main__ import main


def run(name: str) -> None:
    """Runs the tool of this name with the words of the command line."""
    main([name, *sys.argv[1:]])
