"""The folders of the repository that have Python modules, for the programs of the others. (Each
folder whose programs import modules has a folders.py that runs this one: rt ci takes no links.)"""
import pathlib
import sys

ROOT = pathlib.Path(__file__).resolve().parent.parent
sys.path += [str(ROOT / folder) for folder in ('python', 'python/tests', 'tests', 'fuzz', 'build')]
