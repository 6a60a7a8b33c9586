"""Adds the folders of modules that tools/folders.py lists, for the programs next to this file."""
import pathlib
import runpy

ROOT: pathlib.Path = runpy.run_path(
    str(pathlib.Path(__file__).resolve().parents[1] / 'tools/folders.py'))['ROOT']
