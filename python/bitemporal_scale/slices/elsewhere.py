"""Slices that are run elsewhere: cut into a folder, and joined once their reports exist.

With the slices the folder has slices.json: the sum of the script, and of each slice its days and
where its statements are, so that neither the script nor loaded files are cut again.
"""
import datetime
import hashlib
import json
import pathlib
from typing import Union

from .slice_file import Loaded, Numbered, SliceFile

NAME = 'slices.json'


class BadFolder(Exception):
    """A folder in which slices can't be put, or that has none of the script."""


class Waiting(Exception):
    """Slices to run elsewhere, for the first time or once more: `slices`."""

    def __init__(self, slices: list[SliceFile]) -> None:
        super().__init__()
        self.slices = slices


def new_folder(folder: pathlib.Path) -> None:
    """Makes the folder, which may be there if it is empty."""
    folder.mkdir(parents=True, exist_ok=True)
    if any(folder.iterdir()):
        raise BadFolder(f'{folder} is not empty')


def sum_of(script: bytes) -> str:
    return hashlib.sha256(script).hexdigest()


def keep(folder: pathlib.Path, script: bytes, slices: list[SliceFile]) -> None:
    """Writes down which slices of a script, given as bytes, are in the folder."""
    described = [{'low': str(part.low), 'high': str(part.high),
                  'spans': [[kept_number(number), place, length]
                            for number, place, length in part.spans]} for part in slices]
    text = json.dumps({'script': sum_of(script), 'slices': described})
    (folder / NAME).write_text(text, encoding='utf-8')


def kept_number(number: Numbered) -> Union[int, dict[str, str]]:
    return {'loaded': str(number.path)} if isinstance(number, Loaded) else number


def read_number(kept: Union[int, dict[str, str]]) -> Numbered:
    return Loaded(kept['loaded']) if isinstance(kept, dict) else kept


def read(folder: pathlib.Path, script: bytes) -> list[SliceFile]:
    """The slices of the script in the folder."""
    try:
        found = json.loads((folder / NAME).read_text(encoding='utf-8'))
        slices = [SliceFile(folder, datetime.date.fromisoformat(part['low']),
                            datetime.date.fromisoformat(part['high']),
                            [(read_number(number), place, length)
                             for number, place, length in part['spans']])
                  for part in found['slices']]
        kept = found['script']
    except OSError as error:
        raise BadFolder(f'{folder} has no slices: {error}') from None
    except (KeyError, TypeError, ValueError):
        raise BadFolder(f'{folder / NAME} is not what over_days --cut writes') from None
    if kept != sum_of(script):
        raise BadFolder(f'the slices in {folder} are not of this script')
    return slices


class Elsewhere:
    """The runs elsewhere. The reports exist at first; if slices have to be run again, what
    stays of them is written, and their reports are removed."""

    def __init__(self, folder: pathlib.Path, script: bytes, slices: list[SliceFile]) -> None:
        self.folder, self.script, self.slices = folder, script, slices
        self.is_first = True

    def run(self, slices: list[SliceFile]) -> None:
        if not self.is_first:
            keep(self.folder, self.script, self.slices)
            for part in slices:
                part.report.unlink()
        self.is_first = False
        waiting = [part for part in slices if not part.report.exists()]
        if waiting:
            raise Waiting(waiting)
