"""Writes the whole history of a store as texts.

    tools/dump STORE --to FOLDER
    tools/dump STORE --script [--to FILE]

FOLDER is made, and gets the clock in `dump.csv`, the CREATE TABLE statements in `tables.sql`, and
for each table NAME.csv with all its versions, both periods among their cells. A diff of two such
folders is a diff of two histories, and tools/restore makes the store again.

With --script there is a script of CREATE TABLE, AT, INSERT, UPDATE and DELETE, on standard output
or in FILE. (One of more than 4 MiB is sent to a session.) Run over an empty store, by any program
of the profile, it makes the same rows as of each moment and each day. It is run once to see whether
it also makes the very versions, since days may be cut otherwise. That is printed, and a script that
the program would refuse is not written: its states break a key or a reference that the table was
given later.

STORE is never written. The exit status is 0; 1 if no script makes the history; and 2 if a
file can't be read or written, or FOLDER or FILE exists already.
"""
import os
import shutil
import sys
import tempfile
from collections.abc import Sequence
from typing import BinaryIO, cast

from bitemporal_tools import command_line, options
from bitemporal_tools.command_line import Fault
from bitemporal_tools.stores import history_files, reading
from bitemporal_tools.stores.history_script import write_checked
from bitemporal_tools.stores.reading import Store
from bitemporal_tools.stores.writing import part_of, put_in_place, sync


def write_folder(store: Store, folder: str) -> None:
    """Writes the folder under another name first. Who may read the store may read it."""
    with part_of(folder) as part:
        made = os.path.join(part, 'dump')
        os.mkdir(made)
        history_files.write(store, made)
        for name in os.listdir(made):
            os.chmod(os.path.join(made, name), store.mode)
            sync(os.path.join(made, name))
        os.chmod(made, 0o700 | store.mode | store.mode >> 2 & 0o111)
        sync(made)
        os.rename(made, folder)
        sync(os.path.dirname(part))


def write_script(store: Store, path: str) -> None:
    """Writes the script to standard output, or by another name first."""
    with tempfile.TemporaryFile() as file:
        script = cast(BinaryIO, file)
        told = write_checked(store, script)
        script.seek(0)
        if path:
            with part_of(path) as part:
                with open(os.path.join(part, 'script'), 'wb') as output:
                    shutil.copyfileobj(script, output)
                os.chmod(output.name, store.mode)
                put_in_place(output.name, path)
        else:
            shutil.copyfileobj(script, sys.stdout.buffer)
            sys.stdout.buffer.flush()
    print(f'dump: {told}', file=sys.stderr)


def main(arguments: Sequence[str]) -> int:
    parser = command_line.parser('dump', __doc__, 'STORE [--script] --to PLACE')
    options.add(parser, {'STORE': ''})
    options.add(parser, {'--to PLACE': 'the folder, or the script'}, default='')
    options.add(parser, {'--script': 'write a script'})
    wanted = parser.parse_args(arguments)
    if not wanted.to and not wanted.script:
        raise Fault('--to FOLDER names the folder that is made')
    if os.path.lexists(wanted.to):
        raise Fault(f'{wanted.to} is there already')
    with reading.opened(wanted.store) as store:
        (write_script if wanted.script else write_folder)(store, wanted.to)
    return 0
