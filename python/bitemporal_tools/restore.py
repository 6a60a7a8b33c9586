"""Makes a store of the texts that tools/dump wrote.

    tools/restore FOLDER --to NEW.store

NEW.store has the same clock, tables and versions as the store that was dumped. Each cell is read by
the type of its column, and the program judges the store as it opens it: if it refuses it, the
cause is reported and there is no NEW.store.

The exit status is 0; 1 if the program refuses the store; and 2 if FOLDER is no dump, a file
can't be read or written, or NEW.store exists already.
"""
from collections.abc import Sequence

from bitemporal_tools import command_line
from bitemporal_tools.command_line import counted, write_output
from bitemporal_tools.stores import history_files, writing


def main(arguments: Sequence[str]) -> int:
    parser = command_line.parser('restore', __doc__, 'FOLDER --to NEW.store')
    parser.add_argument('folder', metavar='FOLDER')
    parser.add_argument('--to', metavar='NEW.store', required=True, help='the store that is made')
    options = parser.parse_args(arguments)
    dump = history_files.Dump(options.folder)
    tables = [listed.table for listed in dump.tables]
    writing.make(options.to, '', dump.clock, tables, dump.versions())
    count = sum(listed.versions for listed in dump.tables)
    write_output(f'{options.to}: {counted(len(tables), "table")}, {counted(count, "version")}\n',
                 options.to)
    return 0
