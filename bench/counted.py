"""Scripts whose instructions are counted, and their counting by valgrind: so the machine may have
other things to do. BITEMPORAL=FILE counts another program's."""
import random
import re
import subprocess
import sys
from datetime import date, timedelta

import folders  # noqa: F401
from bitemporal_tools.program import PROVED, named_or

PROGRAM = named_or(PROVED)
FIRST = date(2000, 1, 1)
LATER = "AT TIMESTAMP '2024-01-01 00:00:00';\n"


def create(name, references=''):
    return (f'CREATE TABLE {name} (K INTEGER, V INTEGER, S DATE, E DATE,\n'
            ' SS TIMESTAMP GENERATED ALWAYS AS ROW START, SE TIMESTAMP GENERATED ALWAYS AS ROW END,\n'
            ' PERIOD FOR P (S, E), PERIOD FOR SYSTEM_TIME (SS, SE),\n'
            f' PRIMARY KEY (K, P WITHOUT OVERLAPS){references}) WITH SYSTEM VERSIONING;\n')


def day(number):
    return f"DATE '{FIRST + timedelta(number)}'"


def rows(table, these, each=800):
    """INSERTs of `each` rows each: a row is its key, its value, its first day and the day after its
    last."""
    text = ''
    for at in range(0, len(these), each):
        values = ','.join(f'({k},{v},{day(s)},{day(e)})' for k, v, s, e in these[at:at + each])
        text += f'INSERT INTO {table} VALUES {values};\n'
    return text


def scattered(count):
    numbers = list(range(count))
    random.Random(7).shuffle(numbers)
    return numbers


def counted_run(program, words, file, **streams):
    """A run of the program under valgrind, which writes the file, and how many instructions it
    needed."""
    ran = subprocess.run(
        ['valgrind', '--tool=callgrind', f'--callgrind-out-file={file}', program, *words],
        stderr=subprocess.PIPE, text=True, check=False, **streams)
    collected = re.search(r'Collected : (\d+)', ran.stderr)
    return ran, int(collected.group(1)) if collected else 0


def instructions(folder, script):
    """The number of instructions that the program needs for a script, in which no statement is
    refused."""
    file = folder / 'script.sql'
    file.write_text(script)
    ran, count = counted_run(PROGRAM, ['run', file], folder / 'counted', stdout=subprocess.PIPE)
    if ran.returncode != 0 or 'refused' in ran.stdout:
        sys.exit(f'{sys.argv[0]}: a statement was refused, or the program failed:\n{ran.stderr[-500:]}')
    return count
