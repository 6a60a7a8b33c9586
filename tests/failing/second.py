"""Sessions of the second program, with each allocation refused in turn.

Each session is run over a store of its own once for each allocation that it makes, and that one is
refused, by the library of fuzz/allocations. A statement or a command is then refused by 61, and all
else is reported as without it; or the session ends in the fault of memory. The store has what the
statements did that were reported, and after a fault perhaps what the next one does; a copy is there
if that was reported, whole, and no other file. (Without memory as it ends a run may leave the log,
which the store does not need then.)
"""
import functools
import os
import pathlib
import re
import shutil
import sqlite3
import subprocess
import tempfile

from failing.stores import CREATE
from folders import ROOT
import program
import store_files

LIBRARY = ROOT / 'fuzz/allocations/refuse.c'
MEMORY = '/dev/shm'  # a folder in memory
MONTHS = [f"AT TIMESTAMP '2024-{month:02}-01 00:00:00'" for month in range(2, 5)]
TABLE, *_, FIRST_ROW, _, _ = CREATE.split(';\n')
BEFORE = [TABLE, FIRST_ROW, MONTHS[0], 'UPDATE EMP SET DEPT = 5']
INSERT = """INSERT INTO EMP VALUES (7, 3, DATE '2024-01-01', DATE '2024-07-01'),
 (8, 3, DATE '2024-01-01', DATE '2024-02-01')"""
UPDATE = "UPDATE EMP FOR PORTION OF EP FROM DATE '2024-02-01' TO DATE '2024-03-01' SET DEPT = 4"
DELETE = 'DELETE FROM EMP WHERE ENO = 8'
QUERY = 'VALIDTIME SELECT DISTINCT DEPT FROM EMP'
# The words of a session, its statements and commands, and whether a store is there before it.
SESSIONS = {
    'a new store': ([], [*BEFORE, QUERY, 'SELECT * FROM EMP', '.clock', '.tables'], False),
    'a copy': ([], [MONTHS[1], INSERT, UPDATE, '.backup COPY', MONTHS[2], DELETE, '.verify'], True),
    'by the clock': (['--now', '--audit'], [
        INSERT, UPDATE, '.backup COPY', DELETE, QUERY, '.no', 'SELECT ?', MONTHS[0], '.verify'],
        True),
}
# Texts that differ between two runs at the system's time.
MOMENT, SUM = re.compile(r'\d{4}-\d\d-\d\d \d\d:\d\d:\d\d(?:\.\d{6})?'), re.compile('sum,.*')
FOREVER = store_files.MICROSECONDS.forever
OF_STATEMENTS = {'done', 'refused', 'answer', 'columns', 'row', 'versions', 'version', 'audit'}
FAULT = 'bitemporal_file: 61 Memory'
NAMELESS = 'bitemporal: 61 Memory'  # before the program knows by which name it is called
WITHOUT_NUMBERS = ('bitemporal_file: versions were replaced or deleted at the moment of their'
                   ' recording')


def run(words, given, **env):
    """The status, the report and the lines on standard error of the second program."""
    ended = subprocess.run(['bitemporal_file', *words], executable=program.PROGRAM, input=given,
                           env={**os.environ, **env}, capture_output=True, timeout=60, check=False)
    return ended.returncode, ended.stdout.decode(), ended.stderr.decode()


def groups_of(report):
    """The lines of a report, in a list for each statement and each command."""
    groups, before = [], None
    for line in report.splitlines():
        kind, number = line.split(',')[:2]
        turn = number if kind in OF_STATEMENTS else 'command'
        if turn != before:
            groups.append([])
        groups[-1].append(line)
        before = None if kind == 'command' else turn
    return groups


class Session:
    """A session, and what it reports and leaves."""

    def __init__(self, name, folder, library):
        self.words, self.parts, is_over_one = SESSIONS[name]
        self.is_timed = '--now' in self.words
        self.folder, self.library = folder, str(library)
        # Of each part the number that its statement has, or the next one.
        self.numbers = [1 + sum(before[0] != '.' for before in self.parts[:place])
                        for place in range(len(self.parts))]
        self.before = folder / 'before.store' if is_over_one else None
        if self.before:
            run([self.before], b';'.join(part.encode() for part in [*BEFORE, '']))
        self.left = functools.lru_cache(None)(self.find_left)

    def shown(self, text):
        """A report, without what differs between two runs."""
        return SUM.sub('sum,', MOMENT.sub('moment', text)) if self.is_timed else text

    def kept(self, file):
        """The content of a store's file, without what differs between two runs."""
        try:
            meta, tables, versions = store_files.contents(file)
        except sqlite3.OperationalError:  # there are no tables yet
            return []
        return [tables, sorted((*row[:4], row[5] == FOREVER) for row in versions)] \
            if self.is_timed else [meta, tables, versions]

    def run(self, parts, **env):
        """A run of these parts in a new folder: the status, the groups of the report, the lines on
        standard error, what the store and the copy have then, and what else is there."""
        with tempfile.TemporaryDirectory(dir=self.folder) as name:
            store, copy = (pathlib.Path(name, file) for file in ('a.store', 'copy.store'))
            if self.before:
                shutil.copy(self.before, store)
            text = ''.join(f'\n{part}\n' if part[0] == '.' else f'{part};' for part in parts)
            status, report, told = run([store, *self.words],
                                       text.replace('COPY', str(copy)).encode(), **env)
            names = set(os.listdir(name))
            if status != 2:  # then all is in the store alone, though its log may be left there
                store.with_name('a.store-wal').unlink(missing_ok=True)
            has = [self.kept(file) if file.name in names else None for file in (store, copy)]
        others = names - {'a.store', 'a.store-wal', 'copy.store'}
        return status, groups_of(self.shown(report)), told.splitlines(), has, others

    def find_left(self, places):
        """The groups of the report of the parts at these places alone, and the lines on standard
        error, both with the numbers of the whole, and what the store and the copy have then."""
        _, groups, told, has, _ = self.run([self.parts[place] for place in places])
        assert len(groups) == len(places), (places, groups)
        numbers = [self.numbers[place] for place in places if self.parts[place][0] != '.']
        return ({place: [re.sub(r'^(\w+),\d+', rf'\1,{self.numbers[place]}', line)
                         if self.parts[place][0] != '.' else line for line in group]
                 for place, group in zip(places, groups)},
                [re.sub(r'statement (\d+)', lambda found: f'statement {numbers[int(found[1]) - 1]}',
                        line) for line in told], has)

    def refusals(self, place):
        """The groups of a part that is refused for memory. A copy is built in files in memory: if
        these get none, it is refused as by a disk."""
        part = self.parts[place]
        if part[0] != '.':
            return [[f'refused,{self.numbers[place]},61,Memory,']]
        word = re.match('[a-z]*', part[1:])[0]
        return [[f'command,{word},refused,61,Memory,'],
                *[['command,backup,refused,62,Store,']] * (word == 'backup')]

    def is_right(self, status, groups, told, has, others):
        """Whether a run of which an allocation is refused ends as it may."""
        done = tuple(place for place, group in enumerate(groups)
                     if group not in self.refusals(place))
        wanted, *left = self.left(done)
        wanted = [wanted.get(place) or group for place, group in enumerate(groups)]
        for place, group in enumerate(groups):
            if group[-1] == f'audit,{self.numbers[place]},refused,61':
                wanted[place] = [*wanted[place][:-1], group[-1]]
        if status == 2 and not groups and not self.before and has == [None, None]:
            return told in ([FAULT], [NAMELESS]) and not others
        if status == 2:  # the last records may lack some, and what comes next may be done
            after = self.left((*done, len(groups)))[1:] if len(groups) < len(self.parts) else left
            is_cut = groups[:-1] == wanted[:-1] and \
                groups[-1:] == [wanted[-1][:len(groups[-1])]] if groups else True
            return is_cut and not others and \
                (told[-1:] == [FAULT] or not groups and told == [NAMELESS]) and \
                any(is_told(told[:-1], lines) and has == there for lines, there in (left, after))
        lines = [line for group in groups for line in group]
        worst = 3 if any(re.match('audit,.*refused', line) for line in lines) else \
            int(any(line.startswith('refused,') for line in lines))
        return (status, groups, has, others) == (worst, wanted, left[1], set()) and \
            is_told(told, left[0])


def is_told(told, wanted):
    """Whether these lines are the wanted ones, or have no memory for their numbers."""
    return len(told) == len(wanted) and all(
        line in (other, WITHOUT_NUMBERS) for line, other in zip(told, wanted))


def trial(name, library, folder, pool):
    """Whether all runs of a session end as they may, and a line about them."""
    session = Session(name, folder, library)
    plain, count = session.left(tuple(range(len(session.parts)))), folder / 'count'
    found = session.run(session.parts, LD_PRELOAD=str(library), COUNT_TO=str(count))
    if not session.is_right(*found):
        return False, f'{name}, none refused: {found} in place of {plain}'
    made = int(count.read_text())
    ends = pool.map(lambda first: session.run(session.parts, LD_PRELOAD=str(library),
                                              REFUSE_AT=str(first)), range(1, made + 1))
    wrong = [(first, end) for first, end in enumerate(ends, 1) if not session.is_right(*end)]
    return not wrong, f'{name}: {made} allocations' + ''.join(
        f', from {first} on: {end}' for first, end in wrong[:1])


def trial_ahead(library, folder, pool):
    """Whether a store whose clock is ahead is refused or memory is, and it stays as it is."""
    store, count = folder / 'ahead.store', folder / 'count'
    run([store], f"{TABLE};AT TIMESTAMP '9998-01-01 00:00:00';".encode())

    def end(name, **env):
        shutil.copy(store, folder / name)
        found = run([folder / name, '--now'], f'{INSERT};'.encode(), LD_PRELOAD=str(library), **env)
        return (*found, (folder / name).read_bytes() == store.read_bytes())

    plain = end('plain', COUNT_TO=str(count))
    ends = list(pool.map(lambda first: end(first, REFUSE_AT=first),
                         map(str, range(1, int(count.read_text()) + 1))))
    wrong = [ended for ended in ends if ended not in (
        plain, *((2, '', f'{fault}\n', True) for fault in (FAULT, NAMELESS)))]
    is_well = plain[:2] + plain[3:] == (2, '', True) and 'is ahead' in plain[2] and not wrong
    return is_well, f'a clock that is ahead: {len(ends)} allocations {plain[2]} {wrong[:1]}'


def trials(folder, pool):
    """Counts the sessions that passed and those that failed; each failure is printed."""
    library = folder / 'refuse.so'
    subprocess.run(['cc', '-shared', '-fPIC', '-O1', '-o', library, LIBRARY, '-ldl'], check=True)
    program.build()
    passed = failed = 0
    for test in [*(functools.partial(trial, name) for name in SESSIONS), trial_ahead]:
        with tempfile.TemporaryDirectory(dir=MEMORY if os.access(MEMORY, os.W_OK) else None) as own:
            is_well, line = test(library, pathlib.Path(own), pool)
        passed, failed = passed + is_well, failed + (not is_well)
        print(f'{"ok" if is_well else "failed:"} {line}', flush=True)
    return passed, failed
