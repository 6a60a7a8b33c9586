"""Stores in files that are odd: what else may be in the file, and what damage there may be."""
import collections
import re
import shutil
import sqlite3
import subprocess

PAGE = 4096
CREATE = """CREATE TABLE EMP (ENO INTEGER, DEPT INTEGER, S DATE, E DATE,
 SS TIMESTAMP GENERATED ALWAYS AS ROW START, SE TIMESTAMP GENERATED ALWAYS AS ROW END,
 PERIOD FOR EP (S, E), PERIOD FOR SYSTEM_TIME (SS, SE),
 PRIMARY KEY (ENO, EP WITHOUT OVERLAPS)) WITH SYSTEM VERSIONING;
CREATE TABLE WRK (WNO INTEGER, ENO INTEGER, S DATE, E DATE,
 SS TIMESTAMP GENERATED ALWAYS AS ROW START, SE TIMESTAMP GENERATED ALWAYS AS ROW END,
 PERIOD FOR WP (S, E), PERIOD FOR SYSTEM_TIME (SS, SE),
 PRIMARY KEY (WNO, WP WITHOUT OVERLAPS),
 FOREIGN KEY (ENO, PERIOD WP) REFERENCES EMP (ENO, PERIOD EP)) WITH SYSTEM VERSIONING;
AT TIMESTAMP '2024-01-01 00:00:00';
INSERT INTO EMP VALUES (22217, 3, DATE '2010-01-01', DATE '2011-11-12');
INSERT INTO WRK VALUES (1, 22217, DATE '2010-01-01', DATE '2010-02-01');
AT TIMESTAMP '2024-01-02 00:00:00'"""
CHANGE = """UPDATE EMP FOR PORTION OF EP FROM DATE '2011-02-03' TO DATE '2011-09-10' SET DEPT = 4;
SELECT * FROM EMP"""
# One row is updated, and three current versions exist then.
CHANGED = re.compile(rb'opened\ndone,1,update,1\nversions,2,6,3\n')

# Changes of the store by sqlite3, each with how it has to end: it is opened and changed; it, or the
# change, is refused with this number; or it is not opened by the kit's `sqlite` at all.
OPENED, UNOPENED = 'opened', 'unopened'
VERSION_COLUMNS = ('tab INTEGER NOT NULL, vals BLOB NOT NULL, s INTEGER NOT NULL,'
                   ' e INTEGER NOT NULL, ss INTEGER NOT NULL, se INTEGER NOT NULL')
KEY = ', PRIMARY KEY (tab, vals, s, ss)'


def remade(columns, ending='STRICT', names='tab, vals, s, e, ss, se', table='bt_version'):
    """SQL by which a table is made anew with other columns, and gets its rows again."""
    return (f'ALTER TABLE {table} RENAME TO old; CREATE TABLE {table} ({columns}) {ending};'
            f' INSERT INTO {table} ({names}) SELECT {names} FROM old; DROP TABLE old;')


ODD = [
    ('nothing', '', OPENED),
    ('other tables', 'CREATE TABLE other (a INTEGER PRIMARY KEY, b TEXT);'
     "INSERT INTO other VALUES (1, 'x'), (2, NULL);"
     'CREATE TABLE third (a REFERENCES other) WITHOUT ROWID;'
     .replace('(a REFERENCES other)', '(a PRIMARY KEY)'), OPENED),
    ('an index on another table', 'CREATE TABLE other (a, b); CREATE INDEX ab ON other (b, a)',
     OPENED),
    ('a view of another table', 'CREATE TABLE other (a); CREATE VIEW seen AS SELECT a FROM other',
     OPENED),
    ('a trigger on another table', 'CREATE TABLE other (a); CREATE TRIGGER t AFTER INSERT ON other'
     ' BEGIN DELETE FROM other; END', OPENED),
    ('a view of the versions', 'CREATE VIEW seen AS SELECT vals FROM bt_version', OPENED),
    ('an index on the versions', 'CREATE INDEX by_end ON bt_version (se)', OPENED),
    ('a unique index on the versions', 'CREATE UNIQUE INDEX u ON bt_version (tab, vals, s, ss)',
     OPENED),
    ('a unique index that forbids the change', 'CREATE UNIQUE INDEX u ON bt_version (tab, ss)',
     62),
    ('an index of an expression on the versions', 'CREATE INDEX x ON bt_version (s + e)', 60),
    ('a trigger on the versions', 'CREATE TRIGGER t AFTER INSERT ON bt_version BEGIN'
     ' DELETE FROM bt_version WHERE s = 0; END', 60),
    ('a view in the place of the versions', 'ALTER TABLE bt_version RENAME TO kept;'
     'CREATE VIEW bt_version AS SELECT * FROM kept', 60),
    ('a further column', 'ALTER TABLE bt_version ADD COLUMN note TEXT', OPENED),
    ('a further column of each table', 'ALTER TABLE bt_version ADD COLUMN note TEXT;'
     'ALTER TABLE bt_meta ADD COLUMN note TEXT; ALTER TABLE bt_table ADD COLUMN note TEXT', OPENED),
    ('a further column with a default, and rows from before',
     'ALTER TABLE bt_version ADD COLUMN n INTEGER NOT NULL DEFAULT 5', UNOPENED),
    ('a further column with a default, and rows written anew',
     'ALTER TABLE bt_version ADD COLUMN n INTEGER NOT NULL DEFAULT 5; UPDATE bt_version SET n = 6',
     OPENED),
    ('a further column without a default that may not be NULL',
     remade(f'{VERSION_COLUMNS}, n INTEGER NOT NULL DEFAULT 5{KEY}')
     .replace(' DEFAULT 5', '').replace('se) SELECT tab, vals, s, e, ss, se FROM',
                                        'se, n) SELECT tab, vals, s, e, ss, se, 7 FROM'), 62),
    ('columns in another order', remade('se INTEGER NOT NULL, ss INTEGER NOT NULL,'
     ' e INTEGER NOT NULL, s INTEGER NOT NULL, vals BLOB NOT NULL, tab INTEGER NOT NULL' + KEY),
     OPENED),
    ('versions without their key', remade(VERSION_COLUMNS), OPENED),
    ('versions of a table that is not STRICT', remade(VERSION_COLUMNS + KEY, ''), OPENED),
    ('versions without a rowid', remade(VERSION_COLUMNS + KEY, 'STRICT, WITHOUT ROWID'), 60),
    ('a generated column', remade(VERSION_COLUMNS + ', n INTEGER AS (s + e)' + KEY), 60),
    ('a CHECK that forbids the change', remade(VERSION_COLUMNS + f', CHECK (ss < 99){KEY}')
     .replace('ss < 99', 'ss <= 1704067200 OR ss > 9999999999 AND ss <= 1704067200000000'), 62),
    ('the three tables in another order', remade(VERSION_COLUMNS + KEY)
     + remade('id INTEGER PRIMARY KEY, def BLOB NOT NULL', names='id, def', table='bt_table')
     + remade('id INTEGER PRIMARY KEY, form INTEGER NOT NULL, clock INTEGER NOT NULL',
              names='id, form, clock', table='bt_meta'), OPENED),
    ('no bt_meta', 'DROP TABLE bt_meta', 60),
    ('no bt_table', 'DROP TABLE bt_table', 60),
    ('no bt_version', 'DROP TABLE bt_version', 60),
]


# Files next to the store, as other programs may have left them.
BESIDE = [('-journal', b''), ('-journal', b'no journal' * 99), ('-wal', b''),
          ('-wal', b'no log' * 99), ('-wal', bytes(4096))]
# The bytes of a page that are changed in turn.
PLACES = [0, 1, 3, 5, 8, 20, 60, 100, 512, 2048, 4000, 4090, 4095]


def over(program, env, file, script, part='store'):
    """The program's output of a script over the store in a file."""
    ran = subprocess.run([program, part, file], input=script.encode(), env=env, timeout=900,
                         stdout=subprocess.PIPE, stderr=subprocess.STDOUT, check=False)
    return ran.stdout if ran.returncode == 0 else b'status %d: ' % ran.returncode + ran.stdout


def done(file, sql):
    """A change of a file by sqlite3."""
    connection = sqlite3.connect(file)
    connection.executescript(sql)
    connection.close()


def dump(file):
    """All that sqlite3 reads in a file, as SQL."""
    connection = sqlite3.connect(file)
    text = list(connection.iterdump())
    connection.close()
    return text


def rest(file):
    """The content besides the rows of the three tables."""
    return [line for line in dump(file) if not line.startswith('INSERT INTO "bt_')]


def is_sound(file):
    connection = sqlite3.connect(file)
    found = connection.execute('PRAGMA integrity_check').fetchall()
    connection.close()
    return found == [('ok',)]


def hot_journal(file):
    """Leaves the file, and a journal next to it, as a process leaves them that ends within a
    transaction. Gives them as they are."""
    connection = sqlite3.connect(file, isolation_level=None)
    connection.executescript(
        'PRAGMA journal_mode = DELETE; CREATE TABLE other (a, b);'
        'WITH RECURSIVE n (a) AS (SELECT 1 UNION ALL SELECT a + 1 FROM n WHERE a < 400)'
        ' INSERT INTO other SELECT a, zeroblob(900) FROM n;'
        'PRAGMA cache_size = 2; BEGIN;'
        "UPDATE other SET b = randomblob(900); UPDATE bt_version SET e = e + 1;")
    journal = file.with_name(f'{file.name}-journal')
    left = file.read_bytes(), journal.read_bytes()
    connection.close()
    file.write_bytes(left[0])
    journal.write_bytes(left[1])
    return left


class Trial:
    """One file with how it has to end."""

    def __init__(self, name, file, wanted, beside=None):
        self.name, self.file, self.wanted, self.beside = name, file, wanted, beside
        self.head = 'not run'

    def files(self):
        """The bytes of the store and of what was left next to it."""
        return [file.read_bytes() for file in (self.file, self.beside) if file]

    def run(self, program, env):
        """The fault of the end of a run, or nothing."""
        before = self.files()
        rows = dump(self.file) if isinstance(self.wanted, int) else None
        others = rest(self.file) if self.wanted == OPENED else None
        printed = over(program, env, self.file, CHANGE)
        head = self.head = printed.partition(b'\n')[0].decode()
        if head not in (OPENED, UNOPENED, 'refused 60', 'refused 62'):
            return f'{printed}'
        if head != OPENED and self.files() != before:
            return f'{head}, and it is not left as it was'
        if self.wanted is None:
            return None
        if self.wanted == OPENED:
            is_changed = CHANGED.match(printed) and is_sound(self.file)
            return None if is_changed and rest(self.file) == others else f'{printed}'
        if self.wanted == UNOPENED:
            return None if head == UNOPENED else f'{printed}'
        is_refused = head == f'refused {self.wanted}' or printed.startswith(
            b'opened\nrefused,1,%d,' % self.wanted)
        return None if is_refused and dump(self.file) == rows else f'{printed}'


def trials(base, folder):
    """Each odd store, as a file of its own."""
    whole = base.read_bytes()
    pages = len(whole) // PAGE
    damaged = [(f'cut after {size} bytes', whole[:size])
               for size in range(PAGE // 2, len(whole), PAGE // 2)]
    damaged += [(f'byte {place} of page {page + 1} changed', whole[:page * PAGE + place]
                 + bytes([whole[page * PAGE + place] ^ 0x55]) + whole[page * PAGE + place + 1:])
                for page in range(pages) for place in PLACES]
    for at, (name, sql, wanted) in enumerate(ODD):
        file = folder / f'odd{at}.db'
        shutil.copy(base, file)
        done(file, sql)
        yield Trial(name, file, wanted)
    for at, (name, text) in enumerate(damaged):
        file = folder / f'damaged{at}.db'
        file.write_bytes(text)
        yield Trial(name, file, None)
    for at, (ending, text) in enumerate(BESIDE):
        file = folder / f'beside{at}.db'
        shutil.copy(base, file)
        beside = file.with_name(f'{file.name}{ending}')
        beside.write_bytes(text)
        yield Trial(f'{len(text)} bytes in {ending}', file, None,
                    beside if ending == '-journal' else None)
    file = folder / 'hot.db'
    shutil.copy(base, file)
    hot_journal(file)
    yield Trial('a transaction that did not end', file, UNOPENED,
                file.with_name(f'{file.name}-journal'))


def run(program, env, folder, pool):
    """The numbers of odd stores that end as they have to, and of those that don't."""
    if sqlite3.sqlite_version_info < (3, 37):
        print('stores: no sqlite3 with STRICT tables here, so they are left out')
        return 0, 0
    base = folder / 'base.db'
    printed = over(program, env, base, CREATE, 'closed')
    if not printed.startswith(b'opened\n') or not is_sound(base):
        print(f'failed: no store: {printed}')
        return 0, 1
    every = list(trials(base, folder))
    wrong = list(pool.map(lambda trial: trial.run(program, env), every))
    for trial, what in zip(every, wrong):
        if what:
            print(f'failed: {trial.name}: {what}')
    failed = sum(what is not None for what in wrong)
    heads = collections.Counter(trial.head for trial in every)
    print(f'stores: {len(every)} files:', *(f'{heads[head]} {head}' for head in sorted(heads)))
    return len(every) - failed, failed
