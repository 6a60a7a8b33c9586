"""Changes of a good store, after which it is good or bad, in whichever form it is.

It is SQL with names for three moments, as the store's form counts them: {first}, {clock} and
{forever}.
"""
from collections.abc import Sequence

from store_files import FIRST, LAST, MICROSECONDS, SECONDS, Day, Value, bytes_of, number

# Three tables, and their definitions as the profile spells them. WRK refers to EMP.
CREATE = """CREATE TABLE EMP (ENO INTEGER, DEPT INTEGER, S DATE, E DATE,
 SS TIMESTAMP(12) GENERATED ALWAYS AS ROW START, SE TIMESTAMP(12) GENERATED ALWAYS AS ROW END,
 PERIOD FOR EP (S, E), PERIOD FOR SYSTEM_TIME (SS, SE),
 PRIMARY KEY (ENO, EP WITHOUT OVERLAPS)) WITH SYSTEM VERSIONING;
CREATE TABLE WRK (WNO INTEGER, ENO INTEGER, S DATE, E DATE,
 SS TIMESTAMP GENERATED ALWAYS AS ROW START, SE TIMESTAMP GENERATED ALWAYS AS ROW END,
 PERIOD FOR WP (S, E), PERIOD FOR SYSTEM_TIME (SS, SE),
 PRIMARY KEY (WNO, WP WITHOUT OVERLAPS),
 FOREIGN KEY (ENO, PERIOD WP) REFERENCES EMP (ENO, PERIOD EP)) WITH SYSTEM VERSIONING;
CREATE TABLE NOTE (T VARCHAR(9), D DATE, S DATE, E DATE,
 SS TIMESTAMP GENERATED ALWAYS AS ROW START, SE TIMESTAMP GENERATED ALWAYS AS ROW END,
 PERIOD FOR NP (S, E), PERIOD FOR SYSTEM_TIME (SS, SE),
 PRIMARY KEY (D, T, NP WITHOUT OVERLAPS)) WITH SYSTEM VERSIONING;
"""
EMP, WRK, NOTE = 1, 2, 3
DAYS: list[Value] = ['S', 3, 0, 'E', 3, 0]
DEFINITIONS: list[list[Value]] = [
    ['EMP', 6, 'ENO', 1, 0, 'DEPT', 1, 0, *DAYS, 'SS', 4, 12, 'SE', 5, 12, 'EP', 2, 3, 1, 0, 0],
    ['WRK', 6, 'WNO', 1, 0, 'ENO', 1, 0, *DAYS, 'SS', 4, -1, 'SE', 5, -1, 'WP', 2, 3, 1, 0,
     1, EMP, 1, 1, 0],
    ['NOTE', 6, 'T', 2, 9, 'D', 3, 0, *DAYS, 'SS', 4, -1, 'SE', 5, -1, 'NP', 2, 3, 2, 1, 0, 0],
]


def row(table: int, values: Sequence[Value], start: Day, end: Day, since: str = '{clock}',
        until: str = '{forever}') -> str:
    """SQL that adds a version."""
    return (f"INSERT INTO bt_version VALUES ({table}, x'{bytes_of(values).hex()}', {number(start)},"
            f' {number(end)}, {since}, {until});')


def define(place: int, values: Sequence[Value]) -> str:
    """SQL that adds a definition, or puts it in the place of another."""
    return f"INSERT OR REPLACE INTO bt_table VALUES ({place}, x'{bytes_of(values).hex()}');"


def with_tables(count: int) -> str:
    """SQL that adds tables until `count` are there."""
    return ''.join(define(place, [f'T{place}', *DEFINITIONS[0][1:]])
                   for place in range(4, count + 1))


# In place of bt_version: a table without its key, and one with a key in which versions that begin
# as one are two.
COLUMNS = ('tab INTEGER NOT NULL, vals BLOB NOT NULL, s INTEGER NOT NULL, e INTEGER NOT NULL,'
           ' ss INTEGER NOT NULL, se INTEGER NOT NULL')
WITHOUT_KEY = f'DROP TABLE bt_version; CREATE TABLE bt_version ({COLUMNS}) STRICT;'
KEY_WITH_ENDS = (f'DROP TABLE bt_version; CREATE TABLE bt_version ({COLUMNS},'
                 ' PRIMARY KEY (tab, vals, s, e)) STRICT;')

# A good store: the tables, the clock at 2024-01-01, and 1 of EMP in January. This is done to it:
ENDED = {'since': '{clock} - 9', 'until': '{clock}'}
# Two ended versions of one table, with the same values, first day and beginning.
TWINS = [row(EMP, [2, 3], '2024-01-01', end, **ENDED) for end in ('2024-01-02', '2024-01-03')]
GOOD = [
    ('nothing', ''),
    ('tables alone', 'DELETE FROM bt_version'),
    ('64 tables', with_tables(64)),
    ('the first clock', 'DELETE FROM bt_version;'
     'UPDATE bt_meta SET clock = {first}'),
    ('the last clock', 'UPDATE bt_meta SET clock = {forever} - 1'),
    ('the first and the last day', row(EMP, [2, 3], FIRST, LAST)),
    ('the first moment', row(EMP, [2, 3], FIRST, LAST, '{first}')),
    ('a text as long as it may be', row(NOTE, ['\U0001f600' * 9, LAST], FIRST, LAST)),
    ('rows of one key that meet', row(EMP, [1, 4], '2024-02-01', '2024-03-01')),
    ('rows of two keys on one day', row(EMP, [2, 3], '2024-01-01', '2024-02-01')),
    ('a row of the same key that has ended', row(EMP, [1, 4], FIRST, LAST, **ENDED)),
    ('a row that was replaced', row(EMP, [1, 3], '2024-01-01', '2024-02-01', **ENDED)),
    ('a row with its parent', row(WRK, [7, 1], '2024-01-01', '2024-02-01')),
    ('a row with two parents, one after the other', row(WRK, [7, 1], '2024-01-15', '2024-02-15')
     + row(EMP, [1, 4], '2024-02-01', '2024-03-01')),
    ('an ended row without a parent', row(WRK, [7, 2], FIRST, LAST, **ENDED)),
    ('an ended row with a parent on some days', row(WRK, [7, 1], FIRST, LAST, **ENDED)),
    ('no version, and no key of these', WITHOUT_KEY),
    ('versions of a table without its key', WITHOUT_KEY + TWINS[0]
     + row(EMP, [1, 3], '2024-01-01', '2024-02-01')
     + row(EMP, [2, 3], '2024-01-01', '2024-01-03', since='{clock} - 8', until='{clock}')
     + row(EMP, [2, 3], '2024-01-02', '2024-01-03', **ENDED)
     + row(EMP, [2, 4], '2024-01-01', '2024-01-03', **ENDED)
     + row(EMP, [1, 3], '2024-01-01', '2024-02-01', **ENDED)
     + row(NOTE, ['a', LAST], '2024-01-01', '2024-01-03')),
    ('versions of a table with another key', KEY_WITH_ENDS + TWINS[0]
     + row(EMP, [1, 3], '2024-01-01', '2024-02-01')),
]
BAD = [
    ('no bt_version', 'DROP TABLE bt_version'),
    ('no bt_table', 'DROP TABLE bt_table'),
    ('no bt_meta', 'DROP TABLE bt_meta'),
    ('bt_meta without a row', 'DELETE FROM bt_meta'),
    ('bt_meta with two rows', 'INSERT INTO bt_meta VALUES (2, 1, 0)'),
    ('bt_meta with the number 2', 'UPDATE bt_meta SET id = 2'),
    ('bt_meta without a clock', 'DROP TABLE bt_meta;'
     'CREATE TABLE bt_meta (id INTEGER PRIMARY KEY, form INTEGER NOT NULL) STRICT;'
     'INSERT INTO bt_meta VALUES (1, 1)'),
    ('the form 9', 'UPDATE bt_meta SET form = 9'),
    ('the form 3', 'UPDATE bt_meta SET form = 3'),
    ('the form 0', 'UPDATE bt_meta SET form = 0'),
    ('the form -1', 'UPDATE bt_meta SET form = -1'),
    ('the other form', 'UPDATE bt_meta SET form = 3 - form'),
    ('FOREVER as the clock', 'UPDATE bt_meta SET clock = {forever}'),
    ('a clock before the first moment', 'DELETE FROM bt_version;'
     'UPDATE bt_meta SET clock = {first} - 1'),
    ('tables without the number 3', 'UPDATE bt_table SET id = 4 WHERE id = 3'),
    ('tables from 0', 'DELETE FROM bt_version; UPDATE bt_table SET id = id - 1'),
    ('65 tables', with_tables(65)),
    ('two tables of one name', define(4, DEFINITIONS[0])),
    ('a definition that is cut', define(3, DEFINITIONS[2][:-1])),
    ('a definition with more after it', define(3, [*DEFINITIONS[2], 0])),
    ('a definition without bytes', "UPDATE bt_table SET def = x'' WHERE id = 3"),
    ('VARCHAR(0)', define(3, [*DEFINITIONS[2][:4], 0, *DEFINITIONS[2][5:]])),
    ('a reference of WRK to itself', define(2, [*DEFINITIONS[1][:-4], WRK, *DEFINITIONS[1][-3:]])),
    ('a reference to a later table',
     define(2, [*DEFINITIONS[1][:-4], NOTE, *DEFINITIONS[1][-3:]])),
    ('a version of table 4', 'UPDATE bt_version SET tab = 4'),
    ('a version of table 0', 'UPDATE bt_version SET tab = 0'),
    ('bytes of no values', "UPDATE bt_version SET vals = x'020001'"),
    ('no bytes', "UPDATE bt_version SET vals = x''"),
    ('one value', row(EMP, [2], FIRST, LAST)),
    ('three values', row(EMP, [2, 3, 4], FIRST, LAST)),
    ('a text as DEPT', row(EMP, [2, 'a'], FIRST, LAST)),
    ('a number as D', row(NOTE, ['a', 1], FIRST, LAST)),
    ('a text that is too long', row(NOTE, ['a' * 10, LAST], FIRST, LAST)),
    ('a text that is not UTF-8',
     row(NOTE, ['a', LAST], FIRST, LAST).replace("x'0261", "x'02ff")),
    ('a period without days', 'UPDATE bt_version SET s = e'),
    ('a period from its end on', row(EMP, [2, 3], LAST, FIRST)),
    ('a day after the last', f'UPDATE bt_version SET e = {number(LAST) + 1}'),
    ('a day before the first', f'UPDATE bt_version SET s = {number(FIRST) - 1}'),
    ('a version without moments', 'UPDATE bt_version SET se = ss'),
    ('a beginning after the clock', 'UPDATE bt_version SET ss = ss + 1'),
    ('an end after the clock', 'UPDATE bt_version SET se = ss + 1'),
    ('a beginning before the first moment', 'UPDATE bt_version SET ss = {first} - 1'),
    ('an end after FOREVER', 'UPDATE bt_version SET se = {forever} + 1'),
    ('the open end of the other form', f'UPDATE bt_version SET se = {SECONDS.forever} +'
     f' {MICROSECONDS.forever} - {{forever}}'),
    ('the last second, which is no open end', 'UPDATE bt_version SET se = 253402300799000000'),
    ('a version that begins twice', WITHOUT_KEY + TWINS[0] + TWINS[1]),
    ('a version that begins twice, with another in between',
     WITHOUT_KEY + TWINS[0] + row(EMP, [1, 3], '2024-01-01', '2024-02-01') + TWINS[1]),
    ('a version that begins twice, between others', WITHOUT_KEY
     + row(WRK, [7, 1], FIRST, LAST, **ENDED) + TWINS[1]
     + row(EMP, [2, 2], '2024-01-01', '2024-01-02', **ENDED) + TWINS[0]
     + row(EMP, [2, 4], '2024-01-01', '2024-01-02', **ENDED)),
    ('a current version that an ended one begins as', WITHOUT_KEY + TWINS[0]
     + row(EMP, [1, 3], '2024-01-01', '2024-02-01')
     + row(EMP, [2, 3], '2024-01-01', '2024-01-03', since=ENDED['since'])),
    ('a version that begins twice, by another key', KEY_WITH_ENDS + TWINS[0]
     + row(EMP, [1, 3], '2024-01-01', '2024-02-01') + TWINS[1]),
    ('a second row of a key on one day', row(EMP, [1, 4], '2024-01-31', '2024-03-01')),
    ('a second row of the same values', row(EMP, [1, 3], '2023-12-01', '2024-01-02')),
    ('a row of a key within another', row(EMP, [1, 4], '2024-01-15', '2024-01-16')),
    ('a key of two columns twice on one day', row(NOTE, ['a', LAST], '2024-01-01', '2024-01-03')
     + row(NOTE, ['a', LAST], '2024-01-02', '2024-01-04')),
    ('a row without a parent', row(WRK, [7, 2], '2024-01-01', '2024-02-01')),
    ('a row without a parent on its first day', row(WRK, [7, 1], '2023-12-31', '2024-02-01')),
    ('a row without a parent on its last day', row(WRK, [7, 1], '2024-01-01', '2024-02-02')),
    ('a row without a parent in between', row(WRK, [7, 1], '2024-01-15', '2024-02-15')
     + row(EMP, [1, 4], '2024-02-02', '2024-03-01')),
    ('a row with an ended parent', row(WRK, [7, 2], '2024-01-01', '2024-02-01')
     + row(EMP, [2, 3], FIRST, LAST, **ENDED)),
]
# A constraint that forbids the moments of form 2, and not form 1's.
FORBIDS_THE_MOVE = (
    'DROP TABLE bt_version; CREATE TABLE bt_version (tab INTEGER NOT NULL, vals BLOB NOT NULL,'
    ' s INTEGER NOT NULL, e INTEGER NOT NULL, ss INTEGER NOT NULL CHECK (ss < 1000000000000),'
    ' se INTEGER NOT NULL, PRIMARY KEY (tab, vals, s, ss)) STRICT;'
    + row(EMP, [1, 3], '2024-01-01', '2024-02-01'))
