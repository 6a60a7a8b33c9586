"""Makes an export of a payroll by chance, the same for the same seed: four CSV files in a folder.

    python3 export.py [--seed N] FOLDER

staff.csv has 6,000 lines about 400 workers: 5,200 as they were entered, and 800 corrections. `to`
is the last day, and empty if there is none; `recorded at` has fractions of a second.
managers.csv says who manages a department, with handovers, gaps, and two at once. absences.csv says
who is away. night.csv has 50 corrections of a later night.
"""
import argparse
import csv
import datetime
import pathlib
import random
from collections.abc import Iterable, Iterator, Sequence

WORKERS, LINES, CORRECTIONS, AT_NIGHT, DEPARTMENTS = 400, 6_000, 800, 50, 12
FIRST, LAST = datetime.date(2016, 1, 1), datetime.date(2024, 12, 31)
NAMES = ["O'Neil, Ann", 'Zoë Müller', '=cmd', 'Łukasz Żak', 'Max "Mad" Ray', 'de la Cruz; Eva',
         '@home', 'Nguyễn Văn An', 'Smith\\', '-1', 'Björk  Ó', '李雷', 'Anna-Lena', "D'Arcy", 'X Æ',
         '1984']
Row = list[object]
Portion = tuple[datetime.date, datetime.date]  # a first and a last day
DAY = datetime.timedelta(1)


def cents(number: int) -> str:
    return f'{number // 100}.{number % 100:02}'


def cut(dice: random.Random, first: datetime.date, last: datetime.date, count: int,
        has_gaps: bool) -> list[Portion]:
    """Portions of the days from first to last; of some the second half is left out."""
    days = sorted(dice.sample(range(1, (last - first).days), count - 1))
    starts = [first, *(first + day * DAY for day in days)]
    ends = [*(start - DAY for start in starts[1:]), last]
    if has_gaps:
        ends = [end - (end - start) // 2 if end < last and dice.random() < 0.15 else end
                for start, end in zip(starts, ends)]
    return list(zip(starts, ends))


def run_before(day: datetime.date) -> str:
    """The moment of the payroll's last run before the month of a day."""
    before = day.replace(day=1) - DAY
    return f'{before.replace(day=25)} 18:00:00.{before.year * before.month:06}'


def some_moment(dice: random.Random, near: datetime.date) -> str:
    """A moment at which somebody entered a correction, before the end of the last day."""
    day = min(max(near + dice.randrange(-12, 12) * DAY, FIRST), LAST)
    moment = datetime.datetime.combine(day, datetime.time(8)) + datetime.timedelta(
        seconds=dice.randrange(9 * 3600), microseconds=dice.randrange(1_000_000))
    return moment.isoformat(' ', 'microseconds')


def worker(dice: random.Random, number: int, count: int) -> Iterator[Row]:
    """The lines of one worker as they were entered."""
    name = f'{dice.choice(NAMES)} {number}' if number % 3 else dice.choice(NAMES)
    hired = FIRST + dice.randrange(1_200) * DAY
    last = LAST if dice.random() < 0.7 else hired + dice.randrange(900, 2_000) * DAY
    dept, grade, pay = dice.randrange(1, DEPARTMENTS + 1), dice.randrange(1, 5), 250_000
    for first, end in cut(dice, hired, min(last, LAST), count, dice.random() < 0.3):
        pay += dice.randrange(-5_000, 15_000)
        if dice.random() < 0.25:
            dept = dice.randrange(1, DEPARTMENTS + 1)
        if dice.random() < 0.15:
            grade = min(grade + 1, 6)
        yield [number, name, dept, grade, cents(pay), first, '' if end == LAST else end,
               run_before(first)]


def night_moment(place: int) -> str:
    """The moment at which a correction of the later night was entered."""
    return f'2025-01-20 22:{place:02}:00.{place:06}'


def correction(dice: random.Random, line: Row) -> Row:
    """A later line about some days of an earlier one, with another pay, grade or department."""
    number, name, dept, grade, pay, first, last, _ = line
    assert isinstance(first, datetime.date)
    end = last if isinstance(last, datetime.date) else LAST
    start = first + dice.randrange((end - first).days + 1) * DAY
    until = start + dice.randrange((end - start).days + 1) * DAY
    what = dice.random()
    if what < 0.6:
        pay = cents(int(str(pay).replace('.', '')) + dice.randrange(1, 20_000))
    elif what < 0.8:
        grade = dice.randrange(1, 7)
    else:
        dept = dice.randrange(1, DEPARTMENTS + 1)
    to = '' if until == LAST and last == '' else until
    return [number, name, dept, grade, pay, start, to, some_moment(dice, start + 200 * DAY)]


def staff(dice: random.Random) -> list[Row]:
    base = LINES - CORRECTIONS
    counts = [base // WORKERS + (number < base % WORKERS) for number in range(WORKERS)]
    lines = [line for number, count in enumerate(counts, 101)
             for line in worker(dice, number, count)]
    lines += [correction(dice, line) for line in dice.sample(lines, CORRECTIONS)]
    return sorted(lines, key=lambda line: str(line[-1]))


def night(dice: random.Random, lines: Sequence[Row]) -> Iterator[Row]:
    """Corrections that are entered later."""
    for place, line in enumerate(dice.sample(lines, AT_NIGHT)):
        yield [*correction(dice, line)[:-1], night_moment(place)]


def managers(dice: random.Random) -> Iterator[Row]:
    """Managers of departments: portions with gaps, and now and then a second manager."""
    for dept in range(1, DEPARTMENTS + 1):
        for place, (first, last) in enumerate(cut(dice, FIRST, LAST, 9, True)):
            yield [dept, 900 + dept * 20 + place, first, '' if last == LAST else last]
            if dice.random() < 0.2 and last < LAST:
                yield [dept, 910 + dept * 20 + place, last - dice.randrange(20) * DAY, last]


def absences(dice: random.Random) -> Iterator[Row]:
    for number in range(101, 101 + WORKERS):
        day = FIRST + dice.randrange(1_500) * DAY
        for _ in range(dice.randrange(6)):
            last = day + dice.randrange(1, 60) * DAY
            yield [number, dice.choice(['ill', 'leave', 'course']), day, last]
            day = last + dice.randrange(3, 400) * DAY


def write(path: pathlib.Path, header: Sequence[str], lines: Iterable[Row]) -> None:
    with open(path, 'w', encoding='utf-8', newline='') as file:
        writer = csv.writer(file, lineterminator='\n')
        writer.writerow(header)
        writer.writerows(lines)


def main() -> None:
    parser = argparse.ArgumentParser(description=__doc__,
                                     formatter_class=argparse.RawDescriptionHelpFormatter)
    parser.add_argument('--seed', metavar='N', type=int, default=1)
    parser.add_argument('folder', metavar='FOLDER', type=pathlib.Path)
    wanted = parser.parse_args()
    dice = random.Random(wanted.seed)
    wanted.folder.mkdir(parents=True, exist_ok=True)
    header = ['number', 'name', 'dept', 'grade', 'pay', 'from', 'to', 'recorded at']
    lines = staff(dice)
    write(wanted.folder / 'staff.csv', header, lines)
    write(wanted.folder / 'managers.csv', ['dept', 'manager', 'from', 'to'], managers(dice))
    write(wanted.folder / 'absences.csv', ['number', 'kind', 'from', 'to'], absences(dice))
    write(wanted.folder / 'night.csv', header, night(dice, lines))


if __name__ == '__main__':
    main()
