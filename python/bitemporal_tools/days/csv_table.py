"""An answer that was written as CSV, as tools/answers and tools like it write it."""
import os

from bitemporal_tools.command_line import Fault
from bitemporal_tools.days.numbers import LAST, ordinal
from bitemporal_tools.days.rows import DayRow, DayTable, picked
from bitemporal_tools.loading.csv_file import CsvFile

START, ENDS = 'valid_from', {'valid_to': 0, 'last_day': 1}
WITNESS = ('held', 'absent')


def csv_table(path: str) -> DayTable:
    """The rows of a file, `-` for standard input, whose columns name a first day and an end or a
    last day."""
    file = CsvFile(path)
    if file.bad:
        raise Fault(file.told()[0], status=1)
    ends = [name for name in file.header if name in ENDS]
    if file.header.count(START) != 1 or len(ends) != 1:
        raise Fault(f'{path}: the columns are {", ".join(file.header)}, and {START} and valid_to'
                    ' are needed, or last_day in its place')
    places = [place for place, name in enumerate(file.header)
              if name not in (START, ends[0], *WITNESS)]
    start, end = file.header.index(START), file.header.index(ends[0])
    rows = []
    for line, cells in file.records:
        try:
            last = min(ordinal(cells[end]) + ENDS[ends[0]], LAST)
            rows.append(DayRow(picked(cells, places), ordinal(cells[start]), last))
        except ValueError as error:
            raise Fault(f'{path}:{line}: {error}', status=1) from None
    name = os.path.splitext(os.path.basename(path))[0]
    columns = [name.upper() for name in picked(file.header, places)]
    return DayTable(1, name, name, columns, [], rows)
