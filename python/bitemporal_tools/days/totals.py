"""The counts and sums of an answer's rows, by groups."""
from bitemporal_tools.command_line import Fault
from bitemporal_tools.days.rows import DayTable, picked
from bitemporal_tools.days.steps import Share, Step, steps


def totals(table: DayTable, by: str, counts: bool, sums: str,
           keeps_gaps: bool = False) -> tuple[list[str], list[Step]]:
    """The names of the totals, and their steps for each group of rows that are alike in the columns
    `by`: the number of its rows, if it `counts`, and the sums of columns."""
    groups, summed = table.places(by), table.places(sums)
    names = ['COUNT'] * counts + [f'SUM_{table.columns[place]}' for place in summed]
    if not names:
        raise Fault('write --count, --sum COLUMNS, or both')
    columns = [[1] * len(table.rows)] * counts + [table.numbers(place) for place in summed]
    shares = (Share(picked(row.values, groups), amounts, row.start, row.end)
              for row, amounts in zip(table.rows, zip(*columns)))
    return names, list(steps(shares, keeps_gaps))
