"""The table function `totals` of outer queries: counts and sums of an answer's rows on each day, as
the fewest periods, by the options that tools/totals has.

    SELECT * FROM totals((VALIDTIME SELECT DISTINCT ENO, DEPT, PAY FROM EMP), '--by DEPT --count')
"""
from typing import Any, Iterable, NamedTuple, Sequence

from bitemporal_tools.command_line import Fault
from bitemporal_tools.days.numbers import iso, ordinal
from bitemporal_tools.days.rows import DayRow, DayTable
from bitemporal_tools.days.steps import Step
from bitemporal_tools.days.totals import totals
from bitemporal_tools.sql.lexis import Token

from . import values
from .lexis import taken, text_of
from .problems import SYNTAX, Problem
from .wire import Column

PERIOD = ['valid_from', 'valid_to', 'held', 'absent']


def wanted(text: str) -> 'dict[str, Any]':
    """The options that a text has: columns of groups and of sums, and whether rows are counted and
    gaps left in."""
    found: 'dict[str, Any]' = {'--by': '', '--count': False, '--sum': '', '--zero': False}
    words = iter(text.split())
    for word in words:
        if word not in found:
            raise Problem(SYNTAX, f'totals has no option {word}',
                          hint='It has --by COLUMNS, --count, --sum COLUMNS and --zero.')
        found[word] = next(words, '') if word in ('--by', '--sum') else True
    return found


class Totals(NamedTuple):
    """A call: the name of its table, the columns and the place of its answer, and its options."""
    name: str
    place: int
    inner: 'list[Column]'
    wanted: 'dict[str, Any]'

    def columns(self) -> 'list[Column]':
        """The columns of the totals: the groups', the counts and sums, and the period."""
        names, _ = self.totals([])
        return [*(self.inner[place] for place in self.table([]).places(self.wanted['--by'])),
                *(values.column(name, values.INTEGER) for name in names),
                *(values.column(name, values.DATE) for name in PERIOD[:2])]

    def table(self, rows: Iterable[Sequence[str]]) -> DayTable:
        """The rows of the answer, each with its values, its period and its witness."""
        names = [column.name for column in self.inner]
        if names[-4:] != PERIOD:
            raise Problem(SYNTAX, 'totals wants a sequenced query',
                          hint='Write totals((VALIDTIME SELECT DISTINCT ..), \'--count\').')
        return DayTable(1, '', 'of totals', names[:-4],
                        [column.kind.name for column in self.inner[:-4]],
                        [DayRow(tuple(row[:-4]), ordinal(row[-4]), ordinal(row[-3]))
                         for row in rows])

    def totals(self, rows: Iterable[Sequence[str]]) -> 'tuple[list[str], list[Step]]':
        """The names of the counts and sums, and their steps."""
        try:
            return totals(self.table(rows), *self.wanted.values())
        except Fault as fault:
            raise Problem(SYNTAX, str(fault)) from None

    def rows(self, rows: Iterable[Sequence[str]]) -> 'list[list[str]]':
        """The rows of the totals."""
        return [[*step.group, *map(str, step.totals), iso(step.start), iso(step.end)]
                for step in self.totals(rows)[1]]


def calls(tokens: 'list[Token]',
          columns: 'Sequence[Sequence[Column]]') -> 'tuple[list[Token], list[Totals]]':
    """Tokens with a table's name in the place of each call, and the calls. `columns` are those of
    the answers, each of which is a token of the kind answer, named by its number."""
    found: 'list[Totals]' = []
    rest: 'list[Token]' = []
    at = 0
    while at < len(tokens):
        token = tokens[at]
        is_call = token.word == 'TOTALS'
        end = is_call and taken(tokens, at, 'TOTALS', '(', 'answer', ',', 'text', ')')
        if end:
            [answer, options] = [it for it in tokens[at:end] if it.kind in ('answer', 'text')]
            place = int(answer.text.rpartition('_')[2]) - 1
            found.append(Totals(f'totals_{len(found) + 1}', place, list(columns[place]),
                                wanted(text_of(options))))
            token = answer._replace(text=found[-1].name)
        rest.append(token)
        at = end or at + 1
    return rest, found
