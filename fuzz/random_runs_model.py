"""The model of fuzz/random_runs: statements, and what a script of them has to report.

It follows docs/PROFILE.md, rule by rule and without care for speed. It judges the statement that is
generated, not its text: it has no parser.

A table is stored twice. Its states are stored by moment and day: for each day the rows that hold on
it, over pieces of time in which no day differs from the next. A change acts on each day by itself,
and sequenced queries, keys and references are judged day by day. Its versions, rows with a period
and with the moments from which and to which they are recorded, are what stored queries show.
"""
import collections
import datetime

# Statements. Their lists are tuples. A literal is an int, a str, a date, or a BadDate.

# INTEGER, VARCHAR, DATE or TIMESTAMP; the n of VARCHAR(n), where None is 0, or the p of
# TIMESTAMP(p) or None; START or END of GENERATED ALWAYS AS ROW, or None.
Column = collections.namedtuple('Column', 'name kind number generated')
Period = collections.namedtuple('Period', 'name start end')  # the name may be SYSTEM_TIME
Key = collections.namedtuple('Key', 'columns period')
Reference = collections.namedtuple('Reference', 'columns period table table_columns table_period')
At = collections.namedtuple('At', 'moment')
Create = collections.namedtuple('Create', 'name elements')
Insert = collections.namedtuple('Insert', 'table columns rows')  # the columns may be None
Update = collections.namedtuple('Update', 'table portion sets where')  # the last may be None
Delete = collections.namedtuple('Delete', 'table portion where')  # and so may a portion
Portion = collections.namedtuple('Portion', 'period dates')  # two dates
Assignment = collections.namedtuple('Assignment', 'column value')
Stored = collections.namedtuple('Stored', 'table window where')  # the last two may be None
Query = collections.namedtuple('Query', 'query')  # a Select or a SetOperators
Select = collections.namedtuple('Select', 'items chains where')  # the last may be None
SetOperators = collections.namedtuple('SetOperators', 'first rest')  # a query, and Operands
Operand = collections.namedtuple('Operand', 'operator query')  # a word of OPERATORS, and to what
Item = collections.namedtuple('Item', 'column new_name')  # the last may be None
Chain = collections.namedtuple('Chain', 'table joins')  # a TableReference and Joins
Join = collections.namedtuple('Join', 'table on')
TableReference = collections.namedtuple('TableReference', 'name window new_name')
AsOf = collections.namedtuple('AsOf', 'moment')
FromTo = collections.namedtuple('FromTo', 'moment until')
Between = collections.namedtuple('Between', 'moment until')
BadDate = collections.namedtuple('BadDate', 'text')

# Conditions.
Or = collections.namedtuple('Or', 'conditions')
And = collections.namedtuple('And', 'conditions')
Not = collections.namedtuple('Not', 'condition')
Comparison = collections.namedtuple('Comparison', 'left sign right')  # of Names and literals
Predicate = collections.namedtuple('Predicate', 'span word other')  # of Names and Spans
ContainsDay = collections.namedtuple('ContainsDay', 'span date')
Name = collections.namedtuple('Name', 'qualifier column')  # the qualifier may be None
Span = collections.namedtuple('Span', 'dates')  # two dates

REFUSALS = {
    12: 'BadDate', 13: 'BadMoment', 14: 'NumberRange', 21: 'LimitReached',
    22: 'TableExists',
    23: 'UnknownTable', 24: 'UnknownColumn', 25: 'AmbiguousColumn', 26: 'DuplicateName',
    27: 'PeriodColumn', 28: 'BadDefinition', 29: 'ColumnCount', 30: 'TypeMismatch',
    31: 'TextTooLong', 40: 'MomentBack', 41: 'EmptyPeriod', 42: 'KeyOverlap',
    43: 'PeriodReference', 62: 'Store'}
# A moment is stored as reports print it: nineteen characters, and where its fraction of a second is
# not zero, a point and six digits. So moments compare as their texts do.
FOREVER = '9999-12-31 23:59:59.999999'
# Moments in order, and texts of none. FOREVER is none of a clock, nor of AS OF.
MOMENTS = ['0001-01-01 00:00:00', '2023-12-31 23:59:59.999999', '2024-01-01 00:00:00',
           '2024-01-01 00:00:00.000001', '2024-01-01 00:00:00.250000', '2024-01-01 00:00:01',
           '2024-02-29 12:30:00.123400', '9999-12-31 23:59:59', '9999-12-31 23:59:59.999998']
BAD_MOMENTS = ['', '2024-01-01', '2024-1-1 00:00:00', '2024-02-30 00:00:00',
               '2024-01-01 24:00:00', '2024-01-01 00:00:00.', '2024-01-01 00:00:00.1234567',
               '2024-01-01 00:00:00,5', '2024-01-01 00:00:00.5 ', '2024-01-01 00:00:00. 5']
MOST_TABLES, MOST_COLUMNS, MOST_REFERENCES, MOST_ITEMS, MOST_TOKENS = 64, 32, 8, 32, 10_000
MOST_TABLES_OF_A_SELECT, MOST_SET_OPERATORS = 4, 16
LEAST_NUMBER, GREATEST_NUMBER = -2 ** 63, 2 ** 63 - 1
KIND_OF = {int: 'INTEGER', str: 'VARCHAR', datetime.date: 'DATE', BadDate: 'DATE'}
FIRST, LAST, DAY = datetime.date.min, datetime.date.max, datetime.timedelta(days=1)

COMPARISONS = {
    '=': lambda left, right: left == right, '<>': lambda left, right: left != right,
    '<': lambda left, right: left < right, '<=': lambda left, right: left <= right,
    '>': lambda left, right: left > right, '>=': lambda left, right: left >= right}
# Of two sets of rows.
OPERATORS = {
    'UNION': lambda left, right: left | right, 'EXCEPT': lambda left, right: left - right,
    'INTERSECT': lambda left, right: left & right}
# Of two periods, each a start and an end.
PREDICATES = {
    'OVERLAPS': lambda xs, xe, ys, ye: xs < ye and ys < xe,
    'EQUALS': lambda xs, xe, ys, ye: xs == ys and xe == ye,
    'CONTAINS': lambda xs, xe, ys, ye: xs <= ys and ye <= xe,
    'PRECEDES': lambda xs, xe, ys, ye: xe <= ys,
    'SUCCEEDS': lambda xs, xe, ys, ye: ye <= xs,
    'IMMEDIATELY PRECEDES': lambda xs, xe, ys, ye: xe == ys,
    'IMMEDIATELY SUCCEEDS': lambda xs, xe, ys, ye: xs == ye}


def repeats(names):
    return len(set(names)) < len(names)


def parts(elements):
    """The columns, the periods of application time and of system time, the keys, the references."""
    columns, periods, keys, references = (
        [element for element in elements if isinstance(element, sort)]
        for sort in (Column, Period, Key, Reference))
    return (columns, [period for period in periods if period.name != 'SYSTEM_TIME'],
            [period for period in periods if period.name == 'SYSTEM_TIME'], keys, references)


def leaves(part):
    """The parts of a statement that are no tuples, and the literals that are BadDates."""
    if isinstance(part, tuple) and not isinstance(part, BadDate):
        for inner in part:
            yield from leaves(inner)
    else:
        yield part


def are_no_period(dates):
    return all(isinstance(date, datetime.date) for date in dates) and dates[0] >= dates[1]


def order(value):
    """The place of a value among those of its type: texts go by their bytes."""
    return value.encode() if isinstance(value, str) else value


# Days: a list of pieces, each a first day and what is on it and on all days before the next piece.
# The first begins on the first day, and the last ends before LAST.


def on(days, day):
    """The content of a day."""
    return [there for first, there in days if first <= day][-1]


def together(lists):
    """One list over all days from several, with a list of what is there in each."""
    firsts = sorted({first for days in lists for first, _ in days} | {FIRST})
    return [(first, [on(days, first) for days in lists]) for first in firsts]


def changed_days(days, dates, change):
    """The days, where what is on those from one date and before another is changed."""
    firsts = sorted({first for first, _ in days} | {date for date in dates if date < LAST})
    return [(first, change(on(days, first)) if dates[0] <= first < dates[1] else on(days, first))
            for first in firsts]


class Table:
    def __init__(self, name, elements):
        columns, [self.period], _, [key], self.references = parts(elements)
        self.name = name
        self.columns = {column.name: column for column in columns}
        self.key = key.columns
        self.generated = {column.name: column.generated for column in columns if column.generated}
        self.given = [column.name for column in columns if not column.generated]
        self.values = [name for name in self.given if name not in self.period]
        self.days = [(FIRST, ())]  # the values of each row, which a day may have several times
        self.past = []  # moments in order, each with the days after the last change at it
        self.versions = []  # a list each of values, start, end, since, until

    def place(self, column):
        return self.values.index(column)

    def kept(self, days, versions, moment):
        """After a change at a moment."""
        self.days, self.versions = days, versions
        if self.past and self.past[-1][0] == moment:
            self.past.pop()
        self.past.append((moment, days))

    def as_of(self, moment):
        """The days as they were after the last change at this moment or before it."""
        return [[(FIRST, ())], *(days for at, days in self.past if at <= moment)][-1]

    def seen(self, window):
        """The days with the set of rows that a window sees of each."""
        moments = [at for at, _ in self.past]
        if window is None:
            states = [self.days]
        elif isinstance(window, AsOf):
            states = [self.as_of(window.moment)]
        elif isinstance(window, FromTo):
            moments = [window.moment, *(at for at in moments if window.moment < at)]
            states = [self.as_of(at) for at in moments if at < window.until]
        else:
            moments = [window.moment, *(at for at in moments if window.moment < at)]
            states = [self.as_of(at) for at in moments if at <= window.until and at < FOREVER]
        return [(first, {row for rows in each for row in rows}) for first, each in together(states)]

    def shows(self, window, since, until):
        """Whether a window sees a version."""
        if window is None:
            return until == FOREVER
        if isinstance(window, AsOf):
            return since <= window.moment < until
        if isinstance(window, FromTo):
            return window.moment < window.until and since < window.until and until > window.moment
        return window.moment <= window.until >= since and until > window.moment


class Scope:
    """The tables whose columns a name may match, each by the name that it goes by."""

    def __init__(self, tables):
        self.tables = tables  # pairs of a name and a Table

    def found(self, name):
        """The places of the tables in which a name matches a column."""
        return [place for place, (known, table) in enumerate(self.tables)
                if name.qualifier in (None, known) and name.column in table.columns]

    def faults_of_name(self, name):
        found = self.found(name)
        if not found:
            yield 24
        if len(found) > 1:
            yield 25
        if any(name.column not in self.tables[place][1].values for place in found):
            yield 27

    def kind(self, operand):
        """The type of a name or a literal, if there is one."""
        if not isinstance(operand, Name):
            return KIND_OF[type(operand)]
        found = self.found(operand)
        return self.tables[found[0]][1].columns[operand.column].kind if found else None

    def faults(self, condition):
        if isinstance(condition, (Or, And)):
            for inner in condition.conditions:
                yield from self.faults(inner)
        elif isinstance(condition, Not):
            yield from self.faults(condition.condition)
        elif isinstance(condition, Comparison):
            for side in condition.left, condition.right:
                if isinstance(side, Name):
                    yield from self.faults_of_name(side)
            if len({self.kind(condition.left), self.kind(condition.right)} - {None}) > 1:
                yield 30
        elif isinstance(condition, ContainsDay):
            yield from self.faults_of_span(condition.span)
        elif isinstance(condition, Predicate):
            yield from self.faults_of_span(condition.span)
            yield from self.faults_of_span(condition.other)

    def faults_of_span(self, span):
        if isinstance(span, Name):
            [(known, table)] = self.tables
            if span.qualifier not in (None, known) or span.column != table.period.name:
                yield 24
        elif are_no_period(span.dates):
            yield 41

    def value(self, operand, rows):
        """The value of a name or a literal, if each table has one row."""
        if not isinstance(operand, Name):
            return operand
        [place] = self.found(operand)
        return rows[place][self.tables[place][1].place(operand.column)]

    def holds(self, condition, rows, period=None):
        """Whether a condition holds, of a row of each table or of one version."""
        if condition is None:
            return True
        if isinstance(condition, Or):
            return any(self.holds(inner, rows, period) for inner in condition.conditions)
        if isinstance(condition, And):
            return all(self.holds(inner, rows, period) for inner in condition.conditions)
        if isinstance(condition, Not):
            return not self.holds(condition.condition, rows, period)
        if isinstance(condition, Comparison):
            return COMPARISONS[condition.sign](order(self.value(condition.left, rows)),
                                               order(self.value(condition.right, rows)))
        start, end = period if isinstance(condition.span, Name) else condition.span.dates
        if isinstance(condition, ContainsDay):
            return start <= condition.date < end
        other = period if isinstance(condition.other, Name) else condition.other.dates
        return PREDICATES[condition.word](start, end, *other)


class Model:
    """The tables after some statements, and their report."""

    def __init__(self, keys, audits):
        self.keys = keys  # whether keys and references are checked
        self.audits = audits  # whether answers are audited
        self.clock = MOMENTS[0]
        self.tables = {}
        self.statements = 0
        self.report = ''
        self.status = 0
        # The statements that replace versions of their very moment, each with how many.
        self.replaced = []

    def check(self):
        """The model against itself: as of each moment the versions are the rows of each day."""
        for table in self.tables.values():
            firsts = {first for days in (table.days, *(days for _, days in table.past))
                      for first, _ in days} | {version[1] for version in table.versions}
            for moment in MOMENTS:
                days = table.as_of(moment)
                current = [version for version in table.versions
                           if version[3] <= moment < version[4]]
                for first in firsts:
                    rows = [values for values, start, end, _, _ in current if start <= first < end]
                    assert collections.Counter(rows) == collections.Counter(on(days, first))

    def record(self, first, *fields):
        fields = [str(field) for field in (first, self.statements, *fields)]
        self.report += ','.join('"' + field.replace('"', '""') + '"' if set(field) & set(',"\r\n')
                                else field for field in fields) + '\n'

    def step(self, statement, tokens):
        """Runs a statement that is written with so many tokens, or refuses it."""
        self.statements += 1
        faults, carry_out = {
            At: (self.faults_of_at, self.advance),
            Create: (self.faults_of_create, self.create),
            Insert: (self.faults_of_insert, self.insert),
            Update: (self.faults_of_change, self.update),
            Delete: (self.faults_of_change, self.delete),
            Stored: (self.faults_of_stored, self.stored),
            Query: (self.faults_of_query, self.query)}[type(statement)]
        if tokens > MOST_TOKENS:
            return self.refuse(21)
        least = min([*self.faults_of_literals(statement), *faults(statement)], default=None)
        return self.refuse(least) if least else carry_out(statement)

    def refuse(self, number, detail=''):
        self.record('refused', number, REFUSALS[number], detail)
        self.status = 1

    def faults_of_literals(self, statement):
        for leaf in () if isinstance(statement, Create) else leaves(statement):
            if isinstance(leaf, BadDate):
                yield 12
            elif isinstance(leaf, int) and not LEAST_NUMBER <= leaf <= GREATEST_NUMBER:
                yield 14

    def faults_of_at(self, at):
        if at.moment in BAD_MOMENTS or at.moment == FOREVER:
            yield 13
        elif at.moment < self.clock:
            yield 40

    def advance(self, at):
        self.clock = at.moment
        self.record('done', 'at', 0)

    def faults_of_create(self, create):
        columns, application, system, keys, references = parts(create.elements)
        names = [column.name for column in columns]
        sorts = {column.name: (column.kind, column.generated) for column in columns}
        numbers = [(column.kind, column.number or 0) for column in columns
                   if column.kind in ('VARCHAR', 'TIMESTAMP')]
        periods = [period.name for period in application]
        period_columns = [name for _, *both in application + system for name in both]
        lists = [element.columns for element in keys + references]
        own_columns = [name for own in lists for name in own]
        # The references to tables that exist, each with its table. Any other is 23.
        parents = [(reference, self.tables[reference.table])
                   for reference in references if reference.table in self.tables]
        if any(number > GREATEST_NUMBER for _, number in numbers):
            yield 14
        if (len(self.tables) >= MOST_TABLES or len(columns) > MOST_COLUMNS
                or len(references) > MOST_REFERENCES):
            yield 21
        if create.name in self.tables:
            yield 22
        if len(parents) < len(references):
            yield 23
        if (any(name not in names for name in period_columns + own_columns)
                or any(element.period not in periods for element in keys + references)
                or any(reference.table_period != parent.period.name
                       or any(name not in parent.columns for name in reference.table_columns)
                       for reference, parent in parents)):
            yield 24
        if any(names.count(name) > 1 for name in period_columns + own_columns):
            yield 25
        lists += [reference.table_columns for reference in references]
        if repeats(names + periods) or any(map(repeats, lists)):
            yield 26
        if any(name in period_columns or sorts.get(name, (None, None))[1] for name in own_columns):
            yield 27
        # A key or a reference over a wrong period has no line here: a name of no period is
        # 24, and a table of two application-time periods is 28 already.
        if (any(len(group) != 1 for group in (application, system, keys))
                or any([column.generated for column in columns].count(generated) != 1
                       for generated in ('START', 'END'))
                or any(start == end or {sorts.get(start), sorts.get(end)} != {('DATE', None)}
                       for _, start, end in application)
                or any(sorts.get(start) != ('TIMESTAMP', 'START')
                       or sorts.get(end) != ('TIMESTAMP', 'END') for _, start, end in system)
                or any((kind == 'TIMESTAMP') != (generated is not None)
                       for _, kind, _, generated in columns)
                or any(number > 12 if kind == 'TIMESTAMP' else not 1 <= number <= 1000
                       for kind, number in numbers)
                or any(set(reference.table_columns) != set(parent.key)
                       for reference, parent in parents)):
            yield 28
        if any(len(reference.columns) != len(reference.table_columns) for reference in references):
            yield 29
        if any(own in sorts and other in parent.columns
               and sorts[own][0] != parent.columns[other].kind
               for reference, parent in parents
               for own, other in zip(reference.columns, reference.table_columns)):
            yield 30

    def create(self, create):
        self.tables[create.name] = Table(create.name, create.elements)
        self.record('done', 'create', 0)

    # Changes.

    def faults_of_insert(self, insert):
        if insert.table not in self.tables:
            yield 23
            return
        table = self.tables[insert.table]
        names = insert.columns or table.given
        if any(name not in table.columns for name in names):
            yield 24
        if repeats(names):
            yield 26
        if any(name in table.generated for name in names):
            yield 27
        if (any(name not in names for name in table.given)
                or any(len(row) != len(names) for row in insert.rows)):
            yield 29
        for row in insert.rows:
            for name, literal in zip(names, row):
                if name in table.columns:
                    yield from self.faults_of_value(table.columns[name], literal)
            given = dict(zip(names, row))
            if are_no_period([given.get(table.period.start), given.get(table.period.end)]):
                yield 41

    def faults_of_value(self, column, literal):
        """Of a literal that is to be stored in a column."""
        if KIND_OF[type(literal)] != column.kind:
            yield 30
        elif column.kind == 'VARCHAR' and len(literal) > (column.number or 0):
            yield 31

    def insert(self, insert):
        table = self.tables[insert.table]
        rows = [dict(zip(insert.columns or table.given, row)) for row in insert.rows]
        rows = [(tuple(row[name] for name in table.values),
                 row[table.period.start], row[table.period.end]) for row in rows]
        days = table.days
        for values, *dates in rows:
            days = changed_days(days, dates, lambda there, values=values: (*there, values))
        added = [[values, start, end, self.clock, FOREVER] for values, start, end in rows]
        self.change(table, days, [*table.versions, *added], 'insert', len(rows))

    def faults_of_change(self, change):
        if change.table not in self.tables:
            yield 23
            return
        table = self.tables[change.table]
        if change.portion:
            if change.portion.period != table.period.name:
                yield 24
            if are_no_period(change.portion.dates):
                yield 41
        sets = getattr(change, 'sets', ())
        if repeats([assignment.column for assignment in sets]):
            yield 26
        for name, literal in sets:
            if name not in table.columns:
                yield 24
            elif name not in table.values:
                yield 27
            else:
                yield from self.faults_of_value(table.columns[name], literal)
        yield from Scope([(table.name, table)]).faults(change.where)

    def update(self, update):
        table = self.tables[update.table]
        places = {table.place(name): literal for name, literal in update.sets}
        self.change_portion(update, 'update', lambda values: [tuple(
            places.get(place, value) for place, value in enumerate(values))])

    def delete(self, delete):
        self.change_portion(delete, 'delete', lambda values: [])

    def change_portion(self, statement, word, made):
        """Puts in the place of each row that meets the condition, on each day of the portion, the
        rows that are made of its values."""
        table = self.tables[statement.table]
        scope = Scope([(table.name, table)])
        begin, stop = statement.portion.dates if statement.portion else (FIRST, LAST)

        def after(rows):
            return tuple(new for row in rows for new in
                         (made(row) if scope.holds(statement.where, [row]) else [row]))

        count, replaced, versions, added = 0, 0, [], []
        for version in table.versions:
            values, start, end, since, until = version
            if (until != FOREVER or not start < stop or not begin < end
                    or not scope.holds(statement.where, [values])):
                versions.append(version)
                continue
            count += 1
            if since != self.clock:
                versions.append([values, start, end, since, self.clock])
            else:  # it would end as it begins, and doesn't stay
                replaced += 1
            pieces = [(values, start, begin), (values, stop, end)]
            pieces += [(new, max(start, begin), min(end, stop)) for new in made(values)]
            added += [[new, first, last, self.clock, FOREVER]
                      for new, first, last in pieces if first < last]
        self.change(table, changed_days(table.days, (begin, stop), after), versions + added, word,
                    count, replaced)

    def change(self, table, days, versions, word, count, replaced=0):
        """Makes a change, unless a key or a reference would be broken after it."""
        fault = self.fault_after(table, days, versions)
        if fault:
            self.refuse(*fault)
            return
        table.kept(days, versions, self.clock)
        self.record('done', word, count)
        if replaced:
            self.replaced.append((self.statements, replaced))

    def fault_after(self, table, days, versions):
        if not self.keys:  # then a store has one version alone of values, first day and beginning
            firsts = [(values, start, since) for values, start, _, since, _ in versions]
            return (62,) if repeats(firsts) else None
        places = [table.place(name) for name in table.key]
        for day, rows in days:
            if repeats([tuple(row[place] for place in places) for row in rows]):
                return 42, day
        faulty = [self.first_without_parent(child, child_days, parent, parent_days, reference)
                  for child in self.tables.values() for reference in child.references
                  for parent in [self.tables[reference.table]]
                  if table in (child, parent)
                  for child_days in [days if child is table else child.days]
                  for parent_days in [days if parent is table else parent.days]]
        least = min((day for day in faulty if day), default=None)
        return (43, least) if least else None

    def first_without_parent(self, child, child_days, parent, parent_days, reference):
        """The first day on which a child row has no parent row with the values that it names."""
        own = [child.place(name) for name in reference.columns]
        other = [parent.place(name) for name in reference.table_columns]
        for day, (rows, parents) in together([child_days, parent_days]):
            there = {tuple(row[place] for place in other) for row in parents}
            if any(tuple(row[place] for place in own) not in there for row in rows):
                return day
        return None

    # Queries.

    def faults_of_window(self, window):
        if isinstance(window, AsOf) and window.moment == FOREVER:
            yield 13
        if window and any(moment in BAD_MOMENTS for moment in window):
            yield 13

    def faults_of_stored(self, stored):
        yield from self.faults_of_window(stored.window)
        if stored.table not in self.tables:
            yield 23
            return
        table = self.tables[stored.table]
        yield from Scope([(table.name, table)]).faults(stored.where)

    def stored(self, stored):
        table = self.tables[stored.table]
        scope = Scope([(table.name, table)])
        shown = [version for version in table.versions
                 if table.shows(stored.window, *version[3:])
                 and scope.holds(stored.where, [version[0]], version[1:3])]
        shown.sort(key=lambda version: (list(map(order, version[0])), version[1], version[3]))
        self.record('versions', len(table.columns), len(shown))
        self.record('columns', *table.columns)
        for values, start, end, since, until in shown:
            cells = dict(zip(table.values, values))
            cells |= {table.period.start: start, table.period.end: end}
            cells |= {name: since if generated == 'START' else until
                      for name, generated in table.generated.items()}
            self.record('version', *(cells[name] for name in table.columns))

    def selects(self, query):
        """The SELECTs of a query in the order of its text, and how many set operators it has."""
        if isinstance(query, Select):
            return [query], 0
        selects, count = self.selects(query.first)
        for _, operand in query.rest:
            more, inner = self.selects(operand)
            selects, count = selects + more, count + 1 + inner
        return selects, count

    def references_of(self, select):
        return [reference for chain in select.chains
                for reference in [chain.table, *(join.table for join in chain.joins)]]

    def scope_of(self, references):
        return Scope([(reference.new_name or reference.name, self.tables[reference.name])
                      for reference in references])

    def faults_of_query(self, query):
        selects, count = self.selects(query.query)
        if count > MOST_SET_OPERATORS:
            yield 21
        references = [reference for select in selects for reference in self.references_of(select)]
        for reference in references:
            yield from self.faults_of_window(reference.window)
        for select in selects:
            if (len(select.items) > MOST_ITEMS
                    or len(self.references_of(select)) > MOST_TABLES_OF_A_SELECT):
                yield 21
        if any(reference.name not in self.tables for reference in references):
            yield 23
            return
        for select in selects:
            yield from self.faults_of_select(select)
        yield from self.faults_of_operands(query.query)

    def faults_of_select(self, select):
        scope = self.scope_of(self.references_of(select))
        if repeats([known for known, _ in scope.tables]):
            yield 26
        for item in select.items:
            yield from scope.faults_of_name(item.column)
        yield from scope.faults(select.where)
        for chain in select.chains:
            for before, join in self.joined(chain):
                yield from before.faults(join.on)

    def joined(self, chain):
        """The joins of a chain, each with what its ON sees: its own chain up to its right side."""
        for number, join in enumerate(chain.joins, 1):
            before = [chain.table, *(other.table for other in chain.joins[:number])]
            yield self.scope_of(before), join

    def kinds(self, query):
        """The types of the columns of a query, as far as its names match."""
        while isinstance(query, SetOperators):
            query = query.first
        scope = self.scope_of(self.references_of(query))
        return [scope.kind(item.column) for item in query.items]

    def faults_of_operands(self, query):
        if isinstance(query, SetOperators):
            kinds = self.kinds(query)
            for other in [query.first, *(operand.query for operand in query.rest)]:
                yield from self.faults_of_operands(other)
                others = self.kinds(other)
                if len(others) != len(kinds):
                    yield 29
                if any(len({one, two} - {None}) > 1 for one, two in zip(kinds, others)):
                    yield 30

    def asked(self, query):
        """The days with the set of rows that the ordinary query gives on each."""
        if isinstance(query, Select):
            return self.selected(query)
        terms = [(None, self.asked(query.first))]  # UNION, EXCEPT and their terms
        for operator, operand in query.rest:
            days = self.asked(operand)
            if operator == 'INTERSECT':
                before, term = terms.pop()
                terms.append((before, self.combined(operator, term, days)))
            else:
                terms.append((operator, days))
        (_, days), *rest = terms
        for operator, term in rest:
            days = self.combined(operator, days, term)
        return days

    def combined(self, operator, left, right):
        """The days of two queries with a set operator between them."""
        return [(first, OPERATORS[operator](*sets)) for first, sets in together([left, right])]

    def selected(self, select):
        references = self.references_of(select)
        scope = self.scope_of(references)
        seen = [self.tables[reference.name].seen(reference.window) for reference in references]
        tests, place = [], 0  # ON and WHERE, each with the place of the last table that it sees
        for chain in select.chains:
            start = place
            for before, join in self.joined(chain):
                place += 1
                tests.append((place, lambda rows, join=join, start=start, before=before:
                              before.holds(join.on, rows[start:])))
            place += 1
        tests.append((len(references) - 1, lambda rows: scope.holds(select.where, rows)))
        days = []
        for first, sets in together(seen):
            product = [()]
            for place, rows in enumerate(sets):
                product = [(*before, row) for before in product for row in rows]
                for last, test in tests:
                    if last == place:
                        product = [rows for rows in product if test(rows)]
            days.append((first, {tuple(scope.value(item.column, rows) for item in select.items)
                                 for rows in product}))
        return days

    def query(self, query):
        days = self.asked(query.query)
        rows = []  # a row begins where its values weren't there before, and ends where they aren't
        there = {}
        for first, values in [*days, (LAST, set())]:
            for gone in set(there) - values:
                rows.append((gone, there.pop(gone), first))
            for new in values - set(there):
                there[new] = first
        rows.sort(key=lambda row: (list(map(order, row[0])), row[1]))
        select = self.selects(query.query)[0][0]
        self.record('answer', len(select.items), len(rows))
        self.record('columns', *(item.new_name or item.column.column for item in select.items),
                    'valid_from', 'valid_to', 'held', 'absent')
        for values, first, end in rows:
            self.record('row', *values, first, end, first,
                        'none' if first == FIRST else first - DAY)
        if self.audits:
            self.record('audit', 'agrees', len(self.change_days(query, rows)))

    def change_days(self, query, rows):
        """The first day, and the ends of the answer's rows and of those that a reference sees."""
        days = {FIRST, *(day for _, *ends in rows for day in ends)}
        for select in self.selects(query.query)[0]:
            for reference in self.references_of(select):
                table = self.tables[reference.name]
                for _, start, end, since, until in table.versions:
                    if table.shows(reference.window, since, until):
                        days |= {start, end}
        return days
