"""The statements of fuzz/random_runs as text."""
import re

from random_runs_model import (And, AsOf, At, Between, Column, Comparison, ContainsDay, Create,
                               FromTo, Insert, Key, Name, Not, Or, Period, Query, Select, Stored,
                               Update)

TOKEN = re.compile(r"'(?:[^']|'')*'|\w+|<>|<=|>=|\S")
FRACTION = re.compile(r'(.*:[0-9]{2})(?:\.([0-9]{6}))?')
OR, AND, TEST = range(3)  # strengths that a condition may need at its place


class Writer:
    """Writes statements: plainly, or by chance in other words that mean the same."""

    def __init__(self, chance):
        self.chance = chance

    def maybe(self, text, other=''):
        return text if self.chance and self.chance.random() < 0.3 else other

    def statement(self, statement):
        if isinstance(statement, At):
            return f'AT {self.moment(statement.moment)}'
        if isinstance(statement, Create):
            elements = ', '.join(self.element(element) for element in statement.elements)
            return f'CREATE TABLE {statement.name} ({elements}) WITH SYSTEM VERSIONING'
        if isinstance(statement, Insert):
            columns = f' ({", ".join(statement.columns)})' if statement.columns else ''
            rows = ', '.join(f'({", ".join(map(self.literal, row))})' for row in statement.rows)
            return f'INSERT INTO {statement.table}{columns} VALUES {rows}'
        if isinstance(statement, Query):
            return f'VALIDTIME {self.query(statement.query)}'
        where = self.where(statement)
        if isinstance(statement, Stored):
            return f'SELECT * FROM {statement.table}{self.window(statement.window)}{where}'
        portion = ''
        if statement.portion:
            first, until = map(self.literal, statement.portion.dates)
            portion = f' FOR PORTION OF {statement.portion.period} FROM {first} TO {until}'
        if isinstance(statement, Update):
            sets = ', '.join(f'{name} = {self.literal(value)}' for name, value in statement.sets)
            return f'UPDATE {statement.table}{portion} SET {sets}{where}'
        return f'DELETE FROM {statement.table}{portion}{where}'

    def query(self, query):
        if isinstance(query, Select):
            return self.select(query)
        text = self.primary(query.first)
        for word, operand in query.rest:
            text += f' {word}{self.maybe(" DISTINCT")} {self.primary(operand)}'
        return text

    def primary(self, query):
        if isinstance(query, Select):
            return self.maybe(f'({self.query(query)})', self.query(query))
        return f'({self.query(query)})'

    def select(self, select):
        items = ', '.join(self.operand(item.column) + self.renamed(item.new_name)
                          for item in select.items)
        chains = ', '.join(self.chain(chain) for chain in select.chains)
        return f'SELECT DISTINCT {items} FROM {chains}{self.where(select)}'

    def chain(self, chain):
        return self.table(chain.table) + ''.join(
            f'{self.maybe(" INNER")} JOIN {self.table(join.table)} ON {self.condition(join.on, OR)}'
            for join in chain.joins)

    def table(self, table):
        return table.name + self.window(table.window) + self.renamed(table.new_name)

    def renamed(self, new_name):
        return self.maybe(' AS') + f' {new_name}' if new_name else ''

    def moment(self, moment):
        """A moment, sometimes with fewer or more zeros at the end of its fraction."""
        found = FRACTION.fullmatch(moment)
        if found and found[2]:
            moment = self.maybe(found[1] + '.' + found[2].rstrip('0'), moment)
        elif found:
            moment += self.maybe(f'.{"0" * self.chance.randint(1, 6)}' if self.chance else '')
        return f"TIMESTAMP '{moment}'"

    def window(self, window):
        moments = [self.moment(moment) for moment in window or ()]
        if isinstance(window, AsOf):
            return f' FOR SYSTEM_TIME AS OF {moments[0]}'
        if isinstance(window, FromTo):
            return f' FOR SYSTEM_TIME FROM {moments[0]} TO {moments[1]}'
        if isinstance(window, Between):
            return f' FOR SYSTEM_TIME BETWEEN {moments[0]} AND {moments[1]}'
        return ''

    def where(self, statement):
        return f' WHERE {self.condition(statement.where, OR)}' if statement.where else ''

    def condition(self, condition, strength):
        if isinstance(condition, (Or, And)) and len(condition.conditions) == 1:
            return self.condition(condition.conditions[0], strength)
        if isinstance(condition, Or):
            own, text = OR, ' OR '.join(self.condition(inner, AND)
                                        for inner in condition.conditions)
        elif isinstance(condition, And):
            own, text = AND, ' AND '.join(self.condition(inner, AND + 0.5)
                                          for inner in condition.conditions)
        elif isinstance(condition, Not):
            own, text = AND + 0.5, 'NOT ' + self.condition(condition.condition, TEST)
        elif isinstance(condition, Comparison):
            own, text = TEST, (f'{self.operand(condition.left)} {condition.sign}'
                               f' {self.operand(condition.right)}')
        elif isinstance(condition, ContainsDay):
            own, text = TEST, f'{self.span(condition.span)} CONTAINS {self.literal(condition.date)}'
        else:
            own, text = TEST, (f'{self.span(condition.span)} {condition.word}'
                               f' {self.span(condition.other)}')
        return self.maybe(f'({text})', text) if own >= strength else f'({text})'

    def operand(self, operand):
        if isinstance(operand, Name):
            return (f'{operand.qualifier}.' if operand.qualifier else '') + operand.column
        return self.literal(operand)

    def span(self, span):
        if isinstance(span, Name):
            return self.operand(span)
        return f'PERIOD ({", ".join(map(self.literal, span.dates))})'

    def element(self, element):
        if isinstance(element, Column):
            kind = element.kind
            if kind == 'VARCHAR':
                kind = self.maybe('CHARACTER VARYING', kind)
                kind += f'({self.number(element.number or 0)})'
            elif kind == 'TIMESTAMP' and element.number is not None:
                kind += f'({self.number(element.number)})'
            rule = f' GENERATED ALWAYS AS ROW {element.generated}' if element.generated else ''
            return f'{element.name} {kind}{rule}{self.maybe(" NOT NULL")}'
        if isinstance(element, Period):
            return f'PERIOD FOR {element.name} ({element.start}, {element.end})'
        columns = ', '.join(element.columns)
        if isinstance(element, Key):
            return f'PRIMARY KEY ({columns}, {element.period} WITHOUT OVERLAPS)'
        table_columns = ', '.join(element.table_columns)
        return (f'FOREIGN KEY ({columns}, PERIOD {element.period}) REFERENCES {element.table}'
                f' ({table_columns}, PERIOD {element.table_period})')

    def number(self, number):
        return self.maybe('00') + str(number)

    def literal(self, literal):
        if isinstance(literal, int):
            sign = '-' if literal < 0 else self.maybe('+' if literal else '-')
            return sign + self.number(abs(literal))
        text = "'" + getattr(literal, 'text', str(literal)).replace("'", "''") + "'"
        return text if isinstance(literal, str) else f'DATE {text}'

    def script(self, statements):
        def cased(token):
            return token[0] if token[0][0] == "'" else self.maybe(token[0].lower(), token[0])

        return ''.join(TOKEN.sub(cased, statement) + ';\n' for statement in statements)
