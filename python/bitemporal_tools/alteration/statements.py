"""The changes that a script names, by ALTER TABLE and DROP TABLE. The help of `alter` has their
forms."""
from functools import partial

from bitemporal_tools.alteration import changes
from bitemporal_tools.alteration.changes import Change
from bitemporal_tools.command_line import Fault
from bitemporal_tools.sql.lexis import Places, lexed, pieces
from bitemporal_tools.sql.parser import Parser
from bitemporal_tools.sql.reader import NoStatement
from bitemporal_tools.sql.refusals import Refused
from bitemporal_tools.stores.tables import KINDS, Column, Reference


class ChangeParser(Parser):
    """Reads the tokens of one statement."""

    def change(self) -> Change:
        change = self.one_change()
        self.ends()
        return change

    def one_change(self) -> Change:
        if self.takes('DROP', 'TABLE'):
            return partial(changes.drop_table, str(self.name()),
                           self.takes_one_of('RESTRICT', 'CASCADE') == 'CASCADE')
        self.needs('ALTER', 'TABLE')
        table = str(self.name())
        action = self.needs_one_of('ADD', 'DROP', 'ALTER', 'RENAME')
        change: Change = {'ADD': self.added, 'DROP': self.dropped, 'ALTER': self.altered,
                          'RENAME': self.renamed}[action](table)
        return change

    def added(self, table: str) -> Change:
        if self.takes('PRIMARY', 'KEY', '('):
            return partial(changes.set_key, table, tuple(map(str, self.key().columns)))
        if self.takes('FOREIGN', 'KEY'):
            reference = self.parent_of()
            parent_columns, _ = self.columns_and_period()
            return partial(changes.add_reference, table, reference._replace(
                parent_columns=tuple(map(str, parent_columns))))
        self.takes('COLUMN')
        name, (kind, number) = str(self.name()), self.column_type()
        if kind == 'TIMESTAMP':
            raise Fault(f'{table}.{name}: only the two system columns are TIMESTAMPs')
        self.needs('DEFAULT')
        value = self.literal()
        self.takes('NOT', 'NULL')
        if value.kind != kind:
            raise Fault(f'{table}.{name} is {kind}, and its value {value.kind}')
        return partial(changes.add_column, table, Column(name, KINDS[kind], number or 0),
                       value.value)

    def parent_of(self) -> Reference:
        """A reference, as far as the name of its parent."""
        columns, _ = self.columns_and_period()
        self.needs('REFERENCES')
        return Reference(str(self.name()), tuple(map(str, columns)), ())

    def dropped(self, table: str) -> Change:
        if self.takes('FOREIGN', 'KEY'):
            return partial(changes.drop_reference, table, self.parent_of())
        self.takes('COLUMN')
        change = partial(changes.drop_column, table, str(self.name()))
        self.takes('RESTRICT')
        return change

    def altered(self, table: str) -> Change:
        self.takes('COLUMN')
        name = str(self.name())
        self.needs('SET', 'DATA', 'TYPE')
        kind, number = self.column_type()
        if kind != 'VARCHAR':
            raise Fault(f'{table}.{name}: a text can be made longer, and no type changes')
        return partial(changes.widen, table, name, number or 0)

    def renamed(self, table: str) -> Change:
        if self.takes('TO'):
            return partial(changes.rename_table, table, str(self.name()))
        self.takes('COLUMN')
        old = str(self.name())
        self.needs('TO')
        return partial(changes.rename, table, old, str(self.name()))


def changes_of(name: str, text: str) -> list[Change]:
    """The changes of a script's text, in turn."""
    places, found = Places(text), list[Change]()
    try:
        tokens = lexed(text)
    except Refused as refused:
        raise Fault(f'{name}: {refused}') from None
    for piece in pieces(tokens):
        parser = ChangeParser(piece)
        try:
            found.append(parser.change())
        except NoStatement:
            at = min(parser.furthest, len(piece) - 1)
            where = piece[at].end if parser.furthest >= len(piece) else piece[at].offset
            raise Fault(f'{name}:{places.shown(where)}: no ALTER TABLE or DROP TABLE goes on so;'
                        f' {" or ".join(sorted(parser.expected))} is expected') from None
        except Fault as fault:
            raise Fault(f'{name}:{places.shown(piece[0].offset)}: {fault}') from None
        for wrong in parser.faults:
            raise Fault(f'{name}:{places.shown(wrong.offset)}: {wrong.why}')
    return found
