"""The grammar of queries, windows and conditions."""
from collections.abc import Callable
from typing import Optional

from .lexis import Token
from .reader import NoStatement, Reader
from .tree import (And, ColumnReference, Comparison, Condition, ContainsDay, Days, Item, Name, Not,
                   On, Operand, Or, Predicate, Query, Select, SetOperators, Side, Span,
                   TableReference, Window)

PREDICATES = (('OVERLAPS',), ('EQUALS',), ('PRECEDES',), ('SUCCEEDS',),
              ('IMMEDIATELY', 'PRECEDES'), ('IMMEDIATELY', 'SUCCEEDS'))
COMPARISONS = ('=', '<>', '<', '<=', '>', '>=')


class QueryParser(Reader):
    """Reads queries. A condition may have period predicates if `has_predicates`."""

    def __init__(self, tokens: list[Token]) -> None:
        super().__init__(tokens)
        self.has_predicates = False

    def query(self) -> Query:
        return self.joined(self.term, 'UNION', 'EXCEPT')

    def term(self) -> Query:
        return self.joined(self.primary, 'INTERSECT')

    def joined(self, side: Callable[[], Query], *operators: str) -> Query:
        """One side, or several with set operators of one strength between them."""
        first, rest = side(), list[Operand]()
        while True:
            offset, operator = self.next.offset, self.takes_one_of(*operators)
            if not operator:
                return SetOperators(first, rest) if rest else first
            self.takes('DISTINCT')
            rest.append(Operand(operator, side(), offset))

    def primary(self) -> Query:
        query = self.takes_inside(self.query)
        if query:
            return query
        offset = self.needs('SELECT', 'DISTINCT')
        items = self.several(self.item)
        self.needs('FROM')
        references, ons = list[TableReference](), list[On]()
        self.several(lambda: self.chain(references, ons))
        return Select(items, references, ons, self.where(), offset)

    def item(self) -> Item:
        return Item(self.column(), self.new_name())

    def new_name(self) -> Optional[Name]:
        return self.name() if self.takes('AS') else self.takes_name()

    def chain(self, references: list[TableReference], ons: list[On]) -> None:
        first = len(references)
        references.append(self.reference())
        while self.takes('JOIN') or self.takes('INNER', 'JOIN'):
            references.append(self.reference())
            self.needs('ON')
            ons.append(On(first, len(references), self.condition()))

    def reference(self) -> TableReference:
        return TableReference(self.name(), self.window(), self.new_name())

    def window(self) -> Optional[Window]:
        if not self.takes('FOR', 'SYSTEM_TIME'):
            return None
        if self.takes('AS', 'OF'):
            return Window('AS OF', self.moment(is_below_forever=True), None)
        if self.takes('FROM'):
            return Window('FROM', *self.two(self.moment, 'TO'))
        self.needs('BETWEEN')
        return Window('BETWEEN', *self.two(self.moment, 'AND'))

    def column(self) -> ColumnReference:
        return self.qualified(self.name())

    def qualified(self, name: Name) -> ColumnReference:
        if self.takes('.'):
            return ColumnReference(name, self.name())
        return ColumnReference(None, name)

    def where(self, has_predicates: bool = False) -> Optional[Condition]:
        self.has_predicates = has_predicates
        return self.condition() if self.takes('WHERE') else None

    def condition(self) -> Condition:
        conditions = self.several(self.conjunction, 'OR')
        return Or(conditions) if len(conditions) > 1 else conditions[0]

    def conjunction(self) -> Condition:
        conditions = self.several(self.factor, 'AND')
        return And(conditions) if len(conditions) > 1 else conditions[0]

    def factor(self) -> Condition:
        return Not(self.test()) if self.takes('NOT') else self.test()

    def test(self) -> Condition:
        return self.takes_inside(self.condition) or self.predicate() or self.comparison()

    def comparison(self) -> Comparison:
        left, offset = self.operand(), self.next.offset
        sign = self.needs_one_of(*COMPARISONS)
        return Comparison(left, sign, self.operand(), offset)

    def operand(self) -> Side:
        name = self.takes_name()
        return self.literal() if name is None else self.qualified(name)

    def predicate(self) -> Optional[Condition]:
        """A period predicate; or None and nothing read, if a comparison may be there."""
        if not self.has_predicates:
            return None
        before = self.at
        span = self.takes_span()
        if span is None:
            return None
        for words in PREDICATES:
            if self.takes(*words):
                return Predicate(span, ' '.join(words), self.span())
        if self.takes('CONTAINS'):
            if self.is_next('DATE'):
                return ContainsDay(span, self.date())
            return Predicate(span, 'CONTAINS', self.span())
        if isinstance(span, Span):
            raise NoStatement
        self.at = before
        return None

    def takes_span(self) -> Optional[Days]:
        if not self.takes('PERIOD'):
            name = self.takes_name()
            return None if name is None else self.qualified(name)
        start, end = self.inside(lambda: self.two(self.date))
        return Span(start, end)

    def span(self) -> Days:
        span = self.takes_span()
        if span is None:
            raise NoStatement
        return span
