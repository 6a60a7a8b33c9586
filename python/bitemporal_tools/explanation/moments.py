"""The moments at which changes are recorded: the first one that has no AT before it, and whether a
change may replace what began at its very moment, of which the history keeps nothing."""
from collections.abc import Iterable
from typing import Optional

from bitemporal_tools.sql.catalog import Catalog
from bitemporal_tools.sql.literals import FIRST_MOMENT
from bitemporal_tools.sql.script import Statement
from bitemporal_tools.sql.tree import At, Delete, Insert, Name, Update

WITHOUT_AT = f'no AT stands before this change, so it is recorded at {FIRST_MOMENT}'


def first_without_at(accepted: Iterable[Statement], catalog: Catalog,
                     with_inserts: bool) -> Optional[int]:
    """The number of the first UPDATE or DELETE, or INSERT too, if no AT stands before it and the
    clock of the catalog is at the first moment of all."""
    if catalog.clock != FIRST_MOMENT:
        return None
    for statement in accepted:
        if isinstance(statement.tree, At):
            return None
        if isinstance(statement.tree, (Update, Delete)) or \
                with_inserts and isinstance(statement.tree, Insert):
            return statement.number
    return None


def may_replace(accepted: Iterable[Statement], catalog: Catalog) -> bool:
    """Whether an UPDATE or a DELETE follows another change of its table at the same moment."""
    clock = catalog.clock
    changed: set[Name] = set()
    for statement in accepted:
        tree = statement.tree
        if isinstance(tree, At) and tree.moment.value != clock:
            clock, changed = tree.moment.value, set()
        elif isinstance(tree, (Insert, Update, Delete)):
            if tree.table in changed and not isinstance(tree, Insert):
                return True
            changed.add(tree.table)
    return False
