"""The rights of clients: one table, for the statements of the protocol, COPY and the page."""
from typing import NamedTuple

from bitemporal_tools.sql.tree import At, Sequenced, Stored

from .problems import Problem

# Statements that change nothing: the queries of the language, and what is none of it (None).
QUERIES = (Sequenced, Stored, type(None))


class Rights(NamedTuple):
    """Whether the user may write, by the server and its list of users, and set the clock by AT;
    whether the session is READ ONLY; and its block: I none, T one, E one that has failed."""
    may_write: bool = True
    sets_clock: bool = False
    is_read_only: bool = False
    block: str = 'I'


def allow(tree: object, rights: Rights) -> None:
    """Refuses a statement with this tree that may not be run."""
    if rights.block == 'E':
        raise Problem('25P02', 'the block has failed: ROLLBACK ends it')
    if isinstance(tree, QUERIES):
        return
    if not rights.may_write:
        raise Problem('42501', 'nothing may be changed here: the store is only read')
    if rights.is_read_only:
        raise Problem('25006', 'nothing is changed in a transaction that is READ ONLY')
    if rights.block == 'T':
        raise Problem(
            '0A000', 'no change is made in a block of BEGIN and COMMIT',
            'Each statement is its own transaction here: a change is in the store for good as soon'
            ' as it is done, and ROLLBACK could not take it back. So none is begun here.',
            'Set autocommit: connection.autocommit = True in psycopg, isolation_level="AUTOCOMMIT"'
            ' in create_engine of SQLAlchemy. In psql leave BEGIN out.')
    if isinstance(tree, At) and not rights.sets_clock:
        raise Problem('0A000', 'no AT: changes are recorded at the time of the machine',
                      hint='--script-clock (in connect script_clock=True) has AT set the clock.')
