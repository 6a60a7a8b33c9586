"""The changes of tables. Each is taken by `Schema` in turn; a Fault says why it cannot be. All take
the schema last: with their other words given they are a Change."""
from collections.abc import Callable, Sequence

from bitemporal_tools.alteration.schema import Schema, checked_name
from bitemporal_tools.command_line import Fault
from bitemporal_tools.stores.spelling import Value, bytes_of_value
from bitemporal_tools.stores.tables import VARCHAR, Column, Reference, Table

Change = Callable[[Schema], None]


def column_of(table: Table, name: str) -> Column:
    for column in table.columns:
        if column.name == name:
            return column
    raise Fault(f'{table.name} has no column {name}; its columns are {", ".join(table.names)}')


def value_column(table: Table, name: str) -> Column:
    column = column_of(table, name)
    if column not in table.values:
        what = 'a system column' if column.is_system else f'a column of the period {table.period}'
        raise Fault(f'{table.name}.{name} is {what}')
    return column


def new_name(table: Table, name: str) -> str:
    """The name, in upper case, of a column or a period that a table is to get."""
    name = checked_name(name)
    if name in (*table.names, table.period):
        raise Fault(f'{table.name} has a column or a period {name} already')
    return name


def add_column(of: str, column: Column, value: Value, schema: Schema) -> None:
    """A value column at the end, with one value in all versions."""
    table = schema[of]
    name = new_name(table, column.name)
    if isinstance(value, str) and len(value) > column.number:
        raise Fault(f'{table.name}.{name}: {value!r} has {len(value)} characters, and'
                    f' {column.type} takes {column.number}')
    schema.put(table.name, columns=(*table.columns, column))
    schema.altered[table.name].sources[name] = bytes_of_value(value)


def drop_column(of: str, name: str, schema: Schema) -> None:
    table = schema[of]
    column = value_column(table, name)
    if name in table.key:
        raise Fault(f'{table.name}.{name} is in the key: give the table another key first')
    for reference in table.references:
        if name in reference.columns:
            raise Fault(f'{table.name}.{name} is in the reference {reference}: drop it first')
    schema.put(table.name, columns=tuple(one for one in table.columns if one != column))


def rename(of: str, old: str, to: str, schema: Schema) -> None:
    """Another name for a column or the period of a table."""
    table = schema[of]
    new = new_name(table, to)
    if old == table.period:
        schema.put(table.name, period=new)
        return
    column_of(table, old)

    def names(among: Sequence[str]) -> tuple[str, ...]:
        return tuple(new if name == old else name for name in among)

    def of_reference(child: Table, reference: Reference) -> Reference:
        own, parent = child.name == table.name, reference.parent == table.name
        return Reference(
            reference.parent, names(reference.columns) if own else reference.columns,
            names(reference.parent_columns) if parent else reference.parent_columns)

    start, end = names([table.start, table.end])
    schema.put(table.name, start=start, end=end, key=names(table.key), columns=tuple(
        column._replace(name=name) for column, name in zip(table.columns, names(table.names))))
    sources = schema.altered[table.name].sources
    if old in sources:
        sources[new] = sources[old]
    schema.change_references(of_reference)


def rename_table(old: str, to: str, schema: Schema) -> None:
    table, new = schema[old], checked_name(to)
    if new in schema.altered:
        raise Fault(f'there is a table {new} already')
    schema.put(table.name, name=new)
    schema.altered = {altered.table.name: altered for altered in schema.altered.values()}
    schema.change_references(lambda _, reference: reference._replace(parent=new)
                             if reference.parent == table.name else reference)


def widen(of: str, name: str, length: int, schema: Schema) -> None:
    """A greater length of a text column."""
    table = schema[of]
    column = value_column(table, name)
    if column.kind != VARCHAR:
        raise Fault(f'{table.name}.{name} is {column.type}, and texts alone have a length')
    if length < column.number:
        raise Fault(f'{table.name}.{name} is {column.type}: it can be made wider, and not narrower')
    schema.put(table.name, columns=tuple(
        one._replace(number=length) if one == column else one for one in table.columns))


def drop_table(name: str, is_cascade: bool, schema: Schema) -> None:
    """A table less. `is_cascade`: the references to it go with it."""
    table = schema[name]
    for child, reference in list(schema.references_to(table.name)):
        if not is_cascade:
            raise Fault(f'{child.name} refers to {table.name} by {child.name}.{reference}: drop'
                        ' the reference first')
        drop_reference(child.name, reference, schema)
    del schema.altered[table.name]


def add_reference(of: str, reference: Reference, schema: Schema) -> None:
    table, parent = schema[of], schema[reference.parent]
    if parent is table:
        raise Fault(f'{table.name} cannot refer to itself')
    for name in reference.columns:
        value_column(table, name)
    if sorted(reference.parent_columns) != sorted(parent.key):
        raise Fault(f'the key of {parent.name} is {", ".join(parent.key)}: a reference names'
                    ' these columns')
    if len(reference.columns) != len(reference.parent_columns):
        raise Fault(f'{table.name}.{reference} does not pair columns')
    if same(reference, table.references):
        raise Fault(f'{table.name} has the reference {reference} already')
    schema.put(table.name, references=(*table.references, reference))


def drop_reference(of: str, reference: Reference, schema: Schema) -> None:
    """A reference less. If it names no columns of the parent, its own columns decide."""
    table = schema[of]
    found = same(reference, table.references)
    if not found:
        known = ', '.join(f'{table.name}.{one}' for one in table.references) or 'none'
        raise Fault(f'{table.name} has no reference {reference}; its references are {known}')
    schema.put(table.name, references=tuple(one for one in table.references if one not in found))


def same(wanted: Reference, references: Sequence[Reference]) -> list[Reference]:
    """The references that pair columns as the wanted one does."""
    def pairs(reference: Reference) -> object:
        return reference.parent, sorted(
            zip(reference.columns, reference.parent_columns) if wanted.parent_columns else
            ((name, '') for name in reference.columns))
    return [one for one in references if pairs(one) == pairs(wanted)]


def set_key(of: str, columns: Sequence[str], schema: Schema) -> None:
    """Another key of a table to which none refers."""
    table = schema[of]
    for name in columns:
        value_column(table, name)
    if len(set(columns)) != len(columns):
        raise Fault(f'{table.name}: a column is in the key twice')
    for child, reference in schema.references_to(table.name):
        if sorted(columns) != sorted(table.key):
            raise Fault(f'{child.name} refers to the key of {table.name} by'
                        f' {child.name}.{reference}: drop the reference first')
    schema.put(table.name, key=tuple(columns))
