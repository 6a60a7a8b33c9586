"""A table as a file of Parquet, if pyarrow is installed: whole numbers as int64, or with
decimals as decimal128; texts; dates; moments in microseconds."""
import datetime
import decimal
import importlib
import io
from typing import Any

from bitemporal_tools.command_line import Fault
from bitemporal_tools.reports.answer_tables import Table

MISSING = ('Parquet is written by pyarrow, which is not installed here: install it, such as by `pip'
           ' install pyarrow`, or leave out --parquet for CSV')


def value(cell: str, kind: str, has_scale: bool) -> Any:
    """The value of a cell of some type, or None if it is empty and the type has no such."""
    if cell == '' and kind != 'VARCHAR':
        return None
    if kind == 'INTEGER':
        return decimal.Decimal(cell) if has_scale else int(cell)
    if kind == 'DATE':
        return datetime.date.fromisoformat(cell)
    return datetime.datetime.fromisoformat(cell) if kind == 'TIMESTAMP' else cell


def file_of(table: Table) -> bytes:
    """The bytes of the file."""
    try:
        pyarrow, parquet = map(importlib.import_module, ('pyarrow', 'pyarrow.parquet'))
    except ImportError:
        raise Fault(MISSING) from None
    if not table.kinds:
        raise Fault(f'the types of answer {table.name} are not known: name the tables of the store'
                    ' by --tables')
    types = {'INTEGER': pyarrow.int64(), 'DATE': pyarrow.date32(), 'VARCHAR': pyarrow.string(),
             'TIMESTAMP': pyarrow.timestamp('us')}
    arrays = []
    for place, kind in enumerate(table.kinds):
        scale = table.scales.get(place)
        form = types[kind] if scale is None else pyarrow.decimal128(38, scale)
        values = [value(row[place], kind, scale is not None) for row in table.rows]
        try:
            arrays.append(pyarrow.array(values, form))
        except (OverflowError, pyarrow.ArrowInvalid) as error:
            raise Fault(f'column {table.columns[place]} of {table.name}: {error}') from None
    written = io.BytesIO()
    parquet.write_table(pyarrow.table(arrays, names=table.columns), written)
    return written.getvalue()
