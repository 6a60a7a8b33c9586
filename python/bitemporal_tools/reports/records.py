"""CSV as docs/PROFILE.md section 9 has it: fields with commas between them, each record ended by
one line feed, and quotes around a field that holds a comma, a quote, a carriage return or a line
feed.

Python's csv module isn't used for it: its writer with a line feed as the end of a line leaves a
lone carriage return without quotes, and its reader refuses U+0000 before Python 3.11.
"""
import re
from collections.abc import Iterable, Iterator
from typing import Any, Union

SPECIAL = re.compile('[,"\r\n]')
FIELD = re.compile('(?:"((?:[^"]+|"")*)"|([^,"\r\n]*))([,\n])')


class BadRecord(Exception):
    """A text that isn't such CSV, with the number of the record, from 1."""


def quoted(text: str) -> str:
    return '"' + text.replace('"', '""') + '"'


def record(fields: Union[list[str], Iterable[Any]]) -> str:
    """The line of some texts."""
    return ','.join(quoted(field) if SPECIAL.search(field) else field for field in fields) + '\n'


def records(text: str) -> Iterator[list[str]]:
    """The records of a text, each a list of texts."""
    at, number = 0, 1
    while at < len(text):
        end = text.find('\n', at)
        line = text[at:end]
        if end < 0 or '"' in line or '\r' in line:
            fields, at = record_at(text, at, number)
        else:
            fields, at = line.split(','), end + 1
        yield fields
        number += 1


def record_at(text: str, at: int, number: int) -> tuple[list[str], int]:
    """The fields of a record that has quotes, and where it ends."""
    fields = []
    while True:
        found = FIELD.match(text, at)
        if not found:
            raise BadRecord(number)
        in_quotes, plain, end = found.groups()
        fields.append(plain if in_quotes is None else in_quotes.replace('""', '"'))
        at = found.end()
        if end == '\n':
            return fields, at
