"""COPY table FROM STDIN: the lines of a client as INSERTs of many rows each."""
import csv
import re
from typing import Callable, Iterator, List, NamedTuple, Optional, Sequence, Tuple

from bitemporal_tools.sql.catalog import Catalog, Table
from bitemporal_tools.sql.lexis import Token, lexed

from . import lexis, values
from .lexis import taken
from .problems import SYNTAX, Problem

ESCAPE = re.compile(r'\\(.)')
ESCAPES = {**lexis.ESCAPES, 'v': '\v'}
HEADERS = {'TRUE': True, 'ON': True, '1': True, 'FALSE': False, 'OFF': False, '0': False}
WORDS = ('CSV', 'TEXT', *HEADERS)
MOST_ROWS, MOST_TOKENS = 999, 9_900
MOST_LINE = 1024 * 1024
OPEN, COMMA, CLOSE = lexed('('), lexed(','), lexed('),')  # the tokens around values
OF_ROWS = ('22', '23', '42', '54')  # classes of refusals that a row, or the number of rows, has


class Line(NamedTuple):
    """A line's number, counted from 1, and its cells."""
    number: int
    cells: 'list[str]'


Row = Tuple[Line, List[Token]]


class Format(NamedTuple):
    """The form of lines."""
    is_csv: bool = False
    has_header: bool = False
    delimiter: str = '\t'
    null: str = '\\N'


class Copy(NamedTuple):
    """A COPY: its table, the columns that its lines have, and how they are written."""
    table: Table
    columns: 'list[str]'
    form: Format


def copy_of(tokens: 'list[Token]', catalog: Catalog) -> Copy:
    """The COPY that tokens are, of which none is a blank."""
    names, end = lexis.qualified(tokens, 1) if tokens[1:] else ([''], 1)
    given: 'list[str]' = []
    begin = taken(tokens, end, '(')
    while 0 < begin < len(tokens):
        given.append(lexis.name_of(tokens[begin]))
        end, begin = begin + 1, taken(tokens, begin + 1, ',')
    end = taken(tokens, end, ')') if given else end
    options = end and taken(tokens, end, 'FROM', 'STDIN')
    if not options:
        raise Problem('0A000', 'no such COPY',
                      'COPY reads from a client alone: COPY table FROM STDIN.')
    table = catalog.tables.get(names[-1]) if names[:-1] in ([], ['PUBLIC']) else None
    if table is None:
        raise Problem('42P01', f'there is no table {".".join(names)}')
    known: 'list[str]' = [column.name for column in table.given]
    columns, has = given or known, f'It has {", ".join(known)}.'
    for name in columns:
        if name not in known:
            raise Problem('42703', f'{table.name} has no column {name} that is given a value', has)
    if sorted(columns) != sorted(known):
        raise Problem(SYNTAX, f'each column of {table.name} has to be given a value', has)
    return Copy(table, columns, format_of(tokens[taken(tokens, options, 'WITH') or options:]))


def options_of(tokens: 'list[Token]') -> 'Iterator[tuple[str, Optional[Token]]]':
    """The options of COPY with their values, in the syntax since PostgreSQL 9.0 or before it."""
    at = 0
    while at < len(tokens):
        name = tokens[at].word
        at += 1
        at = taken(tokens, at, 'AS') or at
        has_value = at < len(tokens) and (tokens[at].kind in ('text', 'escaped', 'number') or
                                          tokens[at].word in WORDS and name in ('FORMAT', 'HEADER'))
        yield name, tokens[at] if has_value else None
        at += has_value
        at = taken(tokens, at, ',') or at


def format_of(tokens: 'list[Token]') -> Format:
    """The format that options say."""
    is_csv = has_header = False
    given: 'dict[str, str]' = {}
    if tokens and tokens[0].word == '(' and tokens[-1].word == ')':
        tokens = tokens[1:-1]
    for name, token in options_of(tokens):
        value = lexis.text_of(token) if token else ''
        word = value.upper()
        if name in ('CSV', 'TEXT') and not token or name == 'FORMAT' and word in ('CSV', 'TEXT'):
            is_csv = (word or name) == 'CSV'
        elif name == 'HEADER' and word in ('', *HEADERS):
            has_header = HEADERS.get(word, True)
        elif name in ('DELIMITER', 'NULL') and token:
            given[name] = value
        elif name != 'ENCODING' or word not in ('UTF8', 'UTF-8'):
            raise Problem('0A000', f'COPY has no option {name} {value}'.strip())
    delimiter = given.get('DELIMITER', ',' if is_csv else '\t')
    if len(delimiter) != 1 or delimiter in '\r\n\\"':
        raise Problem('22023', 'the delimiter of COPY is one character')
    return Format(is_csv, has_header, delimiter, given.get('NULL', '' if is_csv else '\\N'))


def lines_of(chunks: 'Iterator[bytes]', form: Format) -> 'Iterator[Line]':
    """The lines of the bytes of a client."""
    lines = (csv_lines if form.is_csv else text_lines)(physical_lines(chunks), form)
    if form.has_header:
        next(lines, None)
    return lines


def physical_lines(chunks: 'Iterator[bytes]') -> 'Iterator[str]':
    """Bytes cut after line feeds."""
    parts: 'list[bytes]' = []
    size, number = 0, 1
    for chunk in chunks:
        *whole, rest = chunk.split(b'\n')
        for line in whole:
            yield decoded(b''.join([*parts, line]), number) + '\n'
            parts, size, number = [], 0, number + 1
        parts += [rest] * (rest != b'')
        size += len(rest)
        if size > MOST_LINE:
            raise Problem('54000', f'line {number} has more than {MOST_LINE:,} bytes')
    if parts:
        yield decoded(b''.join(parts), number)


def decoded(line: bytes, number: int) -> str:
    try:
        return line.decode('utf-8')
    except UnicodeDecodeError:
        raise Problem('22021', f'line {number} is not UTF-8') from None


def csv_lines(texts: 'Iterator[str]', form: Format) -> 'Iterator[Line]':
    """Lines of comma-separated values (RFC 4180)."""
    reader = csv.reader(texts, delimiter=form.delimiter, strict=True)
    number = 1
    try:
        for cells in reader:
            if cells == ['\\.']:
                return
            if cells:
                yield Line(number, cells)
            number = reader.line_num + 1
    except csv.Error as error:
        raise Problem('22P04', f'line {number}: {error}') from None


def text_lines(texts: 'Iterator[str]', form: Format) -> 'Iterator[Line]':
    """Lines of PostgreSQL's text format, with its escapes."""
    for number, text in enumerate(texts, 1):
        text = text.rstrip('\r\n')
        if text == '\\.':
            return
        yield Line(number, [cell if cell == form.null else lexis.unescaped(cell, ESCAPE, ESCAPES)
                            for cell in split(text, form.delimiter)])


def split(text: str, delimiter: str) -> 'list[str]':
    """A text cut at delimiters that no backslash is before."""
    cells, begin = [], 0
    for found in re.finditer(r'\\.|' + re.escape(delimiter), text, re.DOTALL):
        if found[0] == delimiter:
            cells.append(text[begin:found.start()])
            begin = found.end()
    return [*cells, text[begin:]]


def tokens_of(line: Line, copy: Copy) -> 'list[Token]':
    """The row of a line, as INSERT has it, with a comma."""
    if len(line.cells) != len(copy.columns):
        raise Problem('22P04', f'line {line.number} has {len(line.cells)} cells, and'
                      f' {len(copy.columns)} are asked for')
    tokens = list(OPEN)
    for name, cell in zip(copy.columns, line.cells):
        kind = copy.table.by_name[name].kind
        if cell == copy.form.null and (cell or kind != 'VARCHAR'):
            raise Problem('23502', f'line {line.number}: {name} is NULL', 'No column holds NULL.',
                          f"An open end is {values.OPEN_END}.")
        try:
            tokens += values.tokens_of(values.Value(cell, None), kind, 0) + COMMA
        except Problem as problem:
            raise Problem(problem.state, f'line {line.number}: {problem.message}') from None
    return [*tokens[:-1], *CLOSE]


def statement_of(rows: 'Sequence[Row]', copy: Copy) -> 'list[Token]':
    """The INSERT of rows."""
    tokens = lexed(f'INSERT INTO {copy.table.name} ({", ".join(copy.columns)}) VALUES')
    return [*tokens, *(token for _, row in rows for token in row)][:-1]


def batches(lines: 'Iterator[Line]', copy: Copy) -> 'Iterator[list[Row]]':
    """The rows of lines, as many together as an INSERT takes. A bad line follows all before it."""
    rows: 'list[Row]' = []
    count, most = 0, MOST_TOKENS - 2 * len(copy.columns)
    try:
        for line in lines:
            row = tokens_of(line, copy)
            if len(rows) == MOST_ROWS or count + len(row) > most:
                yield rows
                rows, count = [], 0
            rows.append((line, row))
            count += len(row)
    except Problem:
        if rows:
            yield rows
        raise
    if rows:
        yield rows


def insert(rows: 'list[Row]', run: 'Callable[[list[Row]], None]') -> 'tuple[int, Problem | None]':
    """Inserts rows, all at once, or if one is refused those before it. Gives their number, and the
    refusal with the number of its line."""
    try:
        run(rows)
        return len(rows), None
    except Problem as problem:
        if len(rows) == 1 or problem.state[:2] not in OF_ROWS:
            problem.message = f'line {rows[0][0].number}: {problem.message}'
            problem.position = None
            return 0, problem
    middle = len(rows) // 2
    done, refused = insert(rows[:middle], run)
    if refused is None:
        more, refused = insert(rows[middle:], run)
        done += more
    return done, refused
