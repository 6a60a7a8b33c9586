"""PostgreSQL's spellings and functions in questions of its own tables, for sqlite."""
import re
import sqlite3
from typing import Any, Callable, NoReturn, Optional, Union

from bitemporal_tools.sql.lexis import Token

from .lexis import bracketed, literal, text_of
from .problems import Problem
from .system_rows import TYPES

# The schemas of the search path, as Grafana spells them out. (Texts have their numbers here.)
PATH = r"\( ?select case when trim\(s\[i\]\).{1,500}?string_to_array\([^()]*" \
       r"\([^()]*\) ?, ?'\d+'\) ?s ?\)"
KEYWORDS = 'default|update|select|insert|delete|table|references|check|index|order|group'
MOST_REPETITIONS, MOST_LETTERS = 2, 200
Spelling = Union[str, Callable[['re.Match[str]'], str]]


def without_rows(found: 're.Match[str]') -> str:
    """A table without rows in the place of the elements of an array, of which there are none."""
    return f'FROM (SELECT NULL AS {found[2] or found[1]} WHERE 0) {found[1]}'


SPELLINGS: 'tuple[tuple[str, Spelling], ...]' = (
    (r'"(\w+)"(?=\s*\.)', r'\1'), (r'"(pg_\w+)"', r'\1'),
    (r'\binformation_schema\."(\w+)"', r'information_schema.\1'),
    (PATH, "('public')"), (r'\bpg_catalog\.', ''),
    (r"('[^']*')\s*::\s*regclass\b", r'regclass(\1)'),
    (r"(?<![\w.])([\w.]+)\s*::\s*regclass\b", r'relation(\1)'),
    (r'::\s*"?(?:text|name|oid|char|varchar|regtype|regproc|int[248]?|integer|bigint|smallint)\b"?'
     r'(?:\[ ?\])?', ''),
    (r'\bOPERATOR\s*\(~\)', 'REGEXP'), (r'!~\*?', 'NOT REGEXP'),
    (r'(?<!!)~\*?', 'REGEXP'),
    (r'\b(\w+)\."?attnum"? = ANY\s*\(\s*(\w+)\."?(con\w*key)"?\)',
     r'has_element(\2.\3, \1.attnum)'),
    (r'= ANY\s*\(', 'IN ('),
    (r'\bfrom\s+unnest\((?:\w+\.)?(?:reloptions|stxkeys|polroles|evttags)\)\s+(?:as\s+)?(\w+)'
     r'(?:\((\w+)\))?', without_rows),
    (r'\bunnest\(ix\.indkey\)', 'attnum'), (r'\bgenerate_subscripts\(ix\.indkey, 1\)', 'ord'),
    (r'(attnum,\s+ord\s+ord\s+FROM pg_index) ix', r'\1_places ix'),
    (r'\(information_schema\._pg_expandarray\((\w+)\."?indkey"?\)\)\."?n\b"?', r'\1.ord'),
    (r'information_schema\._pg_expandarray\((\w+)\.indkey\) AS (\w+)',
     r'\1.attnum AS \2, \1.ord AS \2_n'),
    (r'\(((?:\w+\.)?keys)\)\.x\b', r'\1'),
    (r'\bgenerate_series\(\s*1\s*,(?:[^()]|\([^()]*(?:\([^()]*\)[^()]*)*\))*\)\s*(?:AS\s+)?(\w+)'
     r'\((\w+)\)', r'(SELECT n AS \2 FROM pg_numbers) \1'),
    (r'(?<!ARRAY)\(((?:[^()\[\]]|\([^()]*\))*)\)\[([^\[\]]+)\]', r'element(\1, \2)'),
    (r'(?<![\w.])(?!ARRAY\[)([A-Za-z_][\w.]*)\[([^\[\]]+)\]', r'element(\1, \2)'),
    (r"\btrim\(both\s+('[^']*')\s+from\s+", r'trim_both(\1, '),
    (r'\bfrom\s+(\d+)\s+for\s+(\d+)\)', r', \1, \2)'),
    (r'\bpg_get_keywords\(\)', 'pg_keywords'), (r'\bstring_agg\(', 'group_concat('),
    (r'\bARRAY\s*\(', '('), (rf'\bAS ({KEYWORDS})\b', r'AS "\1"'),
    (r'\binformation_schema\.', 'information_schema_'),
    (r'\b(current_user|session_user|current_catalog)\b(?!\s*\()', r'\1()'))
REWRITES = [(re.compile(pattern, re.I | re.S | re.A), new) for pattern, new in SPELLINGS]
# A question that asks for the places of a key's columns.
PLACES = re.compile(r'_pg_expandarray', re.I)
INDEXES = re.compile(r'"?\bpg_index\b"?(?=\s+\w)', re.I)
NAME, NOT_IN = re.compile('[A-Za-z_][A-Za-z0-9_]*'), re.compile(
    r"<> ?ALL ?\( ?'(\d+)' ?(?::: ?text ?\[ ?\])? ?\)", re.I)
ARRAY = re.compile(r"'\{([^'\\]*)\}'")
NUMBERED = re.compile(r"""['"]([0-9]+)['"]|"([^"]*)\"""")
# Functions that have a value for all that they are given. What is not known here is NULL.
ALWAYS: 'dict[str, Any]' = {
    'version': 'PostgreSQL 9.6.0 (bitemporal 0.1.0)', 'current_schemas': 'public',
    'pg_encoding_to_char': 'UTF8', 'getdatabaseencoding': 'UTF8', 'current_schema': 'public',
    **dict.fromkeys(('current_database', 'current_catalog'), 'store'), 'pg_is_in_recovery': 0,
    **dict.fromkeys(('has_schema_privilege', 'has_database_privilege', 'array_lower', *(
                         f'pg_{it}_is_visible' for it in ('table', 'type', 'function', 'collation',
                                                          'opclass', 'operator', 'opfamily'))), 1),
    **dict.fromkeys(('obj_description', 'col_description', 'shobj_description', 'to_regtype',
                     'pg_get_expr', 'pg_get_triggerdef', 'pg_get_partkeydef', 'pg_get_functiondef',
                     'pg_get_function_result', 'pg_get_function_arguments', 'pg_get_viewdef',
                     'pg_char_to_encoding', 'pg_tablespace_location', 'pg_stat_get_numscans',
                     'pg_size_pretty', 'pg_database_size', 'pg_table_size', 'pg_relation_size',
                     'pg_total_relation_size', 'pg_advisory_unlock_all'), None)}
LOCKS = 'There are no advisory locks.'
# Functions that are refused, and why.
REFUSED = {
    **{f'pg_{tries}advisory_{of}{lock}{shared}': LOCKS for tries in ('', 'try_')
       for of in ('', 'xact_') for lock in ('lock', 'unlock') for shared in ('', '_shared')},
    **dict.fromkeys(('pg_sleep', 'pg_sleep_for', 'pg_sleep_until'), 'Nothing waits here.'),
    **dict.fromkeys(('pg_terminate_backend', 'pg_cancel_backend'), 'Send a CancelRequest.'),
    'pg_notify': 'Nobody is told of what others do.', 'set_config': 'Write SET name TO value.'}


def respelled(tokens: 'list[Token]') -> str:
    """A question as sqlite understands it. Texts, and names that are no words, are out of the reach
    of the spellings: they have numbers."""
    kept: 'list[str]' = []
    parts = []
    for token in tokens:
        text, kind = token.text, token.kind
        if kind in ('text', 'escaped'):
            kept.append(literal(text_of(token)))
            text = f"'{len(kept) - 1}'"
        elif kind == 'quoted' and not NAME.fullmatch(text[1:-1]):
            kept.append(bracketed(token))
            text = f'"{len(kept) - 1}"'
        parts.append({'blank': ' ', 'parameter': f'?{text[1:]}'}.get(
            kind, 'LIKE' if token.word == 'ILIKE' else text))

    def not_in(found: 're.Match[str]') -> str:
        array = ARRAY.fullmatch(kept[int(found[1])])
        if not array:
            return found[0]
        words = array[1].replace('"', '').split(',')
        kept.append('NOT IN (' + ', '.join(map(literal, words)) + ')')
        return f"'{len(kept) - 1}'"

    found = NOT_IN.sub(not_in, ''.join(parts).strip())
    if PLACES.search(found):
        found = INDEXES.sub('pg_index_places', found)
    for pattern, new in REWRITES:
        found = pattern.sub(new, found)
    return NUMBERED.sub(lambda it: kept[int(it[1])] if it[1] else f'[{it[2]}]', found)


def matches(pattern: str, text: Any, refuse: 'Callable[[Problem], NoReturn]') -> bool:
    """Whether a text has what a pattern says. Python's search has no limit of time, so a pattern
    may repeat two times, and no group, and texts are as short as names are."""
    bare = re.sub(r'\\.', '', pattern)
    if len(re.findall('[*+{]', bare)) > MOST_REPETITIONS or re.search(r'\)[*+{?]', bare):
        refuse(Problem('0A000', 'a pattern that may take long'))
    return bool(re.search(pattern, str(text or '')[:MOST_LETTERS], re.I))


def elements(array: Any) -> 'list[str]':
    """The elements of an array, {1,2}, or of a vector, 1 2."""
    return [] if array is None else re.findall(r'[^{},\s]+', str(array))


def element(array: Any, number: Any) -> Optional[str]:
    """An element of an array, by its number from 1 on."""
    found, at = elements(array), int(number or 0) - 1
    return found[at] if 0 <= at < len(found) else None


def quote_ident(name: Optional[str]) -> Optional[str]:
    """A name as a statement has it: in double quotes, unless it is in lower case."""
    return name if name is None or re.fullmatch('[a-z_][a-z0-9_]*', name) else f'"{name}"'


def format_of(form: str, *given: Any) -> str:
    """A text with a text in the place of each %s, and names in that of each %I."""
    cells = iter(given)
    return re.sub('%([sI])', lambda found: str(
        quote_ident(next(cells)) if found[1] == 'I' else next(cells)), form)


def format_type(oid: int, modifier: Optional[int]) -> Optional[str]:
    """PostgreSQL's name of a type."""
    name = TYPES[oid][0] if oid in TYPES else None
    return f'{name}({(modifier or 0) - 4})' if oid == 1043 and (modifier or 0) > 4 else name


def functions(database: sqlite3.Connection,
              refuse: 'Callable[[Problem], NoReturn]') -> 'dict[str, Callable[..., Any]]':
    """PostgreSQL's functions that these questions use. `refuse` has a question be refused."""
    def one(text: str, *given: Any) -> Any:
        return (database.execute(text, given).fetchone() or [None])[0]

    def number(name: str) -> Any:
        found = one('SELECT oid FROM pg_class WHERE upper(relname) = upper(?)',
                    name.rpartition('.')[2].strip('"'))
        return found if found or name.startswith('pg_') else \
            refuse(Problem('42P01', f'there is no table {name}'))

    return {
        **{name: lambda *_, value=value: value for name, value in ALWAYS.items()},
        'regexp': lambda pattern, text: matches(pattern, text, refuse), 'regclass': number,
        'format_type': format_type, 'quote_ident': quote_ident,
        'parse_ident': lambda name: '{' + name.replace('.', ',') + '}',
        'element': element, 'has_element': lambda it, number: str(number) in elements(it),
        'array_to_string': lambda it, *_: it, 'format': format_of,
        'trim_both': lambda letters, it: it and it.strip(letters),
        **dict.fromkeys(('array_length', 'array_upper'), lambda it, _: len(elements(it))),
        'relation': lambda oid: one('SELECT relname FROM pg_class WHERE oid = ?', oid),
        'pg_get_constraintdef': lambda oid, *_: one(
            'SELECT def_ FROM pg_constraint WHERE oid = ?', oid),
        'pg_get_indexdef': lambda oid, place=0, *_: one(
            'SELECT attname FROM pg_index_places i JOIN pg_attribute a ON a.attrelid = i.indrelid'
            ' AND a.attnum = i.attnum WHERE i.indexrelid = ? AND i.ord = ?', oid, place)
        if place else one(
            "SELECT 'CREATE UNIQUE INDEX ' || conname || ' ON t USING bitemporal ' || "
            "substr(def_, 13) FROM pg_constraint WHERE conindid = ? AND contype = 'p'", oid)}
