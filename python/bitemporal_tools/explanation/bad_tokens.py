"""Refusals of a whole script (1 to 3): the place, the text there, and how to mend it."""
import itertools
import re
from collections.abc import Iterator
from typing import NamedTuple, Optional

from bitemporal_tools.sql.lexis import LEXEME, RESERVED, Places
from bitemporal_tools.sql.refusals import MOST_BYTES, NAMES, Refused

from .texts import recipe, shown, wrapped

MOST_PLACES = 5
SPACES = '\u00a0\u1680\u2000-\u200a\u202f\u205f\u3000'


class Oddity(NamedTuple):
    """A text that is no token: a pattern at its place, the cause and what to do. {0} is what the
    pattern finds and {1} its group."""
    pattern: re.Pattern[str]
    cause: str
    mend: str


A_COMMAND = '{0} is a command of a shell.'
NO_COMMAND = 'Leave it out: a script has SQL statements alone.'
ROWS_OF_A_FILE = ('Leave it out, and put the rows into INSERTs: tools/load makes these of a CSV'
                  f' file, as {recipe("Load an export with corrections")} shows.')
NO_PARAMETERS = 'Write the value itself: a script has no parameters.'
ODDITIES = [Oddity(re.compile(pattern), cause, mend) for pattern, cause, mend in (
    (r'!=', 'No token begins with !.', 'Write <> for !=.'),
    (r'!', 'No token begins with !.', 'Write NOT for !.'),
    (r'/\*((?:[^*\n]|\*(?!/))*)\*/', '/* */ is no comment here.',
     'Write --{1} for it: a comment begins with -- and ends with its line.'),
    (r'/\*(?s:.*?\*/|.*)', '/* */ is no comment here.', 'Begin each line of the comment with --.'),
    (r'//(.*)', '// is no comment here.', 'Write --{1} for it.'),
    (r'"(?P<name>[A-Za-z_][A-Za-z0-9_]*)"', 'Names in double quotes are not known.',
     'Write {1} without the double quotes.'),
    (r'"([^"\n]*)"', 'Double quotes are not known, neither for names nor for texts.',
     "A text is in single quotes: '{1}'. A name has ASCII letters, digits and _ alone."),
    (r'"', 'Double quotes are not known, neither for names nor for texts.',
     'Write single quotes around a text, and none around a name.'),
    (r'[\u2018\u2019\u201a\u201b\u2032\u00b4\u201c\u201d\u201e\u00ab\u00bb\uff07]',
     '{0} is a curly quote.', "Write the straight single quote ' for {0}."),
    (r'`([A-Za-z_][A-Za-z0-9_]*)`', 'Names in backticks are not known.',
     'Write {1} without the backticks.'),
    (rf'[{SPACES}]+', 'This is a no-break space, or another space that is no white space here.',
     'Write an ordinary space for it.'),
    (r'[\u200b-\u200f\u2028\u2029\u2060\ufeff]', 'This character is not seen.', 'Leave it out.'),
    (r'[\u2010-\u2015\u2212]+', '{0} is a dash.',
     'Write - for a minus sign, and -- for a comment.'),
    (r'\\copy\b', A_COMMAND, ROWS_OF_A_FILE), (r'\\[A-Za-z!?.]*', A_COMMAND, NO_COMMAND),
    (r'::\s*(\w+)?', ':: is no operator here.',
     "Leave out the cast. A date is written DATE '2024-01-01'."),
    (r'\|\|', 'There are no operators on texts.', 'Write out the whole text, or leave out ||.'),
    (r'&&', 'No token begins with &.', 'Write AND for &&.'),
    (r'\$\d+', '{0} is a parameter.', NO_PARAMETERS),
    (r'[:@$]\w+', '{0} is a parameter or a variable.', NO_PARAMETERS),
    (r'\?', '? is a parameter.', NO_PARAMETERS),
    (r'#([^\n]*)', '# begins no comment here.', 'Write --{1} for it.'),
    (r'\[(\w+)\]', 'Names in brackets are not known.', 'Write {1} without the brackets.'),
    (r'\{(?:d|ts?)\b', '{0} begins a literal of ODBC.',
     "Leave out {0} and the brace at its end. A date is written DATE '2024-01-01'."),
    (r'~', 'There is no operator {0}.', 'Compare by =, <>, <, <=, > or >=.'),
    (r'[/%^&|]', 'There is no operator {0}.',
     'Leave out the calculation: conditions compare columns and literals alone.'),
    (r'[^\W\d_A-Za-z]+', '{0} is no ASCII letter, and names have ASCII letters alone.',
     'Choose a name of ASCII letters, digits and _, as ue for \u00fc, or put a text in single'
     ' quotes.'),
    (r'(?s:.)', 'No token begins with {0}.',
     'Leave it out, or put it into a text in single quotes.'))]


def about(place: str, number: int, line: Optional[str], lines: list[str]) -> str:
    """The text about a refusal of the whole script: its place, the line there, and sentences."""
    shown_line = [] if line is None else ['    ' + shown(line)]
    return '\n'.join([f'{place}: the whole script: {number} {NAMES[number]}', *shown_line,
                      *wrapped(lines)])


def of_script(path: str, script: bytes, refused: Refused) -> str:
    """The text about the refusal of a whole script, given as bytes."""
    if refused.number == 2:
        return about(path, 2, None, [
            f'Cause: The script has {len(script):,} bytes, and {MOST_BYTES:,} are the most.',
            'What to do: Split it into several scripts. Each begins with an empty store, so each'
            ' has to make its tables and insert its rows itself.'])
    if refused.number == 1:
        return not_utf8(path, script, refused)
    text = script.decode('utf-8')
    places = Places(text)
    found = list(itertools.islice(oddities(text, refused.offset), MOST_PLACES + 1))
    lines = [f'{what} at {places.shown(offset)}: {sentence}'
             for offset, cause, mend in found[:MOST_PLACES]
             for what, sentence in (('Cause', cause), ('What to do', mend))]
    lines += ['And more of them follow.'] * (len(found) > MOST_PLACES)
    first, *_ = found[0]
    start = text.rfind('\n', 0, first) + 1
    return about(f'{path}:{places.shown(first)}', 3, text[start:].split('\n', 1)[0], lines)


def not_utf8(path: str, script: bytes, refused: Refused) -> str:
    text = script[:refused.byte].decode('utf-8')
    byte = script[refused.byte]
    line = script[script.rfind(b'\n', 0, refused.byte) + 1:].split(b'\n')[0]
    return about(f'{path}:{Places(text).shown(len(text))}', 1, line.decode('latin-1'), [
        f'Cause: The byte {byte:02X} here, byte {refused.byte} counted from 0, is not UTF-8. In'
        f' Latin-1 it is {chr(byte)!r}.', 'What to do: Save the script as UTF-8.'])


def torn_text(text: str) -> Optional[tuple[re.Match[str], re.Match[str]]]:
    """The first text that ends in the middle of a word, with that word; or None."""
    offset, before = int(text.startswith('\ufeff')), None
    while offset < len(text):
        found = LEXEME.match(text, offset)
        if not found:
            return None
        if before and before.lastgroup == 'text' and found.lastgroup in ('word', 'number'):
            return before, found
        offset, before = found.end(), found
    return None


def oddities(text: str, offset: int) -> Iterator[tuple[int, str, str]]:
    """The places from an offset on at which no token begins, each with its cause and its mend."""
    if text[offset] == "'":
        yield open_text(text, offset)
        return
    while offset < len(text):
        found = LEXEME.match(text, offset)
        if found:
            offset = found.end()
            continue
        if text[offset] == "'":
            return
        oddity, odd = next((it, match) for it in ODDITIES
                           for match in [it.pattern.match(text, offset)] if match)
        yield (offset, *said(oddity, odd))
        offset = odd.end()


def said(oddity: Oddity, found: re.Match[str]) -> tuple[str, str]:
    """The cause and the mend of what is no token."""
    groups = [shown(found[0]), *(shown(group or '') for group in found.groups())]
    cause, mend = (text.format(*groups) for text in (oddity.cause, oddity.mend))
    if 'name' in oddity.pattern.groupindex and found['name'].upper() in RESERVED:
        mend = f'{groups[1]} is a reserved word and no name: choose another name, such as' \
               f' {groups[1]}_, and write it without the double quotes.'
    return cause, mend


def open_text(text: str, offset: int) -> tuple[int, str, str]:
    """Of a text without an end: where a text was torn by an apostrophe, or else that it is open."""
    places, torn = Places(text), torn_text(text)
    if not torn:
        return (offset, 'The text that begins here has no end.',
                "Write ' at its end, and two of them for each ' within it.")
    before, after = torn
    return (before.start(), f'The text {shown(before[0])} ends at'
                            f' {places.shown(before.end() - 1)}, where {shown(after[0])} follows at'
                            f' once; so the last text of the script has no end.',
            f"Double the apostrophe within a text: {shown(before[0])}'{shown(after[0])}.. for"
            f" {shown(before[0])}{shown(after[0])}.. . If none is meant, end the text before.")
