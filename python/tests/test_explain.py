#!/usr/bin/env python3
"""Tests tools/explain on the scripts of explain_cases/, each with a report (NAME.report of `run`,
NAME.check of `check`, or NAME.made, made by hand, of refusals that the program cannot be brought
to) and with what has to be printed, NAME.explained; by input that has to be turned away; and
against the table of refusals in docs/PROFILE.md."""
import re
from collections.abc import Callable

import support
from bitemporal_tools.explanation.causes import WHAT_TO_DO
from bitemporal_tools.sql.refusals import MOST_BYTES, NAMES
from support import ROOT, Case, run, tool

FOLDER = 'python/tests/explain_cases'
REFUSALS = f'{FOLDER}/refusals'
GOOD = 'refused,1,10,Syntax,\n'


def edited(text: str, *edits: tuple[str, str]) -> str:
    for pattern, put in edits:
        text, count = re.subn(pattern, put, text, flags=re.M)
        assert count
    return text


def without(*numbers: int) -> Callable[[str], str]:
    """A text without the lines of the given numbers, from 1, and from the end -1."""
    def cut(text: str) -> str:
        lines = text.splitlines(keepends=True)
        kept = {number % (len(lines) + 1) for number in numbers}
        return ''.join(line for number, line in enumerate(lines, 1) if number not in kept)
    return cut


# Changes of the report of a script, and of what `check` says of another, that make it another's.
OF_A_RUN = [without(3), without(4), without(8), without(5, 6, 7, 8), without(-1),
            lambda text: text.split('\n', 1)[0] + '\n' + text] + [
    lambda text, edits=edits: edited(text, *edits) for edits in (
        [(r'\A((?:.*\n){2}.*)2$', r'\g<1>3')], [(r'\A((?:.*\n){2}.*)1,2$', r'\g<1>2,2')],
        [(r'\A((?:.*\n){10}.*)42(.*)KeyOverlap', r'\g<1>43\2PeriodReference')],
        [(r'2024-01-31$', '2024-01-30')], [(r'^refused,20,.*', 'refused,20,24,UnknownColumn,')],
        [(r'^refused,20,.*', 'answer,20,1,0\ncolumns,20,A,B,C,D,E')],
        [(r'^refused,9,10,Syntax,', 'refused,9,12,BadDate,')],
        [(r'\A(.*\n.*)insert', r'\1update')], [(r'\A(.*\n.*)2$', r'\g<1>3')])]
OF_A_CHECK = [without(-1), without(1)] + [
    lambda text, edit=edit: edited(text, edit) for edit in (
        (r'19(.*\n)\Z', r'18\1'), (r'.\n\Z', '0\n'), (r'\A(.*\n.*)10,Syntax', r'\g<1>12,BadDate'))]


class Explain(Case):
    def turned_away(self, words: str, *arguments: str, given: bytes = b'') -> None:
        """Status 2, one line on standard error that has the words, and no output."""
        status, output, told = tool('explain', *arguments, given=given)
        self.equal(f'turned away: {words}', (status, output, told.count('\n')), (2, '', 1))
        self.holds(f'why: {words}', re.match(f'explain: .*{words}', told), told)

    def test_cases(self) -> None:
        for explained in sorted((ROOT / FOLDER).glob('*.explained')):
            name = f'{FOLDER}/{explained.stem}'
            wanted = explained.read_bytes()
            reports = [f'{name}.{kind}' for kind in ('report', 'check', 'made')
                       if (ROOT / f'{name}.{kind}').exists()]
            self.holds(name, reports)
            for report in reports:
                words = [ROOT / 'tools/explain', f'{name}.sql']
                self.equal(report, run([*words, report]), (0, wanted, b''))
                self.equal(f'{report} on standard input',
                           run(words, (ROOT / report).read_bytes()), (0, wanted, b''))

    def test_empty_reports(self) -> None:
        """Nothing to explain if there is no statement; the place where the whole script is
        refused."""
        for text, said in (
                ('-- nothing;\n', ''), ("SELECT 'open", ':1:8: the whole script: 3 BadToken\n'),
                ("SELECT 1;\nSELECT '\udcfc'", ':2:9: the whole script: 1 NotUtf8\n'),
                (' ' * (MOST_BYTES + 1), '4,194,305 bytes')):
            status, output, told = tool('explain', self.files.write(
                'x.sql', text.encode('utf-8', 'surrogateescape')), '/dev/null')
            self.equal(f'{said!r}', (status, said in output, bool(said) == bool(output), told),
                       (0, True, True, ''))
        long = self.files.write('long.sql', 'INSERT INTO T VALUES (1' + ',1' * 5000)
        self.holds('too many tokens', 'has 10,006 tokens' in tool(
            'explain', long, '-', given=b'refused,1,21,LimitReached,\n')[1])

    def test_turned_away(self) -> None:
        files = self.files
        two, good = files.write('two.sql', 'SELECT 1; SELECT 2'), files.write('good', GOOD)
        odd, opened = files.write('bytes', b'\377'), files.write('open.sql', "SELECT 'open")
        self.turned_away('SCRIPT')
        self.turned_away('no file', two, files.path('no file'))
        self.turned_away('no file', files.path('no file'), good)
        self.turned_away('cannot read', files.folder.name, good)
        self.turned_away('not UTF-8', odd, good)
        self.turned_away('not UTF-8', two, odd)
        self.turned_away('which has 0 statements', opened, good)
        self.turned_away('no outcome of statement 1', two, '/dev/null')
        self.turned_away('no outcome of statement 2', two, good)
        self.turned_away('not CSV', two, files.write('other', 'refused,1,"10'))
        for record in ('refused,3,10,Syntax,', 'refused,0,10,Syntax,', 'refused,x,10,Syntax,',
                       'done,2,insert,1', 'checked,3,0', 'hello', 'refused', ''):
            self.turned_away(f'not of this script.*{record}', two,
                             files.write('other', f'{GOOD}{record}\n'))
        for record in ('refused,2,10,Other,', 'refused,2,99,Syntax,',
                       'refused,2,42,KeyOverlap,today', 'refused,2,10,Syntax'):
            self.turned_away(f'unknown record .*{record}', two,
                             files.write('other', f'{GOOD}{record}\n'))

    def test_other_reports(self) -> None:
        """Reports of other scripts, and reports in which something is changed or left out."""
        for name, kind, changes in (('refusals', 'report', OF_A_RUN),
                                    ('slips', 'check', OF_A_CHECK)):
            text = (ROOT / f'{FOLDER}/{name}.{kind}').read_text('utf-8')
            for number, change in enumerate(changes):
                other = self.files.write('other', change(text))
                with self.subTest(f'{name}, change {number}'):
                    self.turned_away('not of this script', str(ROOT / f'{FOLDER}/{name}.sql'),
                                     other)

    def test_profile(self) -> None:
        """The numbers and the names of all refusals but a whole script's and a store's."""
        text = (ROOT / 'docs/PROFILE.md').read_text('utf-8')
        wanted = [f'{number} {name}' for number, name in
                  re.findall(r'^\| (\d+) \| ([A-Za-z]*) \| ', text, re.M)
                  if number not in ('1', '2', '3', '60')]
        self.equal('the table', [f'{code} {NAMES[code]}' for code in WHAT_TO_DO], wanted)


if __name__ == '__main__':
    support.run_cases()
