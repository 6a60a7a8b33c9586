"""Mends of a statement without the right syntax. Each is tried: it is shown only if the
statement with it continues past its place. Then what is wrong next is looked for, in the mended
statement. No mend makes a statement change more than what was asked."""
import difflib
import operator
import re
from collections.abc import Iterator
from typing import NamedTuple, Optional

from bitemporal_tools.sql.catalog import Table
from bitemporal_tools.sql.lexis import RESERVED, Token, lexed
from bitemporal_tools.sql.parser import parsed
from bitemporal_tools.sql.reader import A_NAME, A_NUMBER, A_TEXT, THE_END
from bitemporal_tools.sql.tree import Delete, Update

from .slips import CUT, SLIPS, Slip
from .texts import joined, shown

MOST_ROUNDS, MOST_SHOWN = 16, 400
FURTHER = 3  # tokens more that a mend which no slip names has to reach
LIKE = 0.7  # the likeness of a word and a misspelled one
KINDS = {'number': '0', 'text': "'"}
# Words that nobody leaves out by mistake, and names and values, which have a guess of their own.
NO_GUESS = {A_NAME, A_NUMBER, A_TEXT, THE_END, 'NOT', '+', '-', '.', '<', '<=', '<>', '>', '>=',
            'CONTAINS', 'EQUALS', 'IMMEDIATELY', 'OVERLAPS', 'PRECEDES', 'SUCCEEDS'}
CHANGES = ('UPDATE', 'DELETE')
# Words that a guess may put into a change: it takes no condition away, and adds no row.
IN_CHANGES = {'FROM', 'SET', 'WHERE', 'FOR', 'PORTION', 'OF', 'TO', 'DATE'}


class Edit(NamedTuple):
    """The words in the place of the tokens from `start` on and before `end`, and the sentence;
    if `put` is None nothing is tried. If no slip names the edit, it has to reach as many
    tokens more."""
    start: int
    end: int
    put: Optional[str]
    what: str
    further: int = FURTHER


class Advice(NamedTuple):
    """A sentence, and the offset of the place that it is about."""
    offset: int
    what: str


class Mending:
    """The tokens of a statement, and of each the offset in the script."""

    def __init__(self, tokens: list[Token], tables: dict[str, Table]) -> None:
        self.tokens, self.tables = tokens, tables
        self.offsets = [token.offset for token in tokens] + [tokens[-1].end]
        self.parsed, self.rounds = parsed(tokens), 0

    @property
    def stop(self) -> int:
        """The place of the first token that no statement can have there."""
        return self.parsed.stop or 0

    def where(self) -> Advice:
        """The words that are expected at the stop, and those that are there."""
        before = f'after {shown(self.tokens[self.stop - 1].text)} ' if self.stop else ''
        found = shown(self.tokens[self.stop].text) if self.stop < len(self.tokens) else \
            'the end of the statement'
        expected = sorted(self.parsed.expected, key=lambda what: (what != ',', what))
        return Advice(self.offsets[self.stop],
                      f'{before}expected {" or ".join(expected)}, found {found}')

    def advice(self) -> Iterator[Advice]:
        """Advice on each place in turn; last, if no mend is known, what is wrong there."""
        while self.parsed.stop is not None:
            edit = self.apostrophe() or self.slip() or self.guess()
            if edit is None or self.rounds == MOST_ROUNDS:
                if self.rounds:
                    place, what = self.where()
                    yield Advice(place, f'Look here again: with these mends, {what}.')
                return
            self.rounds += 1
            yield Advice(self.offsets[edit.start], edit.what)
            if edit.put is None:
                return
            self.tokens, self.offsets = self.with_edit(edit)
            self.parsed = parsed(self.tokens)

    def with_edit(self, edit: Edit) -> tuple[list[Token], list[int]]:
        """The tokens with an edit, and their offsets. New tokens are far from all others."""
        if edit.put == CUT:
            return self.tokens[:edit.start], self.offsets[:edit.start + 1]
        new = [token._replace(offset=token.offset + self.rounds * 10 ** 8)
               for token in lexed(edit.put or '')]
        tokens = [*self.tokens[:edit.start], *new, *self.tokens[edit.end:]]
        offsets = [*self.offsets[:edit.start], *[self.offsets[edit.start]] * len(new),
                   *self.offsets[edit.end:]]
        return tokens, offsets

    def reached(self, edit: Edit) -> tuple[bool, int]:
        """The part that is right with an edit: whether all of it, and how many tokens then are
        left."""
        if edit.put == CUT:
            found = parsed(self.tokens[:edit.start])
            is_right = found.tree is not None
            if is_right and is_change(self.tokens):  # the rest might be a part of it
                rest = parsed(self.tokens[edit.start:])
                is_right = isinstance(found.tree, (Update, Delete)) and \
                    found.tree.where is not None and rest.tree is not None
            return is_right, len(self.tokens) - edit.start
        tokens, _ = self.with_edit(edit)
        if not tokens:
            return False, len(self.tokens) + 1
        found = parsed(tokens)
        if found.stop is None:
            return found.tree is not None, 0
        edited = edit.start + len(tokens) - len(self.tokens) + edit.end - edit.start
        if found.stop < edited:
            return False, len(tokens) + 1
        is_next = THE_END in found.expected and begins_statement(tokens[found.stop:])
        return is_next, len(tokens) - found.stop

    # Slips.

    def apostrophe(self) -> Optional[Edit]:
        """An end of a text in the middle of a word."""
        if 0 < self.stop < len(self.tokens):
            before, token = self.tokens[self.stop - 1:self.stop + 1]
            if before.kind == 'text' and token.kind in ('word', 'number') and \
                    before.end == token.offset:
                return Edit(self.stop - 1, self.stop, None,
                            f"Double the apostrophe within a text: {before.text}'{token.text}")
        return None

    def slip(self) -> Optional[Edit]:
        """The first of the slips whose mend continues."""
        words = [KINDS.get(token.kind, token.word) for token in self.tokens]
        words.insert(self.stop, '@')
        text = ' '.join(words) + ' '
        left = len(self.tokens) - self.stop
        for slip in SLIPS:
            if slip.expects and slip.expects not in self.parsed.expected or \
                    is_change(self.tokens) and not slip.in_changes:
                continue
            found = slip.pattern.search(text)
            edit = self.edit_of(slip, found, text) if found else None
            if edit is None or edit.put is None:
                if edit:
                    return edit
                continue
            is_right, rest = self.reached(edit)
            if is_right or edit.put != CUT and (rest < left or rest == left and edit.put):
                return edit
        return None

    def edit_of(self, slip: Slip, found: re.Match[str], text: str) -> Edit:
        spans = {name: self.span(*found.span(name), text)
                 for name, group in found.groupdict().items() if group is not None}
        groups = {name: joined(self.tokens[start:end]) for name, (start, end) in spans.items()}
        groups = {**dict.fromkeys(found.groupdict(), ''), 'period': self.period(), **groups}
        start, end = spans.get('out', (self.stop, self.stop))
        put = slip.put(groups, self.tables) if callable(slip.put) else \
            slip.put and slip.put.format(**groups)
        put, shown_put = put if isinstance(put, tuple) else (put, put)
        told = {name: group if len(group) < MOST_SHOWN else group[:MOST_SHOWN] + ' ..'
                for name, group in {'out': '', **groups, 'put': shown_put or ''}.items()}
        return Edit(start, end, put, slip.what.format(**told))

    def span(self, start: int, end: int, text: str) -> tuple[int, int]:
        """The tokens of a part of the pattern's text."""
        first = text.count(' ', 0, start)
        last = text.count(' ', 0, end) + (end > start and text[end - 1] != ' ')
        return first - (first > self.stop), last - (last > self.stop)

    def period(self) -> str:
        """The period that the statement declares, or that of its first table, or EP."""
        for one, two, name in zip(self.tokens, self.tokens[1:], self.tokens[2:]):
            if (one.word, two.word) == ('PERIOD', 'FOR') and name.is_name:
                return name.text
        tables = (self.tables[token.word] for token in self.tokens if token.word in self.tables)
        return next((table.period.name for table in tables), 'EP')

    # Mends that no slip names.

    def guess(self) -> Optional[Edit]:
        """The edit of a token or two that reaches the furthest."""
        found = []
        for edit in filter(self.keeps, self.guesses()):
            is_right, rest = self.reached(edit)
            if is_right or rest <= len(self.tokens) - self.stop - edit.further:
                found.append((not is_right, rest, edit))
        return min(found, key=operator.itemgetter(0, 1))[2] if found else None

    def keeps(self, edit: Edit) -> bool:
        """Whether a guess leaves a change as it was asked for, and makes none of what was none."""
        put = edit.put or ''
        if is_change(self.tokens):
            if put == 'WHERE' and edit.start == edit.end:
                return self.stop < len(self.tokens) and self.tokens[self.stop].is_name
            return put in IN_CHANGES or put.endswith('_') or put in ('A', '0')
        if put not in CHANGES and not (edit.start == 0 and put == ''):
            return True
        word = self.tokens[0].word
        return edit.end == 1 and put != '' and abs(len(word) - len(put)) < 2 and \
            not difflib.get_close_matches(word, ['SELECT'], 1, LIKE)

    def guesses(self) -> Iterator[Edit]:
        stop, expected = self.stop, self.parsed.expected
        token = self.tokens[stop] if stop < len(self.tokens) else None
        found = token.text if token else ''
        words = [word for word in expected if word not in NO_GUESS]
        if token and token.kind == 'word':
            for word in difflib.get_close_matches(token.word, words, 1, LIKE):
                yield Edit(stop, stop + 1, word, f'Write {word} for {found}.')
        if stop and self.tokens[stop - 1].is_name:
            before = self.tokens[stop - 1]
            for word in difflib.get_close_matches(before.word, RESERVED, 3, LIKE):
                yield Edit(stop - 1, stop, word, f'Write {word} for {before.text}.')
        if token and token.word in RESERVED and A_NAME in expected:
            yield Edit(stop, stop + 1, f'{found}_', f'{found} is a reserved word and no name:'
                                                    f' choose another name, such as {found}_.', 2)
        where = f'before {shown(found)}' if token else 'at the end'
        for word in words:
            yield Edit(stop, stop, word, f'Write {word} {where}.')
        if token and token.kind == 'symbol':
            for word in words:
                yield Edit(stop, stop + 1, word, f'Write {word} for {found}.')
        if token:
            what = 'the comma' if found == ',' else shown(found)
            yield Edit(stop, stop + 1, '', f'Leave out {what}.')
        for what, put in (A_NAME, 'A'), (A_NUMBER, '0'):
            if what in expected:
                what = 'a value' if A_TEXT in expected and A_NAME not in expected else what
                yield Edit(stop, stop, put, f'Write {what} {where}.')


def is_change(tokens: list[Token]) -> bool:
    """Whether these are of a statement that takes rows out or makes others of them."""
    return tokens[0].word in CHANGES


def begins_statement(tokens: list[Token]) -> bool:
    """Whether another statement seems to begin here."""
    words = [token.word for token in tokens[:2]]
    return words[:1] in (['VALIDTIME'], ['AT']) or words in (
        ['CREATE', 'TABLE'], ['INSERT', 'INTO'], ['DELETE', 'FROM'], ['SELECT', '*']) or \
        words[:1] == ['UPDATE'] and len(words) == 2
