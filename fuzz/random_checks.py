#!/usr/bin/env python3
"""Compares `bitemporal check` with a model of it, on random scripts.

    fuzz/random_checks.py [--seed N] [--count N] [--program PATH]

The model is a second reading of the rules that docs/PROFILE.md states, written without a look at
the program's sources. From a script's bytes it gives the report, the exit status and standard
error. The grammar is data here: the model judges statements by it, and the scripts' statements are
random walks through it. Some statements have the right syntax, some have bad literals, in some the
walk errs in a place or two, and in some tokens were dropped, doubled, swapped, replaced or
added.
Half of the scripts have up to a hundred statements. Most further ones have some odd bytes among
them. A few are long: around the most tokens of a statement, or the most bytes of a script.

A script depends on its number alone; the numbers go up from --seed's. On a difference the
number, the script, what was expected and what was given are shown, then the same for a smaller
script that still differs. After five differences this ends. The last line says how many scripts
there were and whether they were all alike. The exit status is 1 if some differ.
"""

import argparse
import collections
import datetime
import itertools
import pathlib
import random
import re
import subprocess
import sys
import tempfile

import folders  # noqa: F401
import program as proved

MOST_BYTES, MOST_TOKENS, MOST_OPEN = 4_194_304, 10_000, 32
MOST_DIFFERENCES, MOST_TRIES = 5, 3_000
BYTE_ORDER_MARK = b"\xef\xbb\xbf"
FOREVER = "9999-12-31 23:59:59.999999"

REFUSALS = {
    1: "NotUtf8", 2: "ScriptTooLarge", 3: "BadToken", 10: "Syntax", 11: "TooDeep", 12: "BadDate",
    13: "BadMoment", 14: "NumberRange", 21: "LimitReached"}

RESERVED = """
    ALWAYS AND AS AT BETWEEN CHARACTER CONTAINS CREATE DATE DELETE DISTINCT END EQUALS EXCEPT FOR
    FOREIGN FROM GENERATED IMMEDIATELY INNER INSERT INTEGER INTERSECT INTO JOIN KEY NOT NULL OF ON
    OR OVERLAPS PERIOD PORTION PRECEDES PRIMARY REFERENCES ROW SELECT SET START SUCCEEDS SYSTEM
    SYSTEM_TIME TABLE TIMESTAMP TO UNION UPDATE VALIDTIME VALUES VARCHAR VARYING VERSIONING WHERE
    WITH WITHOUT
""".split()

# Braces repeat any number of times, brackets are optional, `|` chooses, what is in quotes is a
# symbol of the script, and a word in capitals is that word.
GRAMMAR = """
statement = at | create | insert | update | delete | sequenced | stored
at        = AT moment
moment    = TIMESTAMP text
date      = DATE text
create    = CREATE TABLE name '(' element { ',' element } ')' WITH SYSTEM VERSIONING
element   = name type [ GENERATED ALWAYS AS ROW ( START | END ) ] [ NOT NULL ]
          | PERIOD FOR ( name | SYSTEM_TIME ) '(' name ',' name ')'
          | PRIMARY KEY '(' name { ',' name } ',' name WITHOUT OVERLAPS ')'
          | FOREIGN KEY '(' name { ',' name } ',' PERIOD name ')'
            REFERENCES name '(' name { ',' name } ',' PERIOD name ')'
type      = INTEGER | DATE | VARCHAR '(' number ')'
          | CHARACTER VARYING '(' number ')' | TIMESTAMP [ '(' number ')' ]
insert    = INSERT INTO name [ '(' name { ',' name } ')' ] VALUES tuple { ',' tuple }
tuple     = '(' literal { ',' literal } ')'
literal   = [ '+' | '-' ] number | text | date
update    = UPDATE name [ portion ] SET assign { ',' assign } [ WHERE cond ]
delete    = DELETE FROM name [ portion ] [ WHERE cond ]
portion   = FOR PORTION OF name FROM date TO date
assign    = name '=' literal
sequenced = VALIDTIME query
query     = term { ( UNION | EXCEPT ) [ DISTINCT ] term }
term      = primary { INTERSECT [ DISTINCT ] primary }
primary   = select | '(' query ')'
select    = SELECT DISTINCT item { ',' item } FROM chain { ',' chain } [ WHERE cond ]
item      = column [ [ AS ] name ]
chain     = ref { [ INNER ] JOIN ref ON cond }
ref       = name [ FOR SYSTEM_TIME window ] [ [ AS ] name ]
window    = AS OF moment | FROM moment TO moment | BETWEEN moment AND moment
stored    = SELECT '*' FROM name [ FOR SYSTEM_TIME window ] [ WHERE pcond ]
cond      = conj { OR conj }
conj      = factor { AND factor }
factor    = [ NOT ] test
test      = '(' cond ')' | operand cmp operand
pcond     = pconj { OR pconj }
pconj     = pfactor { AND pfactor }
pfactor   = [ NOT ] ptest
ptest     = '(' pcond ')' | operand cmp operand | pred
cmp       = '=' | '<>' | '<' | '<=' | '>' | '>='
operand   = column | literal
column    = name [ '.' name ]
pred      = span ( OVERLAPS | EQUALS ) span
          | span CONTAINS ( span | date )
          | span [ IMMEDIATELY ] ( PRECEDES | SUCCEEDS ) span
span      = column | PERIOD '(' date ',' date ')'
"""


def read_rule(symbols):
    """The tree of a rule's right side, or of the brackets just opened: a kind and its content."""
    choices = [[]]
    while symbols and (symbol := symbols.pop(0)) not in ("}", "]", ")"):
        if symbol == "|":
            choices.append([])
        elif symbol == "(":
            choices[-1].append(read_rule(symbols))
        elif symbol in ("{", "["):
            choices[-1].append(("repeated" if symbol == "{" else "optional", read_rule(symbols)))
        elif symbol[0] == "'" or symbol in RESERVED or symbol in ("name", "number", "text"):
            choices[-1].append(("token", symbol.strip("'")))
        else:
            choices[-1].append(("rule", symbol))
    choices = [parts[0] if len(parts) == 1 else ("sequence", parts) for parts in choices]
    return choices[0] if len(choices) == 1 else ("choice", choices)


def read_grammar(text):
    rules = re.findall(r"^(\w+) *= (.*(?:\n .*)*)", text, re.MULTILINE)
    return {name: read_rule(re.findall(r"'[^']+'|\w+|[][{}()|]", side)) for name, side in rules}


def parts_of(node):
    """The node and all nodes in it."""
    yield node
    kind, content = node
    if kind not in ("token", "rule"):
        for part in content if kind in ("sequence", "choice") else [content]:
            yield from parts_of(part)


RULES = read_grammar(GRAMMAR)
PARTS = {name: list(parts_of(tree)) for name, tree in RULES.items()}
# Rules as a careless reader might take them, besides them.
WRONG = read_grammar("""
element   = name type NOT NULL GENERATED ALWAYS AS ROW ( START | END )
          | name type GENERATED ALWAYS AS ROW | name type NULL | PERIOD name '(' name ',' name ')'
          | PRIMARY KEY '(' name WITHOUT OVERLAPS ')' | PRIMARY KEY '(' name { ',' name } ')'
          | FOREIGN KEY '(' PERIOD name ')' REFERENCES name '(' PERIOD name ')'
          | FOREIGN KEY '(' name ',' PERIOD name ')' REFERENCES name '(' ( PERIOD name | name ) ')'
type      = 'INT' | VARCHAR | TIMESTAMP '(' ')' | VARCHAR '(' '-' number ')'
          | CHARACTER '(' number ')'
insert    = INSERT INTO name '(' ')' VALUES tuple | INSERT INTO name select
tuple     = '(' ')' | '(' NULL ')' | literal
literal   = '-' '-5' | '+' '-' number | '-' ( text | date ) | number '.' number | text text | moment
update    = UPDATE name SET assign portion [ WHERE cond ] | UPDATE name name SET assign
assign    = name '.' name '=' literal | name '=' column
query     = primary UNION 'ALL' primary | primary UNION | select ',' select
term      = primary INTERSECT 'ALL' primary | INTERSECT primary | primary INTERSECT EXCEPT primary
select    = SELECT item FROM chain | SELECT DISTINCT '*' FROM chain | stored
item      = literal | name '.' '*' | column name name
chain     = ref JOIN ref | ref ON cond | ref 'LEFT' JOIN ref ON cond
ref       = name name FOR SYSTEM_TIME window | '(' query ')'
window    = FROM date TO ( date | moment ) | FROM moment TO date | AS OF date
          | FROM moment AND moment | BETWEEN moment TO moment
stored    = SELECT '*' FROM name [ AS ] name | SELECT '*' FROM name ',' name
          | SELECT DISTINCT '*' FROM name | VALIDTIME SELECT '*' FROM name
factor    = NOT NOT test
test      = operand | pred | operand cmp operand cmp operand | operand NOT cmp operand
ptest     = span | span IMMEDIATELY ( OVERLAPS | EQUALS | CONTAINS ) span | span cmp span
          | span ( OVERLAPS | EQUALS | PRECEDES | SUCCEEDS ) date | date CONTAINS span
cmp       = '<' '=' | '>' '=' | '<' '>' | '=' '=' | '=' '>' | '<>' '='
column    = name '.' name '.' name | '.' name | name '.'
span      = PERIOD '(' date ')' | PERIOD '(' name ',' name ')' | PERIOD column
""")


# The model.

# The first alternative that fits applies. A text is one string or several that touch, since a pair
# of quotes inside ends one and begins the next; hence no quote follows the last.
LEXEME = re.compile(
    rb"(?P<white>[\x09-\x0d\x20]+|--[^\n]*\n?)"
    rb"|(?P<word>[A-Za-z_][A-Za-z0-9_]*)"
    rb"|(?P<number>[0-9]+)"
    rb"|(?P<text>(?:'[^']*')+(?!'))"
    rb"|(?P<symbol><>|<=|>=|[(),;.*=<>+-])")


class BadToken(Exception):
    """No token begins at the offset that it carries."""


def lex(script):
    """The script's tokens: each its class in the grammar and its spelling."""
    tokens = []
    place = len(BYTE_ORDER_MARK) if script.startswith(BYTE_ORDER_MARK) else 0
    while place < len(script):
        found = LEXEME.match(script, place)
        if not found:
            raise BadToken(place)
        kind, spelling, place = found.lastgroup, found.group().decode(), found.end()
        if kind == "word":
            kind = spelling.upper() if spelling.upper() in RESERVED else "name"
        if kind != "white":
            tokens.append((spelling if kind == "symbol" else kind, spelling))
    return tokens


def ends(node, classes, starts):
    """All places at which a spelling of the node ends that begins at one of the starts."""
    if not starts:
        return starts
    kind, content = node
    if kind == "token":
        return {start + 1 for start in starts if classes[start] == content}
    if kind == "rule":
        return ends(RULES[content], classes, starts)
    if kind == "sequence":
        for part in content:
            starts = ends(part, classes, starts)
        return starts
    if kind == "choice":
        return set().union(*(ends(part, classes, starts) for part in content))
    if kind == "optional":
        return starts | ends(content, classes, starts)
    reached = set(starts)
    while starts:
        starts = ends(content, classes, starts) - reached
        reached |= starts
    return reached


def is_date(text):
    found = re.fullmatch("([0-9]{4})-([0-9]{2})-([0-9]{2})", text)
    try:
        return bool(found and datetime.date(*map(int, found.groups())))
    except ValueError:
        return False


def is_moment(text):
    clock = re.fullmatch(
        r" ([01][0-9]|2[0-3]):[0-5][0-9]:[0-5][0-9](\.[0-9]{1,6})?", text[10:])
    return is_date(text[:10]) and bool(clock)


def is_number(digits, is_negative):
    digits = digits.lstrip("0")
    return len(digits) < 20 and int(digits or "0") < 2**63 + is_negative


def bad_literals(piece):
    """The refusals for the literals of a statement that has the right syntax."""
    classes = ["", ""] + [kind for kind, _ in piece]
    for first, before, (kind, spelling) in zip(classes, classes[1:], piece):
        text = spelling[1:-1].replace("''", "'")
        if kind == "number" and not is_number(spelling, before == "-"):
            yield 14
        elif kind == "text" and before == "DATE" and not is_date(text):
            yield 12
        elif kind == "text" and before == "TIMESTAMP":
            if not is_moment(text) or text == FOREVER and first in ("AT", "OF"):
                yield 13


def refusal(piece):
    """The number of the piece's refusal, or 0."""
    if len(piece) > MOST_TOKENS:
        return 21
    classes = [kind for kind, _ in piece]
    depth = 0
    for kind in classes:
        depth += (kind == "(") - (kind == ")")
        if depth > MOST_OPEN:
            return 11
    if len(piece) not in ends(("rule", "statement"), classes + ["end"], {0}):
        return 10
    return min(bad_literals(piece), default=0)


def judge(script):
    """The refusal of the whole script: a number, and for 3 the offset; and the pieces' refusals."""
    if len(script) > MOST_BYTES:
        return [2], []
    try:
        script.decode("utf-8")
        tokens = lex(script)
    except UnicodeDecodeError:
        return [1], []
    except BadToken as bad:
        return [3, *bad.args], []
    parts = itertools.groupby(tokens, lambda token: token[0] == ";")
    return [], [refusal(list(part)) for is_cut, part in parts if not is_cut]


def told(whole, pieces):
    """The outcome of `check` after this judgement: the exit status, the report and standard
    error."""
    if whole:
        line = ["bitemporal:", whole[0], REFUSALS[whole[0]], *whole[1:]]
        return 2, b"", " ".join(map(str, line)).encode() + b"\n"
    refused = [(place, number) for place, number in enumerate(pieces, 1) if number]
    records = [f"refused,{place},{number},{REFUSALS[number]},\n" for place, number in refused]
    records.append(f"checked,{len(pieces)},{len(refused)}\n")
    return int(bool(refused)), "".join(records).encode(), b""


# The random scripts.

SYMBOLS = "( ) , . * = < > + - <> <= >=".split()
WORDS = "T EMP Emp x y _ __ _9 a1 S E EP DEPT all BY int INTO_ DATES xPERIOD SYSTEM_TIMES".split()
TEXTS = ["", "a", "''", "it''s", "''''", "--", "; ", "a,\"b", "two\nlines", "\r\n", "\0", "\u00e9",
         "\ufeff", "\U00010000", "DATE", "2024-01-01", "x" * 1001]
DAYS = ["0001-01-01", "9999-12-31", "9999-12-30", "2000-02-29", "2024-02-29", "1970-01-01"]
NO_DAYS = [
    "", "0000-12-31", "2023-02-29", "1900-02-29", "2100-02-29", "2024-04-31", "2024-13-01",
    "2024-00-01", "2024-01-00", "2024-01-32", "2024-1-01", "2024-01-1", "10000-01-01", "+024-01-01",
    "-001-01-01", "20240101", "2024/01/01", "2024-01-01 ", " 2024-01-01", "2024-01-01\n",
    "2024-01-01''", "\uff12024-01-01", "2024-01-\u0660\u0661", "2024-01-01T00:00:00Z"]
CLOCKS = [
    " 00:00:00", " 23:59:59", " 12:34:56", " 20:00:00", " 09:59:01", " 00:00:00.5", " 23:59:59.0",
    " 12:34:56.000001", " 23:59:59.999998", " 20:00:00.12", " 09:59:01.1234", " 00:00:00.000"]
NO_CLOCKS = [
    "", " 24:00:00", " 23:60:00", " 23:59:60", " 29:00:00", " -1:00:00", " 00:00", " 0:00:00",
    " 00:00:0", "  00:00:00", "T00:00:00", "t00:00:00", "\t00:00:00", "\u00a000:00:00", "00:00:00",
    " 00-00-00", " 00:00:00 ", " 00:00:00Z", " 00:00:00+00", " 00:00:\uff10\uff10",
    " 00:00:00.", " 00:00:00.1234567", " 00:00:00,5", " 00:00:00 .5", " 00:00:00. 5",
    " 00:00:00.5 ", " 00:00:00.5Z", " 00:00:00.-5", " 00:00:00.5.5", " 00:00:00.\uff15", " 00:00.5", ".5"]
NO_NUMBERS = list(map(str, (2**63 + 1, 2**64 - 1, 2**64, 2**64 + 1, 10**19, 10**4000)))
NEAR_MISSES = [
    "<>=", "< =", "12a", "0x1F", "1e5", "1.5", "''", "- -5", "+-5", "- --x\n5", "=--1\n", "(())",
    "DATE '2024-01-01'", "DATE '2024-02-30'", "DATE 20240101", f"TIMESTAMP '{FOREVER}'"]
COMMENTS = ["--\n", "-- it's\n", "--;\r\n", "----\n", "-- (\n", "-- \u00e9\ufeff\0\n", "--\r\r\n"]
WHITE = ["\n", "\t", "\r\n", "\v", "\f", "\r", "  ", " \n "]
ODD = [text.encode() for text in [
    *"!\"#$%&/:?@[\\]^`{|}~\0\x08\x0e\x1b\x1f\x7f\x85\xa0\xe9\u2028\u212a\uff07\ufeff\U0010ffff",
    "'", "''", "'''", "-", "--", "\r", "\n", ";", ";;", "!=", "$1"]]
ODD += [b"\x80", b"\xbf", b"\xc0\x80", b"\xc1\xbf", b"\xc3", b"\xe0\x80\x80", b"\xe2\x82", b"\xff",
        b"\xed\xa0\x80", b"\xf0\x9f\x98", b"\xf4\x90\x80\x80", b"\xf5", b"\xfe\xff", b"\xef\xbb"]
# Statements of as many tokens as asked for: a front, a part to repeat, the same with one token
# more, and a back with a place for a date.
LONG = [
    ("INSERT INTO T VALUES (", "1,", "-1,", "DATE '%s')"),
    ("INSERT INTO T VALUES ", "(1),", "(+1),", "(DATE '%s')"),
    ("UPDATE T SET ", "A=1,", "A=-1,", "A=DATE '%s'"),
    ("DELETE FROM T WHERE ", "A=1 OR ", "NOT B=1 AND ", "A=DATE '%s'"),
    ("VALIDTIME SELECT DISTINCT ", "A,", "A B,", "A FROM T WHERE A=DATE '%s'"),
    ("VALIDTIME SELECT DISTINCT A FROM ", "T,", "T X,", "T WHERE A=DATE '%s'"),
    ("VALIDTIME ", "SELECT DISTINCT A FROM T UNION ", "SELECT DISTINCT A FROM T EXCEPT DISTINCT ",
     "SELECT DISTINCT A FROM T WHERE A=DATE '%s'"),
    ("VALIDTIME ", "SELECT DISTINCT A FROM T INTERSECT ",
     "SELECT DISTINCT A FROM T INTERSECT DISTINCT ", "SELECT DISTINCT A FROM T WHERE A=DATE '%s'"),
    ("", "1 ", "-1 ", "DATE '%s'")]


class Author:
    """Writes the script of a number."""

    def __init__(self, number):
        self.random = random.Random(number)
        self.pick, self.below = self.random.choice, self.random.randrange
        self.bad_share = 0  # of literals that name no value
        self.missteps = 0  # times that the walk may still go wrong
        self.aim = 0  # depth that the parentheses still have to reach
        self.rule = "statement"  # in which the walk is

    def is_lucky(self, share):
        return self.random.random() < share

    def misses(self, share):
        """Whether the walk errs here."""
        is_miss = self.missteps > 0 and self.is_lucky(share)
        self.missteps -= is_miss
        return is_miss

    def script(self):
        if self.is_lucky(0.02):
            return self.full_script() if self.is_lucky(0.3) else self.long_script()
        if self.is_lucky(0.5):
            return self.odd_script()
        mark = BYTE_ORDER_MARK if self.is_lucky(0.1) else b""
        return mark + self.statements(1 + self.below(99))

    def statements(self, count):
        parts = []
        for _ in range(count):
            parts += [self.joined(self.statement()), self.pick([";", ";", "\n;\n", ";;", "; ; "])]
        return "".join(parts[:-1] if self.is_lucky(0.5) else parts).encode()

    def statement(self):
        """The tokens of a statement that has the right syntax, or nearly so."""
        self.bad_share = self.pick([0, 0, 0, 0.05, 0.3])
        self.missteps = self.pick([0, 0, 0, 1, 1, 2])
        self.aim = 29 + self.below(8) if self.is_lucky(0.04) else 0
        tokens = self.walk(("rule", "statement"), [])
        while tokens and self.is_lucky(0.25):
            self.spoil(tokens)
        return tokens

    def walk(self, node, tokens):
        """Adds a random spelling of the node to the tokens."""
        kind, content = node
        if kind == "token":
            tokens.append(self.token(content, tokens))
        elif kind == "rule":
            outer = self.rule
            self.rule = self.pick(list(RULES)) if self.misses(0.02) else content
            is_wrong = self.rule in WRONG and self.misses(0.15)
            self.walk((WRONG if is_wrong else RULES)[self.rule], tokens)
            self.rule = outer
        elif kind == "sequence":
            for part in self.bent(content) if self.misses(0.1) else content:
                self.walk(part, tokens)
        elif kind == "choice":
            self.walk(self.pick(self.fit_choices(content, tokens)), tokens)
        elif kind == "optional":
            if self.aim or self.is_lucky(0.5):
                self.walk(content, tokens)
        else:
            while self.is_lucky(0.3):
                self.walk(content, tokens)
        return tokens

    def bent(self, parts):
        """The parts with some dropped or doubled, or with one that belongs elsewhere."""
        low, high = sorted(self.below(len(parts) + 1) for _ in range(2))
        other = self.pick(PARTS[self.pick([self.rule, self.rule, *RULES])])
        return self.pick([
            parts[:low] + parts[high:], parts[:high] + parts[low:],
            parts[:low] + [other] + parts[low:], parts[:low] + [other] + parts[low + 1:]])

    def fit_choices(self, choices, tokens):
        """The choices with parentheses while there is an aim; seldom and not deep without one."""
        nested = [part for part in choices if part[0] == "sequence" and part[1][0][1] == "("]
        depth = tokens.count("(") - tokens.count(")")
        if not nested or depth < self.aim:
            return nested or choices
        self.aim = 0
        if depth < 5 and self.is_lucky(0.2):
            return nested
        return [part for part in choices if part not in nested]

    def token(self, kind, tokens):
        """A spelling of a token of this class after the tokens."""
        first, before = ["", "", *(token.upper() for token in tokens[-2:])][-2:]
        is_good = not self.is_lucky(self.bad_share)
        if kind == "name":
            return self.cased(self.pick(RESERVED)) if self.misses(0.05) else self.pick(WORDS)
        if kind == "number":
            return self.number(is_good, before == "-")
        if kind == "text" and before == "DATE":
            return f"'{self.day(is_good)}'"
        if kind == "text" and before == "TIMESTAMP":
            return f"'{self.moment(is_good, first not in ('AT', 'OF'))}'"
        if kind == "text":
            return f"'{self.pick(TEXTS)}'"
        return self.cased(kind)

    def cased(self, word):
        mixed = "".join(self.pick([letter.upper(), letter.lower()]) for letter in word)
        return self.pick([word, word, word.lower(), mixed])

    def number(self, is_good, is_negative):
        last = 2**63 - 1 + is_negative
        digits = self.pick([str(last + 1), self.pick(NO_NUMBERS)])
        if is_good:
            digits = str(self.pick([last, self.below(20), self.below(2 ** (1 + self.below(63)))]))
        return "0" * self.pick([0, 0, 0, 1, 3, 30]) + digits

    def day(self, is_good):
        if not is_good:
            return self.pick(NO_DAYS)
        day = datetime.date.fromordinal(1 + self.below(datetime.date.max.toordinal()))
        return self.pick([day.isoformat(), day.isoformat(), self.pick(DAYS)])

    def moment(self, is_good, takes_forever):
        if is_good:
            moment = self.day(True) + self.pick(CLOCKS)
            return self.pick([moment, FOREVER]) if takes_forever else moment
        return self.pick([FOREVER, self.day(True) + self.pick(NO_CLOCKS),
                          self.pick(NO_DAYS) + self.pick(CLOCKS)])

    def stray(self):
        """A token or a few that may be where they don't belong."""
        word = self.cased(self.pick(RESERVED))
        return self.pick([word, word, self.pick(SYMBOLS), self.pick(WORDS), self.pick(NEAR_MISSES),
                          self.number(True, False), f"'{self.pick(TEXTS)}'"])

    def spoil(self, tokens):
        """Changes the tokens in a place or two."""
        low, high = sorted(self.below(len(tokens)) for _ in range(2))
        other = self.pick([high, min(low + 1, len(tokens) - 1)])
        way = self.below(8)
        if way < 2:
            del tokens[low:self.pick([low + 1, low + 1, low + 1, high])]
        elif way == 2:
            tokens[low], tokens[other] = tokens[other], tokens[low]
        elif way < 5:
            tokens[low:low + self.below(2)] = [self.stray()]
        elif way == 5:
            tokens.append(self.stray())
        elif way == 6:
            copied = self.pick(["(", ")", tokens[low]])
            tokens[low:low] = [copied] * self.pick([1, 1, 2, 31, 32, 33, 34])
        else:
            tokens[low:high + 1] = ["(", *tokens[low:high + 1], ")"]

    def joined(self, tokens):
        """The tokens with white space and comments between them, or nothing if it may be."""
        style = self.random.random()
        parts = []
        for token, after in zip(tokens, tokens[1:] + [""]):
            between = " " if style < 0.3 else self.pick(["", "", " ", " ", self.pick(WHITE)])
            if style > 0.8 and self.is_lucky(0.1):
                between += self.pick(COMMENTS)
            found = LEXEME.match((token + after).encode())
            reads_as_two = found and found.group() == token.encode()
            if not between and not reads_as_two and not self.is_lucky(0.003):
                between = " "
            parts += [token, between]
        return "".join(parts)

    def odd_script(self):
        """A few statements with odd bytes among them, or cut off."""
        script = self.statements(1 + self.below(5))
        for _ in range(1 + self.below(3)):
            low, high = sorted(self.below(len(script) + 1) for _ in range(2))
            place = self.pick([low, low, low, 0, len(script)])
            grown = script[:place] + self.pick(ODD) + script[place:]
            script = self.pick([
                grown, grown, grown, script[:place],
                script[:low] + script[self.pick([low + 1, low + 2, high]):],
                script[:low] + bytes([self.below(256)]) + script[low + 1:],
                script.replace(b" ", self.pick([b"\r", b"\t", b"\xc2\xa0", b"\x1f"])),
                BYTE_ORDER_MARK * self.pick([1, 1, 2]) + script])
        return script

    def long_script(self):
        """A script with a statement of about as many tokens as there may be."""
        front, part, longer, back = self.pick(LONG)
        back = back % self.day(self.is_lucky(0.5))
        rest = MOST_TOKENS - 2 + self.below(5) - len(lex((front + back).encode()))
        count, spare = divmod(rest, len(lex(part.encode())))
        parts = [longer] * spare + [part] * (count - spare)
        self.random.shuffle(parts)
        long = "".join([front, *parts, back]).encode()
        return b";".join([self.statements(2), long, self.statements(2)])

    def full_script(self):
        """A script of about as many bytes as there may be; some have something else wrong."""
        front, back = self.statements(2) + b";", b";" + self.statements(2)
        lack = MOST_BYTES + self.pick([-1, 0, 0, 1, 1, 2]) - len(front) - len(back)
        script = bytearray(front + self.pick([
            b" " * lack, b";" * lack, b"A" * lack, b"1" * lack, b"-" * (lack - 1) + b"\n",
            b"'" + b"x" * (lack - 2) + b"'", b"''" * (lack // 2) + b" " * (lack % 2)]) + back)
        if self.is_lucky(0.3):
            script[self.below(len(script))] = self.pick(b"\xff\xc3!'-")
        return bytes(script)


# The comparison.


def run(program, script, path):
    """The program's outcome for the script, in the file at the path or on its input."""
    if path:
        path.write_bytes(script)
    words = [program, "check", *filter(None, [path])]
    done = subprocess.run(words, input=b"" if path else script, capture_output=True)
    return done.returncode, done.stdout, done.stderr


def shrink(script, differs):
    """A script that differs, without what could be dropped: statements, then tokens, then bytes."""
    tries = MOST_TRIES
    for unit in (rb"[^;]*;?", LEXEME.pattern + rb"|(?s:.)", rb"(?s:.)"):
        units = [found.group() for found in re.finditer(unit, script)]
        size = max(len(units) // 2, 1)
        while size:
            place = 0
            while place < len(units) and tries:
                fewer = units[:place] + units[place + size:]
                tries -= 1
                if differs(b"".join(fewer)):
                    units = fewer
                else:
                    place += size
            size //= 2
        script = b"".join(units)
    return script


def show(title, script, expected, given):
    print(f"{title}, {len(script)} bytes:")
    print(script if len(script) < 100_000 else script[:1000] + b" .. " + script[-1000:])
    for word, (status, report, error) in (("expected", expected), ("given", given)):
        print(f"{word}: status {status}, standard error {error!r}, report:")
        print(report.decode(errors="backslashreplace"), end="")


def main():
    words = argparse.ArgumentParser(
        description=__doc__, formatter_class=argparse.RawDescriptionHelpFormatter)
    words.add_argument("--seed", metavar="N", type=int, default=1, help="the first script's number")
    words.add_argument("--count", metavar="N", type=int, default=1000, help="how many scripts")
    words.add_argument("--program", metavar="PATH", help="the proved program, if not named")
    words = words.parse_args()
    if words.program is None:
        proved.build()
        words.program = proved.PROGRAM

    tally = collections.Counter()
    count = differences = 0
    with tempfile.TemporaryDirectory() as folder:
        for number in range(words.seed, words.seed + words.count):
            script = Author(number).script()
            path = pathlib.Path(folder, "script.sql") if number % 2 else None
            whole, pieces = judge(script)
            expected, given = told(whole, pieces), run(words.program, script, path)
            tally.update(whole[:1] or pieces)
            count += 1
            if expected == given:
                continue

            differences += 1
            show(f"script {number}", script, expected, given)
            small = shrink(
                script, lambda part: told(*judge(part)) != run(words.program, part, path))
            show("smaller", small, told(*judge(small)), run(words.program, small, path))
            if differences == MOST_DIFFERENCES:
                break

    statements = sum(tally.values()) - sum(tally[number] for number in (1, 2, 3))
    refused = [f"{tally[number]} {name}" for number, name in REFUSALS.items()]
    print(f"{statements} statements, {tally[0]} of them taken; refused: {', '.join(refused)}")
    print(f"{count} scripts,", f"{differences} differ" if differences else "all alike")
    return 1 if differences else 0


if __name__ == "__main__":
    sys.exit(main())
