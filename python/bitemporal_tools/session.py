"""A session over a store on a terminal: a prompt, answers as tables, and refusals explained.

    tools/session STORE [--audit] [--stop] [[--now] [--clock-ahead] | --script-clock | --read-only]

./bitemporal_file STORE starts this if it is called on a terminal and names no script. Statements
end with a semicolon, and each is run when its line is sent; what has none at the end is not run. An
answer is shown as a table, and a statement that is refused as tools/explain has it: the cause and
what to do. Changes are recorded at the system's time, as bitemporal_file has it with --now; with
--script-clock at the moment of the last AT. A change before any AT of the session or of the store
is noted then, once.

    \\?       shows this help
    .help    lists the commands of the program, whose lines begin with a dot
    \\q       ends the session, as Ctrl-D does at the prompt
    Ctrl-C   drops what is written and not yet sent. While a statement runs, it says so; a second
             one kills the program, and the store is then as before the statement or after it

STORE, --audit, --stop and --clock-ahead are as for bitemporal_file, whose exit status this has: 0;
1 if a statement was refused; 3 if an audit did not agree; 2 in a fault, which is reported; and 130
if it was killed.
"""
import pathlib
import re
import signal
import sys
from collections.abc import Callable, Sequence
from typing import Optional

try:  # the prompt has its keys and its history by it
    import readline  # noqa: F401  pylint: disable=unused-import
except ImportError:
    pass

from bitemporal_tools import command_line, options, program
from bitemporal_tools.command_line import counted
from bitemporal_tools.engine_session import NAME, Ended, EngineSession, ran
from bitemporal_tools.explanation import bad_tokens
from bitemporal_tools.explanation.explaining import Explainer
from bitemporal_tools.explanation.moments import WITHOUT_AT
from bitemporal_tools.explanation.report import Refusal
from bitemporal_tools.reports.answer_tables import Table
from bitemporal_tools.reports.answer_texts import as_table
from bitemporal_tools.reports.listing import catalog_of
from bitemporal_tools.sql.catalog import Catalog
from bitemporal_tools.sql.literals import FIRST_MOMENT
from bitemporal_tools.sql.lexis import decoded, lexed, pieces
from bitemporal_tools.sql.parts import parts_of
from bitemporal_tools.sql.refusals import Refused
from bitemporal_tools.sql.script import Statement
from bitemporal_tools.sql.tree import At

PROMPT, MORE = 'bitemporal> ', '       ...> '
GREETING = 'Statements end with a semicolon. \\? shows help, \\q ends the session.'
RUNS_ON = '\nThe statement runs on. Ctrl-C once more kills the program.'
# The sentence on an AT that the system's time refuses.
AT_REFUSALS = {'13': 'later', '40': 'earlier'}
AT_REFUSED = """    Cause: The session runs at the system's time, and the moment is {} than that.
    What to do: Leave the AT out, or start the session with --script-clock."""
KILLED = 130
NO_COMMAND = '10'  # the refusal of a line that has none
READ_ONLY, CLOCK_AHEAD = '--read-only', '--clock-ahead'
# The tables of a store are listed before the session, to explain refusals by, if that is quick.
LARGEST_LISTED = 16 * 1024 * 1024


def listed(file: str, store: str, words: Sequence[str]) -> Catalog:
    """The tables of a store, to explain refusals by. The program ends here if it does not open
    the store, and has then printed why."""
    path = pathlib.Path(store)
    if not path.exists() or path.is_file() and path.stat().st_size > LARGEST_LISTED:
        return Catalog()
    found = ran(NAME, [store, '--tables', *words], path=file, stderr=None)
    if found.returncode:
        sys.exit(found.returncode)
    return catalog_of(found.stdout.decode('utf-8'))


class Session:
    """One program that runs, what is sent to it, and what it reports."""

    def __init__(self, file: str, store: str, words: Sequence[str]) -> None:
        self.catalog = listed(file, store, [word for word in words if word == READ_ONLY])
        self.engine = EngineSession([store, *words], file)
        self.audits, self.stops = '--audit' in words, '--stop' in words
        self.is_timed = '--now' in words
        self.is_warned = False
        # Whether a change may be recorded at the first moment of all, and nothing was said of it.
        self.is_unsaid = not self.is_timed

    def interrupted(self, *_: object) -> None:
        """Ctrl-C while a statement runs."""
        if self.is_warned:
            self.engine.process.kill()
        else:
            self.is_warned = True
            print(RUNS_ON, flush=True)

    def run(self, send: Callable[[str], None], text: str) -> None:
        """Sends a text, a part or a command, and shows what the program reports of it."""
        self.is_warned = False
        before = signal.signal(signal.SIGINT, self.interrupted)
        try:
            send(text)
        finally:
            signal.signal(signal.SIGINT, before)

    def part(self, text: str) -> None:
        """A statement, as far as it is one."""
        part = text.lstrip()
        data = part.encode('utf-8', 'surrogateescape')
        self.engine.send(data)
        statement = refused = None
        try:
            found = [Statement(0, piece) for piece in pieces(lexed(decoded(data)))]
            statement = found[0] if found else None
        except Refused as why:
            refused = why
        if statement is not None or refused is not None:
            self.show(part, statement, refused)

    def command(self, line: str) -> None:
        """A command on a line of its own."""
        *records, (_, word, outcome, *cause) = self.engine.command(line)
        print(''.join(','.join(record) + '\n' for record in records), end='')
        if outcome == 'refused':
            hint = '; .help lists the commands' if cause[0] == NO_COMMAND else ''
            print(f'.{word}: {" ".join(cause)}'.rstrip() + hint)
        elif word == 'backup':
            print('done: backup')

    def show(self, part: str, statement: Optional[Statement],
             refused: Optional[Refused]) -> None:
        """Shows the outcome of a statement."""
        kind, number, *fields = self.engine.record()
        if kind == 'refused':
            self.show_refusal(part, statement, refused, number, fields)
            if self.stops:
                raise Ended
        elif kind == 'done':
            what, count = fields
            print(f'done: {what}' + ('' if what in ('at', 'create') else
                                     f', {counted(int(count), "row")}'))
            self.catalog.take(statement.tree if statement else None)
            self.note(what)
        else:
            self.show_answer(number, int(fields[1]))
            if self.audits and kind == 'answer':
                print('audit: ' + ' '.join(self.engine.record()[2:]).rstrip())

    def note(self, what: str) -> None:
        """Notes the first change that is recorded at the first moment of all, since no AT stands
        before it."""
        if self.is_unsaid and what != 'create':
            self.is_unsaid = False
            if what != 'at' and self.engine.command('.clock')[0][1] == FIRST_MOMENT:
                print(f'note: {WITHOUT_AT}')

    def show_answer(self, number: str, count: int) -> None:
        columns = self.engine.record()[2:]
        rows = [self.engine.record()[2:] for _ in range(count)]
        if columns[-2:] == ['held', 'absent']:
            columns, rows = columns[:-2], [row[:-2] for row in rows]
        print(as_table(Table(int(number), '', '', columns, rows)), end='')

    def show_refusal(self, part: str, statement: Optional[Statement], refused: Optional[Refused],
                     number: str, fields: list[str]) -> None:
        """Why a statement is refused, by its text and the tables that are known."""
        code, name, day = fields
        print(f'statement {number}: {code} {name} {day}'.rstrip())
        if self.is_timed and code in AT_REFUSALS and statement is not None \
                and isinstance(statement.tree, At) and not statement.faults:
            print(AT_REFUSED.format(AT_REFUSALS[code]))
            return
        if refused is not None:
            text = bad_tokens.of_script('', part.encode('utf-8', 'surrogateescape'), refused)
        elif statement is not None:
            statement.judge(self.catalog)
            refusal = Refusal(statement, int(code), dict(self.catalog.tables), day or None, None)
            text = Explainer('', part).explained(refusal)
        print(text.partition('\n')[2])

    def end(self) -> int:
        """Ends the input, and gives the status of the program."""
        status = self.engine.close(float('inf'))
        return status if status >= 0 else KILLED


def talk(session: Session) -> None:
    """Reads lines and runs the parts that end in them, until the input or the program ends."""
    held = ''
    print(GREETING)
    while True:
        try:
            line = input(MORE if held.strip() else PROMPT)
        except KeyboardInterrupt:
            held = ''
            print()
            continue
        except EOFError:
            print()
            break
        if not held.strip() and line.strip() in ('\\q', '\\?'):
            if line.strip() == '\\q':
                return
            print((__doc__ or '').split('\n\n', 2)[2].rstrip())
            continue
        # A command may follow blanks and comments alone.
        if line.startswith('.') and not re.sub('--[^\n]*', '', held).strip():
            session.run(session.command, line)
            held = ''
            continue
        *parts, held = parts_of(held + line + '\n')
        for part in parts:
            session.run(session.part, part)
    if held.strip():  # the program says that it is not run
        session.engine.send(held.encode('utf-8', 'surrogateescape'))


def main(arguments: Sequence[str]) -> int:
    parser = command_line.parser('session', __doc__, 'STORE [OPTIONS]')
    options.add(parser, {'STORE': '', '--audit': 'check each answer day by day',
                         '--stop': 'end at the first refused statement'})
    options.add(parser.add_mutually_exclusive_group(), {
        '--now': "record changes at the system's time, as without a flag",
        '--script-clock': 'record them at the moment of the last AT',
        READ_ONLY: 'write nothing: queries alone are answered'})
    options.add(parser, {CLOCK_AHEAD: "run over a store whose clock is ahead of the system's time"})
    wanted = parser.parse_args(arguments)
    words = [word for word in ('--audit', '--stop', CLOCK_AHEAD)
             if vars(wanted)[word[2:].replace('-', '_')]]
    if wanted.read_only:
        words.append(READ_ONLY)
    elif not wanted.script_clock:
        words.append('--now')
    session = Session(program.launcher(NAME), wanted.store, words)
    try:
        talk(session)
    except Ended:
        pass
    return session.end()
