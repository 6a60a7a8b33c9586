#!/usr/bin/env python3
"""Tests tools/session on a pseudo-terminal, as ./bitemporal_file starts it there.

The program is the built one, or the one that the variable BITEMPORAL names.
"""
import os
import pty
import re
import select
import signal
import sys
import time

import support
from support import ROOT, Case

CREATE = support.create_table('PAY', 'ENO INTEGER, CENTS INTEGER', 'ENO', 'EP') + """;
"""
INSERT = "INSERT INTO PAY VALUES (101, 300000, DATE '2024-01-01', DATE '2024-07-01');\n"
SELECT = 'VALIDTIME SELECT DISTINCT ENO FROM PAY;\n'
PROMPT, MORE = 'bitemporal> ', '       ...> '
SECONDS = 60


class Terminal:
    """A command on a pseudo-terminal."""

    def __init__(self, *words: str) -> None:
        self.shown = ''
        self.pid, self.file = pty.fork()
        if self.pid == 0:
            # A shell that starts the tests in the background has Ctrl-C ignored.
            signal.signal(signal.SIGINT, signal.SIG_DFL)
            os.environ['TERM'] = 'dumb'
            try:
                os.execv(words[0], words)
            finally:
                os._exit(127)
        os.set_blocking(self.file, False)

    def read(self) -> str:
        """The text that is shown next, or nothing at the end."""
        ready, _, _ = select.select([self.file], [], [], SECONDS)
        try:
            text = os.read(self.file, 4096).decode('utf-8') if ready else ''
        except OSError:  # the other side has ended
            text = ''
        # Escapes by which readline sets up the terminal say nothing.
        self.shown += re.sub('\x1b\\[[?0-9;]*[a-zA-Z]', '', text).replace('\r', '')
        return text

    def until(self, end: str) -> str:
        """The text that is shown up to this, which ends it."""
        while not self.shown.endswith(end) and self.read():
            pass
        text, self.shown = self.shown, ''
        return text

    def send(self, text: str) -> None:
        """Types a text. It fails if nobody reads: that would wait for ever."""
        data, last = text.encode('utf-8'), time.monotonic() + SECONDS
        while data:
            try:
                data = data[os.write(self.file, data):]
            except BlockingIOError:
                if time.monotonic() > last:
                    raise
                time.sleep(0.01)

    def ask(self, text: str, end: str = '\n' + PROMPT) -> str:
        """The text that is shown after one that is typed, up to the next prompt."""
        self.send(text)
        found = self.until(end)
        return found[:-len(PROMPT)] if found.endswith(PROMPT) else found

    def status(self) -> int:
        while self.read():
            pass
        status = os.waitpid(self.pid, 0)[1]
        os.close(self.file)
        return os.WEXITSTATUS(status) if os.WIFEXITED(status) else -status


def start(*words: str) -> Terminal:
    terminal = Terminal(sys.executable, str(ROOT / 'tools/session'), *words)
    terminal.until(PROMPT)
    return terminal


def shown(found: str) -> str:
    """The text after the line that was typed, which the terminal shows too."""
    return found.partition('\n')[2]


class SessionOfAStore(Case):
    def test_answers(self) -> None:
        """Statements and their answers."""
        terminal = start(str(self.folder / 'a.store'), '--audit')
        self.holds('CREATE', terminal.ask(CREATE).endswith('\ndone: create\n'))
        self.equal('INSERT', shown(terminal.ask(INSERT)), 'done: insert, 1 row\n')
        table = ('3 (1 row)\nENO  valid_from  valid_to\n---  ----------  ----------\n'
                 '101  2024-01-01  2024-07-01\naudit: agrees 4\n')
        self.equal('an answer', re.sub('agrees [0-9]+', 'agrees 4', shown(terminal.ask(SELECT))),
                   table)
        self.holds('versions', '\n101  300000' in terminal.ask('SELECT * FROM PAY;\n'))
        two = shown(terminal.ask(INSERT.replace('101', '102').strip()
                                 + INSERT.replace('101', '103')))
        self.equal('two in a line', two, 'done: insert, 1 row\n' * 2)
        self.equal('an empty one', shown(terminal.ask(';\n')), '')
        self.holds('a semicolon in a text', terminal.ask("';\n", MORE).endswith(MORE))
        self.holds('its end', '10 Syntax' in terminal.ask("';\n"))
        self.holds('help', 'Ctrl-C' in terminal.ask('\\?\n'))
        terminal.send('\\q\n')
        self.equal('the status', terminal.status(), 1)

    def test_refusals(self) -> None:
        """Refusals, over tables of this session and of one before."""
        terminal = start(str(self.folder / 'a.store'))
        terminal.ask(CREATE)
        terminal.ask(INSERT)
        terminal.send('\\q\n')
        self.equal('a session before', terminal.status(), 0)
        terminal = start(str(self.folder / 'a.store'))
        found = shown(terminal.ask('VALIDTIME SELECT DISTINCT WAGE FROM PAY;\n'))
        self.holds('a column that is not there', found.startswith('statement 1: 24 UnknownColumn\n')
                   and 'PAY has no column WAGE.' in found and 'What to do:' in found, found)
        found = shown(terminal.ask(INSERT))
        self.holds('a key clash', found.startswith('statement 2: 42 KeyOverlap 2024-01-01\n'),
                   found)
        found = shown(terminal.ask('SELECT "ENO" FROM PAY;\n'))
        self.holds('a bad token', found.startswith('statement 3: 3 BadToken\n')
                   and 'double quotes' in found, found)
        self.holds('it goes on', '101' in terminal.ask(SELECT))
        terminal.send('\x04')
        self.equal('the status after Ctrl-D', terminal.status(), 1)
        terminal = start(str(self.folder / 'a.store'), '--stop')
        terminal.send('SELECT 1;\n')
        self.equal('--stop ends it', terminal.status(), 1)

    def test_commands(self) -> None:
        """Commands of the program, on lines of their own."""
        terminal = start(str(self.folder / 'c.store'))
        self.equal('a command', shown(terminal.ask('.clock\n')), 'clock,0001-01-01 00:00:00\n')
        found = shown(terminal.ask('-- one\n', MORE) + terminal.ask('.help\n'))
        self.equal('behind a comment', found.splitlines()[-1], 'help,.help,the commands')
        self.equal('no command', shown(terminal.ask('.clocks\n')),
                   '.clocks: 10 Syntax; .help lists the commands\n')
        copy = f'.backup {self.folder / "a copy.store"}\n'
        self.equal('a copy', shown(terminal.ask(copy)), 'done: backup\n')
        self.equal('a copy that is there', shown(terminal.ask(copy)),
                   '.backup: 62 Store the file of the copy is there already\n')
        terminal.send('\\q\n')
        self.equal('the status', terminal.status(), 0)

    def test_clock(self) -> None:
        """The system's time moves the clock, or with --script-clock AT alone."""
        store, at = str(self.folder / 'd.store'), "AT TIMESTAMP '{}-01-01 00:00:00';\n"
        terminal = start(store)
        terminal.ask(CREATE)
        terminal.ask(INSERT)
        year = time.gmtime().tm_year
        self.holds('the system\'s time', f'  {year}-' in terminal.ask('SELECT * FROM PAY;\n'))
        found = shown(terminal.ask(at.format(year + 100)))
        self.holds('an AT of the future', found.startswith('statement 4: 13 BadMoment\n')
                   and 'is later than that' in found, found)
        found = shown(terminal.ask(at.format(2001)))
        self.holds('an AT of the past', found.startswith('statement 5: 40 MomentBack\n')
                   and 'is earlier than that' in found, found)
        found = shown(terminal.ask(at.format('0000')))
        self.holds('no moment', found.startswith('statement 6: 13 BadMoment\n')
                   and 'nineteen characters' in found, found)
        terminal.send('\\q\n')
        self.equal('its status', terminal.status(), 1)
        terminal = start(store, '--script-clock')
        self.equal('--script-clock', shown(terminal.ask(at.format(year + 100))), 'done: at\n')
        terminal.send('\\q\n')
        self.equal('its status', terminal.status(), 0)

    def test_moments(self) -> None:
        """With --script-clock a change before any AT is noted, once."""
        note = ('note: no AT stands before this change, so it is recorded at 0001-01-01 00:00:00\n')
        store, at = str(self.folder / 'e.store'), "AT TIMESTAMP '2024-01-01 00:00:00';\n"
        other = INSERT.replace('101', '102')
        for name, words, lines, said in (
                ('one', ['--script-clock'], [CREATE, INSERT, other], [False, True, False]),
                ('a store of before', ['--script-clock'], [SELECT, INSERT.replace('101', '103')],
                 [False, True]),
                ('an AT', ['--script-clock'], [at, INSERT.replace('101', '104')], [False, False]),
                ('a clock of before', ['--script-clock'], [INSERT.replace('101', '105')], [False]),
                ('--now', ['--now'], [INSERT.replace('101', '106')], [False])):
            terminal = start(store, *words)
            found = [note in terminal.ask(line) for line in lines]
            self.equal(name, found, said)
            terminal.send('\\q\n')
            self.equal(f'{name}: the status', terminal.status(), 0)
        terminal = start(str(self.folder / 'f.store'), '--script-clock')
        terminal.ask(CREATE)
        terminal.ask(INSERT)
        told = terminal.ask('DELETE FROM PAY;\n')
        terminal.send('\\q\n')
        self.equal('the status', terminal.status(), 0)
        told += terminal.shown
        self.holds('what is replaced is told', 'statement 3: versions of this very moment, replaced'
                   ' or deleted and not kept: 1\n' in told, told)

    def test_keys(self) -> None:
        """Ctrl-C and Ctrl-D."""
        terminal = start(str(self.folder / 'b.store'))
        terminal.ask('VALIDTIME SELECT\n', MORE)
        # Python shows the prompt a moment before it waits for keys, and a Ctrl-C between is not
        # seen until the next key: on a busy machine that is more than half a second.
        time.sleep(2)
        self.holds('Ctrl-C drops what is written', terminal.ask('\x03', PROMPT).endswith('\n'))
        self.holds('and it is gone', terminal.ask(CREATE).endswith('\ndone: create\n'))
        terminal.ask('SELECT * FROM PAY\n', MORE)
        terminal.send('\x04')
        told = terminal.until('never')
        self.holds('Ctrl-D runs nothing without a semicolon',
                   'ENO' not in told and 'which was not run' in told, told)
        self.equal('with status 2', terminal.status(), 2)
        terminal = start(str(self.folder / 'b.store'))
        for first in range(0, 2000, 20):
            rows = ', '.join(f"({key}, 1, DATE '2024-01-01', DATE '2024-02-01')"
                             for key in range(first, first + 20))
            terminal.ask(f'INSERT INTO PAY VALUES {rows};\n')
        terminal.send('VALIDTIME SELECT DISTINCT A.ENO FROM PAY A, PAY B WHERE A.ENO < B.ENO;\n')
        time.sleep(0.1)
        terminal.send('\x03')
        told = terminal.until('kills the program.\n')
        terminal.send('\x03')
        if 'once more' in told:  # the statement may have been done before
            self.equal('killed', terminal.status(), 130)

    def test_launcher(self) -> None:
        """The launcher starts it on a terminal, and the program if a script is named."""
        terminal = Terminal(str(ROOT / 'bitemporal_file'), str(self.folder / 'c.store'))
        self.holds('a prompt', terminal.until(PROMPT).endswith(PROMPT))
        terminal.send('\\q\n')
        self.equal('its status', terminal.status(), 0)
        script = self.folder / 'c.sql'
        script.write_text(CREATE, encoding='utf-8')
        terminal = Terminal(str(ROOT / 'bitemporal_file'), str(self.folder / 'c.store'),
                            str(script))
        shown = terminal.until('create,0\n')
        self.equal('a script', (shown.splitlines()[-1], terminal.status()), ('done,1,create,0', 0))
        terminal = start(str(self.folder))
        self.equal('no store', terminal.status(), 2)


if __name__ == '__main__':
    support.run_cases()
