"""Statements of a session, which are answered without the engine: blocks, settings and prepared
statements. What is said yes to is kept; all else is refused, by its name and with the reason."""
import re
from typing import Any, Callable, Iterator, NamedTuple, Optional, Sequence

from bitemporal_tools.sql.lexis import Token

from . import values
from .lexis import qualified, text_of
from .problems import SYNTAX, Problem
from .wire import Column

# Settings that are what they are, by the names that PostgreSQL gives them.
FIXED = {
    'server_version': '9.6.0', 'server_version_num': '90600', 'server_encoding': 'UTF8',
    'client_encoding': 'UTF8', 'DateStyle': 'ISO, YMD', 'TimeZone': 'UTC',
    'integer_datetimes': 'on', 'standard_conforming_strings': 'on', 'IntervalStyle': 'postgres',
    'is_superuser': 'off', 'transaction_isolation': 'read committed', 'search_path': 'public',
    'default_transaction_isolation': 'read committed', 'max_identifier_length': '63',
    'lock_timeout': '0', 'idle_in_transaction_session_timeout': '0'}
# Settings that a client is told at the start.
TOLD = ('server_version', 'server_encoding', 'client_encoding', 'DateStyle', 'TimeZone',
        'integer_datetimes', 'IntervalStyle', 'standard_conforming_strings', 'is_superuser')
SWITCHES = {'bitemporal.witness': 'on', 'default_transaction_read_only': 'off',
            'transaction_read_only': 'off'}
# Settings that may have any value. None but the first two changes anything here.
FREE = {'application_name': '', 'client_min_messages': 'notice', 'extra_float_digits': '1',
        'bytea_output': 'hex', 'geqo': 'on', 'jit': 'off', 'synchronous_commit': 'on',
        'default_transaction_deferrable': 'off', 'transaction_deferrable': 'off'}
SETTINGS = {name.lower(): value for name, value in
            {**FIXED, **SWITCHES, **FREE, 'statement_timeout': '0'}.items()}
# Other spellings of what a fixed setting is.
SPELLINGS = {
    'client_encoding': ('utf8', 'utf-8', 'unicode', 'sql_ascii'),
    'datestyle': ('iso', 'iso, ymd', 'iso, mdy', 'iso, dmy'),
    'standard_conforming_strings': ('on', 'true', 'yes', '1'),
    'timezone': ('utc', 'gmt', 'zulu', 'etc/utc', 'etc/gmt', '0', '+00:00', '00:00'),
    **dict.fromkeys(('lock_timeout', 'idle_in_transaction_session_timeout'), ('0', '0ms', '0s')),
    **dict.fromkeys(('transaction_isolation', 'default_transaction_isolation'),
                    ('read committed', 'read uncommitted'))}
ISOLATION = 'Each statement sees what the store holds when it runs.'
REASONS = {'transaction_isolation': ISOLATION, 'default_transaction_isolation': ISOLATION,
           'timezone': 'All moments are UTC.'}
SCHEMAS = {'public', '$user', 'pg_catalog'}
TIME = re.compile(r'([0-9]{1,10}) ?(ms|s|min|h|d|)')
UNITS = {'': 0.001, 'ms': 0.001, 's': 1, 'min': 60, 'h': 3600, 'd': 86400}
OPTION = re.compile(r'(?:-c|--)\s*([\w.-]{1,64})=((?:\\.|[^\\\s])*)\s*', re.ASCII | re.DOTALL)
# Modes of a transaction, and whether it is READ ONLY by them.
MODES = {'READ ONLY': 'on', 'READ WRITE': 'off', 'NOT DEFERRABLE': '', 'DEFERRABLE': '',
         'ISOLATION LEVEL READ COMMITTED': '', 'ISOLATION LEVEL READ UNCOMMITTED': ''}
FORM = re.compile('(SESSION |LOCAL )?(?:(TRANSACTION )|(CHARACTERISTICS AS TRANSACTION ))?')
STATEMENT = 'Each statement is a transaction of its own.'
KEEPS = 'The store keeps each version, and a table stays as CREATE TABLE made it. DELETE ends rows.'
# Statements that are refused, and why.
REFUSED = {word: why for words, why in (
    ('SAVEPOINT RELEASE LOCK', STATEMENT), ('DROP TRUNCATE ALTER', KEEPS),
    ('DECLARE FETCH MOVE', 'There are no cursors: a plain SELECT computes an answer as a whole.'),
    ('LISTEN NOTIFY', 'Nobody is told of what others do.'),
    ('PREPARE EXECUTE', 'Drivers prepare statements by messages of the protocol.'),
    ('VACUUM ANALYZE REINDEX CLUSTER EXPLAIN COMMENT CALL DO', 'The store has nothing of that.'),
    ('GRANT REVOKE', 'The file of --users has the rights.')) for word in words.split()}
COMMANDS = {'BEGIN', 'START', 'COMMIT', 'END', 'ROLLBACK', 'ABORT', 'SET', 'SHOW', 'RESET',
            'DISCARD', 'DEALLOCATE', 'UNLISTEN', 'CLOSE', *REFUSED}
# Statements that have nothing to do.
NOTHING = ('UNLISTEN', 'CLOSE ALL', 'DISCARD PLANS', 'DISCARD SEQUENCES', 'DISCARD TEMP',
           'DISCARD TEMPORARY')
PLAIN_ENDS = [f'{noise}{chain}'.strip() for noise in ('', 'WORK', 'TRANSACTION')
              for chain in ('', ' AND NO CHAIN')]
VALUES = ('text', 'escaped', 'quoted', 'word', 'number')
MOST_WORDS, MOST_LETTERS = 20, 1000  # of the modes of a transaction, and of a value
# Names of several words, as SET, SHOW and RESET have them.
NAMES = {'TIME ZONE': 'timezone', 'TRANSACTION ISOLATION LEVEL': 'transaction_isolation'}


class Result(NamedTuple):
    """The result of a statement: its tag, its columns (None if it has no rows), its rows, their
    number, and a notice."""
    tag: str
    columns: Optional[Sequence[Column]] = None
    rows: 'Iterator[Sequence[str | None]]' = iter(())
    number: int = 0
    notice: str = ''


class Command:
    """A statement of a session."""
    columns = None

    def __init__(self, tokens: 'list[Token]') -> None:
        self.tokens, self.word = tokens, tokens[0].word
        self.words = ' '.join(it.word or it.text for it in tokens[1:MOST_WORDS])

    def parameters(self, _: Sequence[int]) -> 'list[int]':
        """No parameters."""
        return []

    def setting(self) -> str:
        """The name of the setting that SHOW or RESET names."""
        return NAMES.get(self.words, self.words.replace(' ', '').lower())


def seconds_of(text: str) -> float:
    """The seconds of a time, which is in milliseconds unless a unit is named."""
    found = TIME.fullmatch(text.strip().lower())
    if not found or int(found[1]) * UNITS[found[2]] * 1000 >= 2 ** 31:
        raise Problem('22023', f'{text} is no time, such as 500 or 5s')
    return int(found[1]) * UNITS[found[2]]


def judged(name: str, text: str) -> str:
    """The value that a setting gets by a text."""
    known, spelled = SETTINGS.get(name), text.strip().lower()
    if known is None:
        raise Problem('42704', f'there is no setting {name} here')
    if len(text) > MOST_LETTERS or name in SWITCHES and spelled not in values.SWITCHES:
        raise Problem('22023', f'{name} has no such value')
    if name in SWITCHES:
        return 'on' if values.SWITCHES[spelled] else 'off'
    if name in FREE or name == 'statement_timeout' and seconds_of(text) >= 0:
        return text
    schemas = {it.strip().strip('"') for it in spelled.split(',')}
    if spelled in SPELLINGS.get(name, (known.lower(),)) or \
            name == 'search_path' and 'public' in schemas and schemas <= SCHEMAS:
        return known
    raise Problem('0A000', f'{name} is {known} here, and not {text}', REASONS.get(name, ''))


def read_only(tokens: 'list[Token]') -> str:
    """Whether modes of a transaction say READ ONLY: on, off, or nothing of it."""
    found, text = '', ' '.join(it.word for it in tokens[:MOST_WORDS] if it.word != ',')
    while text:
        mode = next((it for it in MODES if f'{text} '.startswith(f'{it} ')), None)
        if mode is None or len(tokens) > MOST_WORDS:
            raise Problem('0A000', f'no transaction is {text}', ISOLATION)
        found, text = MODES[mode] or found, text[len(mode):].lstrip()
    return found


def value_of(tokens: 'list[Token]') -> Optional[str]:
    """The value, or the list of them, that SET gives; None if it is DEFAULT."""
    found = ['']
    for token in tokens:
        if token.word == ',':
            found.append('')
        elif token.word in ('-', '+') and not found[-1]:
            found[-1] = token.word
        elif token.kind in VALUES and found[-1] in ('', '-', '+'):
            found[-1] += text_of(token)
        else:
            raise Problem(SYNTAX, 'SET gives a name a value', position=token.offset)
    is_default = [it.word for it in tokens] in (['DEFAULT'], ['LOCAL'])
    return None if is_default else ', '.join(found)


def assigned(tokens: 'list[Token]') -> 'tuple[str, str | None]':
    """The name and the value of SET."""
    words = [it.word for it in tokens[:2]]
    if words == ['TIME', 'ZONE']:
        return 'timezone', value_of(tokens[2:])
    if words[0] in ('NAMES', 'SCHEMA'):
        return 'client_encoding' if words[0] == 'NAMES' else 'search_path', value_of(tokens[1:])
    names, end = qualified(tokens, 0)
    if not tokens[end + 1:] or tokens[end].word not in ('TO', '='):
        raise Problem('0A000', f'no SET {" ".join(words)} of this form',
                      hint='Write SET name TO value.')
    return '.'.join(names).lower(), value_of(tokens[end + 1:])


class Session:
    """The settings of one client, its prepared statements and portals, and the block in which it
    is: I none, T one, E a failed one."""

    def __init__(self) -> None:
        self.settings = dict(SETTINGS)
        self.first = self.before = self.settings  # at the start, and before the block
        self.local: 'dict[str, str]' = {}         # what ends with the block
        self.block = 'I'
        self.statements: 'dict[bytes, Any]' = {}
        self.portals: 'dict[bytes, Any]' = {}

    def start(self, given: 'dict[str, str]') -> None:
        """Takes the settings of the first message. A client of any time zone is told of UTC."""
        options = given.get('options', '').strip()
        named = OPTION.findall(options)
        if OPTION.sub('', options):
            raise Problem('0A000', f'the options {options} are not of the form -c name=value')
        for name, text in [*named, *given.items()]:
            name = name.lower().replace('-', '_')
            if name not in ('', 'user', 'database', 'options', 'timezone') and name[:5] != '_pq_.':
                self.put(name, judged(name, re.sub(r'\\(.)', r'\1', text).strip("'")))
        self.first = dict(self.settings)

    @property
    def seconds(self) -> Optional[float]:
        """The time that a statement has by the client's own setting, if there is one."""
        return seconds_of(self.settings['statement_timeout']) or None

    def is_on(self, name: str) -> bool:
        """Whether a setting is on."""
        return self.settings[name] == 'on'

    def put(self, name: str, value: str, is_local: bool = False) -> None:
        """Gives a setting a value, to the end of the block if it is local."""
        if is_local:
            self.local.setdefault(name, self.settings[name])
        else:
            self.local.pop(name, None)
        self.settings[name] = value
        if name == 'default_transaction_read_only' and self.block == 'I':
            self.settings['transaction_read_only'] = value

    def begin(self, command: Command) -> Result:
        """BEGIN and START TRANSACTION."""
        at = 1 + (command.words.split(' ')[0] in ('WORK', 'TRANSACTION'))
        if command.word == 'START' and at == 1:
            raise Problem(SYNTAX, 'START begins a TRANSACTION')
        mode = read_only(command.tokens[at:])
        if self.block == 'I':
            self.before, self.block = dict(self.settings), 'T'
        if mode:
            self.settings['transaction_read_only'] = mode
        return Result('BEGIN' if command.word == 'BEGIN' else 'START TRANSACTION')

    def end(self, command: Command) -> Result:
        """COMMIT and ROLLBACK, by which settings stay or are again what they were."""
        if command.words not in PLAIN_ENDS:
            raise Problem('0A000', f'no {command.word} {command.words}', STATEMENT)
        is_kept = command.word in ('COMMIT', 'END') and self.block != 'E'
        if self.block != 'I':
            self.settings = {**self.settings, **self.local} if is_kept else dict(self.before)
            self.local, self.block = {}, 'I'
            default = self.settings['default_transaction_read_only']
            self.settings['transaction_read_only'] = default
        return Result('COMMIT' if is_kept else 'ROLLBACK')

    def set(self, command: Command) -> Result:
        """SET, in all its forms."""
        form = FORM.match(command.words + ' ')
        assert form is not None
        tokens, is_local = command.tokens[1 + len(form[0].split()):], form[1] == 'LOCAL '
        if self.block == 'I' and (is_local or form[2]):
            raise Problem('25P01', f'SET {form[0]}is for a block of BEGIN and COMMIT')
        if form[2] or form[3]:
            name, text = 'transaction_read_only', read_only(tokens)
            name = name if form[2] else f'default_{name}'
            self.put(name, text or self.settings[name], bool(form[2]))
            return Result('SET')
        if not tokens:
            raise Problem(SYNTAX, 'SET gives a name a value')
        name, given = assigned(tokens)
        self.put(name, self.value(name, self.first) if given is None else judged(name, given),
                 is_local)
        return Result('SET')

    def value(self, name: str, settings: 'dict[str, str]') -> str:
        """The value of a setting among some."""
        if name not in settings:
            raise Problem('42704', f'there is no setting {name} here')
        return settings[name]

    def show(self, command: Command) -> Result:
        """SHOW of a setting."""
        name = command.setting()
        return Result('SHOW', [values.column(name, values.TEXT)],
                      iter([[self.value(name, self.settings)]]))

    def reset(self, command: Command) -> Result:
        """RESET of one setting, or of all."""
        name = command.setting()
        for it in set(SETTINGS) - {'transaction_read_only'} if name == 'all' else [name]:
            self.put(it, self.value(it, self.first))
        return Result('RESET')

    def discard(self, command: Command) -> Result:
        """DISCARD ALL."""
        if command.words != 'ALL':
            raise Problem(SYNTAX, f'no DISCARD {command.words}')
        if self.block != 'I':
            raise Problem('25001', 'DISCARD ALL is not for a block of BEGIN and COMMIT')
        self.reset(command)
        self.statements.clear()
        self.portals.clear()
        return Result('DISCARD ALL')

    def deallocate(self, command: Command) -> Result:
        """DEALLOCATE of one prepared statement, or of all."""
        [*noise, token] = command.tokens[1:] or command.tokens
        if [it.word for it in noise] not in ([], ['PREPARE']):
            raise Problem(SYNTAX, 'DEALLOCATE is followed by a name, or by ALL')
        if token.word == 'ALL':
            self.statements.clear()
            return Result('DEALLOCATE ALL')
        name = text_of(token) if token.kind == 'quoted' else token.text.lower()
        if self.statements.pop(name.encode('utf-8'), None) is None:
            raise Problem('26000', f'there is no prepared statement {name}')
        return Result('DEALLOCATE')

    def answer(self, command: Command) -> Result:
        """The answer to a statement of the session."""
        word = command.word
        if word in REFUSED:
            raise Problem('0A000', f'no {word}', REFUSED[word])
        text = word if word == 'UNLISTEN' else f'{word} {command.words}'
        if text in NOTHING:
            return Result(text)
        if word == 'CLOSE':
            raise Problem('34000', f'there is no cursor {command.words}')
        return ANSWERS[word](self, command)


ANSWERS: 'dict[str, Callable[[Session, Command], Result]]' = {
    **dict.fromkeys(('BEGIN', 'START'), Session.begin),
    **dict.fromkeys(('COMMIT', 'END', 'ROLLBACK', 'ABORT'), Session.end),
    'SET': Session.set, 'SHOW': Session.show, 'RESET': Session.reset, 'DISCARD': Session.discard,
    'DEALLOCATE': Session.deallocate}
