"""SCRAM-SHA-256 (RFC 5802, RFC 7677), the server's side, and the file of users.

A line of the file is `USER RIGHTS VERIFIER`. RIGHTS is read or write, and VERIFIER is what
PostgreSQL keeps: SCRAM-SHA-256$ROUNDS:SALT$STORED:SERVER. The password cannot be read from it. The
file is read again when it has changed, so that users come and go while the server runs.
"""
import base64
import hashlib
import hmac
import os
import re
import secrets
import threading
import unicodedata
from typing import Callable, NamedTuple, Optional, Tuple, Union

NAME = 'SCRAM-SHA-256'
ROUNDS = 4096
UNKNOWN = secrets.token_bytes(32)  # makes a salt for each unknown name, always the same
KEY = '[A-Za-z0-9+/]{43}='
VERIFIER = re.compile(rf'{NAME}\$[1-9][0-9]*:[A-Za-z0-9+/]+=*\${KEY}:{KEY}')


class User(NamedTuple):
    """The rights of a user, and the verifier of the password. An unknown one has none."""
    rights: str
    verifier: Optional[str]


def b64(data: bytes) -> str:
    return base64.b64encode(data).decode()


def sign(key: bytes, data: bytes) -> bytes:
    return hmac.digest(key, data, 'sha256')


def verifier(password: str, salt: Optional[bytes] = None) -> str:
    """The verifier of a password."""
    salt = salt or os.urandom(16)
    normal = unicodedata.normalize('NFKC', password).encode()
    return verifier_of(hashlib.pbkdf2_hmac('sha256', normal, salt, ROUNDS), salt)


def verifier_of(key: bytes, salt: bytes) -> str:
    """The verifier of what the rounds make of a password."""
    stored = hashlib.sha256(sign(key, b'Client Key')).digest()
    return f'{NAME}${ROUNDS}:{b64(salt)}${b64(stored)}:{b64(sign(key, b"Server Key"))}'


def private(file: 'int | str', path: str) -> None:
    """ValueError if others than its owner may read a file."""
    if os.stat(file).st_mode & 0o077:
        raise ValueError(f'{path} may be read by others: chmod 600 it')


def read_users(path: str) -> 'dict[str, User]':
    """The users of a file. ValueError if other users may read it, or a line is no user."""
    users = {}
    with open(path, encoding='utf-8') as file:
        private(file.fileno(), path)
        for number, line in enumerate(file, 1):
            fields = line.split()
            if not fields:
                continue
            if len(fields) != 3 or fields[1] not in ('read', 'write') \
                    or not VERIFIER.fullmatch(fields[2]):
                raise ValueError(f'{path}, line {number}: it is no USER read|write VERIFIER')
            users[fields[0]] = User(fields[1], fields[2])
    return users


def state_of(path: str) -> 'Optional[Tuple[int, ...]]':
    """The numbers that change when a file does, or None if it is missing."""
    try:
        found = os.stat(path)
    except OSError:
        return None
    return found.st_ino, found.st_size, found.st_mtime_ns, found.st_ctime_ns


class Users:
    """The users of a file as it is now. If it has become no list of users, those that were read
    last stay, and `note` is called with the reason, once."""

    def __init__(self, path: str, note: Callable[[str], None]) -> None:
        self.path, self.note, self.lock = path, note, threading.Lock()
        self.state = state_of(path)
        self.known = read_users(path)

    def get(self, name: str, other: User) -> User:
        """The user of this name, or the other."""
        with self.lock:
            state = state_of(self.path)  # before it is read: what changes meanwhile is seen later
            if state != self.state:
                self.state = state
                try:
                    self.known = read_users(self.path)
                    self.note(f'the users of {self.path} are read again')
                except (OSError, ValueError) as error:
                    self.note(f'the users stay as they were: {error}')
            return self.known.get(name, other)


Known = Union['dict[str, User]', Users]


class Refused(Exception):
    """The client is not the user, or does not keep to the exchange."""


class Exchange:
    """The proof of one client. For an unknown user it continues as for a wrong password."""

    def __init__(self, known: Optional[str], user: str, nonce: Optional[str] = None) -> None:
        self.is_known = known is not None
        # (without the rounds, which a known user does not cost either)
        text = known or verifier_of(secrets.token_bytes(32), sign(UNKNOWN, user.encode())[:16])
        _, rounds_and_salt, keys = text.split('$')
        self.rounds, self.salt = rounds_and_salt.split(':')
        self.stored, self.server = map(base64.b64decode, keys.split(':'))
        self.own_nonce = nonce or secrets.token_urlsafe(18)
        self.header = self.bare = self.nonce = self.answer = ''

    def first(self, message: bytes) -> bytes:
        """The answer to the client's first message."""
        try:
            flag, _, *bare = message.decode().split(',')
            if flag not in ('n', 'y') or not bare[1].startswith('r='):
                raise Refused
            self.bare = ','.join(bare)
            self.header = message.decode()[:-len(self.bare)]
            self.nonce = bare[1][2:] + self.own_nonce
        except (ValueError, IndexError):
            raise Refused from None
        self.answer = f'r={self.nonce},s={self.salt},i={self.rounds}'
        return self.answer.encode()

    def last(self, message: bytes) -> bytes:
        """The server's own proof, if the client's is right."""
        try:
            bare, _, proof_text = message.decode().rpartition(',p=')
            proof = base64.b64decode(proof_text, validate=True)
        except ValueError:
            raise Refused from None
        signed = f'{self.bare},{self.answer},{bare}'.encode()
        mask = sign(self.stored, signed)
        key = bytes(a ^ b for a, b in zip(proof, mask))
        is_right = hmac.compare_digest(hashlib.sha256(key).digest(), self.stored)
        wanted = f'c={b64(self.header.encode())},r={self.nonce}'
        if not (is_right and len(proof) == 32 and bare == wanted and self.is_known):
            raise Refused
        return b'v=' + b64(sign(self.server, signed)).encode()
