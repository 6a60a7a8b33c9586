"""Asks a server how it is, without being one of its clients."""
import os
import socket
import struct
import sys
from typing import Optional

from .accounts import tell
from .greeting import CHECK
from .server import SOCKET

SECONDS = 10
MOST_BYTES = 10_000  # of the answer


def check(folder: str, listen: Optional[str]) -> int:
    """Prints what a server answers: how its engine is, and its counters, if it tells them. Gives 0
    if the engine is ready or busy, else 2."""
    try:
        if listen:
            host, _, port = listen.rpartition(':')
            connection = socket.create_connection((host.strip('[]'), int(port)), SECONDS)
        else:
            connection = socket.socket(socket.AF_UNIX)
            connection.settimeout(SECONDS)
            connection.connect(os.path.join(folder, SOCKET))
        with connection, connection.makefile('rb') as stream:
            connection.sendall(struct.pack('!ii', 8, CHECK))
            answer = stream.read(MOST_BYTES).decode()
        state = dict(line.partition(' ')[::2] for line in answer.splitlines()).get('engine')
        if state is None:
            raise ValueError('what listens there knows no check')
    except (OSError, ValueError, OverflowError) as error:
        tell(f'no answer: {error}')
        return 2
    sys.stdout.write(answer)
    return 0 if state in ('ready', 'busy') else 2
