"""The common work of the tools: the words that they take, files that are read and written, and
faults that end a run with status 2."""
import argparse
import os
import pathlib
import signal
import sys
import time
from collections.abc import Callable, Iterable, Mapping
from typing import NoReturn, Optional, Union


class Fault(Exception):
    """The end of a tool: a line for standard error, and the exit status."""

    def __init__(self, words: object, status: int = 2) -> None:
        super().__init__(words)
        self.status = status


class Parser(argparse.ArgumentParser):
    """The parser of the words of a tool. Wrong ones are a fault."""

    def error(self, message: str) -> NoReturn:
        raise Fault(message)


def called(name: str) -> str:
    """The command of a tool as it was called: `tools/load`, `bitemporal-load` if it is
    installed, or `bitemporal-tools load`."""
    file = os.path.basename(sys.argv[0])
    if file.startswith('bitemporal-') and file != 'bitemporal-tools':
        return file
    return f'tools/{name}' if file == name else f'bitemporal-tools {name.replace("_", "-")}'


def parser(name: str, description: Optional[str], usage: Optional[str] = None) -> Parser:
    """The parser of a tool, whose help is the text of its module. Without `usage` all options are
    listed there."""
    command = called(name)
    return Parser(prog=command, usage=usage and f'{command} {usage}',
                  description=(description or '').replace(f'tools/{name}', command),
                  formatter_class=argparse.RawDescriptionHelpFormatter)


def pairs(texts: Iterable[str], option: str) -> dict[str, str]:
    """The texts NAME=VALUE of an option as a dict by the name in upper case."""
    found = {}
    for text in texts:
        name, equals, value = text.partition('=')
        if not equals or not name.strip():
            raise Fault(f'{option} {text}: write NAME=VALUE')
        found[name.strip().upper()] = value
    return found


def counted(count: int, what: str) -> str:
    """A count with its noun: 1 row, 2 rows."""
    return f'{count} {what}' if count == 1 else f'{count} {what}s'


def read_bytes(path: Optional[str]) -> bytes:
    """The bytes of a file, or of standard input if there is no path or it is `-`."""
    try:
        if path is None or path == '-':
            return sys.stdin.buffer.read()
        return pathlib.Path(path).read_bytes()
    except OSError as error:
        where = 'standard input' if path in (None, '-') else path
        raise Fault(f'cannot read {where}: {error.strerror}') from None


def read_text(path: Optional[str]) -> str:
    """The text of a file in UTF-8, its line ends as they are."""
    try:
        return read_bytes(path).decode('utf-8')
    except UnicodeDecodeError as error:
        where = 'standard input' if path in (None, '-') else path
        raise Fault(f'{where} is not UTF-8 (byte {error.start})') from None


def write_files(folder: Union[str, pathlib.Path],
                texts: Mapping[str, Union[str, bytes]]) -> None:
    """Writes texts, or bytes, by name into a folder, which is made if it is missing."""
    for name, text in texts.items():
        path = os.path.join(folder, name)
        try:
            os.makedirs(folder, exist_ok=True)
            write_whole(path, text if isinstance(text, bytes) else text.encode('utf-8'))
        except OSError as error:
            raise Fault(f'cannot write {path}: {error.strerror}') from None


def write_whole(path: str, data: bytes) -> None:
    """Writes a file under another name first, so that it is as it was or whole. A device or a pipe
    is written as it is."""
    if os.path.exists(path) and not os.path.isfile(path):
        pathlib.Path(path).write_bytes(data)
        return
    place = os.path.realpath(path)
    folder, name = os.path.split(place)
    part = pathlib.Path(folder, f'{name[:100]}.{os.getpid()}.part')
    try:
        part.write_bytes(data)
        if os.path.exists(place):
            part.chmod(os.stat(place).st_mode & 0o777)
        part.replace(place)
    finally:
        part.unlink(missing_ok=True)


def write_output(text: Union[str, bytes], made: str = '') -> None:
    """Writes a text in UTF-8, or bytes, to standard output, when a file exists that was made."""
    try:
        sys.stdout.buffer.write(text if isinstance(text, bytes)
                                else text.encode('utf-8', 'backslashreplace'))
        sys.stdout.buffer.flush()
    except OSError as error:
        told = f'{made} is made; cannot write' if made else None
        raise OSError(error.errno, error.strerror, told) from None


def leave(status: int) -> NoReturn:
    """Ends the process with this status, and frees nothing before: for many cells that takes a
    tenth of the time."""
    sys.stdout.flush()
    sys.stderr.flush()
    os._exit(status)


def end_by_signals() -> None:
    """Has SIGTERM and SIGHUP end the process as Ctrl-C does: what is temporary is removed. Another
    one within a second does not keep it from that."""
    last = -1.0

    def end(number: int, _: object) -> None:
        nonlocal last
        if time.monotonic() > last + 1:
            last = time.monotonic()
            sys.exit(128 + number)

    for number in (signal.SIGTERM, signal.SIGHUP):
        if signal.getsignal(number) == signal.SIG_DFL:
            signal.signal(number, end)


def run(name: str, main: Callable[[], int]) -> NoReturn:
    """Runs a tool's main, and ends with its status. A fault is reported after the tool's name."""
    end_by_signals()
    try:
        status = main()
        sys.stdout.flush()
    except Fault as fault:
        print(f'{name}: {fault}', file=sys.stderr)
        status = fault.status
    except OSError as error:
        # Without this Python reports it once more as it ends. A reader may just have stopped.
        os.dup2(os.open(os.devnull, os.O_WRONLY), sys.stdout.fileno())
        if error.filename or not isinstance(error, BrokenPipeError):
            print(f'{name}: {error.filename or "cannot write"}: {error.strerror}', file=sys.stderr)
        status = 2
    sys.exit(status)
