"""The page over HTTP: three files, and what they ask, as JSON. The address has a token, as
notebooks have; a question without it, and each request from another host's page or by another name
of this host, is refused. No cookie has the token, since browsers send those to each port."""
import hmac
import http.server
import json
import pathlib
import re
import secrets
import socket
import sys
import threading
from typing import Any, Dict
from urllib.parse import parse_qs, urlsplit

from ..problems import Problem
from .answers import Answer, Asker

FOLDER = pathlib.Path(__file__).resolve().parent / 'files'
FILES = {'/': ('page.html', 'text/html'), '/page.css': ('page.css', 'text/css'),
         '/page.js': ('page.js', 'text/javascript')}
MOST_BYTES, LENGTH = 1024 * 1024, re.compile('[0-9]{1,7}')
POLICY = ("default-src 'none'; script-src 'self'; style-src 'self'; connect-src 'self';"
          " form-action 'none'; base-uri 'none'; frame-ancestors 'none'")
HEADERS = {'Content-Security-Policy': POLICY, 'X-Content-Type-Options': 'nosniff',
           'Referrer-Policy': 'no-referrer', 'Cache-Control': 'no-store',
           'Cross-Origin-Opener-Policy': 'same-origin', 'Cross-Origin-Resource-Policy':
           'same-origin'}


class Visitor:
    """The one client of the page's engine: no query of it is cancelled."""

    def __init__(self) -> None:
        self.is_cancelled = False
        self.connection, self.other = socket.socketpair()


class Web(http.server.ThreadingHTTPServer):
    """The server of the page, on this machine alone."""
    daemon_threads = True

    def __init__(self, asker: Asker, port: int) -> None:
        super().__init__(('127.0.0.1', port), Handler)
        self.asker, self.token = asker, secrets.token_urlsafe(24)
        self.hosts = {f'{name}:{self.server_port}' for name in ('127.0.0.1', 'localhost')}

    def handle_error(self, request: Any, client_address: Any) -> None:
        """Says nothing of a browser that has left."""
        if not isinstance(sys.exc_info()[1], OSError):
            super().handle_error(request, client_address)

    @property
    def address(self) -> str:
        """The address of the page, with its token."""
        return f'http://127.0.0.1:{self.server_port}/?token={self.token}'

    def answer(self, path: str, given: Dict[str, Any]) -> Answer:
        """The answer to a question of the page. KeyError if there is no such question."""
        if path == '/tables':
            return self.asker.tables()
        if path == '/ask':
            return self.asker.ask(str(given['text']))
        table = str(given['table'])
        if path == '/range':
            return self.asker.range(table)
        if path == '/state':
            return self.asker.state(table, *(given.get(name) and digits(given[name])
                                             for name in ('moment', 'day')))
        if path == '/changes':
            return self.asker.changes(table, digits(given['first']), digits(given['second']))
        raise KeyError(path)


def digits(value: object) -> str:
    """A text that names a day or a moment by digits alone."""
    if not re.fullmatch('[0-9:. -]*', str(value)):
        raise KeyError(value)
    return str(value)


class Handler(http.server.BaseHTTPRequestHandler):
    """One request."""
    server: Web
    protocol_version = 'HTTP/1.1'
    timeout = 60

    def log_message(self, format: str, *args: Any) -> None:  # pylint: disable=redefined-builtin
        """Writes nothing."""

    def send(self, status: int, kind: str, data: bytes) -> None:
        """Sends a response."""
        self.send_response(status)
        for name, value in HEADERS.items():
            self.send_header(name, value)
        self.send_header('Content-Type', f'{kind}; charset=utf-8')
        self.send_header('Content-Length', str(len(data)))
        self.end_headers()
        if self.command != 'HEAD':
            self.wfile.write(data)

    def refuse(self, status: int, why: str) -> None:
        """Refuses a request, and closes the connection."""
        self.close_connection = True
        self.send(status, 'text/plain', (why + '\n').encode())

    def may_go_on(self, is_open: bool = False) -> bool:
        """Whether the request is served: it is to this host by its own name, of no other host's
        page, and has the token in its address, unless it is an open one. Else it is refused."""
        origin = self.headers.get('Origin')
        given = parse_qs(urlsplit(self.path).query).get('token', [''])[0]
        if self.headers.get('Host') not in self.server.hosts or \
                origin is not None and urlsplit(origin).netloc not in self.server.hosts:
            self.refuse(403, 'the page is for this machine alone')
        elif not is_open and not hmac.compare_digest(given.encode(), self.server.token.encode()):
            self.refuse(403, 'open the address that serve has written, with its token')
        else:
            return True
        return False

    def do_GET(self) -> None:  # pylint: disable=invalid-name
        """One of the files."""
        if not self.may_go_on(self.path in ('/page.css', '/page.js')):
            return
        name, kind = FILES.get(urlsplit(self.path).path, ('', ''))
        if name:
            self.send(200, kind, (FOLDER / name).read_bytes())
        else:
            self.refuse(404, 'there is no such file')

    do_HEAD = do_GET  # pylint: disable=invalid-name

    def do_POST(self) -> None:  # pylint: disable=invalid-name
        """A question of the page."""
        if not self.may_go_on():
            return
        length = self.headers.get('Content-Length', '')
        if self.headers.get('Content-Type') != 'application/json' or \
                not LENGTH.fullmatch(length) or int(length) > MOST_BYTES:
            self.refuse(400, 'a question is JSON of at most a megabyte')
            return
        try:
            given = json.loads(self.rfile.read(int(length)))
            found = self.server.answer(urlsplit(self.path).path, given)
        except Problem as problem:
            self.refuse(503, problem.message)
        except (ValueError, KeyError, TypeError):
            self.refuse(400, 'there is no such question')
        except Exception:
            self.refuse(500, 'the page has a fault of its own')
            raise
        else:
            self.send(200, 'application/json', json.dumps(found).encode())


def served(asker: Asker, port: int) -> Web:
    """The page, served by a thread until it is shut down."""
    web = Web(asker, port)
    threading.Thread(target=web.serve_forever, daemon=True).start()
    return web
