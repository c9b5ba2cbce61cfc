"""Serves the page: on the loopback address, to the page's own requests only, and with limits on everything that comes in."""

from __future__ import annotations

import hashlib
import json
import secrets
import threading
from collections import OrderedDict
from http.server import BaseHTTPRequestHandler, ThreadingHTTPServer
from importlib import resources
from typing import Any

import uca

from ._files import Files
from ._look import LONGEST_WORD, Look

ADDRESS = "127.0.0.1"
MOST_BYTES = 1 << 20
MOST_BYTES_OF_TABLE = 1 << 26
MOST_WORDS = 20000
# How many of the reader's tables and how many looks are kept. A look with a table of its own takes about 12 MB.
MOST_TABLES = 2
MOST_LOOKS = 6

_PAGES = {"": ("page.html", "text/html"), "page.css": ("page.css", "text/css"), "page.js": ("page.js", "text/javascript")}
_HEADERS = {
    "Content-Security-Policy": "default-src 'none'; script-src 'self'; style-src 'self'; connect-src 'self'; img-src data:; "
    "base-uri 'none'; form-action 'none'; frame-ancestors 'none'",
    "Cross-Origin-Opener-Policy": "same-origin",
    "Cross-Origin-Resource-Policy": "same-origin",
    "X-Content-Type-Options": "nosniff",
    "Referrer-Policy": "no-referrer",
    "Cache-Control": "no-store",
}


class Refused(Exception):
    """A request that does not come from the page, or is over a limit."""

    def __init__(self, status: int, why: str) -> None:
        super().__init__(why)
        self.status = status


def _wanted(question: Any, name: str, type_of: type, default: Any) -> Any:
    value = question.get(name, default)
    if value is not default and type(value) is not type_of:
        raise Refused(400, name)
    return value


class Explorer:
    """Answers the page's questions, one at a time."""

    def __init__(self, files: Files) -> None:
        self.files = files
        self.lock = threading.Lock()
        self.tables: OrderedDict[str, bytes] = OrderedDict()
        self.looks: OrderedDict[tuple[str, str, int, int], Look] = OrderedDict()

    def start(self) -> dict[str, Any]:
        """What the page needs to begin."""
        return {
            "table": self.files.table_name,
            "languages": self.files.languages(),
            "version": ".".join(map(str, uca.version())),
            "unicode": ".".join(map(str, uca.unicode_version())),
            "limits": {"characters": LONGEST_WORD, "words": MOST_WORDS, "bytes": MOST_BYTES},
        }

    def take_table(self, table: bytes) -> dict[str, Any]:
        """Keeps a table in memory, and gives it a name."""
        try:
            uca.Collator(table).close()
        except uca.TableError as error:
            return {"fault": _fault(error)}
        name = hashlib.sha256(table).hexdigest()
        with self.lock:
            self.tables[name] = table
            while len(self.tables) > MOST_TABLES:
                self.tables.popitem(last=False)
        return {"name": name}

    def look(self, question: Any) -> dict[str, Any]:
        """Words in their order, and what the chosen word is made of."""
        if type(question) is not dict:
            raise Refused(400, "question")
        rules = _wanted(question, "rules", str, "")
        words = _wanted(question, "words", list, [])
        chosen = _wanted(question, "chosen", str, None)
        other = _wanted(question, "other", str, None)
        if len(words) > MOST_WORDS or any(type(word) is not str for word in words):
            raise Refused(400, "words")
        with self.lock:
            try:
                look = self._look_of(question, rules)
            except (uca.RulesError, uca.TableError) as error:
                return {"rules": _fault(error)}
            answer: dict[str, Any] = {}
            try:
                answer["order"] = look.order(words)
            except uca.TextError as error:
                return {"words": {**_fault(error), "line": error.text}}
            try:
                if chosen is not None and len(chosen) <= LONGEST_WORD:
                    answer["word"] = look.word(chosen)
                    if other is not None and len(other) <= LONGEST_WORD:
                        answer["pair"] = look.pair(chosen, other)
            except uca.TextError as error:
                answer["other"] = _fault(error)
            return answer

    def _look_of(self, question: Any, rules: str) -> Look:
        name = _wanted(question, "table", str, "")
        strength, variable = _wanted(question, "strength", int, uca.TERTIARY), _wanted(question, "variable", int, uca.NON_IGNORABLE)
        if not 1 <= strength <= 5 or not 0 <= variable <= 2:
            raise Refused(400, "settings")
        known = (name, rules, strength, variable)
        look = self.looks.pop(known, None)
        if look is None:
            look = Look(self._collator(name, rules, strength, variable), rules)
        self.looks[known] = look
        while len(self.looks) > MOST_LOOKS:
            self.looks.popitem(last=False)
        return look

    def _collator(self, name: str, rules: str, strength: int, variable: int) -> uca.Collator:
        """A collator, which shares its table with an earlier look if one has the same table and rules."""
        for (a, b, _, _), look in self.looks.items():
            if (a, b) == (name, rules):
                return look.collator.clone(strength=strength, variable=variable)
        table = self.tables.get(name) if name else self.files.table
        if table is None:
            raise Refused(410, "table")
        return uca.Collator(table, rules, strength, variable)


def _fault(error: uca.Error) -> dict[str, Any]:
    return {"line": error.line, "column": error.column, "character": error.character, "cause": error.cause}


class _Handler(BaseHTTPRequestHandler):
    server: Server
    protocol_version = "HTTP/1.1"
    server_version, sys_version = "uca", ""
    timeout = 60

    def do_GET(self) -> None:
        self._answer(self._get)

    def do_POST(self) -> None:
        self._answer(self._post)

    def log_message(self, *_: Any) -> None:
        pass

    def _answer(self, make: Any) -> None:
        try:
            body, kind = make(self._checked_path())
            self._send(200, body, kind)
        except Refused as refused:
            self.close_connection = True
            self._send(refused.status, str(refused).encode(), "text/plain")

    def _send(self, status: int, body: bytes, kind: str) -> None:
        self.send_response(status)
        for name, value in _HEADERS.items():
            self.send_header(name, value)
        self.send_header("Content-Type", kind + "; charset=utf-8")
        self.send_header("Content-Length", str(len(body)))
        if self.close_connection:
            self.send_header("Connection", "close")
        self.end_headers()
        self.wfile.write(body)

    def _checked_path(self) -> str:
        """The path below the token. Refuses a request that comes neither from the page nor from someone who has its address."""
        own = "%s:%d" % (ADDRESS, self.server.server_port)
        if self.headers.get("Host") != own or self.headers.get("Origin", "http://" + own) != "http://" + own:
            raise Refused(403, "host")
        if self.headers.get("Sec-Fetch-Site", "none") not in ("none", "same-origin"):
            raise Refused(403, "site")
        token, slash, path = self.path[1:].partition("/")
        if not slash or not secrets.compare_digest(token.encode(), self.server.token.encode()):
            raise Refused(404, "token")
        return path

    def _get(self, path: str) -> tuple[bytes, str]:
        if path == "start":
            return json.dumps(self.server.explorer.start()).encode(), "application/json"
        if path not in _PAGES:
            raise Refused(404, "path")
        name, kind = _PAGES[path]
        return resources.files(__package__).joinpath(name).read_bytes(), kind

    def _post(self, path: str) -> tuple[bytes, str]:
        if "Origin" not in self.headers:
            raise Refused(403, "origin")
        if path == "table":
            return json.dumps(self.server.explorer.take_table(self._body("text/plain", MOST_BYTES_OF_TABLE))).encode(), "application/json"
        if path != "look":
            raise Refused(404, "path")
        try:
            question = json.loads(self._body("application/json", MOST_BYTES))
        except (ValueError, RecursionError):
            raise Refused(400, "question") from None
        return json.dumps(self.server.explorer.look(question)).encode(), "application/json"

    def _body(self, kind: str, most: int) -> bytes:
        size = self.headers.get("Content-Length", "")
        if self.headers.get_content_type() != kind or not (size.isascii() and size.isdigit() and len(size) < 12):
            raise Refused(400, "body")
        if int(size) > most:
            raise Refused(413, "%d bytes at most" % most)
        body = self.rfile.read(int(size))
        if len(body) < int(size):
            raise Refused(400, "body")
        return body


class Server(ThreadingHTTPServer):
    daemon_threads = True

    def __init__(self, explorer: Explorer, port: int = 0) -> None:
        super().__init__((ADDRESS, port), _Handler)
        self.explorer = explorer
        self.token = secrets.token_urlsafe(24)

    @property
    def address(self) -> str:
        """The address of the page, with its token."""
        return "http://%s:%d/%s/" % (ADDRESS, self.server_port, self.token)

    def handle_error(self, *_: Any) -> None:
        """A browser may close its connection at any time."""
