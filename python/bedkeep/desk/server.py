"""HTTP around the core, by the standard library: a thread for each connection, which the core's lock puts in order."""
from __future__ import annotations

import json
import time
from contextlib import suppress
from http.server import BaseHTTPRequestHandler, ThreadingHTTPServer
from importlib import resources
from typing import Any, Callable, Mapping, Optional
from urllib.parse import parse_qs, unquote, urlsplit

from ..commands.core import ASLEEP, DISK, Core, Stale, Unwell
from ..errors import Ended, Error
from . import igv
from .guard import Connections, Fault, Guard, Head
from .making import changed

TEXT = "text/plain; charset=utf-8"
TYPES = {"html": "text/html; charset=utf-8", "css": "text/css; charset=utf-8", "js": "text/javascript; charset=utf-8"}
PAGE = ("desk.css", "desk.js", "state.js", "talk.js", "view.js", "drafts.js", "hand.js", "decide.js", "lists.js", "pointer.js", "keys.js",
        "draw.js", "lanes.js", "records.js", "text.js")
FILES = {"": "page.html", **{name: name for name in PAGE}}
LONGEST = 1 << 24  # of a body: a thousand records with long names are moved at once
SECONDS = 20  # between signs of life of a stream of events
FEW = 200  # sequences that are sent with each edit
HEADERS = {
    "Content-Security-Policy": "default-src 'none'; script-src 'self'; style-src 'self'; connect-src 'self'; img-src data:; "
                               "base-uri 'none'; form-action 'none'; frame-ancestors 'none'",
    "Referrer-Policy": "no-referrer", "X-Content-Type-Options": "nosniff", "Cache-Control": "no-store",
    "Cross-Origin-Opener-Policy": "same-origin", "Cross-Origin-Resource-Policy": "same-origin",
}
Asked = Mapping[str, str]


class Server(ThreadingHTTPServer):
    """The server, from its port on. It has a core once the track is read; failure: why there is none."""

    daemon_threads = True
    allow_reuse_address = True
    request_queue_size = 128

    def __init__(self, port: int) -> None:
        super().__init__(("127.0.0.1", port), Handler)
        self.guard = Guard(self.server_address[1])
        self.connections = Connections()
        self.core: Optional[Core] = None
        self.reading, self.failure = "Reading the track ..", ""
        self.is_over = False

    def get_request(self) -> Any:
        request, address = super().get_request()
        self.connections.take(request)
        return request, address

    def service_actions(self) -> None:
        self.connections.cut_late()

    def shutdown_request(self, request: Any) -> None:
        self.connections.drop(request)
        super().shutdown_request(request)

    def handle_error(self, request: Any, client_address: Any) -> None:
        """Says nothing of a browser that went away."""


class Handler(BaseHTTPRequestHandler):
    """A connection."""

    server: Server
    protocol_version = "HTTP/1.1"
    timeout = 40
    disable_nagle_algorithm = True

    def setup(self) -> None:
        super().setup()
        self.rfile: Any = Head(self.rfile)

    def handle_one_request(self) -> None:
        self.rfile.begin()
        super().handle_one_request()

    def do_GET(self) -> None:
        self._answer("GET", {
            "api/state": lambda asked, _: self._state(int(asked["since"]) if "since" in asked else None),
            "api/region": lambda asked, _: self._core.region(*_window(asked)),
            "api/overview": lambda asked, _: self._core.overview(asked["sequence"], max(1, min(int(asked["bins"]), 2000))),
            "api/find": lambda asked, _: self._find(asked["text"]),
        })

    def do_POST(self) -> None:
        self._answer("POST", {
            "api/try": lambda _, body: self._try(body),
            "api/edit": lambda _, body: self._done(body, self._core.edit(_lines(body), _of(body, "reason", str, ""), _of(body, "answers", int))),
            "api/undo": lambda _, body: self._done(body, self._core.undo(_of(body, "number", int))),
            "api/redo": lambda _, body: self._done(body, self._core.redo()),
            "api/back": lambda _, body: self._done(body, self._core.take_back(_of(body, "number", int, 0))),
            "api/drop": lambda _, body: self._done(body, self._core.drop(_of(body, "number", int, 0), _of(body, "reason", str, ""))),
            "api/igv": lambda _, body: {"said": igv.show(_of(body, "sequence", str, ""), _of(body, "start", int, 0), _of(body, "end", int, 0))},
        })

    # What is asked of the core

    @property
    def _core(self) -> Core:
        core = self.server.core
        if core is None:
            raise Unready(self.server.failure or self.server.reading)
        return core

    def _state(self, since: Optional[int] = None) -> dict[str, Any]:
        if self.server.core is None and not self.server.failure:
            return {"reading": self.server.reading}
        return self._core.state() if since is None else self._core.state(since)

    def _find(self, text: str) -> dict[str, Any]:
        try:
            return dict(self._core.find(text))
        except ValueError as failure:
            return {"place": None, "found": [], "said": str(failure)}

    def _try(self, body: Any) -> dict[str, Any]:
        """What lines would do that are given, or made of what somebody wants."""
        try:
            made = self._made(body["make"]) if "make" in body else {"lines": _lines(body), "said": []}
        except (ValueError, IndexError) as failure:
            why = str(failure).split("\n")[-1]  # the lines above it are about the record
            return {"given": [], "said": [], "refused": [{"reason": why, "message": why, "says": [], "offers": []}]}
        return {"given": made["lines"], "said": made["said"], **self._core.attempt(made["lines"])}

    def _made(self, wanted: Any) -> dict[str, Any]:
        what, records, values = (_of(wanted, name, kind, kind()) for name, kind in (("what", str), ("records", list), ("values", dict)))
        if not records or not _are_texts(values.values()) or not all(isinstance(one, list) and len(one) > 2 and _are_texts(one) for one in records):
            raise ValueError("records are lists of texts")
        if what == "change":
            return {"lines": [changed(records[0], values)], "said": []}
        made = self._core.make(what, records, str(wanted.get("value", "")))
        return {**made, "said": [said for said in made["said"] if not said.startswith(":")]}  # the record is on the page

    def _done(self, body: Any, answer: dict[str, Any]) -> dict[str, Any]:
        """An answer with what is new of the state, and with what the page shows, so that it needn't ask again."""
        if "version" not in answer:
            return answer
        core, known, look = self._core, _of(body, "version", int), body.get("look")
        more: dict[str, Any] = {"entry": answer["undone"]} if "undone" in answer else {}
        if known is not None:
            more["state"] = _brief(core.state(known))
        if look:
            more["region"] = core.region(*_window(look))
        return {"given": body.get("lines", []), **answer, **more}

    # Requests and answers

    def _answer(self, method: str, calls: dict[str, Callable[[Asked, Any], Any]]) -> None:
        target = urlsplit(self.path)
        path = self.server.guard.path(unquote(target.path))
        fault = self.server.guard.fault(method, path, self.headers)
        if fault is None and not self.server.connections.know(self.request):
            fault = Fault(503, "too many connections")
        if fault or path is None:
            self._refuse(fault or Fault(403, ""))
        elif method == "GET" and path in FILES:
            name = FILES[path]
            self._send(200, resources.files(__package__).joinpath("page", name).read_bytes(), TYPES[name.rpartition(".")[2]])
        elif method == "GET" and path == "api/events":
            self._events()
        elif path in calls or method == "GET" and path in ("track.bed", "script"):
            self._call(path, calls, {name: values[-1] for name, values in parse_qs(target.query, errors="surrogateescape").items()})
        else:
            self._refuse(Fault(404, "no such page"))

    def _call(self, path: str, calls: Mapping[str, Callable[[Asked, Any], Any]], asked: Asked) -> None:
        begun = time.perf_counter()
        try:
            if path not in calls:
                self._file(path)
                return
            status, answer = 200, calls[path](asked, self._body())
        except (Error, ValueError, KeyError, IndexError, TypeError, AttributeError) as failure:
            status, answer = _failed(failure)
        took = (time.perf_counter() - begun) * 1000
        self._send(status, json.dumps(answer).encode(), "application/json", {"Server-Timing": f"all;dur={took:.2f}"})

    def _body(self) -> Any:
        length = int(self.headers.get("Content-Length", "0"))
        if not 0 <= length <= LONGEST:
            self.close_connection = True
            raise ValueError("too long")
        return json.loads(self.rfile.read(length)) if length else {}

    def _events(self) -> None:
        """Sends a tab the version of each change, until it goes away."""
        self.close_connection = True
        self._head(200, "text/event-stream", {"Connection": "close"})
        version = -1
        with suppress(OSError, Error):
            while not self.server.is_over:
                now = self._core.wait(version, SECONDS)
                self.wfile.write(f"data: {now}\n\n".encode() if now != version else b": still here\n\n")
                version = now

    def _file(self, path: str) -> None:
        """The corrected track, or the script: whole, so that a slow reader holds up no edit."""
        pieces: list[bytes] = []
        if path == "script":
            pieces.append(self._core.script())
        else:
            self._core.stream(pieces.append)
        name = "corrections" if path == "script" else "corrected.bed"
        self._head(200, TEXT, {"Content-Length": str(sum(map(len, pieces))), "Content-Disposition": f"attachment; filename={name}"})
        for piece in pieces:
            self.wfile.write(piece)

    def _refuse(self, fault: Fault) -> None:
        self.close_connection = True
        self._send(fault.status, f"{fault.text}\n".encode(), TEXT, {"Connection": "close"})

    def _send(self, status: int, body: bytes, kind: str, more: Optional[dict[str, str]] = None) -> None:
        self._head(status, kind, {"Content-Length": str(len(body)), **(more or {})}, body)

    def _head(self, status: int, kind: str, more: dict[str, str], body: bytes = b"") -> None:
        self.send_response(status)
        for name, value in {"Content-Type": kind, **HEADERS, **more}.items():
            self.send_header(name, value)
        self._headers_buffer.append(b"\r\n" + body)  # type: ignore[attr-defined]  # head and body in one write
        self.flush_headers()

    def send_error(self, code: int, message: Optional[str] = None, explain: Optional[str] = None) -> None:
        """What the library itself refuses, without an echo of the request."""
        self._refuse(Fault(int(code), message if message and message.isascii() and message.isprintable() else "refused"))

    def version_string(self) -> str:
        return "bedkeep"

    def log_message(self, format: str, *args: object) -> None:
        """Nothing: a log would have the token."""


class Unready(Error):
    """The track isn't read yet, or can't be."""


def _failed(failure: Exception) -> tuple[int, dict[str, Any]]:
    """The status and the answer for what went wrong."""
    if isinstance(failure, (Unwell, Ended, Unready)):
        kind = failure.kind if isinstance(failure, Unwell) else ""
        return 507 if kind == DISK else 503, {"error": str(failure), "passes": kind == ASLEEP}
    if isinstance(failure, (KeyError, TypeError, AttributeError)):
        return 400, {"error": "what was sent hasn't the form of a request"}
    return 409 if isinstance(failure, Stale) else 400, {"error": str(failure)}


def _brief(state: dict[str, Any]) -> dict[str, Any]:
    """What is new of the state, without the sequences that no correction is on, if they are many."""
    near = {entry["place"][0] for entry in state["corrections"] if entry["place"]}
    return {**state, "sequences": [one for one in state["sequences"] if len(state["sequences"]) <= FEW or one[0] in near]}


def _window(asked: Mapping[str, Any]) -> tuple[str, int, int, int]:
    return str(asked["sequence"]), int(asked["start"]), int(asked["end"]), int(asked["margin"])


def _of(body: Any, name: str, kind: type, default: Any = None) -> Any:
    """What a body has under a name, which is of that type, or the default."""
    value = body.get(name, default) if isinstance(body, dict) else default
    if value is not default and type(value) is not kind:
        raise ValueError(f"{name} is of another type")
    return value


def _lines(body: Any) -> list[str]:
    lines: list[str] = _of(body, "lines", list, [])
    if not lines or not all(isinstance(line, str) and line.strip() for line in lines):
        raise ValueError("lines are a list of texts")
    if any(end in line for line in lines for end in "\r\n\0"):
        raise ValueError("each line is one line")
    return lines


def _are_texts(values: Any) -> bool:
    return all(isinstance(value, str) for value in values)
