"""Which requests are answered: those of a page that this desk served, in a browser on this machine.

The port is open to every program and every user of the machine, and to every page that a browser here shows. So a request needs
the token, which is random and in the path; a Host that names this machine, since an attacker can point another name at 127.0.0.1
(DNS rebinding); and where the browser says that it comes from has to be here (CSRF). A connection without the token has a few
seconds to show it, and if there are too many such ones, the oldest goes: nobody without the token holds up who has it.
"""
from __future__ import annotations

import hmac
import secrets
import socket
import threading
import time
from contextlib import suppress
from email.message import Message
from http.client import LineTooLong
from typing import BinaryIO, NamedTuple, Optional

MOST_UNKNOWN, MOST_KNOWN = 64, 64  # connections
SECONDS_TO_SHOW = 5.0  # the token, with the whole head of a request
LONGEST_HEAD = 1 << 14


class Fault(NamedTuple):
    """Why a request isn't answered."""

    status: int
    text: str


class Guard:
    """The token of one run, and the names under which its server may be called."""

    def __init__(self, port: int) -> None:
        self.token = secrets.token_urlsafe(24)
        self._hosts = {f"127.0.0.1:{port}", f"localhost:{port}"}
        self.address = f"http://127.0.0.1:{port}/{self.token}/"

    def path(self, target: str) -> Optional[str]:
        """What of a target is after the token, or None if that is wrong."""
        token, slash, rest = target.removeprefix("/").partition("/")
        same = hmac.compare_digest(token.encode("utf-8", "replace"), self.token.encode())
        return rest if same and slash and target.startswith("/") else None

    def fault(self, method: str, path: Optional[str], headers: Message) -> Optional[Fault]:
        """What is wrong with a request, if something is."""
        hosts, origins = headers.get_all("Host") or [], headers.get_all("Origin") or []
        if len(hosts) != 1 or hosts[0] not in self._hosts:
            return Fault(421, "this server is called 127.0.0.1 or localhost")
        if origins and origins != [f"http://{hosts[0]}"]:
            return Fault(403, "a page of another origin")
        if path is None:
            return Fault(403, "the address has no token, or that of an earlier run: take the one that the desk printed")
        if headers.get("Transfer-Encoding"):
            return Fault(501, "a body has a Content-Length")
        return self._of_post(origins, headers) if method == "POST" else self._of_get(path, headers)

    def _of_get(self, path: str, headers: Message) -> Optional[Fault]:
        site, mode = headers.get("Sec-Fetch-Site", "same-origin"), headers.get("Sec-Fetch-Mode", "")
        if site != "same-origin" and not (path == "" and mode == "navigate"):
            return Fault(403, "asked by another page")
        return None

    def _of_post(self, origins: list[str], headers: Message) -> Optional[Fault]:
        if not origins or headers.get_all("Sec-Fetch-Site") != ["same-origin"]:
            return Fault(403, "an edit comes from this desk's own page, in a browser that says so (Origin, Sec-Fetch-Site)")
        if headers.get_content_type() != "application/json":
            return Fault(415, "an edit is JSON")
        return None


class Connections:
    """The open connections: those that have shown the token, and those that haven't, which are few, and none of them for long."""

    def __init__(self) -> None:
        self._lock = threading.Lock()
        self._unknown: dict[socket.socket, float] = {}  # by their age, and until when each may show the token
        self._known: set[socket.socket] = set()

    def take(self, connection: socket.socket) -> None:
        """A new one. If too many haven't shown the token, the oldest of these is cut."""
        with self._lock:
            if len(self._unknown) >= MOST_UNKNOWN:
                self._cut(next(iter(self._unknown)))
            self._unknown[connection] = time.monotonic() + SECONDS_TO_SHOW

    def know(self, connection: socket.socket) -> bool:
        """It has shown the token: whether it may stay."""
        with self._lock:
            if connection not in self._known:
                if self._unknown.pop(connection, None) is None or len(self._known) >= MOST_KNOWN:
                    return False
                self._known.add(connection)
            return True

    def drop(self, connection: socket.socket) -> None:
        """It is over."""
        with self._lock:
            self._unknown.pop(connection, None)
            self._known.discard(connection)

    def cut_late(self) -> None:
        """Cuts those that had the time to show the token."""
        now = time.monotonic()
        with self._lock:
            for connection in [one for one, last in self._unknown.items() if last < now]:
                self._cut(connection)

    def _cut(self, connection: socket.socket) -> None:
        """Ends what its thread waits for."""
        self._unknown.pop(connection)
        with suppress(OSError):
            connection.shutdown(socket.SHUT_RDWR)


class Head:
    """Reads a connection as its file does, except that the lines of a head are bounded together. `begin` begins the next one."""

    def __init__(self, file: BinaryIO) -> None:
        self._file = file
        self.begin()

    def begin(self) -> None:
        self._left = LONGEST_HEAD

    def readline(self, most: int = -1) -> bytes:
        line = self._file.readline(min(most, self._left) if most >= 0 else self._left)
        self._left -= len(line)
        if not self._left and not line.endswith(b"\n"):
            raise LineTooLong("head")
        return line

    def read(self, count: int) -> bytes:
        return self._file.read(count)

    def close(self) -> None:
        self._file.close()
