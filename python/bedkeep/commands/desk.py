"""python3 -m bedkeep desk GENOME BED [-b SECOND] [--script FILE]: a page in the browser to correct a track by."""
from __future__ import annotations

import argparse
import html
import os
import signal
import sys
import tempfile
import threading
import time
import webbrowser
from contextlib import ExitStack
from typing import Callable

from ..desk.server import Server
from .core import Core, opened
from .options import add_editing, views_of
from .prompt_files import Given

DESCRIPTION = """Opens a page in the browser to correct a track by. Each accepted line is in the script at once, and no other
file is changed. The page is served to this machine alone, at an address with a secret. Ctrl-C ends."""
SOON = 0.7  # seconds after which the page is shown, though the track isn't read yet
LAST = 1.5  # seconds that a page has to hear why there is no track


def options(parser: argparse.ArgumentParser) -> None:
    parser.description = DESCRIPTION
    add_editing(parser, ". Without this it is beside the BED file, with .corrections after its name")
    parser.add_argument("--port", type=int, default=0, metavar="N", help="of 127.0.0.1; without this a free one")
    parser.add_argument("--no-browser", action="store_true", help="only prints the address")


def run(given: argparse.Namespace) -> int:
    files, views = asked(given)
    if given.script is None:
        print(f"the script is {files.script}", file=sys.stderr)
    with ExitStack() as stack:
        server = Server(given.port)
        stack.callback(server.server_close)
        stack.callback(server.shutdown)
        threading.Thread(target=server.serve_forever, kwargs={"poll_interval": 0.1}, daemon=True).start()
        folder = stack.enter_context(tempfile.TemporaryDirectory(prefix="bedkeep-"))
        page = Page(server.guard.address, not given.no_browser, folder)
        soon = threading.Timer(SOON, page.show)
        stack.callback(soon.cancel)
        soon.start()
        core = read(server, page, lambda: opened(files, views, stack))
        page.show()
        serve(server, core)
    return 0


def asked(given: argparse.Namespace) -> tuple[Given, list[str]]:
    """The files and the views of the options."""
    return Given.of(given, given.script or f"{given.bed}.corrections"), views_of(given)


class Page:
    """The page, which is shown once: its address is printed, and opened in the browser."""

    def __init__(self, address: str, browser: bool, folder: str) -> None:
        self._address, self._browser, self._folder = address, browser, folder
        self._lock = threading.Lock()
        self.is_shown = False

    def show(self) -> None:
        with self._lock:
            if not self.is_shown:
                self.is_shown = True
                print(self._address, flush=True)
                if self._browser:
                    self._open()

    def _open(self) -> None:
        """Opens it by a file that only this user can read: the arguments of a process are for everybody to see."""
        path = os.path.join(self._folder, "desk.html")
        with open(os.open(path, os.O_CREAT | os.O_EXCL | os.O_WRONLY, 0o600), "w", encoding="utf-8") as file:
            file.write('<!doctype html><meta name=referrer content=no-referrer>'
                       f'<meta http-equiv=refresh content="0;url={html.escape(self._address)}">')
        webbrowser.open(f"file://{path}")


def read(server: Server, page: Page, reading: Callable[[], Core]) -> Core:
    """The core, once the track is read. A page that is shown already hears why there is none."""
    try:
        core = reading()
        for sequence, *_ in core.state()["sequences"][:1]:
            core.region(sequence, 0, 1)  # opens all that a look needs
        server.core = core
        return core
    except Exception as failure:
        server.failure = str(failure)
        if page.is_shown:
            time.sleep(LAST)
        raise


def serve(server: Server, core: Core) -> None:
    """Answers until an interrupt, ends after the edit that was begun, and says what there is."""
    over = threading.Event()
    before = {number: signal.signal(number, lambda *_: over.set()) for number in (signal.SIGINT, signal.SIGTERM)}
    try:
        while not over.wait(1):
            pass
    finally:
        server.is_over = True
        done = sum(entry["verdict"] == "done" for entry in core.state()["corrections"])
        core.end()
        for number, handler in before.items():
            signal.signal(number, handler)
    print(f"\n{core.given.script}: {done} correction{'' if done == 1 else 's'}", file=sys.stderr)
