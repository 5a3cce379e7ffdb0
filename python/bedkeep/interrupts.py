"""What an interrupt (Ctrl-C) must not cut in two, and how a command ends if another signal ends it."""
from __future__ import annotations

import signal
import threading
from contextlib import contextmanager
from types import FrameType
from typing import Any, Callable, Iterator, NoReturn, Optional

ENDING = (signal.SIGTERM, signal.SIGHUP)


class Interrupts:
    """Holds an interrupt back while what was sent and what is known of it must not differ, and raises it at the end.

    `second` is called when another one comes meanwhile, or with the first one if `at_once`; then also before a signal that nobody
    handles ends this process.
    """

    def __init__(self, second: Callable[[], object] = int, at_once: bool = False) -> None:
        self.came = False
        self._second = second
        self._at_once = at_once
        self._before: Any = None
        self._unhandled: list[signal.Signals] = []

    def __enter__(self) -> Interrupts:
        if threading.current_thread() is threading.main_thread() and callable(signal.getsignal(signal.SIGINT)):
            self._before = signal.signal(signal.SIGINT, self._arrived)
        if self._at_once:
            self._unhandled = _handled(self._end, signal.SIGINT, *ENDING)
        return self

    def _arrived(self, number: int, frame: Optional[FrameType]) -> None:
        if self.came or self._at_once:
            self._second()
        self.came = True

    def _end(self, number: int, _: Optional[FrameType]) -> None:
        self._second()
        signal.signal(number, signal.SIG_DFL)
        signal.raise_signal(number)

    def __exit__(self, *_: object) -> None:
        for one in self._unhandled:
            signal.signal(one, signal.SIG_DFL)
        if self._before is not None:
            signal.signal(signal.SIGINT, self._before)
            if self.came:
                try:
                    self._before(signal.SIGINT, None)
                except KeyboardInterrupt as interrupt:  # It is why the program ended, and not the other way round.
                    raise interrupt from None


@contextmanager
def ending_in_order() -> Iterator[None]:
    """Has SIGTERM and SIGHUP end a command as an exit does, so that no partial file is left; the status is 128 and the signal."""
    def leave(number: int, _: Optional[FrameType]) -> NoReturn:
        for one in before:
            signal.signal(one, signal.SIG_IGN)
        raise SystemExit(128 + number)

    before = _handled(leave, *ENDING)
    try:
        yield
    finally:
        for one in before:
            signal.signal(one, signal.SIG_DFL)


def _handled(handler: Callable[[int, Optional[FrameType]], object], *numbers: signal.Signals) -> list[signal.Signals]:
    """Has a handler take those of the signals that would end this process at once, and returns them; none in another thread."""
    if threading.current_thread() is not threading.main_thread():
        return []
    unhandled = [one for one in numbers if signal.getsignal(one) is signal.SIG_DFL]
    for one in unhandled:
        signal.signal(one, handler)
    return unhandled
