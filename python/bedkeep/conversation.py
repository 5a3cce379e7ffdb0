"""Lines to a session of the program, and their answers.

The program says nothing of a line that is done, and no row says that it is the last one. So after the lines of a call one more
is sent, the mark `?`, which is no command. It is always refused, and its message has its number. All that a line prints has
reached standard output before the next line is read, so once that message is here, the rest of the rows is in the pipe. Rows
and messages have a pipe each, and whichever pipe is ready is read or written, so neither side waits for the other.
"""
from __future__ import annotations

import os
import re
import selectors
import subprocess
import weakref
from typing import IO, Callable, NamedTuple, NoReturn, Optional, Sequence

from .encoding import decoded, encoded
from .errors import HINT, Ended, Error, ended
from .interrupts import Interrupts
from .printed_rows import Lines
from .program import environment

Take = Callable[[bytes], object]
MARK = "?\n"
PIECE = 1 << 16
SECONDS = 5
MESSAGE = re.compile(r"line (\d+): (.*)", re.DOTALL)


class Answer(NamedTuple):
    """How many of the lines were sent, and why some of these were refused, by their number from 1, with hints on some of them."""

    sent: int
    refused: dict[int, str]
    hints: dict[int, list[str]]

    def within(self, count: int) -> Answer:
        """The answer of so many lines, without that of the line before them and of the one after."""
        numbers = range(2, count + 2)
        return Answer(max(min(self.sent - 1, count), 0),
                      {number - 1: reason for number, reason in self.refused.items() if number in numbers},
                      {number - 1: listed for number, listed in self.hints.items() if number in numbers})


class Exchange:
    """The lines of a text on their way to the program, with the mark after them, and what is known of their answers."""

    def __init__(self, text: str, take: Take, before: int) -> None:
        self.count: Optional[int] = None  # of lines before the mark, once all is written
        self.refused: dict[int, str] = {}
        self.hints: dict[int, list[str]] = {}
        self.messages = ""
        self.failure: Optional[Exception] = None
        self._take = take
        self._before = before
        self._heard = Lines()
        self._last = 0  # the line that was refused last
        self._text = encoded(text + MARK)
        self._written = 0

    def write(self, pipe: int) -> bool:
        """Writes what the pipe has room for, and says whether that was the rest."""
        self._written += os.write(pipe, self._text[self._written:self._written + PIECE])
        if self._written < len(self._text):
            return False
        self.count = self._text.count(b"\n") - 1
        return True

    def cut(self) -> None:
        """Leaves out the lines that aren't begun."""
        end = self._text.find(b"\n", self._written - 1) + 1 if self._written else 0
        if end < len(self._text) - len(MARK):
            self._text = self._text[:end] + encoded(MARK)

    def rows(self, piece: bytes) -> None:
        """Hands on what came from standard output."""
        if not self.failure:
            try:
                self._take(piece)
            except Exception as failure:
                self.failure = failure

    def hear(self, piece: bytes) -> None:
        """Reads what came from standard error."""
        lines = decoded(self._heard.whole(piece))
        for line in lines.split("\n")[:-1]:
            message = MESSAGE.fullmatch(line)
            if message:
                self._last = int(message[1]) - self._before
                self.refused[self._last] = message[2]
            elif line.startswith(HINT):
                self.hints.setdefault(self._last, []).append(line[len(HINT):])
        self.messages = (self.messages + lines)[-PIECE:]

    def answer(self) -> Optional[Answer]:
        """The answer, once all is written and the message of the mark is here."""
        if self.count is None or self.count + 1 not in self.refused:
            return None
        del self.refused[self.count + 1]
        return Answer(self.count, self.refused, self.hints)


def _end(process: subprocess.Popen[bytes], pipes: Sequence[IO[bytes]], owner: int) -> None:
    """Ends a session that nobody holds any more. A process that was forked only closes its own ends of the pipes."""
    if os.getpid() == owner:
        process.kill()
        process.wait()
    for pipe in pipes:
        pipe.close()


class Conversation:
    """The program, started with the arguments of a session; it ends with this object at the latest."""

    def __init__(self, words: Sequence[str], descriptors: Sequence[int] = ()) -> None:
        # A process group of its own gets no interrupt from the terminal.
        self._process = subprocess.Popen(words, env=environment(), bufsize=0, start_new_session=True, pass_fds=descriptors,
                                         stdin=subprocess.PIPE, stdout=subprocess.PIPE, stderr=subprocess.PIPE)
        assert self._process.stdin and self._process.stdout and self._process.stderr
        self._pipes = [self._process.stdin, self._process.stdout, self._process.stderr]
        self._ending = weakref.finalize(self, _end, self._process, self._pipes, os.getpid())
        self._in, self._out, self._err = [pipe.fileno() for pipe in self._pipes]
        for pipe in self._in, self._out, self._err:
            os.set_blocking(pipe, False)
        self._selector = selectors.DefaultSelector()
        self._selector.register(self._out, selectors.EVENT_READ)
        self._selector.register(self._err, selectors.EVENT_READ)
        self._count = 0
        self._over: Optional[Ended] = None
        self._owner = os.getpid()

    def ask(self, text: str, take: Take, interrupts: Interrupts, whole: bool = False) -> Answer:
        """Sends the lines of a text, hands what they print to `take`, piece by piece, and waits for the end of the last answer.

        After an interrupt the lines that aren't begun are left out, unless they are to be sent as a whole. What `take` raises is
        raised once the answer is complete.
        """
        self.refuse_forked()
        self.refuse_ended()
        exchange = Exchange(text, take, self._count)
        try:
            self._selector.register(self._in, selectors.EVENT_WRITE)
            answer = None
            while answer is None:
                self._step(exchange)
                if interrupts.came and not whole:
                    exchange.cut()
                answer = exchange.answer()
            self._drain(exchange)
        except BaseException:
            self._abandon()
            raise
        self._count += answer.sent + 1
        if exchange.failure:
            raise exchange.failure
        return answer

    @property
    def is_forked(self) -> bool:
        """Whether this process was forked from the one that began the session."""
        return os.getpid() != self._owner

    def refuse_forked(self) -> None:
        """Raises an Error in a process that was forked: two can't share the pipes to a program."""
        if self.is_forked:
            raise Error(f"this session belongs to process {self._owner}, and this is process {os.getpid()}: begin a session here")

    def refuse_ended(self) -> None:
        """Raises what ended the program, if it has ended."""
        if self._over:
            raise self._over

    @property
    def is_over(self) -> bool:
        return self._over is not None

    @property
    def state(self) -> Optional[int]:
        """How the program ended or is stopped, as waitid has it; None if it goes on, or that can't be known."""
        if self._over or not hasattr(os, "waitid"):
            return None
        state = os.waitid(os.P_PID, self._process.pid, os.WSTOPPED | os.WEXITED | os.WNOHANG | os.WNOWAIT)
        return state.si_code if state else None

    def kill(self) -> None:
        """Ends the program at once; who waits for it sees its end."""
        self._process.kill()

    def end(self) -> None:
        """Ends the session, and waits until the program has ended."""
        if self._over:
            return
        try:
            self._pipes[0].close()
            self._process.wait(SECONDS)
        except subprocess.TimeoutExpired:  # A process that was forked since then has the pipe too.
            self._process.kill()
        except BaseException:
            self._abandon()
            raise
        self._close(Ended(self._process.wait(), "the session is closed"))

    def _step(self, exchange: Exchange) -> None:
        """Waits until a pipe is ready, and reads or writes a piece."""
        if not self._selector.get_map():
            self._finish(exchange.messages)
        for key, _ in self._selector.select():
            if key.fd == self._in:
                try:
                    whole = exchange.write(self._in)
                except BrokenPipeError:
                    whole = True  # The program has ended: both outputs end too.
                if whole:
                    self._selector.unregister(self._in)
                continue
            piece = os.read(key.fd, PIECE)
            if not piece:
                self._selector.unregister(key.fd)
            elif key.fd == self._out:
                exchange.rows(piece)
            else:
                exchange.hear(piece)

    def _drain(self, exchange: Exchange) -> None:
        """Reads the rows that are in the pipe."""
        try:
            while piece := os.read(self._out, PIECE):
                exchange.rows(piece)
        except BlockingIOError:
            pass

    def _finish(self, messages: str) -> NoReturn:
        over = ended(self._process.wait(), messages)
        self._close(over)
        raise over

    def _abandon(self) -> None:
        """Closes a session whose answer is unknown."""
        if not self._over:
            self._process.kill()
            self._close(Ended(self._process.wait(), "the session was cut off"))

    def _close(self, over: Ended) -> None:
        self._over = over
        self._ending.detach()
        self._selector.close()
        for pipe in self._pipes:
            pipe.close()
