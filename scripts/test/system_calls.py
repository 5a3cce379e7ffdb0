#!/usr/bin/env python3
"""Looks at what the built program asks of the system, with hints and without: it opens each file that it is given once, in order, by its
name as it is, and of their folder no other; and it writes each message at once. It takes seconds.

    scripts/test/system_calls.py build/bedkeep

Status 1 if files are opened otherwise, or if a run has another status, other rows or other messages.
"""
import contextlib
import ctypes
import fcntl
import itertools
import os
import struct
import subprocess
import sys
import tempfile
import threading

from trials import Wrong, begin, parser_of, require

SECONDS = 60
# A file that was opened to be read is closed again (IN_CLOSE_NOWRITE).
IS_CLOSED = 0x10
# In these names @ is g, a, b or f.
NAMES = [b"@", b" @", b"@ ", b"\t@", b"@\t", b"\n@", b"@\n", b"@\r", b"1\n@ 2\t3", b"-@", b"./-1@", b"--help@", b"@'\"\\x", "\u00e9@".encode()]
VIEWS = b"open\tr\trecords\nopen\tc\tcomplement\nopen\ti\tintersect -wa -wb\nopen\tf\tgetfasta -tab\nprintall\n"
# Hints keep what was read of the first MiB of a file.
DAMAGED = b"s\t1\tx\n"
FILES = {b"near": DAMAGED, b"far": (b"#" * 3_999 + b"\n") * 265 + DAMAGED, b"other": b">other\nA\n"}
REFUSED = b"add\ts\t1\t2\nadd\tt\t1\t2\n?\nremove\ts\t1\t3\nopen\tv\tmerge -x\n" + VIEWS
MESSAGES = [b"line 2: unknown sequence\n", b"line 3: no such command or wrong fields\n", b"line 4: no such record\n", b"line 5: bad options\n"]
FAR_LINE = [b"bedkeep: far: line 266: end is not a number\n"]
# Arguments, the script, the status, the messages, and which files are opened. The last column of some has the file that is opened once more
# for a hint: a line after its first MiB is damaged.
RUNS = [
    (b"session -g g -i a -b b -fi f", VIEWS, 0, [], b"g a b f"),
    (b"session -fi f -b b -i a -g g", REFUSED, 1, MESSAGES, b"g a b f"),
    (b"merge -g g -i a", b"", 0, [], b"g a"),
    (b"subtract -b b -g g -a a", b"", 0, [], b"g a b"),
    (b"getfasta -g g -bed a -fi other", b"", 0, [], b"g a other"),
    (b"session -g g -i near -b b", VIEWS, 3, [b"bedkeep: near: line 1: end is not a number\n"], b"g near b"),
    (b"merge -g g -i none", b"", 4, [b"bedkeep: none: cannot be read\n"], b"g"),
    (b"intersect -g none -a a -b b", b"", 4, [b"bedkeep: none: cannot be read\n"], b""),
    (b"session -g g -i a -limit 2", VIEWS, 4, [b"bedkeep: input too long\n"], b"g a"),
    (b"merge -g g -i a -x", b"", 2, [b"bedkeep: bad options\n"], b""),
    (b"merge -g g -i far", b"", 3, FAR_LINE, b"g far", b"far"),
    (b"session -g g -i a -b far -fi f", VIEWS, 3, FAR_LINE, b"g a far f", b"far"),
]


def files_of(number):
    """Files that fit only each other, by the length of their sequence, and what a session over them prints."""
    length = 100 + number
    one = b"s\t%d\t%d" % (number, number + 1)
    files = {b"g": b"s\t%d\n" % length, b"a": one + b"\n", b"b": b"s\t0\t%d\n" % length, b"f": b">s\n%sC%s\n" % (b"A" * number, b"G" * 99)}
    return files, b"#r\n%s\n#c\ns\t0\t%d\ns\t%d\t%d\n#i\n%s\ts\t0\t%d\n#f\ns:%d-%d\tC\n" % (
        one, number, number + 1, length, one, length, number, number + 1)


def write(folder, files):
    for name, text in files.items():
        with open(os.path.join(folder, name), "wb") as file:
            file.write(text)


class Runs:
    """Runs of the program, in a folder with files."""

    def __init__(self, program, folder):
        self.program, self.folder = program, os.fsencode(folder)
        self.count = self.hints = 0

    def run(self, words, script, hints):
        """The status, each piece that was written to standard error, and the rows."""
        self.count += 1
        # A pipe that keeps what is written at once apart.
        reader, writer = os.pipe2(os.O_DIRECT | os.O_CLOEXEC)
        fcntl.fcntl(writer, fcntl.F_SETPIPE_SZ, 1 << 20)
        with open(reader, "rb", buffering=0) as messages:
            with open(writer, "wb", buffering=0) as said, tempfile.TemporaryFile() as given:
                given.write(script)
                given.seek(0)
                try:
                    done = subprocess.run([self.program, *words], cwd=self.folder, stdin=given, stdout=subprocess.PIPE, stderr=said,
                                          env={**os.environ, "BEDKEEP_HINTS": hints}, timeout=SECONDS, check=False)
                except subprocess.TimeoutExpired:
                    raise Wrong(f"{words} takes too long") from None
            return done.returncode, list(iter(lambda: messages.read(65_536), b"")), done.stdout

    def says(self, words, script, hints, status, messages):
        """A run has this status and these messages, each in one piece, and each hint in one. The rows."""
        found, pieces, rows = self.run(words, script, hints)
        of_hints = [piece for piece in pieces if piece.startswith(b"  ")]
        require((found, [piece for piece in pieces if piece not in of_hints]) == (status, messages), f"{words}: status {found}, {pieces}")
        require(all(line.startswith(b"  ") for hint in of_hints for line in hint.splitlines()), f"{words}: a hint within {pieces}")
        require(hints == "always" or not of_hints, f"{words}: hints that nobody wants: {of_hints}")
        self.hints += len(of_hints)
        return rows


def try_names(runs):
    """Names are opened as they are, beside files whose names differ little from them, and a message has them as they are."""
    named = [{file: name.replace(b"@", file) for file in (b"g", b"a", b"b", b"f", b"none")} for name in NAMES]
    for number, names in enumerate(named, 1):
        write(runs.folder, {names[file]: text for file, text in files_of(number)[0].items()})
    for number, names in enumerate(named, 1):
        rows = runs.says([b"session", b"-g", names[b"g"], b"-i", names[b"a"], b"-b", names[b"b"], b"-fi", names[b"f"]], VIEWS, "never", 0, [])
        require(rows == files_of(number)[1], f"{names} have other rows: {rows}")
        for hints in "never", "always":
            for file, status, why in (b"none", 4, b"cannot be read"), (b"g", 3, b"line 1: wrong number of columns"):
                runs.says([b"merge", b"-g", names[b"g"], b"-i", names[file]], b"", hints, status, [b"bedkeep: %s: %s\n" % (names[file], why)])


@contextlib.contextmanager
def read_files(folder, names):
    """A list that has, at the end, those files of the folder that were read meanwhile, in the order in which they were closed."""
    system = ctypes.CDLL(None)
    watch = system.inotify_init1(os.O_NONBLOCK | os.O_CLOEXEC)
    # Each event is one of the folder and one of the file, in turn: two events that are the same would be one.
    require(watch >= 0 and all(system.inotify_add_watch(watch, os.path.join(folder, name), IS_CLOSED) >= 0 for name in (b"", *names)),
            "nothing can be watched here")
    found = []
    try:
        yield found
        events = b""
        with contextlib.suppress(BlockingIOError):
            events = os.read(watch, 1 << 16)
    finally:
        os.close(watch)
    at = 0
    while at < len(events):
        length = struct.unpack_from("iIII", events, at)[3]
        found += [name] if (name := events[at + 16 : at + 16 + length].rstrip(b"\0")) else []
        at += 16 + length


@contextlib.contextmanager
def given_as_files(folder, files):
    write(folder, files)
    yield
    for name in files:
        os.remove(os.path.join(folder, name))


@contextlib.contextmanager
def given_as_pipes(folder, files):
    """Named pipes that give these files, each once."""
    def give(path, text):
        with contextlib.suppress(BrokenPipeError), open(path, "wb") as file:
            file.write(text)

    paths = {os.path.join(folder, name): text for name, text in files.items()}
    for path in paths:
        os.mkfifo(path)
    writers = [threading.Thread(target=give, args=one) for one in paths.items()]
    for writer in writers:
        writer.start()
    try:
        yield
    finally:
        # A writer waits for as long as nobody opens its pipe.
        for path in paths:
            os.close(os.open(path, os.O_RDONLY | os.O_NONBLOCK))
        for writer in writers:
            writer.join()
        for path in paths:
            os.remove(path)


def try_opens(runs):
    """Each file is opened once, with hints and without; and each named pipe, also if a line after its first MiB is damaged."""
    files = {**files_of(1)[0], **FILES}
    for given, (words, script, status, messages, opened, *again), hints in itertools.product((given_as_files, given_as_pipes), RUNS, ("never", "always")):
        with given(runs.folder, files), read_files(runs.folder, files) as found:
            runs.says(words.split(), script, hints, status, messages)
        wanted = opened.split() + (again if given is given_as_files and hints == "always" else [])
        require(found == wanted, f"{words}, {given.__name__}, hints {hints}: {found} are opened, and not {wanted}")


def main():
    program, count = begin(parser_of(__doc__)).program, 0
    for attempt in try_names, try_opens:
        with tempfile.TemporaryDirectory() as folder:
            runs = Runs(program, folder)
            try:
                attempt(runs)
                require(runs.hints, "no run has a hint")
            except Wrong as wrong:
                sys.exit(f"{attempt.__name__}: {wrong}")
            count += runs.count
    print(f"{count} runs open each file once, by its name, and write each message at once")


if __name__ == "__main__":
    main()
