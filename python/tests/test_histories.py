"""Random histories: days at the prompt with undos and kills, releases that move, and mended scripts, against a slow model.

HISTORIES is how many; 60 if it isn't set.
"""
import contextlib
import io
import os
import random
import re
from collections import Counter
from unittest import mock

from bed_checks import peak_problems, problems
from bedkeep import commands
from bedkeep.commands.input_files import Inputs
from bedkeep.commands.journal import Journal
from helpers import Case, Outcome
from random_scripts import cut_off
from random_tracks import LENGTHS, WIDTHS, Maker, moved
from slow_track import ABSENT, BAD, DONE, THERE, Slow, overlap, plain
from test_replay import verdict

COUNT = int(os.environ.get("HISTORIES", "60"))
FIRST = int(os.environ.get("FIRST_HISTORY", "0"))
SHORT = 6  # columns of a record that a line may have alone


class Killed(BaseException):
    """What ends a prompt without a word."""


class Typing(io.StringIO):
    """Standard input of a prompt, that may be killed at its end."""

    def __init__(self, lines, kill):
        super().__init__("".join(f"{line}\n" for line in lines))
        self.kill = kill

    def readline(self, *size):
        line = super().readline(*size)
        if not line and self.kill:
            raise Killed
        return line


class Histories(Case):
    def test_histories(self):
        self.sizes = self.file("sizes", "".join(f"{name}\t{length}\n" for name, length in LENGTHS.items()))
        self.seen = Counter()
        for seed in range(FIRST, FIRST + COUNT):
            with self.subTest(seed=seed):
                self.history(seed)
        if COUNT > 50:  # so that it is no test of nothing
            self.assertGreater(min(self.seen[what] for what in (DONE, ABSENT, BAD, THERE, "mended", "conflict", "dropped", "kill")), 5, self.seen)

    def history(self, seed):
        pick = random.Random(seed)
        maker = Maker(pick, pick.choice(list(WIDTHS)))
        rows = maker.file(pick.randrange(4, 14))
        text = maker.text(rows)
        bed, script = self.file("bed", text), self.folder / f"script-{seed}"
        for day in range(pick.randrange(1, 4)):
            saved, kill = self.folder / f"saved-{seed}-{day}", pick.random() < 0.3
            lines = self.day(maker, self.now(maker, text, script))
            self.prompt(bed, script, lines if kill else [*lines, f"save {saved}"], kill)
            after = self.check(maker, text, bed, script)
            if not kill:
                self.assertEqual(saved.read_bytes().decode(), after)
        self.check(maker, text, bed, self.file("raw", "".join(f"{line}\n" for line in self.raw(maker, text))))
        for release in range(pick.randrange(1, 3)):
            text = maker.text(maker.released(self.rows(Slow(text, LENGTHS, maker.format)), self.rows(self.now(maker, text, script))))
            bed = self.file("bed", text)
            mended = self.folder / f"mended-{seed}-{release}"
            if script.exists():
                outcome = Outcome("replay", self.sizes, bed, script, "--mend", mended)
                self.assertIn(outcome.status, (0, 1), outcome.err)
                self.check_mended(Slow(text, LENGTHS, maker.format), script.read_text().split("\n"), mended.read_text().split("\n"))
                self.check(maker, text, bed, mended)
                script = mended

    def rows(self, slow):
        return [copy.row for copy in slow.now()]

    def now(self, maker, text, script):
        """The track that is corrected, by the slow model."""
        slow = Slow(text, LENGTHS, maker.format)
        slow.run(script.read_text() if script.exists() else "")
        return slow

    # A day at the prompt

    def day(self, maker, slow):
        """Lines to type; slow: the track as it is, in which those that are edits are done."""
        lines = []
        for _ in range(maker.pick.randrange(2, 8)):
            lines += self.typed(maker, self.rows(slow))
            if maker.pick.random() < 0.7:
                slow.do(lines[-1].replace(" ", "\t"))
        return lines

    def raw(self, maker, text):
        """The lines of a script that no prompt wrote."""
        slow, lines = Slow(text, LENGTHS, maker.format), []
        for _ in range(maker.pick.randrange(3, 12)):
            line = "\t".join(maker.line(self.rows(slow)))
            lines += maker.pick.choice([[], [], [], ["# why"], ["# together: all"], [""]]) + [line]
            if maker.pick.random() < 0.7:
                slow.do(line)
        return lines

    def typed(self, maker, rows):
        """Some lines: edits, commands, undos, reasons, groups, and what is no command."""
        pick = maker.pick
        names = [row[3] for row in rows if len(row) > 3] or ["x"]
        chance = pick.random()
        if chance < 0.12:
            return ["undo"] * pick.choice([1, 1, 2]) + ["redo"] * pick.choice([0, 0, 1])
        if chance < 0.2:
            return ["# together: both", " ".join(maker.line(rows)), " ".join(maker.line(rows)), ""]
        if chance < 0.25 and maker.width > SHORT:
            row = pick.choice(rows or [maker.record()])
            base, last = (pick.randrange(int(row[1]) - 3, int(row[2]) + 3) for _ in range(2))
            column = pick.choice(["summit", "qValue"] if maker.width == 10 else ["thickStart", "thickEnd", "itemRgb", "blocks"])
            value = {"itemRgb": "9,9,9", "blocks": f"{row[1]}-{base},{last}-{row[2]}"}.get(column, str(base))
            return [f"set {column} {row[3]} {value}"]
        if chance < 0.3:
            return [pick.choice([f"set end {pick.choice(names)} {pick.randrange(1, 300)}", f"set name {pick.choice(names)} {pick.choice(names)}",
                                 f"rename {pick.choice(names)} {pick.choice(names)}", f"merge {pick.choice(names)} {pick.choice(names)}",
                                 f"split {pick.choice(names)} {pick.randrange(1, 300)}", f"shift chr2 0 150 {pick.choice([-5, 3])}",
                                 f"remove {pick.choice(names)}", "no such command"])]
        reason = [f"# reason {pick.randrange(100)}"] if pick.random() < 0.4 else []
        return [*reason, " ".join(maker.line(rows))]

    def prompt(self, bed, script, lines, kill):
        out = io.StringIO()
        with mock.patch("sys.stdin", Typing(lines, kill)), contextlib.redirect_stdout(out), contextlib.redirect_stderr(out):
            try:
                status = commands.main(["curate", str(self.sizes), str(bed), "--script", str(script)])
            except Killed:
                status = 0
                self.seen["kill"] += 1
                cut_off(script, random.Random(len(lines)))
                Journal(str(script)).close()
        self.assertEqual(status, 0, out.getvalue())

    # What came of it

    def check(self, maker, text, bed, script):
        """That `apply` does what the slow model does, and that the result holds. Returns the corrected file."""
        lines = script.read_text() if script.exists() else ""
        slow = Slow(text, LENGTHS, maker.format)
        verdicts = slow.run(lines)
        script = self.file("empty", "") if not script.exists() else script
        out = self.folder / "out"
        with Inputs(self.sizes, bed, [script]) as inputs, inputs.session() as session:
            inputs.carry(session)
            inputs.save(session, out)
            done = {line.number: verdict(line) for line in inputs.lines if line.is_run}
        self.assertEqual(done, verdicts, lines)
        self.seen.update(verdicts.values())
        self.assertEqual(out.read_bytes().decode(), slow.text(), lines)
        for row in self.rows(Slow(slow.text(), LENGTHS, maker.format)) if maker.width > SHORT else ():
            self.assertEqual(peak_problems("\t".join(row)) if maker.format == "narrowPeak" else problems("\t".join(row), maker.width), [])
        return slow.text()

    # What a mended script may do

    def check_mended(self, slow, before, lines):
        """No line takes a record that its base neither named nor overlaps by name, and no field is lost but in a conflict."""
        was, became = None, {}
        rows, taken = self.rows(slow), {row for line in lines for row in self.named_rows(slow, line.split("# ")[-1].split(": ")[-1])[:1]}
        for line in lines:
            if line.startswith("# dropped: ") and line not in before:
                there = [row[:SHORT] for row in rows] + [row for listed in became.values() for row in listed]
                self.check_dropped(slow, line[len("# dropped: "):], there, taken)
            found = re.match("# was: (.*)", line)
            self.seen.update(re.findall("^# (conflict|dropped): ", line))
            if was and line and not line.startswith("#"):
                self.seen["mended"] += 1
                self.check_line(slow, was.split("\t"), line.split("\t"), became)
            was = found[1] if found else None

    def named_rows(self, slow, line):
        """The first six columns of the records of a line, if it is one."""
        command, *fields = line.split("\t")
        return [plain(half)[:SHORT] for half in slow.halves(command, fields) or ()]

    def check_dropped(self, slow, line, there, taken):
        """A line is already so if there is what it makes, maybe some bases further on; or what a later line makes of that."""
        old, new = (self.named_rows(slow, line) * 2)[:2]
        if not line.startswith("remove") and new not in taken:
            changed = [place for place in range(1, len(new)) if old[place] != new[place] or not line.startswith("replace")]
            self.assertTrue(any(overlap(new, row) and all(row[place] == new[place] or place < 3 and is_moved(new, row) for place in changed)
                                for row in there), line)

    def check_line(self, slow, before, after, became):
        self.assertEqual(before[0], after[0])
        if before[0] == "add":
            return
        (base, *mine), (theirs, *merged) = (list(map(plain, slow.halves(line[0], line[1:]))) for line in (before, after))
        self.assertTrue(is_same_record(base[:SHORT], theirs[:SHORT], became), (before, after))
        if mine:
            became.setdefault(mine[0][:SHORT], []).append(merged[0][:SHORT])
            self.check_fields(base, mine[0], theirs, merged[0], slow.format)

    def check_fields(self, base, mine, theirs, merged, format):
        by = int(theirs[1]) - int(base[1])
        if by == int(theirs[2]) - int(base[2]) and base[0] == theirs[0]:
            base, mine = (moved(row, by) for row in (base, mine))
        base, mine, theirs, merged = (named(row, format) for row in (base, mine, theirs, merged))
        for name, value in merged.items():
            if name in base and name in theirs and name in mine:
                only = {base[name], mine[name], theirs[name]}
                expected = mine[name] if theirs[name] == base[name] else theirs[name]
                self.assertTrue(len(only) < 3 and value == expected, (name, base, mine, theirs, merged))


def is_same_record(base, taken, became):
    """Whether a record is the one that a line names, or may be what the release made of it."""
    if base == taken or taken in became.get(base, ()):
        return True
    name = base[3] if len(base) > 3 else "."
    if name != ".":
        return overlap(base, taken) and taken[3] == name
    return base[:3] == taken[:3] or overlap(base, taken) and base[3:] == taken[3:] and len(base) > 3


def is_moved(one, other):
    """Whether two records are of one length."""
    return int(other[1]) - int(one[1]) == int(other[2]) - int(one[2])


def named(row, format):
    """The fields of a record; blocks by the places between them, a summit by its base."""
    out = dict(enumerate(row[:9]))
    if len(row) == 12:
        sizes, starts = (list(map(int, text.rstrip(",").split(","))) for text in row[10:12])
        ends = sorted([int(row[1]) + place for place in starts] + [int(row[1]) + place + size for place, size in zip(starts, sizes)])
        out["blocks"] = tuple(ends[1:-1])
    if len(row) == 10:
        out["summit"] = int(row[1]) + int(row[9]) if row[9] != "-1" else -1
    return out
