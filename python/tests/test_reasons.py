"""That each line of a script keeps the reason that was typed for it, and its author: through kills, merges, and mended scripts.

SCRIPTS is how many; 300 if it isn't set.
"""
import html
import os
import random
import re
import shlex
import shutil
import sys
import unittest
from pathlib import Path
from unittest import mock

import bedkeep
from bedkeep.commands.corrections import read_lines
from bedkeep.review.alike import units_of
from bedkeep.review.cards import Card, html_of
from bedkeep.review.reviewer import Reviewed
from helpers import Case, Repository
from random_scripts import Typist
from test_replay import rows_of

COUNT = int(os.environ.get("SCRIPTS", "300"))
SHARE = 4  # records of each script that its first author may change, and each branch
BRANCHES = ("Base", "Ada", "Bo")


def record(number):
    return "chr1", str(number * 1000), str(number * 1000 + 900), f"g{number}"


def said_of(line):
    return line.text, " ".join(line.comments), line.author.name


@unittest.skipUnless(shutil.which("git"), "no git")
class Reasons(Case):
    """A repository of scripts that git merges by paragraphs. Some days are signed."""

    def setUp(self):
        super().setUp()
        folder = self.folder / "repository"
        folder.mkdir()
        self.repository = Repository(folder, "Base")
        driver = f"{shlex.quote(sys.executable)} -S -m bedkeep git --merge-script %O %A %B %L %P"
        self.repository.git("config", "merge.bedkeep-script.driver", driver)
        (folder / ".gitattributes").write_text("* merge=bedkeep-script\n")
        quick = mock.patch("os.fsync")
        quick.start()
        self.addCleanup(quick.stop)
        self.sizes = self.file("sizes", "chr1\t4000000000\n")

    def type_all(self):
        """Types the scripts on two branches that are merged. Returns what was typed into each: texts, reasons, and authors."""
        base, typed, self.commits, self.signed = {}, {}, {}, set()
        for branch, name in enumerate(BRANCHES):
            if branch:
                self.repository.git("checkout", "-q", "-b", name, "Base")
            for seed in range(COUNT):
                pick, path = random.Random(f"{seed} {branch}"), self.repository.folder / str(seed)
                records, said = base.get(path, ((), ()))
                records = [*records, *map(record, range((seed * 3 + branch) * SHARE, (seed * 3 + branch + 1) * SHARE))]
                typist = Typist(pick, path, records, pick.choice([name, None]), said)
                for _ in range(pick.randrange(0, 3)):
                    typist.day()
                    lines = read_lines([path]) if path.exists() else []
                    self.assertEqual([said_of(line) for line in lines if line.is_run], typist.typed)
                if not branch:
                    base[path] = typist.records, typist.typed
                self.signed.update(typist.typed)
                typed.setdefault(path, set()).update((text, reason, by or name) for text, reason, by in typist.typed[len(said):])
            self.commits[name] = self.repository.commit(name)
        self.repository.by("Bo", "merge", "-q", "-m", "x", "Ada")
        return {path: said for path, said in typed.items() if path.exists()}

    def test_each_line_keeps_its_reason(self):
        typed = self.type_all()
        for path, said in typed.items():
            with self.subTest(path.name):
                run = [line for line in read_lines([path]) if line.is_run]
                self.assertEqual({line.text for line in run}, {text for text, *_ in said})
                for line in run:
                    self.assertIn(said_of(line), self.signed)
        self.check_log(typed)
        self.check_mended([self.check_mended(list(typed), 7)], 9)

    def check_log(self, typed):
        bed = self.file("genes.bed", rows_of(map(record, range(COUNT * 3 * SHARE))))
        listed = bedkeep.log(self.sizes, bed, list(typed))
        self.assertGreater(len(listed), COUNT)
        for entry in listed:
            for line in entry.lines:
                self.assertIn(said_of(line), typed[Path(line.file)])
                self.assertEqual(line.author.commit, self.commits[line.author.name])
                self.assertIn(entry.last.split("\t")[3], line.text.split("\t"))

    def check_mended(self, scripts, by):
        """Over a release in which records moved, or are gone, each line that is left keeps what was typed for it. Returns the script."""
        pick = random.Random(by)
        left = [record(number) for number in range(COUNT * 3 * SHARE) if pick.random() < 0.9]
        rows = [(name, str(int(start) + pick.choice([0, 0, by])), *rest) for name, start, *rest in left]
        replayed = bedkeep.replay(self.sizes, self.file("release", rows_of(rows)), scripts)
        self.check_page(replayed.findings)
        mended = self.file(f"mended-{by}", "".join(f"{line}\n" for line in replayed.mended()))
        for line, was in self.with_bases(mended):
            self.assertIn((was, *said_of(line)[1:]), self.signed, line.place)
        self.assertGreater(sum(line.text != was for line, was in self.with_bases(mended)), COUNT // 3)
        return mended

    def with_bases(self, mended):
        """The lines of a mended script, and what they were when they were typed."""
        was = ""
        for line in read_lines([mended]):
            if line.is_run:
                yield line, was or line.text
            was = (was or line.text[len("# was: "):]) if line.text.startswith("# was: ") else ""

    def check_page(self, findings):
        """That each card has the reason, and the authors of its lines."""
        for unit in units_of(findings):
            lines = [finding.line for finding in unit.findings]
            page = html_of(Card(unit, [Reviewed(finding.line, finding, [], "", False) for finding in unit.findings]), True)
            reasons = [html.unescape(text) for text in re.findall("<p class=reason>(.*?)</p>", page)]
            [authors] = re.findall("<p class=author>(.*?)</p>", page) or [""]
            for line in lines:
                self.assertEqual(reasons, list(filter(None, line.comments)))
                self.assertIn(line.author.name, authors)
