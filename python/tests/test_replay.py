import random
import re
from collections import Counter

import bedkeep
from helpers import Case, tabs
from slow_classes import DOABLE, Slow, Track
from slow_track import overlap

LENGTHS = {"chr1": 60, "chr2": 60}


class Replays(Case):
    def kinds(self, replayed):
        return Counter(finding.kind for finding in replayed.findings)


def rows_of(records):
    """The text of a file."""
    return "".join("\t".join(record) + "\n" for record in records)


def some_record(pick):
    start = pick.randrange(0, 12) * 4
    return (pick.choice(list(LENGTHS)), str(start), str(start + pick.choice([1, 5, 9])), pick.choice(".abcd"), pick.choice("01"),
            pick.choice("+-."))


def altered(pick, record):
    columns = list(record)
    for _ in range(pick.choice([1, 1, 2])):
        column = pick.randrange(1, 6)
        columns[column] = [None, str(int(columns[1]) + 1), str(int(columns[2]) + 3), pick.choice(".abcde"), pick.choice("012"),
                           pick.choice("+-.")][column]
    return tuple(columns) if int(columns[1]) < int(columns[2]) else record


def some_script(pick, records):
    """Lines as lists of fields: over records, over records that are altered, in chains, and damaged."""
    known, lines = list(records), []
    for _ in range(pick.randrange(1, 14)):
        old = pick.choice(known) if pick.random() < 0.9 else some_record(pick)
        old = altered(pick, old) if pick.random() < 0.3 else old
        new = altered(pick, old)
        line = pick.choice([["add", *new], ["remove", *old], *[["replace", *old, *new]] * 4])
        if pick.random() < 0.16 and line[0] == "replace":
            column = pick.choice([1, 2, 3, 6, 7, 8, 9, 12])
            line[column] = pick.choice(["chr9", "x", "", "999999"]) if column % 6 else "x"
        lines.append(line)
        known.append(new)
    return lines


def some_text(pick, records, wide):
    """The text of such a script in paragraphs, some of them done together; over a wide track some with tails of two columns."""
    rows, group = [], 0
    for command, *columns in some_script(pick, records):
        if not rows or pick.random() < 0.5:
            rows += ["", f"# together: {group}"] if wide != (group % 3 == 0) else [""]
            group += 1
        halves = [columns[:6], columns[6:]] if command == "replace" else [columns]
        tails = [some_tail(pick) if wide and pick.random() < 0.6 else ()] * len(halves)
        if tails[0] and len(tails) > 1:
            tails = [tails[0] if pick.random() < 0.8 else (), some_tail(pick) if pick.random() < 0.4 else tails[0]]
        rows.append("\t".join([command, *(column for half, tail in zip(halves, tails) for column in (*half, *tail))]))
    return "\n".join(rows)


def some_tail(pick):
    return pick.choice("xy"), pick.choice("pq")


class RandomScripts(Replays):
    """Also over the second file, over releases that have some of the corrections, with tails, and with lines that end in CR."""

    def test_the_classes_are_those_of_a_slow_check(self):
        self.sizes = self.file("sizes", "chr1\t60\nchr2\t60\n")
        seen = Counter()
        for seed in range(300):
            with self.subTest(seed=seed):
                seen += self.one(random.Random(seed))
        self.assertEqual(len(seen), 11, seen)

    def one(self, pick):
        wide = pick.random() < 0.4
        records = [some_record(pick) for _ in range(pick.choice([1, 3, 8, 20]))]
        records += [pick.choice(records) for _ in range(pick.choice([0, 0, 2, 4]))]
        script = some_text(pick, records, wide)
        release = [(*(altered(pick, one) if pick.random() < 0.4 else one), *(some_tail(pick) if wide else ()))
                   for one in records if pick.random() < 0.85] or [(*records[0], *("xp" if wide else ""))]
        if pick.random() < 0.3:
            track = Track(rows_of(release), LENGTHS, "", True)
            track.run("\n".join(row for row in script.split("\n") if pick.random() < 0.7))
            release = [copy.row for copy in track.now()] or release
        ignore, copies = pick.choice([[], [], ["score"], ["name"], ["strand", "name"]]), pick.random() < 0.3
        second = not wide and pick.random() < 0.3
        places = [bedkeep.printed_rows.RECORD.index(name) for name in ignore]
        slow = Slow(rows_of(release), script, LENGTHS, places, copies, not second)
        self.bed, self.other = self.file("release", rows_of(release)), self.file("other", "chr1\t1\t2\n")
        if second:
            self.bed, self.other = self.other, self.bed
            script = re.sub(r"^(add|remove|replace)\t", r"\1b\t", script, flags=re.MULTILINE)
        corrections = self.file("corrections", "".join(f"{row}{pick.choice(['', chr(13)])}\n" for row in script.split("\n")))
        replayed = bedkeep.replay(self.sizes, self.bed, [corrections], self.other, ignore, copies)
        self.assertEqual({finding.line.number: verdict(finding.line) for finding in replayed.findings}, slow.verdicts)
        for finding, (kind, found, by, mended) in zip(replayed.findings, slow.all()):
            mended = mended.replace("\t", "b\t", 1) if second else mended
            self.assertEqual((finding.kind, finding.mended, finding.by and finding.by.number), (kind, mended, by), finding.line.text)
            if found:
                self.assertEqual(finding.found, found, finding.line.text)
        self.check_mended(replayed, ignore, copies)
        return self.kinds(replayed)

    def check_mended(self, replayed, ignore, copies):
        """Replayed again, the mended script fits except for the lines that couldn't be mended; and what is mended is like its base."""
        out = {finding.line.group for finding in replayed.findings if finding.line.group and finding.kind not in DOABLE}
        live = [finding for finding in replayed.findings
                if finding.kind not in ("conflict", "already so", "already there") and finding.line.group not in out]
        text = "".join(f"{line}\n" for line in replayed.mended())
        again = bedkeep.replay(self.sizes, self.bed, [self.file("mended", text)], self.other, (), copies)
        self.assertEqual([finding.line.text for finding in again.findings], [finding.mended or finding.line.text for finding in live])
        for finding, later in zip(live, again.findings):
            old, found = finding.line.old, finding.found
            if finding.mended or finding.kind in ("fits", "follows"):
                self.assertEqual(later.kind, "fits", later.line.text)
            if finding.mended and not finding.by and finding.kind != "fits but for":
                same = found[3] == old[3] if old[3] != "." else found[:3] == old[:3] or found[3:] == old[3:]
                self.assertTrue(same and overlap(found, old), later.line.text)


def verdict(line):
    """What came of a line, as the slow model says it."""
    if line.there:
        return "differs" if line.refusal else "there"
    return {"": "done", "no such record": "absent"}.get(line.refusal, "apart" if line.refusal.startswith("not done") else "bad")


class Large(Replays):
    """3,000 records, beside others at their places and of their names; 45 lines that replace or remove one, and 5 that add one."""

    def test_other_releases_and_the_own_corrected_track(self):
        pick = random.Random(7)
        self.sizes = self.file("sizes", "chr1\t9000000\nchr2\t9000000\n")
        records = [(f"chr{1 + n % 2}", str(n * 2000 + 100), str(n * 2000 + 100 + pick.randrange(50, 900)), f"gene{n}",
                    str(n % 900), pick.choice("+-")) for n in range(3000)]
        others = [(*one[:3], f"{one[3]}b", *one[4:]) for one in records[::3]]
        others += [("chr2", str(8000000 + n), str(8000001 + n), *one[3:]) for n, one in enumerate(records[::2])]
        lines = [f"add\tchr2\t{7000000 + n * 100}\t{7000050 + n * 100}\tnew{n}\t0\t+" for n in range(5)]
        for n, record in enumerate(pick.sample(records, 45)):
            new = (record[0], str(int(record[1]) - 7), *record[2:]) if n % 2 else (*record[:2], str(int(record[2]) + 30), *record[3:])
            lines.append("\t".join(["remove", *record] if n % 5 == 0 else ["replace", *record, *new]))
        with bedkeep.Session(self.sizes, self.file("before", rows_of(records + others))) as session:
            self.assertEqual(session.edit(lines), [])
            corrected = [tuple(map(str, row)) for row in session.records()]
        rescored = [(*one[:4], str(int(one[4]) + 1), one[5]) for one in records]
        fates = {one: pick.choices(["fits", "moved", "gone"], [80, 12, 8])[0] for one in records}
        left = [one for one in records if fates[one] != "gone"]
        changed = [(one[0], str(int(one[1]) + 3), *one[2:]) if fates[one] == "moved" else one for one in left]
        kinds = Counter()
        for n, line in enumerate(lines):
            fate = fates.get(tuple(line.split("\t")[1:7]), "fits")
            kind = {"gone": "already so"} if line[:6] == "remove" else {"moved": "moved" if n % 2 else "conflict"}
            kinds[kind.get(fate, fate)] += 1
        for release, expected in ((rescored, {"changed": 45, "fits": 5}), (changed, kinds),
                                  (corrected, {"already so": 45, "already there": 5})):
            bed, script = self.file("release", rows_of(release)), self.file("corrections", "\n".join(["# why", *lines]))
            replayed = bedkeep.replay(self.sizes, bed, [script])
            self.assertEqual(self.kinds(replayed), Counter(expected))
            with bedkeep.Session(self.sizes, bed) as session:
                self.assertEqual(len(session.edit(replayed.mended())), expected.get("gone", 0))
        self.assertEqual(list(replayed.mended()), ["# why", *(f"# dropped: {line}" for line in lines)])


class Particular(Replays):
    """What was settled, case by case."""

    def of(self, release, script, second=None, **options):
        other = self.file("second", tabs(second)) if second else None
        sizes, bed = self.file("sizes", "chr1\t1000\n"), self.file("release", tabs(release))
        return bedkeep.replay(sizes, bed, [self.file("corrections", tabs(script))], other, **options)

    def test_classes(self):
        chain = "replace chr1 10 30 a chr1 11 30 a\nreplace chr1 11 30 a chr1 12 30 a"
        removed = "remove chr1 10 30 a\nremove chr1 40 50 b\nreplace chr1 60 70 c chr1 60 71 c\n"
        scored = "replace chr1 10 30 a 1 chr1 11 30 a 1\nremove chr1 11 30 a 1"
        named = "replace chr1 10 30 a chr1 10 31 a\nremove chr1 12 40 a"
        for release, script, kinds, *options in (
            # Both ends moved by one distance, and the correction would leave the sequence.
            ("chr1 0 90 a", "replace chr1 10 100 a chr1 9 100 a", "conflict"),
            ("chr1 950 1000 a", "replace chr1 900 950 a chr1 900 960 a", "conflict"),
            # A record is found by its name and an overlap alone; without a name by its place, or by its other columns and an overlap.
            ("chr1 150 260", "replace chr1 100 200 chr1 100 210", "gone"),
            ("chr1 150 260 .", "replace chr1 100 200 . chr1 100 210 .", "gone"),
            ("chr1 90 200 . 5 +", "replace chr1 100 200 . 5 + chr1 100 210 . 5 +", "moved"),
            ("chr1 90 200 . 6 +", "replace chr1 100 200 . 5 + chr1 100 210 . 5 +", "gone"),
            ("chr1 100 200 . 6 +", "replace chr1 100 200 . 5 + chr1 100 210 . 5 +", "changed"),
            ("chr1 100 200 . 6 +", "remove chr1 100 200 . 5 +", "already so"),
            ("chr1 90 200 b", "replace chr1 100 200 a chr1 100 210 a", "gone"),
            ("chr1 200 300 a", "replace chr1 100 200 a chr1 100 210 a", "conflict"),
            ("chr1 200 290 a", "replace chr1 100 200 a chr1 100 210 a", "gone"),
            ("chr1 199 290 a", "remove chr1 100 200 a", "moved"),
            # A record that another line names is left to that line.
            ("chr1 10 31 a", named, "already so, already so"), ("chr1 12 40 a", named, "gone, fits"),
            ("chr1 11 30 a 9 +", "replace chr1 10 30 a 5 + chr1 11 30 a 5 +", "already so"),
            # Over the corrected track those at the place and of the name of one that was removed aren't taken for it.
            ("chr1 10 30 other\nchr1 80 90 b\nchr1 60 71 c", removed, "already so, already so, already so"),
            ("chr1 10 30 other\nchr1 80 90 b\nchr1 60 72 c", removed, "already so, already so, conflict"),
            ("chr1 10 30 other\nchr1 80 90 b\nchr1 10 31 a\nchr1 60 71 c", removed, "moved, already so, already so"),
            ("chr1 12 30 a", chain, "already so, already so"), ("chr1 10 40 a", chain, "moved, moved"),
            ("chr1 10 30 a 2\nchr1 11 30 a 2", "replace chr1 10 30 a 1 chr1 11 30 a 1\nreplace chr1 11 30 a 1 chr1 12 30 a 1\n"
             "replace chr1 11 30 a 1 chr1 13 30 a 1\nremove chr1 11 30 a 2", "changed, changed, taken out, fits"),
            ("chr1 10 30 a 2", "replace chr1 10 30 a 1 chr1 10 30 b 2\nreplace chr1 10 30 b 2 chr1 12 30 b 2", "changed, follows"),
            # Of those that differ in columns that may differ one alone is taken.
            ("chr1 10 30 a 2", scored, "fits but for, fits but for", "score"), ("chr1 10 30 a 2\nchr1 10 30 a 3", scored, "conflict, conflict", "score"),
            ("chr1 10 30 b 2", scored, "fits but for, fits but for", "score", "name"),
            ("chr1 11 30 b 1", "remove chr1 11 30 a 1", "already so", "name"), ("chr1 11 30 a 2", "remove chr1 11 30 a 1", "fits but for", "score"),
            ("chr1 10 30 a\nchr1 10 30 a", "remove chr1 10 30 a\nremove chr1 10 31 a", "fits, already so"),
            ("chr1 10 30 a", "remove chr1 10 31 a\nremove chr1 10 30 a", "already so, fits"),
            ("chr1 10 30", "remove chr1 10 30\nremove chr1 10 30", "fits, taken out"),
        ):
            with self.subTest(release=release, script=script):
                self.assertEqual(", ".join(finding.kind for finding in self.of(release, script, ignore=options).findings), kinds)

    def test_mended_lines_and_notes(self):
        release = "\n".join(f"chr1 {n * 10} {n * 10 + 8} gene" for n in range(90))
        for release, script, *found in (
            ("chr1 12 30 a", "replace chr1 10 30 a chr1 11 30 a", ("conflict", "", "")),  # nobody settles that but a person
            ("chr1 10 35 a 7", "replace chr1 10 30 a 5 chr1 9 35 a 5", ("moved", "replace chr1 10 35 a 7 chr1 9 35 a 7", "")),
            ("chr1 530 630 g2", "replace chr1 500 600 g2 chr1 490 600 g2", ("moved", "replace chr1 530 630 g2 chr1 520 630 g2", "")),
            ("chr1 25 30 a", "replace chr1 10 30 a chr1 10 20 a", ("conflict", "", "start and end of the mended record don't fit")),
            ("chr1 12 30 a\nchr1 8 30 a", "replace chr1 10 30 a chr1 10 31 a", ("conflict", "", "2 records fit equally")),
            (release, "remove chr1 13 18 gene\nremove chr1 8 9 gene", ("moved", "remove chr1 10 18 gene", ""),
             ("already so", "", "no record like it is there")),
            ("chr1 10 30 a 2", "replace chr1 10 30 a 1 chr1 11 30 a 1\nremove chr1 11 30 a 1",
             ("changed", "replace chr1 10 30 a 2 chr1 11 30 a 2", ""), ("changed", "remove chr1 11 30 a 2", "")),
        ):
            with self.subTest(script=script):
                self.assertEqual([(one.kind, one.mended.replace("\t", " "), one.note) for one in self.of(release, script).findings], found)
        self.assertEqual(self.of("chr1 12 30 a", "replace chr1 10 30 a chr1 11 30 a").findings[0].unlike, ("start",))
        self.assertEqual(list(self.of("chr1 1 2", "add chr1 01 2").mended()), ["# dropped: add\tchr1\t01\t2"])
        self.assertEqual(list(self.of("chr1 1 2", "add chr1 01 2", copies=True).mended()), ["add\tchr1\t01\t2"])

    def test_bad_lines(self):
        script = ("replace chr1 10 30 chr1 3O 40\nadd chr1 5 1001\nresize chr1 2000\nadd chr1 5 1001\nadd chr7 1 2\naddb chr1 1 2\n"
                  "resize chr1 20\nresize chr7 20\nfoo\nadd chr1 5\nreplace chr1 9 4 chr1 3 4\nresize\nremove chr1 7 7000")
        self.assertEqual([one.note for one in self.of("chr1 10 30", script).findings if one.kind == "bad line"],
                         ["start is not a number: '3O' (new start, field 6)", "end past the sequence's end: '1001' (end, field 4)",
                          "unknown sequence: 'chr7' (chromosome, field 2)", "no second file: addb",
                          "records past the new end: '20' (length)", "unknown sequence: 'chr7' (sequence)",
                          "no such command or wrong fields: foo", "wrong number of columns: 2 fields; 3 are needed",
                          "start not below end: '9' (old start, field 3)", "no such command or wrong fields: resize",
                          "end past the sequence's end: '7000' (end, field 4)"])
        script = "add chr1 5 6 n\r\r 0 +\nadd chr1 5 6 n 0 x\nreplace chr1 10 30 a 0 + chr1 10 30 b 0 ?"
        self.assertEqual([one.note for one in self.of("chr1 10 30 a 0 +", script.replace("\r\r ", "\0 ")).findings],
                         ["bad name: 'n\\x00' (name, field 5)", "bad strand: 'x' (strand, field 7)",
                          "bad strand: '?' (new strand, field 13)"])

    def test_the_second_file_has_its_own_width(self):
        replayed = self.of("chr1 1 2 a", "removeb chr1 5 9 x\nresize chr1 2000\naddb chr1 1 1500 y", "chr1 5 10 x")
        self.assertEqual([(one.kind, one.mended) for one in replayed.findings],
                         [("moved", "removeb\tchr1\t5\t10\tx"), ("fits", ""), ("fits", "")])

    def test_lines_of_views_and_comments_stay(self):
        script = self.file("corrections", "# why\nopen\tv\tmerge\n\nadd\tchr1\t1\t2\tx\nshowall\tchr1\t1\t2\nadd\tchr1\t3\t4\tx\r")
        replayed = bedkeep.replay(self.sizes, self.genes, [script, self.file("more", "# more\n# of it\nadd\tchr1\t5\t6\ty\n")])
        self.assertEqual([(one.line.number, one.line.place, one.line.comments) for one in replayed.findings],
                         [(4, 4, ()), (6, 6, ()), (9, 3, ("more", "of it"))])
        self.assertEqual("\n".join([*replayed.mended(), ""]),
                         script.read_text().replace("\r", "\n") + "# more\n# of it\nadd\tchr1\t5\t6\ty\n")
