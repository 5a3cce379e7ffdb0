"""BED files in git by records: what is shown, and merges beside git's own and beside a slow model."""
import gzip
import os
import random
import subprocess
import sys
from collections import Counter
from unittest import mock

from bedkeep.commands.git_diff import shown
from bedkeep.commands.git_merge import merge
from bedkeep.commands.git_texts import OURS, THEIRS, Style
from helpers import Case, Outcome

BASE = "track name=x|chr1 100 200 A|chr1 300 400 B|chr1 600 700 D|chr2 50 150 E|chr2 400 500 F"


def text_of(lines):
    """The text of a file: a line ends with |, and spaces are TABs, but not those of headers and comments."""
    return "".join((line if line[:1] in "#t" else line.replace(" ", "\t")) + "\n" for line in lines.split("|"))


def lines_of(text):
    return text.replace("\t", " ").removesuffix("\n").replace("\n", "|")


def with_changes(lines, *changes):
    """The lines with other texts in them. changes: pairs of an old text and a new one"""
    for old, new in changes:
        assert old in lines, old
        lines = lines.replace(old, new)
    return lines


class Merges(Case):
    def merged(self, base, ours, theirs, **options):
        paths = [self.file(name, text_of(lines) if isinstance(lines, str) else lines)
                 for name, lines in (("base", base), ("ours", ours), ("theirs", theirs))]
        return merge(*paths, **options)

    def gives(self, merged, lines, conflicts=(), notes=()):
        self.assertEqual((lines_of(merged.text.decode()), tuple(merged.conflicts), tuple(merged.notes)), (lines, conflicts, notes))

    def test_what_both_did_is_done(self):
        for ours, theirs, wanted in (
                ([("100 200", "100 250")], [("300 400", "300 450")], [("100 200", "100 250"), ("300 400", "300 450")]),  # neighbours
                ([("100 200", "100 250")], [("100 200", "100 250"), ("D|", "D|# why|")], [("100 200", "100 250"), ("D|", "D|# why|")]),
                ([("chr1 300 400 B|", "")], [("chr1 300 400 B|", "")], [("chr1 300 400 B|", "")]),
                ([("name=x", "name=y")], [("100 200", "100 250")], [("name=x", "name=y"), ("100 200", "100 250")]),
                ([("D|", "D|chr1 800 900 C|")], [("D|", "D|chr1 750 760 G|")], [("D|", "D|chr1 750 760 G|chr1 800 900 C|")]),  # in order
                ([("D|", "D|chr1 800 900 C|")], [("D|", "D|chr1 800 900 C|"), ("500", "501")], [("D|", "D|chr1 800 900 C|"), ("500", "501")]),
                ([("100 200 A", "100 140 A|chr1 160 200 A")], [("B|", "B|# b|"), ("300 400", "310 400")],
                 [("100 200 A", "100 140 A|chr1 160 200 A"), ("B|", "B|# b|"), ("300 400", "310 400")]),  # a split
                ([("400 500 F", "390 500 F")], [("400 500 F", "400 520 F")], [("400 500 F", "390 520 F")]),  # other fields of one record
                ([("400 500 F", "410 510 F")], [("400 500 F", "400 520 F")], [("400 500 F", "410 530 F")]),  # one moved as a whole
                ([("E|chr2 400 500 F", "E")], [("300 400", "300 410")], [("E|chr2 400 500 F", "E"), ("300 400", "300 410")])):
            with self.subTest(ours=ours, theirs=theirs):
                self.gives(self.merged(BASE, with_changes(BASE, *ours), with_changes(BASE, *theirs)), with_changes(BASE, *wanted))

    def test_a_conflict_has_the_records_in_question_alone(self):
        there, ours, end = "|<<<<<<< ours", "|=======|", "|>>>>>>> theirs"
        cases = (
            ("400 510 F", "400 520 F", "|chr2 400 510 F", "chr2 400 520 F", "ours has chr2 400 510 F, theirs chr2 400 520 F: both changed end"),
            ("400 500 G", "400 520 F", "|chr2 400 500 G", "chr2 400 520 F", "ours has chr2 400 500 G, theirs chr2 400 520 F"),  # another name
            ("400 500 .", "400 520 F", "|chr2 400 500 .", "chr2 400 520 F", "ours has chr2 400 500 ., theirs chr2 400 520 F"),
            ("400 440 F|chr2 450 500 F", "400 520 F", "|chr2 400 440 F|chr2 450 500 F", "chr2 400 520 F",
             "ours has chr2 400 440 F, chr2 450 500 F, theirs chr2 400 520 F"))
        for mine, other, left, right, said in cases:
            with self.subTest(said):
                merged = self.merged(BASE, with_changes(BASE, ("100 200", "100 250"), ("400 500 F", mine)),
                                     with_changes(BASE, ("50 150", "50 160"), ("400 500 F", other)))
                before = with_changes(BASE, ("100 200", "100 250"), ("50 150", "50 160"), ("|chr2 400 500 F", ""))
                self.gives(merged, before + there + left + ours + right + end, (f"line 6: conflict: chr2 400 500 F: {said}",))

    def test_other_conflicts(self):
        gone = with_changes(BASE, ("|chr2 400 500 F", ""))
        changed = with_changes(BASE, ("400 500 F", "400 520 F"))
        self.gives(self.merged(BASE, gone, changed), f"{gone}|<<<<<<< ours|=======|chr2 400 520 F|>>>>>>> theirs", (
            "line 6: conflict: chr2 400 500 F: ours has no such record, theirs chr2 400 520 F",))
        self.gives(self.merged(BASE, changed, gone), f"{gone}|<<<<<<< ours|chr2 400 520 F|=======|>>>>>>> theirs", (
            "line 6: conflict: chr2 400 500 F: ours has chr2 400 520 F, theirs no such record",))
        # Both add C, with another record between the two, so that git alone merges them.
        apart = "chr1 10 40 C|chr1 100 200 A", "chr1 100 200 A|chr1 11 40 C"
        merged = self.merged(BASE, *(with_changes(BASE, ("chr1 100 200 A", lines)) for lines in apart))
        self.gives(merged, with_changes(BASE, ("A|", "A|<<<<<<< ours|chr1 10 40 C|=======|chr1 11 40 C|>>>>>>> theirs|")), (
            "line 3: conflict: ours has chr1 10 40 C, theirs chr1 11 40 C",))
        names = with_changes(BASE, ("name=x", "name=y"), ("100 200", "100 210")), with_changes(BASE, ("name=x", "name=z"), ("300 400", "300 410"))
        self.gives(self.merged(BASE, *names), with_changes(BASE, (
            "track name=x", "<<<<<<< ours|track name=y|=======|track name=z|>>>>>>> theirs"), ("100 200", "100 210"), ("300 400", "300 410")),
            ("line 1: conflict: both changed these lines",))

    def test_markers(self):
        files = [with_changes(BASE, ("400 500", text)) for text in ("400 500", "400 510", "400 520")]
        shown = with_changes(BASE, ("|chr2 400 500 F", "|<<<<<<<<< ours|chr2 400 510 F|||||||||| base|chr2 400 500 F|=========|chr2 400 520 F|>>>>>>>>> theirs"))
        for kind in "diff3", "zdiff3":
            self.assertEqual(lines_of(self.merged(*files, style=Style(9, kind)).text.decode()), shown)

    def test_order(self):
        """Of unsorted records, and of two sorts, none is lost or doubled, and it is said."""
        note = "the order of records is that of ours",
        self.gives(self.merged("chr2 5 9|chr1 5 9", "chr2 5 9|chr1 5 9|chr1 1 2", "chr2 5 9|chr1 5 9|chr1 3 4"),
                   "chr2 5 9|chr1 5 9|chr1 1 2|chr1 3 4", notes=note)
        sorted_by_one = "chr1 1 2|chr1 5 6|chr2 3 4|chr2 7 8"
        self.gives(self.merged("chr2 7 8|chr1 1 2|chr2 3 4|chr1 5 6", sorted_by_one, "chr2 7 9|chr2 3 4|chr1 1 2|chr1 5 6"),
                   with_changes(sorted_by_one, ("7 8", "7 9")), notes=note)
        self.gives(self.merged("chr2 7 8|chr1 1 2|chr2 3 4|chr1 5 6", "chr2 7 9|chr1 1 2|chr2 3 4|chr1 5 6", sorted_by_one),
                   with_changes(sorted_by_one, ("7 8", "7 9")))
        merged = self.merged("chr1 1 2 a|chr1 3 4 b", "# o|chr1 3 4 b|chr1 1 2 a", "chr1 3 4 b|# t|chr1 1 2 a|chr1 5 6 c")
        self.assertEqual([len(merged.conflicts) < 2, lines_of(merged.text.decode()).count("1 2 a") < 3], [True, True])

    def test_line_ends_are_those_of_who_changed_them(self):
        lf, changed = text_of(BASE), text_of(with_changes(BASE, ("100 200", "100 250")))
        both = text_of(with_changes(BASE, ("100 200", "100 250"), ("300 400", "300 410")))
        other = text_of(with_changes(BASE, ("300 400", "300 410")))
        crlf = [text.replace("\n", "\r\n") for text in (lf, changed, other, both)]
        for files, wanted in ((crlf[:3], crlf[3]), ((lf, crlf[1], other), crlf[3]), ((lf, changed, crlf[2]), crlf[3]),
                              ((lf[:-1], changed[:-1], other[:-1]), both[:-1]), ((lf, changed[:-1], other), both[:-1]),
                              ((lf, changed, other[:-1]), both[:-1]), ((lf[:-1], changed, other[:-1]), both)):
            self.assertEqual(self.merged(*(text.encode() for text in files)).text.decode(), wanted)

    def test_columns_and_numbers(self):
        wide = "chr1 100 400 A 0 + 100 400 0 2 50,100, 0,200,|chr1 500 900 B 0 + 500 900 0 1 400, 0,"
        ours, theirs = with_changes(wide, ("A 0 +", "A 7 +")), with_changes(wide, ("100 400 0 2 50,100, 0,200,", "100 400 0 2 50,150, 0,150,"))
        self.gives(self.merged(wide, ours, theirs), with_changes(theirs, ("A 0 +", "A 7 +")))
        self.gives(self.merged("chr1 005 9 a|chr1 20 30 b", "chr1 005 9 a|chr1 20 31 b", "chr1 5 8 a|chr1 20 30 b"), "chr1 5 8 a|chr1 20 31 b")
        for base, ours, theirs, said in (("chr1 1 2|chr1 3 4", "chr1 1 2 a|chr1 3 4 b", "chr1 1 2|chr1 3 5", "base has 3 columns and ours has 4 columns and theirs has 3 columns"),
                                         ("chr1 1 2", "chr1 1 2|chr1 3", "chr1 1 9", "ours: record 2: wrong number of columns"),
                                         ("#|chr1 1 2", "#|chr1 1 3", "#|chr1 1 x", "theirs: line 2: end is not a number")):
            merged = self.merged(base, ours, theirs)
            self.assertEqual((merged.notes, len(merged.conflicts)), ([f"merged as text: {said}"], 1))

    def test_two_new_files_of_one_name(self):
        self.gives(self.merged(b"", "track name=x|chr1 1 2 a|chr1 5 9 b", "track name=x|chr1 1 2 a|chr1 20 30 c"),
                   "track name=x|chr1 1 2 a|chr1 5 9 b|chr1 20 30 c")

    def test_ends_past_a_sequence(self):
        ours, theirs = with_changes(BASE, ("50 150", "50 160")), with_changes(BASE, ("100 200", "100 2000"), ("E|", "E|chr3 1 2 N|"))
        merged = self.merged(BASE, ours, theirs, lengths={"chr1": 1000, "chr2": 800})
        self.assertEqual([line.partition(", theirs ")[2] for line in merged.conflicts], [
            "chr1 100 2000 A: end past the sequence's end", "chr3 1 2 N: the genome has no chr3"])
        self.assertEqual(self.merged(BASE, ours, theirs, lengths={"chr1": 2000, "chr2": 800, "chr3": 2}).conflicts, [])


def counted(lines):
    return Counter(line for line in lines if line[:1] not in "#t")


def three_way(base, ours, theirs):
    """The model: how many copies of each row there are, if no two changes are about one record. What both did is done once."""
    wanted = {}
    for row in {*base, *ours, *theirs}:
        mine, other = ours[row] - base[row], theirs[row] - base[row]
        wanted[row] = base[row] + (max(mine, other, key=abs) if mine * other > 0 else mine + other)
    return +Counter(wanted)


def by_fields(base, ours, theirs):
    """The model of one record that both changed, and keeps its name: the columns, or None for a conflict."""
    base, ours, theirs = (row.split("\t") for row in (base, ours, theirs))
    if not all(row[0] == base[0] and int(row[1]) < int(base[2]) and int(base[1]) < int(row[2]) for row in (ours, theirs)):
        return None
    by = int(ours[1]) - int(base[1])
    if by and by == int(ours[2]) - int(base[2]) and ours[:3] != theirs[:3]:
        base, theirs = ([row[0], str(int(row[1]) + by), str(int(row[2]) + by), *row[3:]] for row in (base, theirs))
    if any(len({*texts}) == 3 for texts in zip(base, ours, theirs)):
        return None
    merged = [other if mine == old else mine for old, mine, other in zip(base, ours, theirs)]
    return "\t".join(merged) if int(merged[1]) < int(merged[2]) else None


class Random(Case):
    """Beside git's own merge and a model that counts copies of rows, and knows a record that both changed by its name."""

    def some_row(self, name):
        start = self.pick.randrange(0, 50) * 20
        size = self.pick.choice([10, 20, 100])
        return "\t".join((f"chr{self.pick.randint(1, 2)}", str(start), str(start + size), name, "0", "+", "x")[:self.width])

    def changed(self, row):
        columns, at = row.split("\t"), self.pick.choice([1, 2, 2, 4, 6, 0])
        for place in [1, 2] if at == 0 else [at] if at < len(columns) else [2]:
            columns[place] = str(int(columns[place]) + 4) if at == 0 else self.pick.choice("yz") if place == 6 else str(
                int(columns[place]) + self.pick.choice([2, 4]))
        return "\t".join(columns)

    def edited(self, lines, side):
        """Random edits of one side, some of which the other side may have too."""
        pick, lines = self.pick, list(lines)
        for _ in range(pick.choice([1, 2, 4])):
            at, kind = pick.randrange(len(lines) + 1), pick.random()
            is_row = at < len(lines) and lines[at][:1] not in "#t"
            if kind < 0.55 and is_row:
                lines[at] = self.changed(lines[at])
            elif kind < 0.65 and is_row:
                del lines[at]
            elif kind < 0.8:
                start = 4 * pick.randrange(250) + 1
                name = "." if self.has_copies else f"{pick.choice(['new', side])}{pick.randint(0, 3)}"
                lines.insert(at, "\t".join(("chr1", str(start), str(start + 11), name, "0", "+", "x")[:self.width]))
            elif kind < 0.85 and self.has_copies and is_row:
                lines.insert(at, lines[at])
            elif kind < 0.9:
                lines.insert(at, f"# {side} {pick.randint(0, 9)}")
            elif lines:
                lines.insert(pick.randrange(len(lines)), lines.pop(min(at, len(lines) - 1)))
        if pick.random() < 0.2:
            lines.sort(key=lambda line: (line[:1] not in "#t", line.split("\t")[0], len(line) and int((line.split("\t") + ["0"])[1])))
        return lines

    def model(self, *files):
        """The rows that are wanted, and the names whose records are in conflict."""
        wanted, conflicts = three_way(*files), set()
        if self.has_copies:
            return wanted, conflicts
        named = [{} for _ in files]
        for rows, records in zip(named, files):
            for row in records.elements():
                rows.setdefault(row.split("\t")[3], []).append(row)
        for name in {*named[OURS], *named[THEIRS], *named[0]}:
            base, ours, theirs = (sorted(rows.get(name, [])) for rows in named)
            if ours != base and theirs != base and ours != theirs:
                one = by_fields(*base, *ours, *theirs) if len(base) == len(ours) == len(theirs) == 1 else None
                if one is None and name[0] == "g":
                    conflicts.add(name)
                elif one:
                    wanted.subtract(three_way(*map(Counter, (base, ours, theirs))))
                    wanted[one] += 1
        return +wanted, conflicts

    def test_500_pairs_of_edits(self):
        found = Counter()
        for seed in range(500):
            with self.subTest(seed=seed):
                self.pick = pick = random.Random(seed)
                self.has_copies = pick.random() < 0.3
                self.width = pick.choice([3, 4] if self.has_copies else [4, 6, 7])
                base = sorted(self.some_row("." if self.has_copies else f"g{at}") for at in range(pick.choice([1, 4, 12])))
                base = ["track name=x"] * pick.randint(0, 1) + base
                files = [base, self.edited(base, "o"), self.edited(base, "t")]
                found.update(self.look([self.file(str(at), "".join(f"{line}\n" for line in lines)) for at, lines in enumerate(files)], files))
        self.assertGreater(min(found[kind] for kind in ("conflict", "clean", "as git has it", "only by records")), 30, found)

    def look(self, paths, files):
        merged_by_git, by_git = [], Style.merged
        with mock.patch.object(Style, "merged", lambda style, paths: merged_by_git.append(by_git(style, paths)) or merged_by_git[-1]):
            merged = merge(*paths)
        self.assertFalse([note for note in merged.notes if "text" in note])
        lines, counts = merged.text.decode().split("\n")[:-1], [counted(lines) for lines in files]
        wanted, conflicts = self.model(*counts)
        plain = merged_by_git[0]
        if not merged.conflicts:
            self.assertEqual((counted(lines), conflicts), (wanted, set()))
            is_clean = len(plain) == 1 and counted(plain[0].lines) == wanted
            if is_clean:
                self.assertEqual(lines, plain[0].lines)
            return ["clean", "as git has it" if is_clean else "only by records"]
        self.assertTrue(any(line.startswith("<<<<<<<") for line in lines))
        parts = list(Style()._parts(lines))
        for side in OURS, THEIRS:  # Each side of the conflicts has its own records, and all that isn't in conflict.
            rows, own = counted(line for part in parts for line in part.side(side)), counts[side]
            for row in {*rows, *wanted, *own}:
                if self.has_copies or row.split("\t")[3][0] == "g" and row.split("\t")[3] not in conflicts:
                    self.assertTrue(min(wanted[row], own[row]) <= rows[row] <= max(wanted[row], own[row]), row)
                elif row.split("\t")[3] in conflicts:
                    self.assertEqual(rows[row], own[row], row)
        return ["conflict"]


class Shown(Case):
    def body(self, old, new):
        """What is shown below the header."""
        paths = [self.file(name, text_of(lines) if isinstance(lines, str) else lines) for name, lines in (("o.bed", old), ("n.bed", new))]
        listed = list(shown(["x.bed", str(paths[0]), "1" * 40, "100644", str(paths[1]), "2" * 40, "100644"]))
        self.assertEqual(listed[:4], ["diff --bedkeep a/x.bed b/x.bed", "index 1111111..2222222 100644", "--- a/x.bed", "+++ b/x.bed"])
        return "|".join(listed[4:]).replace("\t", " ")

    def test_what_changed(self):
        self.each(self.body, (
            ("chr1 1 2 a|chr1 5 9 b", "chr1 1 3 a|chr1 5 9 b", "|replace chr1 1 2 a chr1 1 3 a|# 1 replace"),
            ("track name=x|# c|chr1 1 2", "track name=y|# c|chr1 5 9|chr1 7 8",
             "-track name=x|+track name=y||remove chr1 1 2|add chr1 5 9|add chr1 7 8|# 1 remove, 2 add"),
            ("chr1 1 9 A|chr1 20 30 B", "chr1 1 4 A|chr1 5 9 A|chr1 20 30 B",
             "|# together: split of A|replace chr1 1 9 A chr1 5 9 A|add chr1 1 4 A|# 1 replace, 1 add"),
            ("chr1 1 2|chr1 5 9", "chr1 5 9|chr1 1 2", "# the order of records changed"),
            ("chr1 1 2", b"chr1\t1\t2\r\n", "# the lines end with CR LF now"), (b"chr1\t1\t2\r\n", "chr1 1 2", "# the lines no longer end with CR LF"),
            ("chr1 1 2", b"chr1\t1\t2", "# the last line no longer ends with LF"), (b"chr1\t1\t2", "chr1 1 2", "# the last line ends with LF now"),
            ("chr1 1 2", "chr1 01 2", "# the same records, written otherwise"), ("chr1 1 2", "chr1 1 2", "# the same text"),
            ("chr1 1 2", "chr1 1 2|chr1 3", "# compared as text: new: record 2: wrong number of columns|@@ -1 +1,2 @@| chr1 1 2|+chr1 3"),
            ("chr1 1 2", "chr1 1,000 2", "# compared as text: new: line 1: start is not a number|@@ -1 +1 @@|-chr1 1 2|+chr1 1,000 2"),
            (b"", "chr1 1 2", "|add chr1 1 2|# 1 add"), ("chr1 1 2", gzip.compress(b"chr1\t1\t3\n"), "|replace chr1 1 2 chr1 1 3|# 1 replace"),
            ("chr1 1 9 a 0 + 1 9 0 1 8 0", "chr1 1 9 a 0 + 1 9 0 2 3,4 0,4",
             "|replace chr1 1 9 a 0 + 1 9 0 1 8 0 chr1 1 9 a 0 + 1 9 0 2 3,4 0,4|# 1 replace")))

    def test_headers(self):
        self.assertEqual(Outcome("git", "--diff", "-x.bed").all, (0, "* Unmerged path -x.bed\n", ""))
        path, null = str(self.file("x", "chr1\t1\t2\n")), ["/dev/null", ".", "."]
        there = [path, "1" * 40, "100644"]
        for words, wanted in (
                (["x.bed"], "* Unmerged path x.bed"),
                (["x.bed", *null, *there], "diff --bedkeep a/x.bed b/x.bed|new file mode 100644|index 0000000..1111111|--- /dev/null|+++ b/x.bed||add chr1 1 2|# 1 add"),
                (["x.bed", *there, *null], "diff --bedkeep a/x.bed b/x.bed|deleted file mode 100644|index 1111111..0000000|--- a/x.bed|+++ /dev/null||remove chr1 1 2|# 1 remove"),
                (["x.bed", *there, *there[:2], "100755"], "diff --bedkeep a/x.bed b/x.bed|old mode 100644|new mode 100755|--- a/x.bed|+++ b/x.bed|# the same text"),
                (["x.bed", *there, *there, "y.bed", "similarity index 100%\nrename from x.bed\nrename to y.bed\n"],
                 "diff --bedkeep a/x.bed b/y.bed|similarity index 100%|rename from x.bed|rename to y.bed|--- a/x.bed|+++ b/y.bed|# the same text")):
            self.assertEqual("|".join(shown(words)).replace("\t", " "), wanted)


class InGit(Case):
    """In a repository, by git itself."""

    def setUp(self):
        super().setUp()
        kept = {name: value for name, value in os.environ.items() if not name.startswith("GIT_")}
        patch = mock.patch.dict(os.environ, {**kept, "GIT_CONFIG_GLOBAL": os.devnull, "GIT_CONFIG_NOSYSTEM": "1", "GIT_PAGER": "cat"}, clear=True)
        patch.start()
        self.addCleanup(patch.stop)
        self.addCleanup(os.chdir, os.getcwd())
        os.chdir(self.folder)
        self.git("init", "-q", "-b", "main")
        self.git("config", "user.name", "curator")
        self.git("config", "user.email", "curator@example.invalid")

    def git(self, *words, status=0):
        run = subprocess.run(["git", *words], stdout=subprocess.PIPE, stderr=subprocess.STDOUT, text=True)
        self.assertEqual(run.returncode, status, run.stdout)
        return run.stdout

    def commit(self, **files):
        """Commits a BED file of each name, also packed."""
        for name, lines in files.items():
            self.file(f"{name}.bed", text_of(lines))
            self.file(f"{name}.bed.gz", gzip.compress(text_of(lines).encode()))
        self.git("add", "-A")
        self.git("commit", "-q", "-m", "a")

    def branches(self, base, ours, theirs):
        """Commits of two branches, so that `two` can be merged."""
        self.commit(x=base)
        self.git("checkout", "-q", "-b", "two")
        self.commit(x=theirs)
        self.git("checkout", "-q", "main")
        self.commit(x=ours)

    def test_install(self):
        attributes = self.file(".gitattributes", "*.bed text\n*.gz binary\r\n# last")
        lines = ("*.bed diff=bedkeep merge=bedkeep\n*.bed.gz diff=bedkeep merge=bedkeep\n"
                 "corrections merge=bedkeep-script\n*.corrections merge=bedkeep-script\n")
        for added in 4, 0:
            outcome = Outcome("git", "--install")
            self.assertEqual((outcome.status, outcome.err, outcome.out.count(": added "), outcome.out.count("git config ")), (0, "", added, 6))
            self.assertEqual(attributes.read_bytes().decode(), f"*.bed text\n*.gz binary\r\n# last\n{lines}")
        self.assertIn(f"{sys.executable} -m bedkeep git --merge %O %A %B %L %P", self.git("config", "merge.bedkeep.driver"))
        self.assertEqual(Outcome("git", "--uninstall").out.count("removed"), 4)
        self.assertEqual(attributes.read_bytes().decode(), "*.bed text\n*.gz binary\r\n# last\n")
        self.assertNotIn("bedkeep", (self.folder / ".git/config").read_text())
        self.assertEqual(Outcome("git", "--uninstall").gave, (0, "nothing of it is there\n"))
        attributes.unlink()
        Outcome("git", "--install")
        self.assertEqual(attributes.read_text(), lines)
        Outcome("git", "--uninstall")
        self.assertFalse(attributes.exists())

    def test_scripts_are_merged_by_paragraphs(self):
        base, first, second, other = "# a|add 1|", "# b|add 2|", "# c|add 3|", "# b|add 4|"
        for at, (ours, theirs, wanted) in enumerate((
                (base + first, base + second, base + first + second), (base + first, base + first, base + first),
                (base + first, base + other, base + first + other), (base, "# z|add 1|" + first, "# z|add 1|" + first),
                (base + first, "# z|add 1|", "# z|add 1|" + first), ("# y|add 1|" + second, base + first, "# y|add 1|" + second + first),
                (base + "|add 5|", base + "|add 6|", base + "|add 5||add 6|"), (base + "# later|", base + first, base + "# later||" + first),
                (base + "|add 5|", base + first, base + "|add 5|" + first), (base + first, base + "|add 6|", base + first + "|add 6|"))):
            with self.subTest(at):
                files = [self.file(name, text.replace(" ", "\t").replace("#\t", "# ").replace("|", "\n"))
                         for name, text in zip(("base", "ours", "theirs"), (base, ours, theirs))]
                self.assertEqual(Outcome("git", "--merge-script", *files, 7, "x").gave, (0, ""))
                self.assertEqual(files[1].read_text().replace("\t", " ").replace("\n", "|"), wanted)
        files = [self.file(name, text) for name, text in (("base", "# a\nadd\t1\n"), ("ours", "# y\nadd\t1\n"), ("theirs", "# z\nadd\t1\n"))]
        self.assertEqual(Outcome("git", "--merge-script", *files, 7, "x").failed, (1, "x: line 1: conflict: both changed these lines\n"))
        self.assertEqual(files[1].read_text(), "<<<<<<< ours\n# y\nadd\t1\n=======\n# z\nadd\t1\n>>>>>>> theirs\n")

    def test_what_cannot_be_done(self):
        self.assertEqual(Outcome("git", "--merge", "a", "b").failed, (2, "a merge needs BASE OURS THEIRS SIZE PATH\n"))
        with mock.patch.dict(os.environ, PYTHONPATH=""), mock.patch("sys.executable", "false"):
            self.assertIn("install the package", Outcome("git", "--install").err)
        os.chdir("/")
        self.assertIn("not a git repository", Outcome("git", "--install").err)

    def test_diff_and_merge(self):
        Outcome("git", "--install")
        ours, theirs = (with_changes(BASE, *changes) for changes in ([("100 200", "100 250")], [("300 400", "300 450"), ("500 F", "520 F")]))
        self.branches(BASE, ours, theirs)
        self.assertEqual(self.git("diff", "main", "two").count("replace\tchr2\t400\t500\tF\tchr2\t400\t520\tF\n"), 2)
        self.assertEqual(self.git("show", "--ext-diff").count("replace\tchr1\t100\t200\tA\tchr1\t100\t250\tA\n"), 2)
        self.assertEqual(self.git("log", "-p", "-1").count("\n-chr1\t100\t200\tA\n+chr1\t100\t250\tA\n"), 2)
        self.git("merge", "-q", "--no-edit", "two")
        merged = with_changes(BASE, ("100 200", "100 250"), ("300 400", "300 450"), ("500 F", "520 F"))
        self.assertEqual(lines_of((self.folder / "x.bed").read_text()), merged)
        self.assertEqual(lines_of(gzip.decompress((self.folder / "x.bed.gz").read_bytes()).decode()), merged)
        self.git("mv", "--", "x.bed", "-y.bed")
        self.file("-y.bed", text_of(with_changes(merged, ("600 700", "600 720"))))
        self.git("add", "-A")
        self.assertIn("rename to -y.bed\nindex ", self.git("diff", "--cached", "-M"))
        self.git("stash", "-q")
        self.assertIn("replace\tchr1\t600", self.git("stash", "show", "-p", "-M", "--ext-diff"))
        self.git("stash", "pop", "-q", "--index")
        self.assertIn("600\t720", (self.folder / "-y.bed").read_text())

    def test_a_conflict(self):
        Outcome("git", "--install")
        self.git("config", "merge.conflictStyle", "diff3")
        self.branches(BASE, *(with_changes(BASE, ("400 500 F", end)) for end in ("400 510 F", "400 520 F")))
        said = self.git("merge", "two", status=1)
        for name in "x.bed", "x.bed.gz":
            self.assertIn(f"{name}: line 6: conflict: chr2 400 500 F: ours has chr2 400 510 F, theirs chr2 400 520 F: both changed end\n", said)
        self.assertIn("UU x.bed\n", self.git("status", "--short"))
        marked = (self.folder / "x.bed").read_text()
        self.assertTrue(lines_of(marked).endswith("|||||||| base|chr2 400 500 F|=======|chr2 400 520 F|>>>>>>> theirs"), marked)
        self.assertEqual(gzip.decompress((self.folder / "x.bed.gz").read_bytes()).decode(), marked)
        self.git("checkout", "--theirs", "x.bed", "x.bed.gz")
        self.assertIn("400\t520", (self.folder / "x.bed").read_text())

    def test_a_genome_file(self):
        self.file("sizes.txt", "chr1\t1000\nchr2\t800\n")
        ours, theirs = with_changes(BASE, ("50 150", "50 160")), with_changes(BASE, ("100 200", "100 2000"))
        paths = [str(self.file(name, text_of(lines))) for name, lines in (("b", BASE), ("o", ours), ("t", theirs))]
        for setting, status, said in (("sizes.txt", 1, "end past the sequence's end\n"), ("absent", 0, "bedkeep.genome: absent is no genome file"),
                                      ("b", 0, "bedkeep.genome: b is no genome file")):
            self.git("config", "bedkeep.genome", setting)
            self.file("o", text_of(ours))
            outcome = Outcome("git", "--merge", *paths, "7", "x.bed")
            self.assertEqual((outcome.status, said in outcome.err), (status, True), outcome.err)

    def test_criss_cross(self):
        """A base that has conflicts itself, since git merged two bases, is merged as text."""
        Outcome("git", "--install")
        self.branches(BASE, *(with_changes(BASE, ("400 500 F", end)) for end in ("400 510 F", "400 520 F")))
        self.git("branch", "one")
        self.git("merge", "-q", "-s", "ours", "--no-edit", "two")
        self.git("checkout", "-q", "two")
        self.git("merge", "-q", "-s", "ours", "--no-edit", "one")
        self.assertIn("merged as text: base: record", self.git("merge", "main", status=1))
        self.assertIn("<<<<<<< ours\n", (self.folder / "x.bed").read_text())
