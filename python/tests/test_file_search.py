"""What is looked for in a session."""
import gc
import gzip
import os
import pathlib
import random
import subprocess
import sys
import threading
import warnings
from collections import Counter
from unittest import mock

import bedkeep
from helpers import Case, children

ODD = ("track name=genes\n#c\n\n\r\nbrowser\nchr1\t0100\t200\tgeneA\r\nbrowsers\t5\t6\tgeneA\n# \tgeneA\n"
       "chr1\t300\t400\tgeneB\ntrack\nchr1\t7\t8\tgeneA2")


class Looks(Case):
    def test_len_iteration_and_in(self):
        with self.session() as session:
            self.assertEqual((len(session), list(session), bool(session)), (2, session.records(), True))
            session.replace(("chr1", 100, 200, "geneA"), ("chr2", 6, 10, "x"))
            self.assertEqual(len(session), 2)
            self.assertIn(("chr2", "06", 10, "x"), session)
            for record in ("chr1", 100, 200, "geneA"), ("chr1", 300, 400), ("chr9", 1, 2, "x"):
                self.assertNotIn(record, session)
            with self.assertRaises(TypeError):
                "chr1" in session
        with bedkeep.Session(self.sizes, os.devnull) as session:
            self.assertEqual((len(session), list(session), bool(session)), (0, [], True))

    def test_lines_that_are_no_records(self):
        self.sizes = self.file("sizes", "#x\nchrom\tsize\nchr1\t1000\nbrowsers\t10\nchr2\t500\n")
        self.genes = self.file("odd.bed", ODD)
        with self.session() as session:
            self.assertEqual(len(session), 4)
            self.assertEqual(session.find("geneA"), [("chr1", 100, 200, "geneA"), ("browsers", 5, 6, "geneA")])
            self.assertEqual((session.find("geneA2"), session.find("gene")), ([("chr1", 7, 8, "geneA2")], []))
            self.assertEqual(session.region("chr1", 8, 101), [("chr1", 100, 200, "geneA")])
            self.assertEqual(session.region("chr1", -5, 8)[0].name, "geneA2")
        for text, count in ("", 0), ("\n", 0), ("#\n", 0), ("chr1\t1\t2\n\n\n\n", 1):
            with bedkeep.Session(self.sizes, self.file("few.bed", text), width=3) as session:
                self.assertEqual((len(session), session.find("x")), (count, []))

    def test_files_that_cannot_be_looked_at_again(self):
        """A pipe, or a file that was written again."""
        before = [("chr1", 100, 200, "geneA"), ("chr1", 300, 400, "geneB")]
        program = self.script("program", f'exec "$BEDKEEP" session -g "$3" -i <(cat {self.genes})')
        piped = bedkeep.Session(self.sizes, "/dev/fd/99", program=program)
        end, begin = os.pipe()
        with os.fdopen(begin, "wb") as pipe:
            pipe.write(self.sizes.read_bytes())
        genome = bedkeep.Session(f"/dev/fd/{end}", self.genes)
        os.close(end)
        changed = self.session()
        with self.assertRaisesRegex(bedkeep.Error, "sizes was written while it was read"):
            self.session(program=self.script(
                "third", f'cp {self.sizes} {self.sizes}2; mv {self.sizes}2 {self.sizes}; exec "$BEDKEEP" "$@"'))
        self.genes, given = self.file("others.bed", self.genes.read_text()), self.genes
        other = self.session()
        given.write_text("chr1\t7\t8\tgeneC\n")
        self.sizes.write_text("chr1\t9\n")
        for session in piped, genome, changed, other:
            with session:
                self.assertEqual((len(session), session.find("geneA"), session.search("ENEa")), (2, before[:1], before[:1]))
                self.assertEqual(session.named(["geneB", "x"]), {"geneB": [("chr1", "300", "400", "geneB")], "x": []})
                self.assertEqual((session.region("chr1", 200, 301), session.region("chr2")), (before[1:], []))
                self.assertEqual(session.near("chr1", 310, 400), before[::-1])
                self.assertEqual(session.around([("chr1", 0, 2), ("chr1", 350, 9000)]), {("chr1", "300", "400", "geneB"): 1})
                for place in ("chr9",), ("chr1", 1000, 1001):
                    self.assertRaises(ValueError, session.region, *place)

    def test_places_that_are_not_there(self):
        with self.session() as session:
            for place, message in (
                (("chr1:100-120",), "three arguments, 'chr1', 100, 120"), (("chr9",), "the genome has no chr9$"),
                (("1", 5, 9), "the genome has no 1, and has chr1"), (("CHR2",), "has chr2"), (("chr2", 500, 501), "chr2 has 500 bases"),
                (("chr1", 200, 100), "its start is not below its end"), (("chr1", 5, -5), "not below"),
            ):
                with self.subTest(place), self.assertRaisesRegex(ValueError, message):
                    session.region(*place)
                if len(place) == 3 and "below" not in message:
                    self.assertRaisesRegex(ValueError, message, session.near, *place)
                    self.assertRaises(ValueError, session.show, "records", *place)
            self.assertEqual(session.region("chr1", 350, 10 ** 9), [("chr1", 300, 400, "geneB")])
            session.resize("chr2", 501)
            self.assertEqual((session.region("chr2", 500, 501), session.lengths), ([], {"chr1": 1000, "chr2": 501}))
            self.assertEqual((session.length("chr2"), session.undo(), session.length("chr2")), (501, "resize\tchr2\t501", 500))
            self.assertRaisesRegex(ValueError, "no chr9", session.length, "chr9")

    def test_records_and_looks_beside_a_model(self):
        """Which counts the records of a list, after any edits, refused ones, undos and a longer sequence."""
        chance = random.Random(5)
        lines = [f"chr{chance.randrange(1, 3)}\t{start}\t{start + chance.randrange(1, 60)}\t{chance.choice(['a', 'Ab', 'é', 'É', 'b.c'])}\n"
                 for start in (chance.randrange(400) for _ in range(60))]
        self.genes = self.file("some.bed", "".join(lines * 2))
        model = file = Counter(tuple(line[:-1].split("\t")) for line in lines * 2)
        before = []
        with self.session() as session:
            session.resize("chr1", 3000)
            for _ in range(60):
                old, start = chance.choice(list(model)), chance.randrange(2900)
                new = (*old[:1], str(start), str(start + 9), chance.choice(["Ab", "new", "É"]))
                command = chance.choice(["add", "remove", "replace", "replace", "undo"])
                if command == "undo":
                    model = before.pop() if before else model
                    session.undo()
                else:
                    refused = session.edit("\t".join([command, *(old if command != "add" else ()), *(new if command != "remove" else ())]))
                    self.assertEqual(bool(refused), command != "remove" and start + 9 > session.length(new[0]))
                    if not refused:
                        before.append(model)
                        model = +(model + Counter([new] * (command != "remove")))
                        model.subtract([old] * (command != "add"))
                        model = +model
                if not before:
                    session.resize("chr1", 3000)
                order = sorted(model.elements(), key=lambda record: (record[0], int(record[1]), int(record[2]), record[3].encode()))
                self.assertEqual([tuple(map(str, row)) for row in session.records()], order)
                self.check_looks(session, order, chance)
                self.assertEqual([session.net(record) for record in order], [model[record] - file[record] for record in order])

    def check_looks(self, session, order, chance):
        """That all looks find what a search through all records finds."""
        start = chance.randrange(490)
        regions = [("chr1", start, start + 50), ("chr1", start + 40, 5000), ("chr2", -5, start), ("chr2", start, start + 9), ("x", 1, 9)]

        def within(*regions):
            return [one for one in order if any(one[0] == name and int(one[1]) < end and start < int(one[2]) for name, start, end in regions)]

        def texts(rows):
            return [tuple(map(str, row)) for row in rows]

        self.assertEqual((len(session), session.around(regions)), (len(order), Counter(within(*regions))))
        for names in ["Ab", "x"], ["a", "Ab", "é", "É", "b.c", "new"]:
            self.assertEqual(session.named(iter(names)), {name: [one for one in order if one[3] == name] for name in names})
            self.assertEqual(texts(session.find(names[0])), [one for one in order if one[3] == names[0]])
        for part in "a", "AB", "é", ".", "", "chr":
            self.assertEqual(texts(session.search(part)), [one for one in order if part.lower() in one[3].lower()])
        for name in "chr1", "chr2":
            here = within((name, 0, 5000))
            self.assertEqual((texts(session.region(name)), texts(session.region(name, start, start + 90))), (here, within((name, start, start + 90))))
            far = [abs(int(one[1]) - start) + abs(int(one[2]) - start - 90) for one in here]
            near = session.near(name, start, start + 90, 4)
            self.assertEqual([abs(one.start - start) + abs(one.end - start - 90) for one in near], sorted(far)[:4])

    def test_copies_that_were_taken_and_came_back(self):
        x, y = ("chr1", 100, 200, "geneA"), ("chr1", 5, 9, "y")
        with self.session() as session:
            for call, *words, taken in (
                    ("remove", x, (1, 0)), ("add", x, (0, 0)), ("add", x, (0, 0)), ("replace", x, y, (1, 0)), ("replace", y, y, (1, 0)),
                    ("remove", y, (1, 1)), ("undo", (1, 0)), ("undo", (1, 0)), ("replace", y, x, (0, 1)), ("undo", (1, 0)),
                    ("undo", (0, 0)), ("undo", (0, 0)), ("undo", (1, 0)), ("undo", (0, 0))):
                getattr(session, call)(*words)
                self.assertEqual((session.taken(x), session.taken(y)), taken)
            self.assertEqual((session.net(x), len(session.find("geneA")), session.script()), (0, 1, ""))

    def test_looks_cost_the_same_after_many_edits(self):
        with self.session() as session:
            session.edit(f"add\tchr1\t{number % 900}\t1000\tn{number}" for number in range(20_000))
            len(session)
            with mock.patch("bedkeep.changes.record_of", side_effect=AssertionError):
                self.assertEqual((len(session), session.find("n77"), len(session.region("chr2"))), (20_002, [("chr1", 77, 1000, "n77")], 0))

    def test_near_ones_that_are_far(self):
        self.sizes = self.file("sizes", "chr1\t4000000000\n")
        self.genes = self.file("far.bed", "chr1\t5\t9\ta\nchr1\t3999999000\t4000000000\tb\n")
        with self.session() as session:
            self.assertEqual([row.name for row in session.near("chr1", 2_000_000_000, 2_000_000_001)], ["b", "a"])


class Held(Case):
    def test_a_session_that_is_dropped_ends(self):
        before, files = children(), os.listdir("/proc/self/fd")
        for _ in range(10):
            session = self.session_that_nobody_ends()
            session.add("chr1", 1, 2, "x")
        self.assertEqual(len(children()), len(before) + 1)
        del session
        gc.collect()
        self.assertEqual((children(), len(os.listdir("/proc/self/fd"))), (before, len(files)))

    def session_that_nobody_ends(self):
        return bedkeep.Session(self.sizes, self.genes)

    def test_two_hundred_sessions(self):
        """They leave no process, no open file and no file."""
        before, files, folder = children(), os.listdir("/proc/self/fd"), self.folder / "temporary"
        folder.mkdir()
        with mock.patch("tempfile.tempdir", str(folder)):
            for number in range(200):
                with bedkeep.Session({"chr1": 1000, "chr2": 5}, self.genes) as session:
                    session.add("chr1", number, 900, "x")
                list(bedkeep.merge({"chr1": 1000}, self.genes))
        self.assertEqual((children(), len(os.listdir("/proc/self/fd")), os.listdir(folder)), (before, len(files), []))

    def test_a_forked_process_leaves_the_session(self):
        session = self.session_that_nobody_ends()
        child = os.fork()
        if child == 0:
            warnings.simplefilter("ignore")  # Popen warns of a process that it left running.
            del session
            gc.collect()
            os._exit(0)
        os.waitpid(child, 0)
        self.assertEqual(len(session.records()), 2)
        session.end()


class Shared(Case):
    def test_a_forked_process_is_refused(self):
        session = self.session()
        child = os.fork()
        if child == 0:
            status = 1
            try:
                for call in session.records, session.script, lambda: session.add("chr1", 1, 2, "x"), lambda: len(session):
                    self.assertRaisesRegex(bedkeep.Error, f"belongs to process {os.getppid()}", call)
                session.close()
                status = 0
            finally:
                os._exit(status)
        self.assertEqual((os.waitpid(child, 0)[1], len(session.records())), (0, 2))

    def test_a_forked_process_leaves_the_files(self):
        """They are those of the process that began the session, also if the other one ends as Python does."""
        code = ("import os, sys, bedkeep\nsession = bedkeep.Session(sys.argv[1], sys.argv[2], wide=True)\n"
                "if os.fork() == 0:\n    sys.exit()\nos.wait()\nsession.save('-')\n")
        packed = self.file("genes.bed.gz", gzip.compress(self.genes.read_bytes()))
        run = subprocess.run([sys.executable, "-W", "ignore", "-c", code, self.sizes, packed], stdout=subprocess.PIPE, check=True)
        self.assertIn(b"geneB", run.stdout)

    def test_threads_share_a_session(self):
        def work(number):
            try:
                for place in range(50):
                    session.add("chr1", number, 100 + place, f"t{number}")
                    session.find(f"t{number}")
                    session.view(f"merge -d {place}")
                    if place % 5 == 0:
                        session.edit(["# a reason", f"add\tchr2\t{number}\t{100 + place}\tu", f"remove\tchr2\t{number}\t{100 + place}\tu"])
            except BaseException as failure:
                failures.append(failure)

        failures = []
        with self.session() as session:
            threads = [threading.Thread(target=work, args=(number,)) for number in range(6)]
            for thread in threads:
                thread.start()
            for thread in threads:
                thread.join()
            self.assertEqual((failures, sum(row.name.startswith("t") for row in session.records())), ([], 300))
            with bedkeep.Session(self.sizes, self.genes) as again:
                self.assertEqual((again.edit(session.script()), again.records()), ([], session.records()))


class Shown(Case):
    def test_repr(self):
        with self.session() as session:
            session.edit(["# why", "add\tchr1\t1\t2\tx", ""])
            self.assertEqual(repr(session), f"<bedkeep.Session of {self.genes}: 4 columns, 1 edits>")
        self.assertEqual(repr(session), f"<bedkeep.Session of {self.genes}: 4 columns, 1 edits, ended>")

    def test_in_a_notebook(self):
        with self.session() as session:
            session.edit(["add\tchr1\t1\t2\t<x>", "remove\tchr1\t1\t2\t&"])
            shown = session._repr_html_()
            for part in "<td>&lt;x&gt;</td>", "1 refused", "<td>no such record</td><td>remove\tchr1\t1\t2\t&amp;</td>":
                self.assertIn(part, shown)
            session.edit("")
            self.assertNotIn("refused", session._repr_html_())


class Types(Case):
    def test_records_of_other_types(self):
        with self.session() as session:
            for record in ({"chrom": "chr1"},), ("chr1\t1\t2\tx",), (5,), ([("chr1", 1, 2, "x"), ("chr1", 1, 3, "x")],), \
                    ({"chr1", "x"},), (b"chr1",), ("chr1", 1, None, "x"), ("chr1", 1.0, 2, "x"), ("chr1", True, 2, "x"), \
                    ("chr1", 1, 2, b"x"), ("chr1", 1, 2, "x", float("nan")):
                for call in session.add, session.remove:
                    with self.subTest(record), self.assertRaises(TypeError):
                        call(*record)
                self.assertRaises((TypeError, ValueError, bedkeep.Refused), session.replace, ("chr1", 100, 200, "geneA"), record)
            self.assertRaises(TypeError, session.resize, "chr1", 5.5)
            self.assertEqual((session.script(), len(session.records())), ("", 2))

    def test_scores_with_a_fraction(self):
        bed = self.file("six.bed", "chr1\t1\t2\tx\t2.5\t+\n")
        with bedkeep.Session(self.sizes, bed) as session:
            session.remove("chr1", 1, 2, "x", 2.5, "+")
            session.add("chr1", 1, 2, "x", 7.0, "+")
            self.assertEqual(session.records()[0].score, "7")

    def test_edits_of_other_types(self):
        with self.session() as session:
            for lines in self.folder / "corrections", b"add\tchr1\t1\t2\tx", {"add\tchr1\t1\t2\tx": 1}, [("add", "chr1")], 5:
                with self.subTest(lines), self.assertRaises(TypeError):
                    session.edit(lines)
            self.assertRaisesRegex(TypeError, "text with TABs, and not .'add'", session.edit, [("add", "chr1", 1, 2)])
            for lines in "corrections", str(self.folder / "corrections"):
                self.assertRaisesRegex(ValueError, "no line of a script", session.edit, lines)
            self.assertEqual(session.edit("# a comment"), [])
            with open(self.genes, "rb") as file, self.assertRaises(TypeError):
                session.edit(file)

    def test_a_strict_edit(self):
        with self.session() as session:
            with self.refused("no such record", 2) as caught:
                session.edit(["add\tchr1\t1\t2\tx", "remove\tchr1\t1\t2\ty", "add\tchr1\t1\t3\tx", "help"], strict=True)
            self.assertEqual([one.number for one in caught.exception.others], [4])
            self.assertTrue(str(caught.exception).endswith(", and 1 more"))
            self.assertEqual(session.script(), "add\tchr1\t1\t2\tx\nadd\tchr1\t1\t3\tx\n")
            self.assertEqual(session.edit("add\tchr1\t1\t2\tx", strict=True), [])

    def test_what_is_said_of_other_types(self):
        genome, bed = self.sizes, self.genes
        with self.session() as session:
            for call, error, said in (
                (lambda: bedkeep.merge(genome, 5), TypeError, "a path, a table or rows are taken here, and not 5"),
                (lambda: bedkeep.merge({"chr1": 1.5}, bed), TypeError, "row 1 of a genome is a sequence and its length, and not .'chr1', 1.5"),
                (lambda: bedkeep.merge(genome, bed, d=2.5), TypeError, "d is a whole number.*not 2.5"),
                (lambda: bedkeep.merge(genome, bed, c=[4.0]), TypeError, "c is a whole number.*not .4.0"),
                (lambda: bedkeep.merge(genome, bed, program="absent"), bedkeep.NotFound, "no program 'absent'.*give program="),
                (lambda: bedkeep.Session(genome, "/dev/stdin"), ValueError, "standard input of a session is its script"),
                (lambda: session.open("m\tn", "merge"), ValueError, "a TAB"),
                (lambda: session.open("m", ["merge"]), TypeError, "a view is a text.*'merge -d 10'"),
                (lambda: session.view("genomecov"), bedkeep.Refused, "bad options: 'genomecov': .*one of -bg, -bga and -d"),
                (lambda: session.show("merge", "chr1:10-20"), TypeError, "'start' and 'end'"),
                (lambda: session.add("chr1 10 20 a"), TypeError, "a record is its columns.*'chr1 10 20 a'"),
                (lambda: session.replace("a", "b"), TypeError, "a record is its columns, and not 'a'"),
                (lambda: session.replace("chr1", 10, 20), TypeError, "4 were given"),
                (lambda: session.edit("open\tm\tmerge\n"), ValueError, "edits alone.*not open"),
                (session.undo, IndexError, "nothing to undo"),
                (lambda: session.save("absent/out.bed"), FileNotFoundError, "absent"),
            ):
                with self.subTest(said), self.assertRaisesRegex(error, said):
                    list(call() or ())

    def test_paths_of_other_types(self):
        for bed in b"genes.bed", 5, ["genes.bed"], None:
            self.assertRaises(TypeError, bedkeep.Session, self.sizes, bed)


class Scripts(Case):
    def test_a_dict_as_genome(self):
        with bedkeep.Session({"chr1": 1000, "chr2": 500}, self.genes) as session:
            session.resize("chr2", 700)
            session.undo()
            self.assertEqual([row.end for row in session.view("complement")], [100, 300, 1000, 500])
            self.assertEqual(session.region("chr1", 0, 150), [("chr1", 100, 200, "geneA")])

    def test_no_file_of_a_session_is_written(self):
        other, link = self.folder / "other.bed", self.folder / "link.bed"
        os.link(self.genes, other)
        link.symlink_to(self.genes)
        before = self.genes.read_bytes()
        with self.session(second=self.mask) as session:
            session.add("chr1", 1, 2, "x")
            for path in self.genes, other, link, self.mask, str(self.sizes), pathlib.Path(os.path.relpath(self.genes)):
                self.assertRaisesRegex(ValueError, "is a file of this session", session.save, path)
        self.assertEqual((self.genes.read_bytes(), link.is_symlink()), (before, True))
