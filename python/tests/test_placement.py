"""The file's own order, beside the slow model."""
import io
import os
import random
from collections import Counter
from unittest import mock

import bedkeep
from bedkeep import placement
from bedkeep.regions import Order
from helpers import Case, many
from slow_track import Slow

LENGTHS = {"chr2": 300, "chrom": 50, "chr1": 400, "chrLast": 90}


def some_record(chance, width, few=False):
    """A record of three to six columns, or of eight. few: one of a few."""
    if few:
        return ("chr1", "10", chance.choice(["20", "25"]), "a", "0", "+", chance.choice("xyz"), "t")[:width]
    sequence = chance.choice([*LENGTHS, "chr1", "chr1"])
    start = chance.randrange(0, LENGTHS[sequence], 10)
    end = min(start + chance.choice([5, 10, 15]), LENGTHS[sequence])
    columns = (sequence, str(start), str(end), chance.choice("abA"), chance.choice(["0", "1"]), chance.choice("+-"), chance.choice("xy"), "t")
    return columns[:width]


def some_file(chance, width, few=False):
    ends = chance.choice([["\n"], ["\n"], ["\r\n"], ["\n", "\r\n"]])
    lines = []
    for _ in range(chance.choice([0, 1, 2, 12, 12, 25])):
        kind = chance.random()
        if kind < 0.15:
            lines.append(chance.choice(["track name=x", "# comment", "", "browser hide all", "track"]))
        elif kind < 0.3 and lines:
            lines.append(chance.choice(lines))
        else:
            sequence, start, *others = some_record(chance, width, few)
            lines.append("\t".join([sequence, chance.choice(["", "", "0", "00"]) + start, *others]))
    text = "".join(line + chance.choice(ends) for line in lines)
    return text[:-1] if chance.random() < 0.3 and text.endswith("\n") and not text.endswith("\r\n") else text


def some_moves(chance, slow, width, count, few=False):
    """Moves that fit, some of them back to records that were there before."""
    known = [copy.row or copy.last for copy in slow.copies] + [some_record(chance, width, few) for _ in range(3)]
    for _ in range(count):
        there = sorted({copy.row for copy in slow.now()})
        kind = chance.choice(["add", "remove", "replace", "replace"]) if there else "add"
        old = chance.choice(there) if kind != "add" else None
        new = None if kind == "remove" else chance.choice(known) if chance.random() < 0.5 else some_record(chance, width, few)
        slow.move(old, new)
        yield old, new


class Random(Case):
    """Without the program: the model answers what the session is asked."""

    def placed(self, path, slow, moves):
        track = Counter(copy.row[:6] for copy in slow.now())

        def around(regions):
            listed = list(regions)
            return Counter({record: copies for record, copies in track.items() if any(
                record[0] == sequence and int(record[1]) < end and start < int(record[2]) for sequence, start, end in listed)})

        out = io.BytesIO()
        looks = placement.Looks(around, Order(LENGTHS))
        texts = ((old and "\t".join(old), new and "\t".join(new)) for old, new in moves)
        placement.write_placed(path, texts, looks, out.write)
        return out.getvalue().decode()

    def test_many_files_and_scripts(self):
        chance = random.Random(17)
        for number in range(900):
            width, few = chance.choice([3, 4, 5, 6, 8]), number % 3 == 0
            text = some_file(chance, width, few)
            slow = Slow(text, LENGTHS, "")
            moves = list(some_moves(chance, slow, width, chance.choice([0, 1, 2, 5, 9, 14]), few))
            path = self.file("random.bed", text)
            sizes = {"FEW": chance.choice([0, 12]), "PIECE": chance.choice([1, 40, 1 << 16]), "REACH": chance.choice([1, 64, 4096])}
            with self.subTest(number, text=text, moves=moves), mock.patch.multiple(placement, **sizes):
                self.assertEqual(Counter(copy.row for copy in Slow(slow.text(), LENGTHS, "").now()), Counter(copy.row for copy in slow.now()))
                self.assertEqual(self.placed(path, slow, moves), slow.text())
                cut = chance.randrange(len(moves) + 1)  # some of them taken back, and then more
                back = [(new, old) for old, new in reversed(moves[cut:])]
                for move in back:
                    slow.move(*move)
                again = list(some_moves(chance, slow, width, 4, few))
                self.assertEqual(self.placed(path, slow, moves + back + again), self.placed(path, slow, moves[:cut] + again))
                moves += back + again
                back = [(new, old) for old, new in reversed(moves)]
                for move in back:
                    slow.move(*move)
                self.assertEqual(slow.text(), text)
                self.assertEqual(self.placed(path, slow, moves + back), text)


class Placed(Case):
    """What the model doesn't know."""

    def test_sorted(self):
        text = "track a\nchr2\t5\t6\tz\n\n# c\nchr1\t1\t2\tx\r\nbrowsers\t5\t6\ty\n"
        self.sizes = self.file("sizes", "chr1\t9\nbrowsers\t10\nchr2\t10\n")
        with bedkeep.Session(self.sizes, self.file("given.bed", text)) as session:
            session.add("chr1", 0, 3, "w")
            session.save(self.folder / "saved.bed", sorted=True)
        self.assertEqual((self.folder / "saved.bed").read_text(),
                         "track a\n# c\nchr1\t0\t3\tw\nchr1\t1\t2\tx\nbrowsers\t5\t6\ty\nchr2\t5\t6\tz\n")

    def test_inputs_that_have_no_order(self):
        """A pipe has none that could be read again, and a file that was written again has another."""
        program = self.script("program", 'exec "$BEDKEEP" session -g "$3" -i <(printf "chr1\\t5\\t6\\ty\\nchr1\\t1\\t2\\tx\\n")')
        with bedkeep.Session(self.sizes, "/dev/fd/99", program=program) as session:
            session.save(self.folder / "saved.bed")
        self.assertEqual((self.folder / "saved.bed").read_text(), "chr1\t1\t2\tx\nchr1\t5\t6\ty\n")
        with self.session() as session:
            session.remove("chr1", 100, 200, "geneA")
            self.genes.write_text("chr1\t100\t200\tgeneA\n")
            self.assertRaisesRegex(ValueError, "written again", session.save, self.folder / "other.bed")
        self.assertFalse((self.folder / "other.bed").exists())

    def test_a_genome_that_cannot_be_read_again(self):
        self.genes = self.file("given.bed", "chr2\t5\t6\ty\nchr1\t5\t6\tx\n")
        reader, writer = os.pipe()
        self.addCleanup(os.close, reader)
        os.write(writer, self.sizes.read_bytes())
        os.close(writer)
        with bedkeep.Session(f"/dev/fd/{reader}", self.genes) as session:
            session.add("chr2", 1, 2, "z")
            session.save(self.folder / "saved.bed")
        self.assertEqual((self.folder / "saved.bed").read_text(), "chr2\t5\t6\ty\nchr1\t5\t6\tx\nchr2\t1\t2\tz\n")


class Large(Case):
    def test_many_edits(self):
        """24,245 shifts by one distance, and additions far from any record."""
        self.sizes, self.genes = many(self.folder, 30_000)
        lines = self.genes.read_text().splitlines(keepends=True)
        edits = []
        for number in range(0, 24_000, 3):
            start = 10 * number
            edits.append(f"replace\tchr1\t{start}\t{start + 15}\tg{number % 100}\tchr1\t{start + 7}\t{start + 22}\tg{number % 100}")
            lines[number] = f"chr1\t{start + 7}\t{start + 22}\tg{number % 100}\n"
        edits.append("add\tchr1\t900000000\t900000009\tfar")
        with bedkeep.Session(self.sizes, self.genes) as session:
            session.edit(edits, strict=True)
            for few in 0, 1 << 30:
                with mock.patch.object(placement, "FEW", few):
                    session.save(self.folder / "saved.bed")
                self.assertEqual((self.folder / "saved.bed").read_text(), "".join(lines) + "chr1\t900000000\t900000009\tfar\n")
