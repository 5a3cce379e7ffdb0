"""GFF3 and GTF through apply, replay, review, diff and sessions. Files after the specifications of both, by hand."""
import gzip
import random
import re

import bedkeep
from bedkeep.desk.making import changed as changed_at_desk
from bedkeep.formats import default_tail, fields, follow, format_of, record_of_fields, tail_of, with_field
from bedkeep.forms import GFF, form_of
from helpers import Case, Outcome, lines, tabs

CANONICAL = """##gff-version 3.1.26
##sequence-region chr1 1 1000
#!genome-build example

# a comment with\ta TAB
chr1\t.\tgene\t101\t400\t.\t+\t.\tID=gene00001;Name=EDEN%3B a%2Cb
chr1\t.\tmRNA\t101\t400\t.\t+\t.\tID=mRNA00001;Parent=gene00001;Name=EDEN.1;Alias=x,y
chr1\tpre dicted\tCDS\t0121\t200\t0.5\t+\t0\tID=cds00001;Parent=mRNA00001
chr1\tpre dicted\tCDS\t301\t380\t1e-3\t+\t1\tParent=mRNA00001;ID=cds00001
chr1\t.\texon\t301\t400\t.\t+\t.\tParent=mRNA00001;Name=exon2;
chr1\t.\tthree_prime_UTR\t381\t400\t.\t+\t.\tParent=mRNA00001
###
chr2\tx\tregion\t1\t500\t.\t?\t.\tID=r%091;Is_circular=false
chr2\tx\tcentromere\t500\t500\t.\t.\t.\t.
##FASTA
>chr1
ACGT
chr1\t.\tgene\t101\t400\t.\t+\t.\tID=gene00001;Name=EDEN%3B a%2Cb"""
GTF = """#!genome-build example
chr1\thavana\tgene\t101\t400\t.\t-\t.\tgene_id "G1"; gene_name "EDEN"; note "a; b";
chr1\thavana\ttranscript\t101\t400\t.\t-\t.\tgene_id "G1"; transcript_id "T1";
chr1\thavana\texon\t301\t400\t.\t-\t.\tgene_id "G1"; transcript_id "T1"; exon_number 1; exon_id "E1"; # last
chr1\thavana\tCDS\t311\t390\t.\t-\t0\tgene_id "G1"; transcript_id "T1"; protein_id "P1";
"""


def changed(text, *changes):
    """A text with lines instead of others."""
    for old, new in changes:
        assert text.count(old) == 1, old
        text = text.replace(old, new)
    return text


class Files(Case):
    def applied(self, text, script, *words, name="given.gff3"):
        """What apply makes of a text, with what it says. A script has spaces for TABs."""
        self.given = self.file(name, text if isinstance(text, bytes) else text.encode())
        outcome = Outcome("apply", self.sizes, self.given, self.file("corrections", tabs(script) if script else ""), *words)
        outcome.said = [line.replace(f"{self.folder}/corrections: ", "") for line in outcome.err.splitlines()]
        return outcome

    def test_what_no_edit_is_about_is_the_same(self):
        for text in CANONICAL, CANONICAL.replace("\n", "\r\n"), GTF, "##gff-version 3\n", CANONICAL + "\n":
            for packed in text.encode(), gzip.compress(text.encode()):
                outcome = self.applied(packed, "")
                self.assertEqual(outcome.all, (0, text, ""))
        outcome = self.applied(CANONICAL, "add chr2 1 5 x . + me gene . ID=x\nremove chr2 1 5 x . +")
        self.assertEqual(outcome.all, (0, CANONICAL, ""))

    def test_what_an_edit_changes(self):
        """Start, end, score, strand and name come back; the phase keeps the codons where they are; all else stays."""
        for text, line, change in (
            (CANONICAL, "replace chr1 100 400 mRNA00001 . + chr1 90 410 mRNA00001 7.5 -",
             ("mRNA\t101\t400\t.\t+\t.\tID=mRNA", "mRNA\t91\t410\t7.5\t-\t.\tID=mRNA")),
            (CANONICAL, "replace chr1 120 200 cds00001 0.5 + chr1 121 200 cds00001 0.5 +", ("CDS\t0121\t200\t0.5\t+\t0", "CDS\t122\t200\t0.5\t+\t2")),
            (CANONICAL, "replace chr1 120 200 cds00001 0.5 + chr1 119 200 cds00001 0.5 +", ("CDS\t0121\t200\t0.5\t+\t0", "CDS\t120\t200\t0.5\t+\t1")),
            (CANONICAL, "replace chr1 120 200 cds00001 0.5 + chr1 120 210 cds00001 0.5 +", ("CDS\t0121\t200\t0.5", "CDS\t0121\t210\t0.5")),
            (CANONICAL, "replace chr1 300 380 cds00001 1e-3 + chr1 310 390 cds00001 1e-3 +", ("CDS\t301\t380", "CDS\t311\t390")),
            (CANONICAL, "replace chr1 300 400 exon2 . + chr1 300 400 exon%202 . +", ("Name=exon2;", "Name=exon%202;")),
            (CANONICAL, "replace chr1 380 400 . . + chr1 380 390 . . +", ("UTR\t381\t400", "UTR\t381\t390")),
            (CANONICAL, "replace chr2 0 500 r%091 . . chr2 0 400 r%091 . .", ("region\t1\t500\t.\t?", "region\t1\t400\t.\t?")),
            (CANONICAL, "replace chr2 0 500 r%091 . . chr2 0 500 r%091 . -", ("region\t1\t500\t.\t?", "region\t1\t500\t.\t-")),
            (CANONICAL, "replace chr2 499 500 . . . chr2 498 500 . . .", ("centromere\t500\t500", "centromere\t499\t500")),
            (CANONICAL, "remove chr1 300 400 exon2 . +", ("chr1\t.\texon\t301\t400\t.\t+\t.\tParent=mRNA00001;Name=exon2;\n", "")),
            (CANONICAL, "add chr2 498 499 new . - me gene . ID=new", ("ID=r%091;Is_circular=false\n",
                                                                     "ID=r%091;Is_circular=false\nchr2\tme\tgene\t499\t499\t.\t-\t.\tID=new\n")),
            (CANONICAL, "replace chr1 100 400 gene00001 . + chr1 100 400 gene00001 . + . pseudogene . ID=gene00001",
             ("gene\t101\t400\t.\t+\t.\tID=gene00001;Name=EDEN%3B a%2Cb\nchr1\t.\tmRNA", "pseudogene\t101\t400\t.\t+\t.\tID=gene00001\nchr1\t.\tmRNA")),
            (GTF, "replace chr1 100 400 G1 . - chr1 100 400 G2 . -", ('gene\t101\t400\t.\t-\t.\tgene_id "G1"', 'gene\t101\t400\t.\t-\t.\tgene_id "G2"')),
            (GTF, "replace chr1 300 400 E1 . - chr1 300 402 E1 . -", ("exon\t301\t400", "exon\t301\t402")),
            (GTF, "replace chr1 310 390 . . - chr1 310 392 . . -", ("CDS\t311\t390\t.\t-\t0", "CDS\t311\t392\t.\t-\t2")),
            (GTF, "remove chr1 100 400 T1 . -", ('chr1\thavana\ttranscript\t101\t400\t.\t-\t.\tgene_id "G1"; transcript_id "T1";\n', "")),
        ):
            with self.subTest(line):
                self.assertEqual(self.applied(text, line).all, (0, changed(text, change), ""))
        added = self.applied("##gff-version 3\r\n##FASTA\r\n>chr1\r\n", "add chr1 0 9 g . + s gene . ID=g", name="empty.gff3")
        self.assertEqual(added.out, "##gff-version 3\r\nchr1\ts\tgene\t1\t9\t.\t+\t.\tID=g\r\n##FASTA\r\n>chr1\r\n")

    def test_sorted(self):
        """Headers, then the records in the order of the genome, then the bases."""
        texts = CANONICAL.split("\n")
        records = [text for text in texts[:14] if text and text[0] != "#"]
        outcome = self.applied("\n".join([*texts[:5], *reversed(records), *texts[14:]]), "", "--sorted")
        begin, end = outcome.out.split("\n")[:4], outcome.out.split("\n")[4:]
        self.assertEqual((begin, sorted(end[:8]), end[8:]), ([text for text in texts[:5] if text], sorted(records), texts[14:]))
        self.assertEqual([int(line.split("\t")[3]) for line in end[:8]], [101, 101, 121, 301, 301, 381, 1, 500])

    def test_refused_lines(self):
        for line, said in (
            ("add chr2 1 5 x . +", "a record of GFF has a type: all 10 columns are written"),
            ("add chr2 1 5 x . + . gene . ID=y", "the name x is not that of the attributes, which is y"),
            ("replace chr1 100 400 gene00001 . + chr1 100 400 a;b . +", "the name a;b is not that of the attributes, which is gene00001"),
            ("replace chr1 380 400 . . + chr1 380 400 x . +", "the name x is not that of the attributes, which is ."),
            ("replace chr1 100 400 gene00001 . + chr1 100 400 gene00001 x +", "score x is no number"),
            ("remove chr1 1 2", "wrong number of columns: 3 fields; 6 or 10 are needed"),
            ("remove chr1 100 400 gene00001 . + . gene . ID=gene00001", "no such record: chr1 100 400 gene00001 . +: the record is there with "
             "attributes ID=gene00001;Name=EDEN%3B a%2Cb instead of ID=gene00001"),
        ):
            outcome = self.applied(CANONICAL, line)
            self.assertEqual((outcome.said[0], outcome.out, outcome.status), (f"line 1: {said}", CANONICAL, 1))
            if "name" in said:
                self.assertEqual(self.applied(CANONICAL, line, "--leave-blocks").out, CANONICAL)

    def test_lines_that_are_no_record(self):
        """One message, with the name of the file and the line."""
        for line, said in (
            ("chr1 . gene 5 9 . + .", "a line of GFF has 9 columns, and not 8"), ("chr1 . gene x 9 . + . ID=x", "start is a number in GFF, and not 'x'"),
            ("chr1 . gene 5 -9 . + . ID=x", "end is a number in GFF, and not '-9'"),
            ("chr1 . gene 0 9 . + . ID=x", "a start is at least 1 in GFF, and not above its end: 0 and 9"),
            ("chr1 . gene 9 8 . + . ID=x", "a start is at least 1 in GFF, and not above its end: 9 and 8"),
            ("chr1 . gene 5 9 . p . ID=x", "a strand is + or -, . or ? in GFF, and not 'p'"),
        ):
            text = CANONICAL.replace("###", tabs(line).rstrip())
            for name, data in (("bad.gff3", text.encode()), ("bad.gff3.gz", gzip.compress(text.encode()))):
                self.assertEqual(self.applied(data, "", name=name).all, (2, "", f"{self.folder}/{name}: line 12: {said}\n"))
                self.assertEqual(Outcome("diff", self.given, self.given).all, (2, "", f"{self.folder}/{name}: line 12: {said}\n"))
        outcome = self.applied(CANONICAL.replace("region\t1\t500", "region\t1\t501"), "")
        self.assertRegex(outcome.err, f"^{self.given}: line 13: end past the sequence's end ")
        for call in bedkeep.Session, bedkeep.merge:
            self.assertRaises(bedkeep.Damaged, call, self.sizes, self.given)

    def test_replay_review_and_diff(self):
        script = "replace chr1 100 400 mRNA00001 . + chr1 90 400 mRNA00001 . +\nreplace chr1 300 400 exon2 . + chr1 300 390 exon2 . +"
        self.applied(CANONICAL, script)
        corrections, mended = self.folder / "corrections", self.folder / "mended"
        self.assertEqual(Outcome("replay", self.sizes, self.given, corrections).status, 0)
        release = self.file("release.gff3", changed(CANONICAL, ("exon\t301\t400", "exon\t303\t400")))
        outcome = Outcome("replay", self.sizes, release, corrections, "--mend", mended)
        self.assertEqual((outcome.status, mended.read_text().splitlines()[-1]),
                         (1, tabs("replace chr1 302 400 exon2 . + chr1 302 390 exon2 . +").rstrip()))
        self.assertEqual(Outcome("apply", self.sizes, release, mended).out, changed(
            release.read_text(), ("mRNA\t101\t400", "mRNA\t91\t400"), ("exon\t303\t400", "exon\t303\t390")))
        self.assertEqual(Outcome("review", self.sizes, self.given, corrections, "-o", self.folder / "page.html").status, 0)
        script = self.file("script", Outcome("diff", self.given, release).out)
        self.assertEqual(Outcome("apply", self.sizes, self.given, script).out, release.read_text())

    def test_a_session(self):
        for name, data in (("a.gff3", CANONICAL.encode()), ("a.gff3.gz", gzip.compress(CANONICAL.encode()))):
            path = self.file(name, data)
            with bedkeep.Session(self.sizes, path, wide=True) as session:
                self.assertEqual((session.columns(), session.format(), len(session)), (10, "GFF3", 8))
                self.assertEqual(session.records()[-1], ("chr2", 499, 500, ".", ".", ".", "x", "centromere", ".", "."))
                session.replace(session.find("gene00001")[0], ("chr1", 99, 400, "gene00002", 5, "+"))
                self.assertEqual([row.start for row in session.view("merge")], [99, 0])
                session.save(self.folder / "saved.gff3")
                self.assertEqual((self.folder / "saved.gff3").read_text(), changed(
                    CANONICAL, ("gene\t101\t400\t.\t+\t.\tID=gene00001;Name=EDEN%3B a%2Cb\nchr1\t.\tmRNA", "gene\t100\t400\t5\t+\t.\tID=gene00002;Name=EDEN%3B a%2Cb\nchr1\t.\tmRNA")))
                session.undo()
                session.save(self.folder / "saved.gff3")
                self.assertEqual((self.folder / "saved.gff3").read_text(), CANONICAL)
            self.assertRaisesRegex(bedkeep.Damaged, "wide=True", bedkeep.Session, self.sizes, path)
        with bedkeep.Session(self.sizes, self.genes, second=path, wide=True) as session:
            session.remove_second("chr1", 300, 400, "exon2", ".", "+")
            self.assertEqual(session.columns(second=True), 10)

    def test_random_scripts(self):
        """The same as over the file of ten columns that has the same records, brought there and back by another way."""
        chance = random.Random(5)
        for _ in range(6):
            text = random_gff(chance)
            rows = [as_bed(line) for line in text.split("\n")[:-1]]
            records = [row for row in rows if row[0] != "#"]
            script = "\n".join(random_edit(chance, records) for _ in range(8))
            out = self.applied(text, script)
            bed = self.applied("".join(f"{row}\n" for row in rows[1:]), script, name="given.bed")
            self.assertEqual((out.out.split("\n")[1:-1], out.said), ([as_gff(row) for row in bed.out.split("\n")[:-1]], bed.said))
            self.assertGreater(len(out.out), 0)


def as_bed(line):
    if line[0] == "#":
        return line
    sequence, source, kind, start, end, score, strand, phase, attributes = line.split("\t")
    name = re.search("ID=([^;]*)", attributes)
    return "\t".join([sequence, str(int(start) - 1), end, name[1] if name else ".", score, strand, source, kind, phase, attributes])


def as_gff(row):
    if row[0] == "#":
        return row
    sequence, start, end, _, score, strand, source, kind, phase, attributes = row.split("\t")
    return "\t".join([sequence, source, kind, str(int(start) + 1), end, score, strand, phase, attributes])


def random_gff(chance):
    lines = ["##gff-version 3"]
    for number in range(chance.randrange(1, 12)):
        start = chance.randrange(1, 300)
        own = chance.choice([f"ID=f{number};", ""])
        lines.append("\t".join([chance.choice(["chr1", "chr2"]), "x", chance.choice(["gene", "CDS"]), str(start), str(start + chance.randrange(100)),
                                chance.choice([".", "5"]), chance.choice("+-."), chance.choice("012."), f"{own}Parent=p"]))
        if chance.random() < 0.3:
            lines.append(chance.choice(["###", "# x"]))
    return "".join(f"{line}\n" for line in lines)


def random_edit(chance, records):
    columns = chance.choice(records).split("\t")
    old, tail = columns[:6], columns[6:]
    new = [old[0], str(max(int(old[1]) + chance.randrange(-3, 4), 0)), str(int(old[2]) + chance.randrange(-3, 4)), old[3], *old[4:6]]
    if old[3] != "." and chance.random() < 0.3:
        new[3] = f"{old[3]}x"
    if int(new[1]) >= int(new[2]) or chance.random() < 0.2:
        return " ".join(["remove", *old])
    return " ".join(["replace", *old, *(tail if chance.random() < 0.3 else []), *new])


class Tails(Case):
    def test_formats(self):
        record = ("c", "5", "9", "x", ".", "+")
        for text, kind in (
            ("s gene . ID=x", "GFF3"), ("s gene 2 ID=x;Name=y", "GFF3"), ('s gene 0 gene_id_"x";', ""), ("s gene 3 ID=x", ""), ("5 9 0 ID=x", "BED9"),
            ("s 5 . ID=x", ""), ("a b . c", ""), ("a b . .", ""), ("s gene .", ""),
        ):
            self.assertEqual(format_of(record, tabs(f"_ {text}").rstrip("\n")[1:]), kind, text)
        self.assertEqual(format_of(record, '\ts\tgene\t.\tgene_id "x"; a 1;'), "GTF")
        self.assertEqual(default_tail(record, 10, "GFF3"), "\t.\t.\t.\t.")

    def test_phases(self):
        """By the codons, base by base: those of the bases that both records have are the same."""
        for strand in "+-":
            for phase in range(3):
                for start in range(6, 15):
                    for end in range(start + 4, 24):
                        old, new = ("c", "10", "19", "x", ".", strand), ("c", str(start), str(end), "x", ".", strand)
                        tail = follow(old, f"\ts\tCDS\t{phase}\tID=x", new).tail.split("\t")
                        if start - 10 == end - 19:
                            self.assertEqual(tail[3], str(phase))
                            continue
                        mine, theirs = (codon_places(record, int(text)) for record, text in ((old, phase), (new, tail[3])))
                        both = range(max(10, start), min(19, end))
                        self.assertEqual([base for base in both if mine(base)], [base for base in both if theirs(base)])
        self.assertEqual(follow(("c", "10", "19", "x", ".", "+"), "\ts\tCDS\t1\tID=x", ("c", "11", "19", "x", ".", "-")).tail, "\ts\tCDS\t1\tID=x")

    def test_one_thing_is_one_field(self):
        record, tail = ("c", "5", "9", "x", ".", "+"), "\ts\tgene\t.\tA=x;ID=x;Name=x"
        named = fields(record, tail)
        self.assertEqual((record_of_fields(named), tail_of(named)), (record, tail))
        self.assertEqual(tail_of({**named, "name": "y"}), "\ts\tgene\t.\tA=x;ID=y;Name=x")
        self.assertEqual(with_field(record, tail, "attributes", "ID=z"), (("c", "5", "9", "z", ".", "+"), "\ts\tgene\t.\tID=z"))
        self.assertEqual(with_field(record, tail, "phase", "1"), (record, "\ts\tgene\t1\tA=x;ID=x;Name=x"))
        self.assertRaisesRegex(ValueError, "phase can't be 7 in GFF3", with_field, record, tail, "phase", "7")
        old = lines("c 5 9 x . + s gene . ID=x")[0]
        for values, new in (({"attributes": "ID=y;N=1"}, "c 5 9 y . + s gene . ID=y;N=1"), ({"name": "y", "end": "8"}, "c 5 8 y . +"),
                            ({"type": "mRNA", "start": "4"}, "c 4 9 x . + s mRNA . ID=x")):
            self.assertEqual(changed_at_desk(old.split("\t"), values), "\t".join(["replace", old, *lines(new)]))

    def test_forms(self):
        for text, is_gff in ((CANONICAL, True), (GTF, True), ("track x\n" + GTF, True), ("chr1\t5\t9\tx\n", False), ("", False), ("##gff-version 3", True),
                             (tabs("chr1 5 9 x 0 + 5 9 0 1 4 0"), False), (tabs("chr1 100 . A T 50 PASS x"), False)):
            self.assertEqual(form_of(self.file("any", text)) is GFF, is_gff, text)


def codon_places(record, phase):
    """Whether a base is the first one of a codon, as it is read."""
    if record[5] == "+":
        return lambda base: (base - int(record[1]) - phase) % 3 == 0
    return lambda base: (int(record[2]) - 1 - base - phase) % 3 == 0
