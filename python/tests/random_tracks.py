"""Random files of each format, releases of them, and lines that a curator types, for test_histories."""
from slow_track import plain

LENGTHS = {"chr1": 400, "chr2": 200}
WIDTHS = {"BED3": 3, "BED4": 4, "BED6": 6, "BED9": 9, "BED12": 12, "narrowPeak": 10}
NAMES = "abcdefgh"


def moved(row, by):
    """A record with all that it has, some bases further on."""
    columns = [str(int(text) + by) if place in (1, 2) or place in (6, 7) and len(row) in (9, 12) else text for place, text in enumerate(row)]
    return tuple(columns)


class Maker:
    """Makes records of a format, as tuples of all columns."""

    def __init__(self, pick, format):
        self.pick, self.format, self.width = pick, format, WIDTHS[format]
        self.comma = pick.choice(["", ","])

    def record(self, name=None):
        chromosome = self.pick.choice(list(LENGTHS))
        start = self.pick.randrange(0, LENGTHS[chromosome] - 61)
        six = (chromosome, str(start), str(start + self.pick.randrange(20, 61)), name or self.pick.choice(NAMES + "."),
               str(self.pick.randrange(0, 1001)), self.pick.choice("+-."))
        return six[:self.width] + self.tail(start, int(six[2]))

    def tail(self, start, end):
        pick = self.pick
        if self.format == "narrowPeak":
            return pick.choice(["1.5", "7", "0.25"]), "-1", pick.choice(["2", "3.5"]), str(pick.choice([-1, *range(0, end - start, 7)]))
        if self.width < 9:
            return ()
        thick = pick.choice([(start, start), (start, end), (end, end), tuple(sorted(pick.choices(range(start, end + 1), k=2))),
                             (start, pick.randrange(start, end + 1))])
        columns = (*map(str, thick), pick.choice(["0", "255,0,0", "1,2,3"]))
        return columns + self.blocks(start, end) if self.format == "BED12" else columns

    def blocks(self, start, end):
        count = self.pick.choice([1, 2, 2, 3, 4])
        ends = [start, *sorted(self.pick.sample(range(start + 1, end), 2 * count - 2)), end]
        sizes = ",".join(str(ends[at + 1] - ends[at]) for at in range(0, 2 * count, 2))
        starts = ",".join(str(ends[at] - start) for at in range(0, 2 * count, 2))
        return str(count), sizes + self.comma, starts + self.comma

    def altered(self, row):
        """The first six columns, one thing of them changed; it may be no record any more."""
        columns, pick = list(row[:6]), self.pick
        change = pick.choice(["start", "end", "end", "shift", "name", "score", "strand", "far"][:4 if self.width < 4 else 8])
        by = pick.choice([-30, -9, -4, -1, 1, 3, 8, 25])
        if change in ("start", "shift", "far"):
            columns[1] = str(max(int(columns[1]) + by, 0))
        if change in ("end", "shift"):
            columns[2] = str(int(columns[2]) + by)
        if change == "name" and self.width > 3:
            columns[3] = pick.choice(NAMES + ".")
        if change == "score" and self.width > 4:
            columns[4] = str(pick.randrange(0, 1020))
        if change == "strand" and self.width > 5:
            columns[5] = pick.choice("+-.")
        return tuple(columns)

    def file(self, count):
        """The rows of a file, in any order, some of them more than once."""
        rows = []
        for _ in range(count):
            rows.append(self.pick.choice(rows) if rows and self.pick.random() < 0.15 else self.record())
            if len(rows) > 1 and self.pick.random() < 0.1:
                six = self.pick.choice(rows)[:6]
                rows.append(six + self.tail(int(six[1]), int(six[2])))
        return rows

    def text(self, rows):
        """The text of a file, with headers, ends of lines and zeros before numbers as they come."""
        ends = self.pick.choice(["\n", "\n", "\r\n"])
        lines = ["\t".join(row) for row in rows]
        for header in self.pick.choice([[], [], ["track name=x"], ["# one", "", "# two"]]):
            lines.insert(self.pick.randrange(len(lines) + 1), header)
        if self.pick.random() < 0.2:
            lines = [line.replace("chr1\t", "chr1\t0") for line in lines]
        return ends.join(lines) + (ends if self.pick.random() < 0.8 else "")

    def released(self, rows, corrected):
        """The rows of the next release; corrected: those of a track that is corrected, of which it takes some."""
        pick, out = self.pick, []
        by = pick.choice([0, 0, 0, 10])
        for row in rows:
            fate = pick.random()
            if fate < 0.08:
                continue
            if fate < 0.3:
                row = self.changed(row)
            elif fate < 0.38:
                out.append(self.record(row[3] if len(row) > 3 else None))
            out.append(moved(row, by) if int(row[2]) + by <= LENGTHS[row[0]] else row)
        out += [row for row in corrected if row not in rows and pick.random() < 0.3]
        if pick.random() < 0.3:
            pick.shuffle(out)
        return out

    def changed(self, row):
        """A record of which a release changed something, with columns after the sixth that hold."""
        six = self.altered(row)
        start, end = int(six[1]), int(six[2])
        if not 10 < end - start or end > LENGTHS[six[0]] or len(six) > 4 and int(six[4]) > 1000:
            six = row[:6]
        same = six[1:3] == row[1:3] and self.pick.random() < 0.5
        return six + (row[6:] if same else self.tail(int(six[1]), int(six[2])))

    # What is typed

    def line(self, rows):
        """A line of a script about some rows, with spaces. Any of its records may be given by all columns."""
        pick = self.pick
        old = plain(pick.choice(rows)) if rows and pick.random() < 0.95 else self.record()
        command = pick.choice(["replace"] * 5 + ["remove", "add", "add"])
        if command == "remove":
            return ["remove", *self.given(old)]
        if command == "add":
            new = pick.choice([self.record(), old, (*self.altered(old), *old[6:])])
            return ["add", *self.given(new)]
        six = self.altered(old)
        if self.width <= 6 or pick.random() < 0.6:
            return ["replace", *self.given(old), *six]
        start, end = int(six[1]), int(six[2])
        tail = self.tail(start, end) if end - start > 9 else old[6:]
        return ["replace", *old, *six, *tail]

    def given(self, row):
        return row[:6] if self.pick.random() < 0.6 else row
