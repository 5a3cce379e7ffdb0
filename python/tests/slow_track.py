"""A slow model of a track in the order of its file: each copy of a record by itself, and each base of a record that has blocks.

It has the rules in words, and nothing of the package: what a line does, what it does to the columns after the sixth, which `add` is
there already, which lines are done together, and where each record is written.
"""
from bed_checks import peak_problems, problems

DONE, THERE = "done", "there"
BAD, ABSENT, DIFFERS, APART = "bad", "absent", "differs", "apart"  # the others are refused
VIEWS = ("open", "close", "print", "printall", "show", "showall")


def is_whole(text):
    return text.isdigit() and text.isascii() and len(text) <= 10


def plain(columns):
    """The columns as the program prints them: numbers without leading zeros."""
    return (columns[0], str(int(columns[1])), str(int(columns[2])), *columns[3:])


def distance(one, other):
    return abs(int(one[1]) - int(other[1])) + abs(int(one[2]) - int(other[2]))


def overlap(one, other):
    return one[0] == other[0] and max(int(one[1]), int(other[1])) < min(int(one[2]), int(other[2]))


class Copy:
    """A copy of a record. origin: the record of its line in the file; put: when a line put it there, 0 if none did."""

    def __init__(self, row, origin=None, place=-1, put=0):
        self.row, self.origin, self.place, self.put = row, origin, place, put
        self.taken = 0  # when it was first taken
        self.last = row  # what it was when it was removed


class Group:
    """A paragraph of a script: the numbers of its lines, and whether they are done together."""

    def __init__(self):
        self.numbers, self.together = [], False


def paragraphs(lines):
    """The lines that are run, by the paragraphs that they are in."""
    groups, after_comment = [Group()], False
    for number, line in enumerate(lines, 1):
        if line.startswith("#"):
            if not after_comment:
                groups.append(Group())
            groups[-1].together |= line.startswith("# together:")
        elif not line:
            groups.append(Group())
        elif line.split("\t")[0] not in VIEWS:
            groups[-1].numbers.append(number)
        after_comment = line.startswith("#")
    return [group for group in groups if group.numbers]


def lists_of(start, blocks, comma=""):
    """The last three columns of BED12, of blocks as lists of bases."""
    sizes, starts = (",".join(map(str, numbers)) + comma for numbers in (map(len, blocks), (block[0] - start for block in blocks)))
    return str(len(blocks)), sizes, starts


class Bases:
    """What becomes of the bases of a BED12 record whose ends move, by the rules in words."""

    def __init__(self, old, thick, blocks, new):
        (start, end), (self.first, self.last) = old, new
        by = self.first - start
        self.is_shift = by == self.last - end
        if self.is_shift:
            self.blocks = [[base + by for base in block] for block in blocks]
        elif len(blocks) == 1:
            self.blocks = [list(range(*new))]
        else:
            self.blocks = [list(range(self.first, blocks[0][-1] + 1)), *map(list, blocks[1:-1]), list(range(blocks[-1][0], self.last))]
        self.cut = [[base for base in block if self.first <= base < self.last] for block in self.blocks]
        self.cut = [block for block in self.cut if block]
        self.thick = tuple(self.moved(place, start, end, by) for place in thick)
        inside = all(not place or self.first <= place <= self.last for place in self.thick)
        self.blocks_fit = all(self.blocks) and [base for block in self.cut for base in block] == [
            base for block in self.blocks for base in block] and self.cut[0][0] == self.first and self.cut[-1][-1] == self.last - 1
        self.fits = self.blocks_fit and inside and self.thick[0] <= self.thick[1]

    def moved(self, place, start, end, by):
        if not start <= place <= end:
            return place
        if self.is_shift:
            return place + by
        return {start: self.first, end: self.last}.get(place, place)

    def offer(self):
        """The bases that are left between the new ends, and the coding part within them."""
        if not self.cut:
            return None
        start, end = self.cut[0][0], self.cut[-1][-1] + 1
        thick = self.thick
        if thick != (0, 0):
            coding = [base for base in range(*thick) if start <= base < end]
            thick = (coding[0], coding[-1] + 1) if coding else (start, start)
        return start, end, thick, self.cut


class Slow:
    """A file, and what the lines of a script make of it.

    copies: whether what is there is added; near: whether a record isn't added beside another one of its name, which it may be
    """

    def __init__(self, text, lengths, format, copies=False, near=True):
        self.lengths, self.format, self.allows_copies, self.near = lengths, format, copies, near
        self.lines = text.split("\n")
        self.lines = [f"{line}\n" for line in self.lines[:-1]] + ([self.lines[-1]] if self.lines[-1] else [])
        self.rows = [self.row_of(line) for line in self.lines]
        self.copies = [Copy(row, row, place) for place, row in enumerate(self.rows) if row]
        self.width = next((len(row) for row in self.rows if row), 0)
        self.clock = 0
        self.out = {}  # by the first six columns: copies that lines took and that haven't come back

    def row_of(self, line):
        text = line.rstrip("\r\n")
        header = not text or text[0] == "#" or text.split(" ")[0] in ("track", "browser")
        return None if header else plain(text.split("\t"))

    # What lines do

    def run(self, script):
        """Carries out a script, and returns the verdict of each line by its number."""
        lines, verdicts = script.split("\n"), {}
        for group in paragraphs(lines):
            before = self.state()
            for number in group.numbers:
                verdicts[number] = self.do(lines[number - 1])
            if group.together and not {verdicts[number] for number in group.numbers} <= {DONE, THERE}:
                self.restore(before)
                verdicts.update((number, APART) for number in group.numbers if verdicts[number] == DONE)
        return verdicts

    def state(self):
        return dict(self.out), [(copy, copy.row, copy.put, copy.taken, copy.last) for copy in self.copies]

    def restore(self, state):
        self.out, copies = state
        self.copies = [copy for copy, *_ in copies]
        for copy, copy.row, copy.put, copy.taken, copy.last in copies:
            pass

    def do(self, line):
        command, *fields = line.split("\t")
        halves = self.halves(command, fields)
        if not halves or not all(map(self.is_record, halves)):
            return BAD
        halves = [plain(half) for half in halves]
        old = None if command == "add" else self.find(halves[0])
        if command != "add" and old is None:
            return ABSENT
        if command == "remove":
            self.move(old, None)
            return DONE
        new, there = halves[-1], self.there(halves[0]) if command == "add" else None
        if there:
            return THERE if there[1] else DIFFERS
        if len(new) < self.width:
            new = self.followed(old, new) if old else new + self.default(new)
        if new is None or self.is_wrong(new):
            return BAD
        self.move(old, new)
        return DONE

    def halves(self, command, fields):
        """The columns of each record of a line: of all columns, or of the first six."""
        short = min(self.width, 6)
        if command in ("add", "remove"):
            return [fields] if len(fields) in (short, self.width) else None
        if command != "replace":
            return None
        counts = {2 * short: short, 2 * self.width: self.width}
        if len(fields) == short + self.width and short < self.width:
            counts[len(fields)] = short if self.is_record(fields[short:]) else self.width
        half = counts.get(len(fields))
        return [fields[:half], fields[half:]] if half else None

    def is_record(self, columns):
        return (columns[0] in self.lengths and is_whole(columns[1]) and is_whole(columns[2])
                and int(columns[1]) < int(columns[2]) <= self.lengths[columns[0]] and all(columns[3:5])
                and (len(columns) < 6 or columns[5] in ("+", "-", ".")))

    def now(self):
        return [copy for copy in self.copies if copy.row]

    def find(self, columns):
        """The record that a line names: that of all these columns, or the first of those with these six."""
        rows = [copy.row for copy in self.now() if copy.row[:len(columns)] == columns]
        if len(columns) == self.width or not rows:
            return rows[0] if rows else None
        left = {row: rows.count(row) for row in rows}
        first = None
        for row in reversed(self.rows):  # of equal lines of the file the last ones are those that are there
            if row and left.get(row):
                left[row] -= 1
                first = row
        return first or min(rows, key=lambda row: "\t".join(row[6:]))

    def move(self, old, new):
        """Takes a copy of a record, of equal ones that which was put last, and of those of the file the first; and puts another.

        A record that is added is the copy of it that was removed last, if there is one.
        """
        self.clock += 1
        if old:
            copy = max((one for one in self.now() if one.row == old), key=self.turn)
            copy.taken = copy.taken or self.clock
        else:
            removed = [one for one in self.copies if not one.row and one.last == new]
            copy = max(removed, key=lambda one: one.put, default=None) or Copy(None)
            self.copies += [] if removed else [copy]
        copy.row, copy.last, copy.put = new, new or old, self.clock
        for row, by in (old, 1), (new, -1):
            if row:
                self.out[row[:6]] = max(self.out.get(row[:6], 0) + by, 0)

    def turn(self, copy):
        """Which of equal copies is taken: that for which this is the greatest."""
        return copy.put, -copy.place

    def there(self, new):
        """What keeps a record from being added: the record that is there, and whether it is exactly that one.

        Another one of the file that overlaps may be it, if it has its name and no line took a copy of it that hasn't come back.
        """
        six = new[:6]
        if self.allows_copies or self.out.get(six):
            return None
        if any(copy.row[:len(new)] == new for copy in self.now()):
            return six, True
        if not self.near or new[3:4] in ((), (".",)):
            return None
        likely = {row[:6] for row in self.rows if row and row[3] == new[3] and overlap(row, new)}
        likely &= {copy.row[:6] for copy in self.now()}
        beside = [(distance(one, new), one) for one in likely if not self.out.get(one)]
        return (min(beside)[1], False) if beside else None

    # The columns after the sixth

    def default(self, new):
        start, end = new[1:3]
        return {"BED9": (start, end, "0"), "narrowPeak": ("0", "-1", "-1", "-1"),
                "BED12": (start, end, "0", "1", str(int(end) - int(start)), "0")}.get(self.format, (".",) * (self.width - 6))

    def is_wrong(self, row):
        """Why columns after the sixth of these formats can't hold."""
        text = "\t".join(row)
        if self.format == "narrowPeak":
            return peak_problems(text)
        return problems(text, self.width) if self.format in ("BED9", "BED12") else []

    def followed(self, old, new):
        """The new record with the columns after the sixth of the old one as they follow, or None."""
        start, end, first, last = (int(row[place]) for row in (old, new) for place in (1, 2))
        if self.format not in ("BED9", "BED12", "narrowPeak"):
            return new + old[6:]
        if self.format == "narrowPeak":
            if old[9] == "-1" or first - start == last - end:
                return new + old[6:]
            offset = start + int(old[9]) - first
            return new + old[6:9] + (str(offset),) if 0 <= offset < last - first else None
        blocks = [range(start, end)]
        if self.format == "BED12":
            sizes, starts = (list(map(int, text.rstrip(",").split(","))) for text in old[10:12])
            blocks = [range(start + place, start + place + size) for size, place in zip(sizes, starts)]
        bases = Bases((start, end), (int(old[6]), int(old[7])), blocks, (first, last))
        thick = tuple(map(str, bases.thick))
        if self.format != "BED12":
            return new + thick + old[8:]
        comma = "," if old[10].endswith(",") else ""
        return new + thick + old[8:9] + lists_of(first, bases.blocks, comma) if bases.blocks_fit else None

    # Where each record is written

    def text(self):
        """The file with what became of its lines."""
        lost = {row: self.claims(row) for row in filter(None, self.rows)}
        stays = {row: self.come(row)[:len(lost[row])] for row in lost}
        counted = {copy for copies in stays.values() for copy in copies}
        placed, adrift = {}, set()
        for row, claims in lost.items():
            falling = [copy for copy in reversed(claims) if not self.end_of(copy, counted)]
            falling += [copy for copy in reversed(claims) if self.end_of(copy, counted)]
            falling = falling[:len(stays[row])]
            adrift.update(falling)
            placed[row] = [self.end_of(copy, counted) for copy in claims if copy not in falling]
        lines = self.kept(placed)
        added = [copy for copy in self.now() if copy not in counted and (copy.origin is None or copy in adrift)]
        for copy in sorted(added, key=lambda copy: (self.order(copy.row), "\t".join(copy.row[6:]))):
            self.insert(lines, copy.row)
        return self.joined(lines)

    def claims(self, row):
        """The copies of a line's record that were taken and are another record now, or none, in the order in which they were taken."""
        return sorted((copy for copy in self.copies if copy.origin == row and copy.row != row), key=lambda copy: copy.taken)

    def come(self, row):
        """The copies that came to be this record, first those that were added, in the order in which they were put."""
        copies = sorted((copy for copy in self.now() if copy.row == row and copy.origin != row), key=lambda copy: copy.put)
        return sorted(copies, key=lambda copy: copy.origin is not None)

    def end_of(self, copy, counted):
        return None if copy in counted else copy.row

    def kept(self, placed):
        """The lines of the file as lists of the record and the text, without those that are vacated."""
        left = {row: list(rows) for row, rows in placed.items()}
        lines = []
        for line, row in zip(self.lines, self.rows):
            if row and left[row]:
                row = left[row].pop(0)
                line = "\t".join(row) + line[len(line.rstrip("\r\n")):] if row else None
            lines.append([row, line])
        return lines

    def order(self, row):
        return (list(self.lengths).index(row[0]), int(row[1]), int(row[2]), *(text.encode() for text in row[3:6]))

    def insert(self, lines, row):
        """Puts a record after the greatest one that isn't after it in the track: below that of its lines that is the last one."""
        before = [at for at, (one, line) in enumerate(lines) if one and line is not None and self.order(one) <= self.order(row)]
        at = max(before, key=lambda at: (self.order(lines[at][0]), at)) + 1 if before else self.first()
        ends = "\r\n" if self.lines and self.lines[0].endswith("\r\n") else "\n"
        lines.insert(at, [row, "\t".join(row) + ends])

    def first(self):
        return next((place for place, row in enumerate(self.rows) if row), len(self.lines))

    def joined(self, lines):
        """The text; a last line without an end gets one if another comes after it."""
        texts = [line for _, line in lines if line is not None]
        ends = "\r\n" if self.lines and self.lines[0].endswith("\r\n") else "\n"
        return "".join(text if text.endswith("\n") or number == len(texts) else text + ends for number, text in enumerate(texts, 1))
