"""Scripts that curators type on two branches, some of them killed, without a program: each line is accepted."""
from bedkeep.commands.journal import Journal
from bedkeep.commands.prompt_edits import Edits, taken_back
from bedkeep.script import inverse_of

REASONS = ("too long", "by the reads", "taken back: x", "50 % of it;\tor more", "")


def cut_off(path, pick, text="# signed: Eve 2026-01-01T00:00:00+00:00\n# why\nadd\tchr1\t1\t2\tx\n"):
    """Leaves in a script what a process leaves that is killed while it appends a text: the first byte is written last."""
    with open(path, "ab") as file:
        file.write(b"\0" + text.encode()[1:pick.randrange(2, len(text))])


class Memory:
    """What Edits has for a session and for what carries out lines."""

    def __init__(self):
        self.lines = []

    def carry(self, lines, by=None):
        for line in lines:
            if line.is_run:
                line.judge("")
                self.lines.append(line.text)

    def inverse(self):
        return f"{inverse_of(self.lines[-1])}\n"

    def inverse_of(self, first, count):
        return [inverse_of(line) for line in reversed(self.lines[first:first + count])]

    def undo(self):
        self.lines.pop()


class Typist:
    """Somebody who types into a script. typed: of each line that is in it the text, the reason and who signed, in their order"""

    def __init__(self, pick, path, records, name=None, typed=()):
        self.pick, self.path, self.name = pick, path, name
        self.records, self.typed = list(records), list(typed)

    def day(self, by_hand=True):
        """A prompt that ends in order or is killed; or an editor, if that may be."""
        if by_hand and self.pick.random() < 0.2:
            self.write_by_hand()
            return
        self.journal, memory = Journal(str(self.path)), Memory()
        self.edits = Edits(memory, memory, self.journal, self.name)
        self.edits.replay()
        self.undone = None
        for _ in range(self.pick.randrange(1, 5)):
            self.pick.choice([self.type, self.type, self.type, self.type_together, self.undo, self.redo, self.take_back, self.explain, self.drop])()
        if self.pick.random() < 0.1:
            self.journal.leave(["# for later"])
        self.journal.close()
        if self.pick.random() < 0.3 and self.path.exists():
            cut_off(self.path, self.pick)
            Journal(str(self.path)).close()

    def line(self):
        """A line over one of the records. No other is like it."""
        at = self.pick.randrange(len(self.records))
        record = self.records.pop(at)
        if self.pick.random() < 0.2:
            return "\t".join(["remove", *record])
        self.records.append((*record[:2], str(int(record[1]) + self.pick.randrange(1, 10 ** 6)), *record[3:]))
        return "\t".join(["replace", *record, *self.records[-1]])

    def comments(self):
        reasons = [self.pick.choice(REASONS) for _ in range(self.pick.choice([0, 1, 1, 2]))]
        return [f"# {reason}" for reason in reasons if reason]

    def keep(self, lines, reason):
        self.typed += [(line, reason, self.name or "") for line in lines]

    def type(self, count=1):
        if len(self.records) >= count:
            lines, comments = [self.line() for _ in range(count)], self.comments()
            self.edits.carry(lines, comments, f"{count} lines" * (count > 1))
            self.keep(lines, said(comments) or f"{count} lines" * (count > 1))
            self.undone = None

    def type_together(self):
        self.type(2)

    def undo(self):
        if not self.edits.done or self.undone:
            return
        edit, size = self.edits.done[-1], self.path.stat().st_size
        records = list(self.records)
        self.move(edit)
        lines = self.edits.inverse(edit)
        self.edits.undo()
        self.undone = edit, records
        if self.path.exists() and self.path.stat().st_size >= size:
            self.keep(lines, f"taken back: {edit.called}")
        else:
            del self.typed[len(self.typed) - len(lines):]

    def redo(self):
        if self.undone:
            (edit, self.records), self.undone = self.undone, None
            self.edits.redo()
            self.keep(edit.lines, edit.reason)

    def take_back(self):
        """An edit that isn't the last one, if what it put in is there."""
        for edit in self.edits.done[:-1]:
            if edit.lines and all(new in self.records for _, _, new in edit.moves if new):
                self.move(edit)
                lines, why = self.edits.inverse(edit), self.comments()
                self.edits.take_back(edit, why)
                self.keep(lines, said(taken_back(edit.called, why)))
                self.undone = None
                return

    def move(self, edit):
        """Has the records follow an edit that is taken back."""
        for _, old, new in reversed(edit.moves):
            if new:
                self.records.remove(new)
            if old:
                self.records.append(old)

    def explain(self):
        comments, last = self.comments() or ["# better"], self.edits.done and self.edits.done[-1]
        if last and last.lines and self.edits.explain(comments):
            count = len(last.lines)
            self.typed[-count:] = [(line, said(comments), name) for line, _, name in self.typed[-count:]]

    def drop(self):
        self.edits.note([*(self.comments() or ["# no gene"]), "# dropped: remove\tchr1\t1\t2\tx"])
        self.undone = None

    def write_by_hand(self):
        """A paragraph of an editor, with a reason for all of its lines or without one."""
        lines, comments = [self.line() for _ in range(min(len(self.records), 3))], self.comments()
        text = "".join(f"{row}\n" for row in [*(comments or [""]), *lines])
        with open(self.path, "a", encoding="utf-8") as file:
            file.write(text)
        self.typed += [(line, said(comments), "") for line in lines]


def said(comments):
    """The reason that comments are."""
    return " ".join(comment[1:].strip() for comment in comments)
