"""A slow model of how lines of corrections are classified over a release: lists of records, looked through for each line.

Lines are carried out by the model of a track. A record is a tuple of six columns and a tail, which is a tuple of further columns.
"""
from itertools import groupby

import slow_track
from slow_track import DONE, THERE, distance, overlap, paragraphs

DOABLE = ("fits", "already there", "fits but for", "already so", "changed", "moved", "follows")


class Track(slow_track.Slow):
    """A track of which equal copies are taken in the order in which they came."""

    def turn(self, copy):
        return -copy.put, -copy.place

    def entries(self):
        """The records that are there with their tails, and whether a line put them there."""
        return [(copy.row[:6], copy.row[6:], copy.put) for copy in self.now()]


class Edit:
    """A line. good: whether its records may be records; together: the numbers of the lines that are done with it, if they are"""

    def __init__(self, track, number, text, together):
        self.number, self.text, self.together = number, text, together
        self.command, *fields = text.split("\t")
        halves = track.halves(self.command, fields) or ()
        self.good = bool(halves) and all(map(track.is_record, halves))
        parts = [(tuple(half[:6]), tuple(half[6:]) or None) for half in halves]
        self.old, self.old_tail = parts[0] if parts and self.command != "add" else (None, None)
        self.new, self.new_tail = parts[-1] if parts and self.command != "remove" else (None, None)


class Slow:
    """Classifies lines. ignore: the places of the columns that may differ; copies, near: as of a track"""

    def __init__(self, text, script, lengths, ignore, copies, near=True):
        self.lengths, self.ignore, self.copies = lengths, set(ignore), copies
        self.state, self.after = (Track(text, lengths, "", copies, near) for _ in range(2))
        self.verdicts, lines = self.after.run(script), script.split("\n")
        groups = [group.numbers if group.together else () for group in paragraphs(lines) for number in group.numbers]
        self.script = [Edit(self.state, number, lines[number - 1], group) for number, group in zip(self.verdicts, groups)]
        self.so = None  # the record, with its tail, that has what the last line changes
        self.events = []  # (line, "took" or "put" or "heir" or "pending", the record as the line has it, what it is about)

    def all(self):
        """For each line: the class, the record there, the line that it is about, the text of the mended line."""
        findings = []
        for _, together in groupby(self.script, key=lambda edit: edit.together or edit.number):
            before, events, found, together = self.state.state(), list(self.events), [], list(together)
            for edit in together:
                found.append(self.look(edit))
                self.carry_out(edit, found[-1])
            wrong = [edit.number for edit, one in zip(together, found) if one[0] not in DOABLE]
            if together[0].together and wrong:
                self.state.restore(before)
                self.events = events + [(edit.number, "pending", edit.new, None) for edit in together if edit.good and edit.new]
                found = [("conflict", one[1], wrong[0], "") if one[0] in DOABLE and not one[0].startswith("already") else one for one in found]
            findings += found
        return [self.elsewhere(edit, finding) for edit, finding in zip(self.script, findings)]

    def last(self, what, record):
        return next((event for event in reversed(self.events) if event[1:3] == (what, record)), None)

    def below(self, edit, record):
        return next((other for other in self.script if other.number > edit.number and other.good and other.old == record), None)

    def outcomes(self, edit):
        """The new record, and what lines below make of it, if the file has that: the first such."""
        while edit and edit.new:
            yield edit.new, edit.new_tail
            edit = self.below(edit, edit.new)

    def of_file(self, record, tail):
        entries = [entry[:2] for entry in self.state.entries() if entry[0] == record and not entry[2]]
        return next((entry for entry in entries if tail in (None, entry[1])), None)

    def look(self, edit):
        if not edit.good:
            return "bad line", None, None, ""
        refused = self.verdicts[edit.number] not in (DONE, THERE)
        so = next(filter(None, (self.of_file(*version) for version in self.outcomes(edit))), None)
        if edit.old is None:
            return self.added(edit, refused, so)
        if self.state.find(edit.old + (edit.old_tail or ())):
            maker = self.last("put", edit.old)
            return ("follows", edit.old, maker and maker[0], "") if refused else ("fits", None, None, "")
        heir = self.last("heir", edit.old)
        if heir and heir[3] and heir[3] in [entry[:2] for entry in self.state.entries()]:
            maker = self.last("put", heir[3][0])
            return (*self.merged(edit, heir[3])[:2], maker and maker[0], self.merged(edit, heir[3])[3])
        pending = self.last("pending", edit.old)
        if pending:
            return "conflict", None, pending[0], ""
        beside = [one for one in self.free(edit) if one[0][:3] == edit.old[:3]]
        taken = self.last("took", edit.old)
        if taken and not beside:
            return "taken out", None, taken[0], ""
        if so:
            self.so = None
            return "already so", so[0], None, ""
        return self.candidate(edit, beside)

    def added(self, edit, refused, so):
        plain = ("follows" if refused else "fits", None, None, "")
        if self.copies or self.state.out.get(edit.new):
            return plain
        there = self.state.there(edit.new + (edit.new_tail or ()))
        if there and there[1]:
            return "already there", edit.new, None, ""
        if so:
            return "already there", so[0], None, ""
        return ("conflict", there[0], None, "") if there else plain

    def free(self, edit):
        """The records of the file that overlap that of a line, and that no other line names."""
        found = []
        for record, tail, line in self.state.entries():
            others = [(other.old, other.old_tail) for other in self.script if other is not edit and other.good]
            others += [(other.new, other.new_tail) for other in self.script if other is not edit and other.good]
            named = any(one == record and (edit.old_tail is None or of in (None, tail)) for one, of in others)
            known = [one[0] for one in found] if edit.old_tail is None else found
            if not line and overlap(record, edit.old) and not named and (record if edit.old_tail is None else (record, tail)) not in known:
                found.append((record, tail))
        first = {}
        for record, tail, line in self.state.entries():
            if not line:
                first.setdefault(record, tail)
        return [(record, first[record]) for record, _ in found] if edit.old_tail is None else found

    def candidate(self, edit, beside):
        old = edit.old
        may = self.ignore - (set() if edit.new else {3})
        agree = [one for one in beside if one[0] != old and all(one[0][at] == old[at] or at in may for at in range(6))]
        if len(agree) == 1:
            return self.merged(edit, agree[0])
        if old[3] != ".":
            likely = [one for one in self.free(edit) if one[0][3] == old[3]]
        else:
            likely = [one for one in self.free(edit) if edit.new and (one[0][:3] == old[:3] or one[0][3:] == old[3:])]

        def far(one):
            columns = zip((*old, *(edit.old_tail or ())), (*one[0], *one[1]))
            return one[0][5] != old[5], distance(one[0], old), sum(mine != theirs for mine, theirs in columns)

        best = [one for one in likely if far(one) == min(map(far, likely))]
        if len(best) > 1:
            return "conflict", min(best)[0], None, ""
        if best:
            return self.merged(edit, best[0])
        here = min(beside, key=lambda one: (far(one), one))[0] if beside else None
        self.so = None
        return "gone" if edit.new else "already so", here, None, ""

    def merged(self, edit, theirs):
        record, tail = theirs
        unlike = {at for at in range(6) if record[at] != edit.old[at]}
        kind = "fits but for" if unlike and unlike <= self.ignore else "moved" if record[:3] != edit.old[:3] else "changed"
        taken = [*record, *(tail if edit.old_tail is not None else ())]
        if not edit.new:
            return kind, record, None, "\t".join([edit.command, *taken])
        base, mine, there = [*edit.old, *(edit.old_tail or ())], [*edit.new, *(edit.new_tail or ())], [*record, *tail]
        by = int(there[1]) - int(base[1])
        if by == int(there[2]) - int(base[2]) and there[0] == base[0] and mine[:3] != there[:3]:
            for columns in base, mine:
                columns[1:3] = [str(int(place) + by) for place in columns[1:3]]
        merged = []
        for at, text in enumerate(mine):
            was = base[at] if at < len(base) else None
            if text != was and there[at] not in (was, text):
                return "conflict", record, None, ""
            merged.append(there[at] if text == was else text)
        if min(int(base[1]), int(mine[1])) < 0 or not int(merged[1]) < int(merged[2]) <= self.lengths[merged[0]]:
            return "conflict", record, None, ""
        if merged == there[:len(merged)]:
            self.so = theirs
            return "already so", record, None, ""
        return kind, record, None, "\t".join([edit.command, *taken, *merged])

    def carry_out(self, edit, finding):
        kind, found, _, mended = finding
        if kind == "conflict" and edit.new:
            self.events.append((edit.number, "pending", edit.new, None))
        if kind == "already so" and edit.new and self.so:
            self.events.append((edit.number, "heir", edit.new, self.so))
        if not mended and kind not in ("fits", "follows"):
            return
        columns = (mended or edit.text).split("\t")[1:]
        taken = self.state.find(tuple(columns[:len(edit.old + (edit.old_tail or ()))])) if edit.old else None
        self.state.do(mended or edit.text)
        if edit.old:
            self.events.append((edit.number, "took", edit.old, None))
            heir = self.last("heir", edit.old)
            if heir and heir[3] == (taken[:6], taken[6:]):
                self.events.append((edit.number, "heir", edit.old, None))
        if edit.new:
            put = max(self.state.now(), key=lambda copy: copy.put).row
            self.events.append((edit.number, "put", put[:6], None))
            self.events.append((edit.number, "heir", edit.new, (put[:6], put[6:])))

    def elsewhere(self, edit, finding):
        """A record that is gone, and of whose name one is elsewhere that moved as a whole: a conflict."""
        if finding[0] != "gone" or edit.old[3] == ".":
            return finding
        named = [record for other in self.script if other.good for record in (other.old, other.new)]
        records = [entry[0] for entry in self.after.entries() if entry[0][3] == edit.old[3] and entry[0] not in named]
        others = [one for one in records if not overlap(one, edit.old)]
        if not others or len(records) > 64:
            return finding
        other = min(others, key=lambda one: (one[0] != edit.old[0], distance(one, edit.old), one))
        whole = other[0] == edit.old[0] and int(other[1]) - int(edit.old[1]) == int(other[2]) - int(edit.old[2])
        return ("conflict", other, None, "") if whole else finding
