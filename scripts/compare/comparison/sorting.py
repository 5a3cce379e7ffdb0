"""Sorts cases into classes: the same bytes, the same rows in another order, different, refused by both."""

from collections import namedtuple

from comparison import formats, programs
from comparison.reasons import REASONS
from comparison.refusals import REFUSALS

# the classes, in the order of the page
SAME, ORDER, DIFFERENT, REFUSED = "same bytes", "same rows in another order", "different", "refused by both"
# `reasons` are names; of a case without a known reason they are None.
Found = namedtuple("Found", "kind files order subcommand options group reasons ours theirs")


class Trial:
    """One case: what is asked, and what both programs gave."""

    def __init__(self, desk, asked):
        self.desk, self.asked = desk, asked
        self.ours = desk.ours(asked.files, asked.subcommand, asked.options)
        self.theirs = desk.plain_run(asked)

    def group(self):
        """The class, and the names of the reasons."""
        wanted = formats.refusal_of(self.asked.files, self.asked.subcommand, self.asked.options)
        if wanted:
            return self.refused_group(*wanted)
        if self.ours.status != 0 or self.ours.message != b"":
            return DIFFERENT, None
        if self.theirs.status == 0 and self.theirs.output == self.ours.output:
            return SAME, ()
        same_rows = self.theirs.status == 0 and sorted(self.theirs.output.splitlines()) == sorted(self.ours.output.splitlines())
        return ORDER if same_rows else DIFFERENT, self.reasons(self.ours.output)

    def reasons(self, output):
        """The reasons that explain a difference together, none of which can be left out; None if they don't."""
        used = [reason for reason in REASONS if reason.applies(self.asked)]
        if not self.mended(used, output):
            return None
        for reason in list(used):
            fewer = [other for other in used if other is not reason]
            if self.mended(fewer, output):
                used = fewer
        return tuple(reason.name for reason in used)

    def explains(self, output):
        """Does bedtools print this, but for reasons that are known?"""
        return self.theirs.output == output or self.reasons(output) is not None

    def mended(self, used, output):
        """With the causes of these reasons gone, does bedtools print this?"""
        asked = self.asked
        for reason in used:
            asked = reason.change(asked)
        return self.desk.theirs(asked) == output

    def refused_group(self, status, text, file, line):
        """bedkeep must refuse, with just this status and message."""
        message = f"bedkeep: {f'{file}: line {line}: ' if file else ''}{text}\n".encode()
        if self.ours != programs.Run(status, b"", message):
            return DIFFERENT, None
        if programs.refused(self.theirs):
            return REFUSED, ()
        columns = formats.lines_of(self.asked.files[file])[line - 1].split(b"\t") if file else [b""]
        names = [refusal.name for refusal in REFUSALS if refusal.applies(text, columns, self.asked) and refusal.holds(self)]
        return DIFFERENT, (names[0],) if names else None


def sort_case(desk, kind, files, order, subcommand, options):
    """Runs both programs and says what class the case is in."""
    files = {name: files[name] for name in formats.files_of(subcommand)}
    trial = Trial(desk, programs.Asked(files, order, subcommand, options, False, False, ()))
    return Found(kind, files, order, subcommand, options, *trial.group(), trial.ours, trial.theirs)
