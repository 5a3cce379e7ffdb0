#!/usr/bin/env python3
"""Tries the mutants that `make test` leaves out, those of each crate's mutants.txt: the prover must refuse each.

    scripts/prove/mutants.py              those of all crates
    scripts/prove/mutants.py iv_text ..   those of these crates
    scripts/prove/mutants.py --applies    tries none, and looks only whether the texts that they change are there, each once;
                                          also of those of must-fail/

A function is proved from the contracts of what it calls, whatever their bodies do. So mutants of different functions are planted
together, and each is refused if its own function isn't proved. One that such a run doesn't decide is tried alone, and is refused if
the crate isn't proved. Nothing is changed here: a copy is checked, crate by crate, over what `make build` or `rt check` left here.
RT names Rattle's command if it isn't on the path. Status 1 if a mutant is proved, or can't be planted or read.
"""
import os
import re
import shutil
import subprocess
import sys
import tempfile
import time
from pathlib import Path

from crates import below, uses_in

TOP = Path(__file__).resolve().parent.parent.parent
RT = shutil.which(os.environ.get("RT", "rt"))
# What the prover says of each function, and what it says of one of which that shows nothing: it is proved, it only waits for a
# function that it calls, or the borrow checker gives up on it.
FUNCTION = re.compile(r"^fn (\S+): (.*)$", re.M)
UNDECIDED = re.compile(r"proved|no proof: it calls [^;]*|.*the borrow checker does not cover.*")
# A function in the layout of `rt fmt`: its name, and all up to the brace that ends it.
BODY = re.compile(r"^( *)(?:pub(?:\([^)]*\))? )?(?:const )?fn (\w+)(?:.*\n)+?\1\}$", re.M)
# How many mutants are planted together at most.
MOST = 40


class Mutant:
    """A mutant: the texts that it changes, and the function that they are in, if they are in one."""

    def __init__(self, name, lines, crate):
        self.name, self.changes = name, []
        file = old = ""
        for line in lines:
            key, _, text = line.partition(": ")
            if key == "file":
                file = text
            elif key == "old":
                old = text
            elif key == "new":
                self.changes.append((file, old, text))
        functions = {self.function(crate, file, old) for file, old, _ in self.changes}
        self.of = functions.pop() if len(functions) == 1 else None

    @staticmethod
    def function(crate, file, old):
        """The name of the function whose body the text is in, if it is in one."""
        text = (crate / file).read_text() if (crate / file).is_file() else ""
        return next((found[2] for found in BODY.finditer(text) if found.start() < text.find(old) < found.end()), None)

    def plant(self, texts):
        """The texts of files with the changes, or None if an old text isn't there once."""
        texts = dict(texts)
        for file, old, new in self.changes:
            if texts.get(file, "").count(old) != 1:
                return None
            texts[file] = texts[file].replace(old, new)
        return texts if self.changes else None


def check(crate, texts, was):
    """What a check of the crate with these texts says, and whether all is proved. The texts are as they were afterwards."""
    for file, text in texts.items():
        if text != was[file]:
            (crate / file).write_text(text)
    done = subprocess.run([RT, "check", "--jobs", str(os.cpu_count())], cwd=crate, capture_output=True, text=True)
    for file, text in was.items():
        if text != texts[file]:
            (crate / file).write_text(text)
    return done.stdout + done.stderr, done.returncode == 0


def batches(mutants, texts):
    """Mutants that can be planted together, with the texts that they make: one of all functions of a name."""
    while mutants:
        batch, rest, made = [], [], texts
        for mutant in mutants:
            apart = len(batch) < MOST and mutant.of not in [other.of for other in batch]
            planted = mutant.plant(made) if apart else None
            if planted:
                batch, made = [*batch, mutant], planted
            else:
                rest.append(mutant)
        yield batch, made
        mutants = rest


def is_refused(mutant, said):
    """Whether a run says that the mutant's own function isn't proved, for a reason of its own. No other one of its name has a mutant."""
    return any(not UNDECIDED.fullmatch(why) for path, why in FUNCTION.findall(said) if path.split("::")[-1] == mutant.of)


def mutants_of(crate):
    """The mutants in the table of a crate: each is its name and its lines, and an empty line is between two."""
    table = TOP / "crates" / crate.name / "mutants.txt"
    for entry in table.read_text().strip("\n").split("\n\n") if table.is_file() else ():
        name, *lines = entry.splitlines()
        yield Mutant(name, lines, crate)


def must_fail_of(crate):
    """The mutants of a crate that are files, since `rt ci` tries them."""
    for path in sorted((TOP / "crates" / crate.name / "must-fail").glob("*.edit")):
        yield Mutant(path.stem, path.read_text().splitlines(), crate)


def texts_of(crate):
    """The sources of a crate by their names."""
    return {path.relative_to(crate).as_posix(): path.read_text() for path in crate.glob("src/**/*.rt")}


def misplaced(mutants, texts):
    """What is wrong with the mutants that can't be planted."""
    return [f"{mutant.name}: an old text isn't there once" for mutant in mutants if not mutant.plant(texts)]


def try_crate(crate):
    """How many mutants of a crate there are, and what is wrong with those that aren't refused."""
    mutants, texts = list(mutants_of(crate)), texts_of(crate)
    wrong = misplaced(mutants, texts)
    said, proved = check(crate, texts, texts)
    if not proved:
        return len(mutants), [f"it isn't proved as it is: {said[-300:]}"]
    sound = [mutant for mutant in mutants if mutant.plant(texts)]
    alone = [mutant for mutant in sound if not mutant.of]
    for batch, made in batches([mutant for mutant in sound if mutant.of], texts):
        said, _ = check(crate, made, texts)
        alone += [mutant for mutant in batch if not is_refused(mutant, said)]
    for mutant in alone:
        said, proved = check(crate, mutant.plant(texts), texts)
        if proved:
            wrong.append(f"{mutant.name}: NOT REFUSED")
        elif all(UNDECIDED.fullmatch(why) for _, why in FUNCTION.findall(said)):
            wrong.append(f"{mutant.name}: no goal refuses it: {said[-300:]}")
    return len(mutants), wrong


def main():
    everywhere = sorted(path.parent.name for path in TOP.glob("crates/*/mutants.txt"))
    if sys.argv[1:] == ["--applies"]:
        sys.exit("\n".join(f"{crate.name}/{line}" for crate in sorted(TOP.glob("crates/*"))
                           for line in misplaced([*mutants_of(crate), *must_fail_of(crate)], texts_of(crate))) or 0)
    if not RT:
        sys.exit("the command of the Rattle toolchain is not there")
    chosen, count, wrong = sys.argv[1:] or everywhere, 0, []
    with tempfile.TemporaryDirectory() as top:
        subprocess.run([TOP / "scripts/prove/copy_crates.sh", top, *chosen], check=True)
        uses = uses_in(Path(top, "crates.txt"))
        for name in uses:
            if (TOP / "crates" / name / "out").is_dir():
                shutil.copytree(TOP / "crates" / name / "out", Path(top, "crates", name, "out"))
        # All above a crate come before it, so that none is checked over one of its mutants.
        for name in sorted(chosen, key=lambda name: -len(below(name, uses))):
            begun = time.monotonic()
            of_crate, bad = try_crate(Path(top, "crates", name))
            print(f"{name}: {of_crate} mutants, {of_crate - len(bad)} refused, in {time.monotonic() - begun:.0f} seconds", flush=True)
            print("".join(f"  {line}\n" for line in bad), end="", flush=True)
            count, wrong = count + of_crate, wrong + bad
    print(f"mutants: {count} tried, {len(wrong)} not refused")
    sys.exit(bool(wrong))


if __name__ == "__main__":
    main()
