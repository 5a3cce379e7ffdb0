#!/usr/bin/env python3
"""Looks at pages of `python3 -m bedkeep review`: those of random scripts, well-formed, with the verdicts of the program and with
totals counted slowly; and of one each filter, key and button in Chromium, if that is installed, without an error of its script.

    scripts/test/review_page.py PROGRAM [--scripts N] [--seed N] [--keep FOLDER]
"""
import argparse
import json
import os
import random
import re
import shutil
import subprocess
import sys
import tempfile
from collections import Counter
from pathlib import Path

PYTHON = Path(__file__).resolve().parent.parent.parent / "python"
sys.path[:0] = [str(PYTHON), str(PYTHON / "tests")]
sys.dont_write_bytecode = True

from bedkeep.review.output import write_page  # noqa: E402
from pages import Page  # noqa: E402
from trials import left_out  # noqa: E402

GENOME = {"chr1": 1000, "2": 300, 'x&<"y': 0, "chr3": 5_000_000}
NAMES = ["g1", "g2", 'a "b"<i>', "&amp;", "</script>", "caf\u00e9", "."]
VIEWS = ("open", "close", "print", "printall")
SECONDS = 25  # that Chromium may take
BROWSERS = ("chromium", "chromium-browser", "google-chrome")

BEFORE = """<script>
window.failures = [];
addEventListener('error', event => failures.push(String(event.message)));
addEventListener('unhandledrejection', event => failures.push(String(event.reason)));
</script>"""
AFTER = """<script>
{
  const visible = () => [...document.querySelectorAll('article')].filter(article => article.getClientRects().length);
  const all = document.querySelectorAll('article').length;
  const wants = (what, count, wanted) => { if (count !== wanted) failures.push(`${what}: ${count} lines and not ${wanted}`); };
  const press = key => document.body.dispatchEvent(new KeyboardEvent('keydown', { key, bubbles: true, cancelable: true }));
  const choose = (input, value) => { input.value = value; input.dispatchEvent(new Event('input')); };
  let clicks = 0;
  for (const button of document.querySelectorAll('button.group')) {
    button.click();
    clicks++;
    const said = button.querySelector('small');
    wants(button.textContent, visible().length, said ? Number(said.textContent.replace(/,/g, '')) : all);
  }
  press('Escape');
  for (const name of ['command', 'sequence']) {
    const select = document.getElementById(name);
    for (const option of select.options) {
      choose(select, option.value);
      clicks++;
      const wanted = [...document.querySelectorAll('article')].filter(a => !option.value || a.dataset[name].split(/[|\\t]/).includes(option.value));
      wants(`${name} ${option.value}`, visible().length, wanted.length);
    }
    press('Escape');
    wants('Escape', visible().length, all);
  }
  const find = document.getElementById('find');
  choose(find, 'no line has this text');
  wants('search', visible().length, 0);
  choose(find, 'g123 chr1');
  const list = document.querySelector('.all');
  wants('search in a list', visible().length, 1);
  wants('found in a list', list.textContent.split('\\n').length, 1);
  press('Escape');
  wants('the whole list', list.textContent.split('\\n').length, 50);
  for (const row of document.querySelectorAll('tr[data-sequence]')) { row.click(); row.click(); clicks += 2; }
  wants('rows of sequences', visible().length, all);
  for (const key of 'jjknnx/') press(key);
  wants('chosen', document.querySelectorAll('article.at').length, Math.min(all, 1));
  document.getElementById('compact').click();
  wants('compact', [...document.querySelectorAll('figure')].filter(figure => figure.getClientRects().length).length, 0);
  document.getElementById('compact').click();
  for (const button of document.querySelectorAll('button.copy')) { button.click(); clicks++; }
  const wider = document.documentElement.scrollWidth - innerWidth;
  if (wider > 0) failures.push(`wider than the window by ${wider}`);
  setTimeout(() => { document.body.dataset.checked = JSON.stringify({ clicks, lines: all, failures }); }, 200);
}
</script>"""


class Script:
    """A random genome, two BED files and a script of corrections, most of which fit."""

    def __init__(self, seed):
        self.random = random.Random(seed)
        self.width, self.second_width = self.random.choice([3, 4, 6, 9]), self.random.choice([3, 4])
        self.bed = [self.record(self.width) for _ in range(self.random.randint(1, 60))]
        self.second = [self.record(self.second_width) for _ in range(self.random.randint(1, 20))]
        self.lines = [self.line() for _ in range(self.random.randint(0, 40))]

    def record(self, width):
        name, length = self.random.choice([pair for pair in GENOME.items() if pair[1]])
        length = min(length, 1000)
        start = self.random.randrange(length - 1)
        end = self.random.randint(start + 1, min(length, start + self.random.choice([1, 5, 50, 900])))
        columns = [name, start, end, self.random.choice(NAMES), self.random.randrange(3), self.random.choice("+-.")]
        return [str(column) for column in [*columns, start, end, "1,2,3"][:width]]

    def old(self, records, width):
        """A record of the file, or one that isn't quite."""
        record = list(self.random.choice(records)) if self.random.random() < 0.8 else self.record(width)
        chance = self.random.random()
        if chance < 0.15:
            record[2] = str(int(record[2]) + self.random.choice([1, -1, 5000]))
        elif chance < 0.2:
            record[0] = self.random.choice(["chr2", "1", 'x&<"y'])
        elif chance < 0.25:
            record[1], record[2] = record[2], record[1]
        elif chance < 0.3:
            record.pop()
        elif chance < 0.33:
            record[1] = "-5"
        elif chance < 0.4 and width > 4:
            record[4] = "7"
        return record

    def line(self):
        chance, choice = self.random.random(), self.random.choice
        if chance < 0.75:
            second = choice([False, False, True])
            records, width = (self.second, self.second_width) if second else (self.bed, self.width)
            command = choice(["add", "remove", "replace"])
            record = self.record(width) if command == "add" and choice([True, False]) else self.old(records, width)
            return "\t".join([command + "b" * second, *record, *(self.record(width) if command == "replace" else [])])
        if chance < 0.8:
            return choice([f"resize\tchr1\t{self.random.randint(900, 2000)}", "resize\tchr9\t5", "resize\t2\tx",
                           "resize", "resize\tchr3\t4000000", 'resize\tx&<"y\t100'])
        if chance < 0.9:
            return choice(["# why <b>", "", "#", "# more", "# caf\u00e9 \u2192 \x01", "# </article>"])
        return choice(["open\tv\tmerge", "print\tv", "printall", "remove chr1 5 6", "?", "\t", "add", "replace\t\t\t", "\x00<b>",
                       "add\tchr1\t99999999999\t1", "add\tchr1\t5\t6\t\udcff", "<b>\t&lt;", "addb\tchr1", "remove\tchr1\t1\t2\r"])

    def write(self, folder):
        files = {"sizes": [f"{name}\t{length}" for name, length in GENOME.items()],
                 "genes.bed": ["track name=x", *("\t".join(record) for record in self.bed)],
                 "second.bed": ["\t".join(record) for record in self.second], "corrections": self.lines}
        for name, lines in files.items():
            end = self.random.choice(["\n", "\r\n"]) if name == "corrections" else "\n"
            (folder / name).write_bytes("".join(f"{line}{end}" for line in lines).encode("utf-8", "surrogateescape"))


def refused_alone(program, folder, second):
    """The lines that the program refuses without the package."""
    words = [program, "session", "-g", "sizes", "-i", "genes.bed", *(["-b", "second.bed"] if second else [])]
    with open(folder / "corrections", "rb") as script:
        run = subprocess.run(words, stdin=script, capture_output=True, cwd=folder, check=False)
    return {int(number) for number in re.findall(rb"^line (\d+): ", run.stderr, re.M)}


def slow_totals(script, refused, distance):
    """The number of records and of blocks after the lines that weren't refused, and of positions that a record covers."""
    records = Counter(map(tuple, script.bed))
    for number, line in enumerate(script.lines, 1):
        command, *fields = line.removesuffix("\r").split("\t")
        if number not in refused and command in ("add", "remove", "replace"):
            half = len(fields) // 2 if command == "replace" else len(fields)
            records.subtract([tuple(fields[:half])] * (command != "add"))
            records.update([tuple(fields[-half:])] * (command != "remove"))
    listed = sorted((name, int(start), int(end)) for name, start, end, *_ in records.elements())
    covered = {(name, position) for name, start, end in listed for position in range(start, end)}
    blocks = sum(all(name != other or last + distance < start for other, _, last in listed[:at])
                 for at, (name, start, _) in enumerate(listed))
    return [len(listed), blocks, len(covered)]


def check_random(program, seed, folder):
    """The faults of the page of a random script."""
    script = Script(seed)
    script.write(folder)
    second = script.random.random() < 0.7
    page, distance = folder / "page.html", script.random.choice([0, 0, 10])
    contents = write_page(*(str(folder / name) for name in ("sizes", "genes.bed")), [str(folder / "corrections")], str(page),
                          str(folder / "second.bed") if second else None, distance, copies=True)
    found = Page(page.read_text(encoding="utf-8"))
    mine = {int(name[1:]) for name, named in found.articles.items() if named["class"] == "refused"}
    faults = list(found.faults)
    if script.width <= 6:
        views = {number for number, line in enumerate(script.lines, 1) if line.split("\t")[0] in VIEWS}
        theirs = refused_alone(program, folder, second) - views
        if mine != theirs:
            faults.append(f"lines refused by one alone: {sorted(mine ^ theirs)}")
        after = contents.after
        totals = [sum(counts.values()) for counts in (after.records, after.blocks, after.covered)]
        if totals != slow_totals(script, theirs | views, distance):
            faults.append(f"{totals} records, blocks and bases, and not {slow_totals(script, theirs, distance)}")
    return faults


def rich(folder):
    """A page with a line of each kind."""
    files = {"sizes": "chr1\t100000\nchr2\t5000\n",
             "genes.bed": "".join(f"chr1\t{100 * at}\t{100 * at + 60}\tg{at}\t{at}\t{'+-'[at % 2]}\n" for at in range(200)),
             "mask.bed": "chr1\t150\t350\nchr2\t5\t50\n",
             "corrections": """# 5 bases later
replace\tchr1\t100\t160\tg1\t1\t-\tchr1\t100\t165\tg1\t1\t-
# rescored
replace\tchr1\t200\t260\tg2\t9\t+\tchr1\t200\t270\tg2\t9\t+
remove\tchr1\t302\t360\tg3\t3\t-
remove\tchr1\t400\t460\tg4\t4\t+
remove\tchr1\t400\t460\tg4\t4\t+

add\tchr1\t500\t560\tg5\t5\t-
replace\tchr1\t600\t655\tg6\t6\t+\tchr1\t600\t660\tg6\t6\t+
replace\tchr1\t90000\t90010\tnone\t6\t+\tchr1\t90000\t90020\tnone\t6\t+
add\tchr2\t4000\t6000\tlong\t0\t+
add\tchr3\t4000\t6000\tlost\t0\t+
add chr1 4 5 g 0 +
removeb\tchr1\t150\t350
resize\tchr2\t7000
resize\tchr1\t500
# together: one gene
replace\tchr1\t700\t760\tg7\t7\t-\tchr1\t700\t860\tg7\t7\t-
remove\tchr1\t800\t860\tg8\t8\t+

""" + "".join(f"replace\tchr1\t{100 * at}\t{100 * at + 60}\tg{at}\t{at}\t{'+-'[at % 2]}\t"
              f"chr1\t{100 * at + 7}\t{100 * at + 67}\tg{at}\t{at}\t{'+-'[at % 2]}\n" for at in range(100, 150))}
    for name, text in files.items():
        (folder / name).write_text(text)
    paths = {name: str(folder / name) for name in files}
    write_page(paths["sizes"], paths["genes.bed"], [paths["corrections"]], str(folder / "rich.html"), paths["mask.bed"], 10)
    return folder / "rich.html"


def check_in_browser(browser, page, folder, width):
    """What fails when all of a page is clicked in a window of that width, and how much was clicked."""
    text = page.read_text(encoding="utf-8")
    checked = folder / "checked.html"
    checked.write_text(text.replace("<style>", BEFORE + "<style>", 1).replace("</body>", AFTER + "</body>", 1), encoding="utf-8")
    words = [browser, "--headless", "--no-sandbox", "--disable-gpu", f"--user-data-dir={folder / f'profile-{width}'}",
             f"--window-size={width},900", "--virtual-time-budget=4000", "--dump-dom", checked.as_uri()]
    try:
        run = subprocess.run(words, capture_output=True, timeout=SECONDS, check=False)
    except subprocess.TimeoutExpired:
        return [f"{browser} has no answer after {SECONDS} seconds"], 0
    found = re.search(r'data-checked="([^"]*)"', run.stdout.decode("utf-8", "replace"))
    if not found:
        return [f"{browser} ended with status {run.returncode} and no answer: {run.stderr[-300:].decode('utf-8', 'replace')}"], 0
    answer = json.loads(found[1].replace("&quot;", '"').replace("&lt;", "<").replace("&gt;", ">").replace("&amp;", "&"))
    return [f"at a width of {width}: {failure}" for failure in answer["failures"]], answer["clicks"]


def main():
    parser = argparse.ArgumentParser(description="Looks at pages of review.")
    parser.add_argument("program")
    parser.add_argument("--scripts", type=int, default=30, metavar="N")
    parser.add_argument("--seed", type=int, default=1, metavar="N")
    parser.add_argument("--keep", metavar="FOLDER", help="for the page with a line of each kind")
    given = parser.parse_args()
    program = os.environ["BEDKEEP"] = os.path.realpath(given.program)
    failures = []
    with tempfile.TemporaryDirectory() as name:
        folder = Path(name)
        for seed in range(given.seed, given.seed + given.scripts):
            failures += [f"seed {seed}: {fault}" for fault in check_random(program, seed, folder)]
        page = rich(folder)
        failures += Page(page.read_text(encoding="utf-8")).faults
        browser = next(filter(None, map(shutil.which, BROWSERS)), None)
        clicks = 0
        for width in (1100, 500) if browser else ():
            found, count = check_in_browser(browser, page, folder, width)
            failures, clicks = failures + found, clicks + count
        if given.keep:
            for path in folder.glob("rich.*"):
                shutil.copy(path, given.keep)
    for failure in failures:
        print(failure, file=sys.stderr)
    if not browser:
        left_out("all clicks on pages of review", "no Chromium")
    seen = f"{clicks} clicks in {os.path.basename(browser)}" if browser else "no click"
    print(f"review: {given.scripts + 1} pages, {seen}; {len(failures)} failures")
    sys.exit(bool(failures))


if __name__ == "__main__":
    main()
