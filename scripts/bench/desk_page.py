#!/usr/bin/env python3
"""How long an edit of the desk takes, from Enter to its pixels in a Chromium, and a preview: the median and the slow hundredth.

    scripts/bench/desk_page.py build/bedkeep 3000 500     500 edits over 3,000 records, 800 of a second file, and five views

The server's part is what the browser is sent as Server-Timing. The time from the command to the page is printed too.
"""
import os
import random
import subprocess
import sys
import tempfile
import time
from pathlib import Path

PYTHON = Path(__file__).resolve().parent.parent.parent / "python"
sys.path.insert(0, str(PYTHON / "tests"))
from browser import Browser  # noqa: E402

LENGTH = 200_000_000
VIEWS = "merge", "merge -d 1000", "genomecov -bg", "intersect", "subtract"
LOOP = """(async count => {
  const frame = () => new Promise(requestAnimationFrame), until = async test => { while (!test()) await frame(); };
  for (let at = 0; at < count; at++) {
    const field = document.getElementById('field-end'), tries = desk.tries.length, times = desk.times.length;
    field.value = String(+field.value + (at & 1 ? -37 : 41));
    field.dispatchEvent(new Event('input'));
    await until(() => desk.tries.length > tries && desk.draft && desk.draft.verdict);
    document.getElementById('why').value = `measured ${at}`;
    document.querySelector('form.why').requestSubmit();
    await until(() => desk.times.length > times && document.getElementById('field-end') && !desk.draft);
  }
  return [desk.times, desk.tries, performance.getEntriesByType('resource').filter(one => one.name.endsWith('api/edit')).map(one => one.serverTiming[0].duration)];
})(%d)"""


def rows(count, name):
    places = sorted((random.randrange(LENGTH - 5000), random.randrange(100, 4000)) for _ in range(count))
    return "".join(f"chr1\t{start}\t{start + length}\t{name}{at}\t0\t{'+-'[at & 1]}\n" for at, (start, length) in enumerate(places))


def report(what, times):
    times = sorted(times)
    print(f"{what:32} median {times[len(times) // 2]:7.1f}   slow hundredth {times[int(len(times) * .99) - 1]:7.1f}   greatest {times[-1]:7.1f} ms")


def main(program, count, edits):
    random.seed(1)
    with tempfile.TemporaryDirectory() as folder:
        for name, text in (("sizes", f"chr1\t{LENGTH}\n"), ("track.bed", rows(count, "gene")), ("second.bed", rows(max(800, count // 100), "repeat"))):
            Path(folder, name).write_text(text)
        words = [sys.executable, "-m", "bedkeep", "desk", "sizes", "track.bed", "-b", "second.bed", "--script", "corrections", "--no-browser"]
        begun = time.monotonic()
        environment = {**os.environ, "BEDKEEP": os.path.abspath(program), "PYTHONPATH": str(PYTHON)}
        with subprocess.Popen([*words, *(f"--view={view}" for view in VIEWS)], cwd=folder, env=environment, stdout=subprocess.PIPE, text=True) as desk:
            browser = Browser()
            try:
                tab = browser.tab(desk.stdout.readline().strip())
                tab.wait("window.desk && desk.state", 600)
                print(f"{count:,} records, {edits} edits; from the command to the page {time.monotonic() - begun:.1f} s")
                tab.ready()
                tab.run("performance.setResourceTimingBufferSize(100000)")
                tab.key("/")
                tab.type(f"gene{count // 2}")
                tab.key("Enter")
                tab.wait("desk.picked.length && document.getElementById('field-end')", 60)
                answer = tab.send("Runtime.evaluate", expression=LOOP % edits, awaitPromise=True, returnByValue=True, timeout=1200000)
                for what, times in zip(("edit, from Enter to the pixels", "preview, to the pixels", "edit, in the server"), answer["result"]["value"]):
                    report(what, times)
            finally:
                browser.close()
                desk.terminate()


main(sys.argv[1], int(sys.argv[2]), int(sys.argv[3]))
