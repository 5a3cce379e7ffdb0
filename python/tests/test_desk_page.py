"""The page of the desk in a Chromium, by keys and mouse, as a curator uses it. Without a Chromium it isn't tested, and says so."""
import http.server
import json
import os
import signal
import socket
import subprocess
import sys
import threading
import time
import unittest

from browser import CHROMIUM, Browser
from desks import OLD, Case

HOSTILE = ['<img src=x onerror="window.hacked=1">', '"><script>window.hacked=2</script>', "it's &amp; \"q\"", "abc\u202egnp.exe", "\u200f\u05d0\u05d1\u200f", "zero\u200bwidth", "\u2028line", "%2e%2e/..", "a|b,c;d=e", "\U0001d54f\u0301"]
CODING = ("chr1\t1000\t5000\tcoding\t0\t+\t1200\t4500\t0\t3\t500,300,1000,\t0,1500,3000,\n"
          "chr1\t6000\t8000\tother\t0\t-\t6000\t6000\t0\t1\t2000,\t0,\n")
PEAKS = "chr1\t1000\t5000\tpeak1\t7\t.\t5.5\t3\t2\t1500\nchr1\t6000\t7000\tpeak2\t7\t.\t5.5\t3\t2\t-1\n"
if not CHROMIUM:
    print("no Chromium, so the page of the desk isn't tested", file=sys.stderr)


@unittest.skipUnless(CHROMIUM, "no Chromium")
class Page(Case):
    """What a curator does, in a browser."""

    @classmethod
    def setUpClass(cls):
        cls.browser = Browser()

    @classmethod
    def tearDownClass(cls):
        cls.browser.close()

    def tab(self, desk, **options):
        tab = self.browser.tab(desk.address, **options).ready()
        self.addCleanup(tab.close)
        return tab

    def tearDown(self):
        faults = []
        while not self.browser.events.empty():
            event = self.browser.events.get()
            if event["method"] == "Runtime.exceptionThrown":
                faults.append(str(event["params"])[:600])
            elif event["method"] == "Log.entryAdded" and event["params"]["entry"]["level"] == "error" and "status of 5" not in event["params"]["entry"]["text"] and "net::ERR" not in event["params"]["entry"]["text"]:
                faults.append(str(event["params"])[:400])
        self.assertEqual(faults, [])

    def find(self, tab, name):
        tab.run("document.activeElement.blur()")
        tab.key("/")
        tab.run("document.getElementById('search').value = ''")
        tab.type(name)
        tab.key("Enter")
        tab.wait(f"desk.picked.length && desk.picked[0][3] === {json.dumps(name)} && document.querySelector('.r.selected')")

    def look(self, tab, start, end):
        """Goes to a place of chr1, and returns how many pixels a base has."""
        tab.key("g")
        tab.type(f"chr1:{start + 1}-{end}")
        tab.key("Enter")
        tab.wait(f"Math.round(desk.view.end) === {end} && desk.region.mode === 'rows' && !document.querySelector('#drawing.stale')")
        tab.drawn()
        return tab.run("document.getElementById('drawing').clientWidth") / (end - start)

    def box(self, name):
        return f"document.querySelector('.records .r[aria-label^=\"{name},\"]')"

    def save(self, tab, reason):
        count = tab.run("desk.times.length")
        tab.wait("document.getElementById('why') && desk.draft.verdict && desk.draft.verdict.changes && !document.getElementById('save').disabled")
        tab.run("document.getElementById('why').focus()")
        tab.type(reason)
        tab.key("Enter")
        tab.wait(f"desk.times.length > {count}")
        tab.run("document.activeElement.blur()")

    # One record

    def test_search_and_a_typed_end(self):
        desk = self.desk()
        tab = self.tab(desk)
        self.find(tab, "geneA")
        tab.key("e")
        self.assertEqual(tab.run("document.activeElement.id"), "field-end")
        tab.type("2200")
        tab.wait("desk.draft && desk.draft.verdict && desk.draft.verdict.changes && desk.draft.values.end === '2200'")
        self.assertEqual(desk.lines(), [])
        self.assertIn("merge", tab.text("#verdict"))
        tab.key("Enter")
        self.assertEqual(tab.run("document.activeElement.id"), "why")
        tab.type("longer in the cDNA")
        tab.key("Enter")
        tab.wait("desk.times.length")
        self.assertEqual(desk.lines(), ["# longer in the cDNA", "replace\tchr1\t1000\t2000\tgeneA\t0\t+\tchr1\t1000\t2200\tgeneA\t0\t+"])
        self.assertIn("Done, and in the script", tab.text("#hand"))
        self.assertEqual(tab.run("desk.picked[0][2]"), "2200")

    def test_part_of_a_name_and_a_place(self):
        desk = self.desk()
        tab = self.tab(desk)
        tab.key("/")
        tab.type("GENE")
        tab.key("Enter")
        tab.wait("!document.getElementById('found').hidden")
        self.assertEqual(tab.run("document.querySelectorAll('#found button').length"), 5)
        tab.click("document.querySelectorAll('#found button')[2]")
        tab.wait("desk.picked[0][3] === 'geneC'")
        tab.key("g")
        tab.type("chr1:1,001-2,000")
        tab.key("Enter")
        tab.wait("Math.round(desk.view.start) === 1000 && Math.round(desk.view.end) === 2000")
        tab.wait("document.getElementById('place').value === 'chr1:1,001-2,000'")
        tab.key("/")
        tab.type("nobody")
        tab.key("Enter")
        tab.wait("document.getElementById('found').innerText.includes('nobody')")

    def test_a_dragged_end_snaps(self):
        desk = self.desk()
        tab = self.tab(desk)
        pixels = self.look(tab, 0, 6000)
        tab.click(self.box("geneB"))
        tab.wait("document.querySelector('.r.selected [data-handle=end]')")
        tab.drag("document.querySelector('[data-handle=end] .grip')", 498 * pixels)  # two bases before the end of geneC
        tab.wait("desk.draft && desk.draft.values.end === '4500'")
        self.assertEqual(tab.run("document.activeElement.id"), "why")
        self.save(tab, "as geneC")
        self.assertEqual(desk.lines()[-1], "replace\tchr1\t3000\t4000\tgeneB\t0\t-\tchr1\t3000\t4500\tgeneB\t0\t-")

    def test_a_refused_edit_shows_why_and_what_fits(self):
        desk = self.desk()
        tab = self.tab(desk)
        self.find(tab, "geneC")
        tab.key("e")
        tab.type("10001")
        tab.wait("document.querySelector('#hand.refused')")
        text = tab.text("#hand")
        self.assertIn("end past the sequence's end", text)
        self.assertTrue(tab.run("document.getElementById('save').disabled"))
        tab.click("document.querySelector('.offers button')")
        tab.wait("desk.draft.verdict && desk.draft.verdict.changes")
        self.save(tab, "to the very end")
        self.assertEqual(desk.lines()[-1].split("\t")[-4], "10000")

    def test_undo_redo_add_remove(self):
        desk = self.desk()
        tab = self.tab(desk)
        tab.key("a")
        tab.wait("document.activeElement.id === 'field-name'")
        tab.type("geneNew")
        tab.key("Enter")
        self.save(tab, "was missing")
        tab.key("r")
        tab.wait("document.activeElement.id === 'why' && desk.draft.verdict")
        self.save(tab, "or was it")
        self.assertEqual(len(desk.lines()), 4)
        for key, left in (("u", 2), ("u", 0), ("U", 2), ("U", 4), ("u", 2), ("u", 0)):
            tab.key(key)
            tab.wait(f"desk.state.corrections.filter(one => one.verdict === 'done').length === {left // 2}")
            self.assertEqual(len(desk.lines()), left)
        tab.key("u")
        tab.wait("document.getElementById('hand').innerText.includes('Nothing to take back')")
        tab.key("U", "U", "u", "u")  # faster than the answers
        tab.wait("document.getElementById('hand').innerText.includes('Taken back') && desk.state.can_undo === null")
        self.assertEqual(desk.lines(), [])

    def test_no_reason_asks_twice(self):
        desk = self.desk()
        tab = self.tab(desk)
        self.find(tab, "geneA")
        tab.key("s")
        tab.type("900")
        tab.key("Enter")
        tab.wait("desk.draft.verdict && desk.draft.verdict.changes")
        tab.key("Enter")
        time.sleep(.2)
        self.assertEqual(desk.lines(), [])
        tab.key("Enter")
        tab.wait("desk.times.length")
        self.assertEqual(len(desk.lines()), 1)

    def test_arrows_change_a_number(self):
        desk = self.desk()
        tab = self.tab(desk)
        self.find(tab, "geneA")
        tab.key("e", "ArrowUp", "ArrowUp", "ArrowDown")
        tab.wait("desk.draft && desk.draft.values.end === '2001'")

    # Several at once

    def test_several_are_shifted_and_taken_back(self):
        desk = self.desk()
        tab = self.tab(desk)
        self.look(tab, 0, 6000)
        tab.click(self.box("geneA"))
        tab.wait("desk.picked.length === 1")
        tab.click(self.box("geneC"), shift=True)
        tab.wait("desk.picked.length === 2")
        tab.key("h")
        tab.type("25")
        for keys in "Enter", "the assembly has 25 more", "Enter":  # faster than the verdict
            tab.key(keys) if keys == "Enter" else tab.type(keys)
        tab.wait("desk.times.length")
        self.assertEqual(desk.lines()[0], "# together: the assembly has 25 more")
        self.assertEqual(sorted(line.split("\t")[8] for line in desk.lines()[1:]), ["1025", "3925"])
        tab.key("u")
        tab.wait("desk.state.corrections.every(one => one.verdict === 'taken back')")
        self.assertEqual(desk.lines(), [])

    def test_strand_and_name_of_all_in_an_area(self):
        desk = self.desk()
        tab = self.tab(desk)
        pixels = self.look(tab, 0, 6000)
        left, top = tab.run("(() => { const r = document.getElementById('drawing').getBoundingClientRect(); return [r.x, r.y]; })()")
        tab.drag_from(left + 2500 * pixels, top + 30, 2500 * pixels, 60, shift=True)
        tab.wait("desk.picked.length === 2")
        tab.key("d")
        tab.type(".")
        self.save(tab, "not known")
        tab.key("l")
        tab.type("unnamed")
        self.save(tab, "no gene")
        tab.wait("desk.region.views.records.split('unnamed\\t').length === 3")
        self.assertEqual(len([line for line in desk.lines() if line.startswith("# together: ")]), 2)

    def test_split_and_join(self):
        desk = self.desk()
        tab = self.tab(desk)
        self.find(tab, "geneA")
        tab.key("t")
        tab.type("1400")
        self.save(tab, "two genes")
        tab.wait("desk.picked.length === 2")
        self.assertEqual(tab.run("desk.region.views.records.split('\\n').slice(0, 2).map(row => row.split('\\t').slice(1, 3).join('-')).join()"), "1000-1400,1400-2000")
        tab.key("o")
        self.save(tab, "one after all")
        tab.wait("desk.picked.length === 1 && desk.picked[0][1] === '1000' && desk.picked[0][2] === '2000'")
        self.assertEqual(sum(line.startswith("# together: ") for line in desk.lines()), 2)

    def test_a_common_end_is_dragged(self):
        self.write("genes.bed", "chr1\t1000\t2000\tleft\t0\t+\nchr1\t2000\t3000\tright\t0\t+\n")
        desk = self.desk()
        tab = self.tab(desk)
        pixels = self.look(tab, 0, 5000)
        tab.key("n", "N")
        tab.wait("document.querySelector('.handle.pair')")
        tab.drag("document.querySelector('.handle.pair .grip')", 250 * pixels)
        tab.wait("desk.draft && desk.draft.kind === 'boundary' && desk.draft.verdict")
        value = tab.run("String(desk.draft.value)")
        self.assertAlmostEqual(int(value), 2250, delta=8)
        self.save(tab, "by the reads")
        self.assertEqual({tuple(line.split("\t")[8:10]) for line in desk.lines()[1:]}, {("1000", value), (value, "3000")})
        tab.key("b")
        tab.wait("document.activeElement.id === 'value' && document.getElementById('verdict').innerText === 'Nothing changes.'")
        tab.type("2100")
        self.save(tab, "by more reads")
        self.assertEqual(tab.run("desk.picked.map(one => one[1]).sort().join()"), "1000,2100")

    # Columns after the sixth

    def test_blocks_follow_and_are_dragged(self):
        self.write("genes.bed", CODING)
        desk = self.desk()
        tab = self.tab(desk)
        pixels = self.look(tab, 0, 9000)
        tab.click(self.box("coding"))
        tab.wait("document.querySelector('[data-handle=\"block:1:1\"]')")
        self.assertEqual(tab.run("document.getElementById('field-blocks').value"), "1000-1500,2500-2800,4000-5000")
        tab.drag("document.querySelector('[data-handle=end] .grip')", 300 * pixels)
        tab.wait("desk.draft && desk.draft.verdict && desk.draft.verdict.changes")
        end = tab.run("desk.draft.values.end")
        tab.wait(f"document.getElementById('field-blocks').value === '1000-1500,2500-2800,4000-{end}'")
        tab.drag("document.querySelector('[data-handle=\"block:1:1\"] .grip')", 200 * pixels)
        tab.wait("desk.draft.values.blocks && desk.draft.verdict && desk.draft.verdict.changes")
        tab.drag("document.querySelector('[data-handle=\"thick:0\"] .grip')", 100 * pixels)
        tab.wait("desk.draft.values.thickStart && desk.draft.verdict && desk.draft.verdict.changes")
        thick = tab.run("desk.draft.values.thickStart")
        self.save(tab, "by the cDNA")
        fresh = desk.lines()[-1].split("\t")[13:]
        self.assertEqual(fresh[:3] + fresh[6:7] + fresh[9:10], ["chr1", "1000", end, thick, "3"])
        sizes = [int(size) for size in fresh[10].split(",") if size]
        self.assertEqual((sizes[0], sizes[2]), (500, int(end) - 4000))
        self.assertAlmostEqual(sizes[1], 500, delta=12)

    def test_an_end_between_blocks_has_an_offer(self):
        self.write("genes.bed", CODING)
        desk = self.desk()
        tab = self.tab(desk)
        self.find(tab, "coding")
        tab.key("e")
        tab.type("3500")
        tab.wait("document.querySelector('#hand.refused .offers button')")
        self.assertIn("between blocks 2 and 3", tab.text("#verdict"))
        tab.click("document.querySelector('.offers button')")
        self.save(tab, "shorter")
        self.assertEqual(desk.lines()[-1].split("\t")[13:][1:3], ["1000", "2800"])

    def test_a_summit_is_drawn_and_typed(self):
        self.write("genes.bed", PEAKS)
        desk = self.desk()
        tab = self.tab(desk)
        self.find(tab, "peak1")
        self.assertEqual(tab.run("[document.querySelectorAll('.summit').length > 0, document.getElementById('field-summit').value]"), [True, "2500"])
        tab.key("c")
        tab.run("document.getElementById('field-summit').focus(); document.getElementById('field-summit').select()")
        tab.type("2600")
        self.save(tab, "by the pile")
        self.assertEqual(desk.lines()[-1].split("\t")[-1], "1600")

    # The list

    def test_an_earlier_one_is_taken_back_from_the_list(self):
        desk = self.desk()
        desk.edit("remove\tchr1\t1000\t2000\tgeneA\t0\t+", reason="one")
        desk.edit("remove\tchr1\t3000\t4000\tgeneB\t0\t-", reason="two")
        tab = self.tab(desk)
        tab.key("j", "j")
        tab.wait("document.getElementById('hand').innerText.includes('1. ✓ done')")
        tab.key("Backspace")
        tab.wait("desk.state.corrections.find(one => one.number === 1).verdict === 'taken back'")
        tab.wait("desk.region.views && desk.region.views.records.includes('geneA') && !desk.region.views.records.includes('geneB')")

    def test_the_list_hides_none(self):
        self.write("corrections", "".join(f"# reason {at}\nadd\tchr1\t{at}\t{at + 9}\tn{at}\t0\t+\n" for at in range(1000)))
        desk = self.desk()
        tab = self.tab(desk)
        shown = "document.querySelectorAll('#list .card').length"
        self.assertEqual(tab.run(shown), 300)
        self.assertEqual(tab.text("#list .more"), "Show 300 more of 700 earlier ones")
        for count in (600, 900, 1000):
            tab.run("document.querySelector('#list .more').scrollIntoView()")
            tab.click("document.querySelector('#list .more')")
            tab.wait(f"{shown} === {count}")
        self.assertFalse(tab.run("Boolean(document.querySelector('#list .more'))"))

    def test_what_another_program_appends(self):
        desk = self.desk()
        tab = self.tab(desk)
        desk.edit("remove\tchr1\t1000\t2000\tgeneA\t0\t+", reason="one")
        with open(desk.script, "a", encoding="utf-8") as script:
            script.write("\n# by hand\nremove\tchr1\t3000\t4000\tgeneB\t0\t-\n")
        tab.wait("desk.state.corrections.length === 2 && desk.state.corrections[1].reason === 'by hand' || !document.getElementById('lost').hidden")
        if tab.run("desk.state.corrections.length") == 2:
            tab.wait("!desk.region.views.records.includes('geneB')")
        else:
            self.assertIn("script", tab.text("#lost"))

    # What goes wrong

    def test_kill_and_restart(self):
        desk = self.process()
        tab = self.tab(desk)
        self.find(tab, "geneA")
        tab.key("r")
        tab.wait("document.activeElement.id === 'why'")
        self.save(tab, "gone")
        desk.end(signal.SIGKILL)
        tab.wait("!document.getElementById('lost').hidden")
        self.assertIn("tart it again", tab.text("#lost"))
        again = self.process()
        tab = self.tab(again)
        self.assertEqual(tab.run("desk.state.corrections.map(one => [one.verdict, one.reason])"), [["done", "gone"]])
        tab.key("u")
        tab.wait("desk.state.corrections[0].verdict === 'taken back'")
        self.assertIn("add\tchr1\t1000\t2000\tgeneA\t0\t+", again.lines())

    def test_a_full_disk_is_a_sentence(self):
        desk = self.process()
        desk.edit("add\tchr1\t1\t5\tx\t0\t+", reason="one")
        tab = self.tab(desk)
        self.find(tab, "geneA")
        tab.key("r")
        tab.wait("document.activeElement.id === 'why' && desk.draft.verdict")
        subprocess.run(["prlimit", f"--pid={desk.process.pid}", f"--fsize={desk.script.stat().st_size}:"], check=True)
        tab.type("no room")
        tab.key("Enter")
        tab.wait("!document.getElementById('lost').hidden")
        self.assertEqual(len(desk.lines()), 2)
        subprocess.run(["prlimit", f"--pid={desk.process.pid}", "--fsize=unlimited:"], check=True)
        tab.click("document.querySelector('#lost button')")
        tab.wait("document.getElementById('lost').hidden")
        tab.key("Escape")
        self.find(tab, "geneB")
        tab.key("r")
        tab.wait("document.activeElement.id === 'why' && desk.draft.verdict")
        self.save(tab, "room again")
        self.assertEqual(len(desk.lines()), 4)

    def test_a_suspended_desk_is_a_sentence(self):
        desk = self.process()
        tab = self.tab(desk)
        self.find(tab, "geneA")
        os.kill(desk.process.pid, signal.SIGSTOP)
        tab.key("r")
        tab.wait("!document.getElementById('lost').hidden && document.getElementById('lost').innerText.includes('suspended')")
        os.kill(desk.process.pid, signal.SIGCONT)
        tab.wait("document.getElementById('lost').hidden && desk.draft.verdict")
        self.save(tab, "on again")
        self.assertEqual(len(desk.lines()), 2)

    def test_no_igv(self):
        with socket.socket() as port:
            if port.connect_ex(("127.0.0.1", 60151)) == 0:
                self.skipTest("an IGV runs")
        tab = self.tab(self.desk())
        tab.key("i")
        tab.wait("document.getElementById('hand').innerText.includes('No IGV listens on port 60151')")

    # Others

    def test_two_tabs(self):
        desk = self.desk()
        one = self.tab(desk)
        two = self.tab(desk)
        answer = desk.edit("remove\tchr1\t1000\t2000\tgeneA\t0\t+", reason="by another")[1]
        shown = two if not two.run("document.hidden") else one
        shown.wait("desk.state.corrections.length === 1 && !desk.region.views.records.includes('geneA')")
        self.assertEqual(desk.post("undo", number=answer["entry"]["number"] + 1)[0], 409)

    def test_a_reason_half_typed_survives_another_edit(self):
        desk = self.desk()
        tab = self.tab(desk)
        self.find(tab, "geneA")
        tab.key("e")
        tab.type("2100")
        tab.wait("desk.draft && desk.draft.verdict")
        tab.key("Enter")
        tab.type("because of")
        desk.edit("remove\tchr1\t3000\t4000\tgeneB\t0\t-", reason="by another")
        tab.wait("desk.state.corrections.length === 1 && document.querySelectorAll('.card').length === 1")
        self.assertEqual(tab.run("[document.activeElement.id, document.activeElement.value, desk.draft.values.end]"), ["why", "because of", "2100"])
        # .. and a record that another tab took is refused
        desk.edit("remove\tchr1\t1000\t2000\tgeneA\t0\t+", reason="by another")
        tab.wait("document.querySelector('#hand.refused')")
        self.assertIn("no such record", tab.text("#hand"))

    def test_hostile_names(self):
        self.write("genes.bed", "".join(f"chr1\t{100 * at}\t{100 * at + 80}\t{name}\t0\t+\n" for at, name in enumerate(HOSTILE, 1)))
        with open(self.folder / "genes.bed", "ab") as file:
            file.write(b"chr1\t5000\t5100\tbad\xff\xfe\t0\t+\n")
        self.write("corrections", f"# signed: {HOSTILE[0]} 2026-03-01T12:00:00+01:00\n# {HOSTILE[0]}\nremove\tchr1\t100\t180\t{HOSTILE[0]}\t0\t+\n\n# {HOSTILE[1]}\nremove\tchr1\t1\t2\t{HOSTILE[1]}\t0\t+\n")
        desk = self.desk("--sign", HOSTILE[3])
        tab = self.tab(desk)
        for name in HOSTILE[1:]:
            with self.subTest(name):
                self.find(tab, name)
                tab.key("e", "ArrowUp")
                self.save(tab, f"why {name}")
                tab.key("Escape")
                self.assertEqual(desk.lines()[-1].split("\t")[-3], name)
        shown = ""
        for list_tab in "3", "2", "1":
            tab.key(list_tab)
            time.sleep(.1)
            shown += tab.text()
        self.assertIsNone(tab.run("window.hacked ?? null"))
        self.assertEqual(tab.run("document.querySelectorAll('img, #list script, svg script').length"), 0)
        self.assertNotIn("\u202e", shown)
        self.assertIn("abc⟨202e⟩gnp.exe", shown)
        self.assertIn(f"\n{HOSTILE[0]}, 2026-03-01", shown)
        self.assertIn(f"\nabc⟨202e⟩gnp.exe, {desk.state()['corrections'][-1]['date'][:10]}", shown)
        # bytes that are no text come back as they were
        _, found = desk.ask("GET", "api/region?sequence=chr1&start=4990&end=5200&margin=0")
        row = json.loads(found)["views"]["records"].rstrip("\n").split("\t")
        self.assertEqual(desk.edit("\t".join(["remove", *row]), reason="bytes")[0], 200)
        self.assertTrue(desk.script.read_bytes().endswith(b"remove\tchr1\t5000\t5100\tbad\xff\xfe\t0\t+\n"))

    def test_another_page_cant_edit(self):
        """A page of another port of this machine, which a browser lets come nearer than any other."""
        desk = self.desk()
        with http.server.ThreadingHTTPServer(("127.0.0.1", 0), http.server.SimpleHTTPRequestHandler) as other:
            other.RequestHandlerClass.log_message = lambda *_: None
            threading.Thread(target=other.serve_forever, daemon=True).start()
            evil = self.browser.tab(f"http://127.0.0.1:{other.server_address[1]}/")
            line = json.dumps({"lines": ["remove\tchr1\t1000\t2000\tgeneA\t0\t+"], "reason": ""})
            seen = [evil.run(f"fetch({json.dumps(desk.address)} + {json.dumps(path)}, {options}).then(a => a.type === 'opaque' ? 'opaque' : a.text(), () => 'refused')") for path, options in (
                ("api/edit", f"{{method: 'POST', headers: {{'Content-Type': 'application/json'}}, body: {json.dumps(line)}}}"),
                ("api/edit", f"{{method: 'POST', mode: 'no-cors', body: {json.dumps(line)}}}"),
                ("api/state", "{}"), ("api/state", "{mode: 'no-cors'}"))]
            self.assertEqual(seen[::2], ["refused", "refused"])
            framed = evil.run(f"new Promise(done => {{ const frame = document.createElement('iframe'); frame.src = '{desk.address}'; frame.onload = () => {{ let seen = 'nothing'; try {{ seen = frame.contentDocument.body.innerText; }} catch (error) {{ }} done(seen); }}; document.body.append(frame); }})")
            self.assertEqual(framed, "nothing")
            form = f"<form method=post enctype=text/plain action={desk.address}api/edit><input name='{{&quot;lines&quot;:[&quot;x' value='&quot;]}}'></form>"
            evil.run(f"document.body.innerHTML = {json.dumps(form)}; document.forms[0].submit(); 1")
            time.sleep(.5)
            self.assertEqual(desk.lines(), [])
            evil.close()
            other.shutdown()
        while not self.browser.events.empty():  # its refusals are in the log of the browser
            self.browser.events.get()

    # The worklist

    def test_decisions_by_keys(self):
        self.write("old", OLD)
        desk = self.desk("--replay", "old")
        tab = self.tab(desk)
        tab.wait("desk.state.worklist")
        tab.key("2", "j")
        tab.wait("desk.draft && desk.draft.verdict && desk.draft.verdict.changes")
        tab.key("m")
        tab.wait("desk.state.worklist.open === 2")
        tab.key("x")
        tab.wait("document.activeElement.id === 'why'")
        tab.key("Enter")
        tab.wait("desk.state.worklist.open === 1 && desk.draft && desk.draft.verdict")
        tab.key("w")
        tab.wait("document.activeElement.id === 'field-start'")
        tab.type("2900")
        self.save(tab, "earlier")
        tab.wait("desk.state.worklist.open === 0")
        self.assertIn("All 3 lines have their decisions", tab.text("#hand"))
        self.assertEqual(desk.lines()[-1].split("\t")[8:10], ["2900", "4100"])
        self.assertIn("# dropped: remove\tchr1\t7000\t7100\tgeneX\t0\t+", desk.lines())

    def test_other_lines_are_offered(self):
        """One that both changed as the old line has it, and one whose record is gone as a new record; and one that the release has."""
        fits = "replace\tchr1\t3900\t4500\tgeneC\t5\t+\tchr1\t3900\t4600\tgeneC\t5\t+"
        self.write("old", "replace\tchr1\t3000\t3900\tgeneB\t0\t-\tchr1\t3000\t4100\tgeneB\t0\t-\n\n"
                   f"replace\tchr1\t7000\t7100\tgeneX\t0\t+\tchr1\t7000\t7050\tgeneX\t0\t+\n\nreplace\tchr1\t900\t2000\tgeneA\t0\t+\tchr1\t900\t2100\tgeneA\t0\t+\n\n{fits}\n")
        desk = self.desk("--replay", "old")
        desk.edit("replace\tchr1\t1000\t2000\tgeneA\t0\t+\tchr1\t1000\t2100\tgeneA\t0\t+", reason="before its decision")
        tab = self.tab(desk)
        tab.key("2", "j")
        for left, line in (2, "replace\tchr1\t3000\t4000\tgeneB\t0\t-\tchr1\t3000\t4100\tgeneB\t0\t-"), (1, "add\tchr1\t7000\t7050\tgeneX\t0\t+"):
            tab.wait("document.querySelector('#hand .offers button')")
            tab.click("document.querySelector('#hand .offers button')")
            self.save(tab, "as it was asked for")
            tab.wait(f"desk.state.worklist.open === {left}")
            self.assertEqual(desk.lines()[-1], line)
        tab.wait("document.querySelector('#hand.refused') && document.getElementById('hand').innerText.includes('after an earlier decision')")
        tab.key("x")
        tab.wait("document.activeElement.id === 'why'")
        tab.type("done already")
        tab.key("Enter")
        tab.wait("desk.state.worklist.open === 0")

    def test_another_paragraph_is_written_whole(self):
        self.write("old", "# together: two genes\nreplace\tchr1\t7000\t7100\tgeneX\t0\t+\tchr1\t7000\t7050\tgeneX\t0\t+\nadd\tchr1\t7050\t7100\tgeneY\t0\t+\n")
        desk = self.desk("--replay", "old")
        tab = self.tab(desk)
        tab.wait("desk.state.worklist")
        tab.key("2", "j", "w")
        tab.wait("document.activeElement.id === 'raw'")
        self.assertEqual(len(tab.run("document.activeElement.value").split("\n")), 2)
        tab.key("Escape")
        tab.wait("!document.getElementById('raw')")
        tab.key("w")
        tab.wait("document.activeElement.id === 'raw'")
        tab.run("document.activeElement.select()")
        tab.type("add chr1 7000 7050 geneX 0 +\nadd chr1 7050 7100 geneY 0 +")
        tab.key("Enter")
        self.save(tab, "new ones")
        tab.wait("desk.state.worklist.open === 0")
        self.assertEqual([line for line in desk.lines() if not line.startswith("# was: ")],
                         ["# together: two genes", "# new ones", "add\tchr1\t7000\t7050\tgeneX\t0\t+", "add\tchr1\t7050\t7100\tgeneY\t0\t+"])

    # How it looks

    def test_lanes_stay_while_the_view_moves(self):
        rows = sorted((37 * at % 3500, 37 * at % 3500 + 300 + at * 31 % 400, f"n{at}") for at in range(60))
        self.write("genes.bed", "".join(f"chr1\t{start}\t{end}\t{name}\t0\t+\n" for start, end, name in rows))
        desk = self.desk()
        tab = self.tab(desk)
        self.look(tab, 500, 1500)
        places = "Object.fromEntries([...document.querySelectorAll('.records .r')].filter(one => { const r = one.firstChild.getBBox(); return r.x + r.width > 0 && r.x < document.getElementById('drawing').clientWidth; }).map(one => [one.ariaLabel, Math.round(one.firstChild.getBBox().y)]))"
        before = tab.run(places)
        for _ in range(6):
            tab.key("ArrowRight")
            time.sleep(.15)
            after = tab.run(places)
            kept = set(before) & set(after)
            self.assertGreater(len(kept), 3)
            self.assertEqual({name: before[name] for name in kept}, {name: after[name] for name in kept})
            before = after

    def test_the_help_lists_every_key(self):
        tab = self.tab(self.desk())
        tab.key("?")
        tab.wait("document.getElementById('help').open")
        listed = set(tab.run("[...document.querySelectorAll('#help dt kbd')].map(one => one.innerText)"))
        self.assertGreaterEqual(listed, set("/gnpfierasotcbhdlujkmwxNPU?+0:123[]") | {"Enter", "Esc", "Alt"})
        tab.key("Escape")
        self.assertFalse(tab.run("document.getElementById('help').open"))

    def test_narrow_and_named(self):
        self.write("genes.bed", CODING)
        desk = self.desk("-b", "second.bed", "--fasta", "bases.fa")
        tab = self.tab(desk, width=390, height=844, mobile=True)
        self.find(tab, "coding")
        self.assertLessEqual(tab.run("document.documentElement.scrollWidth"), 390)
        tree = tab.send("Accessibility.getFullAXTree")["nodes"]
        controls = [node for node in tree if not node.get("ignored") and node.get("role", {}).get("value") in ("button", "textbox", "searchbox", "combobox", "tab", "link")]
        self.assertGreater(len(controls), 10)
        self.assertEqual([node for node in controls if not node.get("name", {}).get("value")], [])
        self.assertIn("coding, chr1 1,000 to 5,000, plus strand, 3 blocks", {node["name"]["value"] for node in controls})

    def test_bases_and_second_file(self):
        desk = self.desk("-b", "second.bed", "--fasta", "bases.fa")
        tab = self.tab(desk)
        tab.key("/")
        tab.type("chr1:1491-1560")
        tab.key("Enter")
        tab.wait("desk.region.bases && document.querySelector('.base')")
        bases, start, end = tab.run("[desk.region.bases, desk.region.start, desk.region.end]")
        self.assertEqual(bases.upper(), ("ACGTT" * 2000)[start:end])
        self.assertIn("gap", tab.run("document.querySelector('.second').getAttribute('aria-label')"))
        tab.key(":")
        tab.wait("document.activeElement.id === 'raw'")
        tab.type("removeb chr1 1500 1600 gap")
        tab.key("Enter")
        self.save(tab, "closed")
        tab.wait("!document.querySelector('.second')")

    def test_a_track_without_a_record_and_a_genome_of_one_base(self):
        self.write("sizes", "chr1\t1\n")
        self.write("genes.bed", "")
        desk = self.desk()
        tab = self.tab(desk)
        tab.key("a")
        tab.wait("desk.draft && desk.draft.verdict")
        self.save(tab, "all of it")
        self.assertEqual(desk.lines()[-1].split("\t")[:4], ["add", "chr1", "0", "1"])


if __name__ == "__main__":
    unittest.main()
