"""The server of the desk, without a browser: which requests it answers, and what of an edit is on the disk when it answers."""
import http.client
import io
import json
import os
import re
import signal
import socket
import subprocess
import threading
import time
import unittest
from contextlib import redirect_stderr, redirect_stdout
from pathlib import Path
from unittest import mock

from desks import Asked, Case, Process

from bedkeep import Error, commands
from bedkeep.commands import desk as command
from bedkeep.commands.core import opened
from bedkeep.desk import guard, igv

EDIT = {"lines": ["remove\tchr1\t1000\t2000\tgeneA\t0\t+"], "reason": ""}


class Requests(Case):
    """What is answered, and what isn't."""

    def test_wrong_host(self):
        desk = self.desk()
        for host in ("evil.example", f"evil.example:{desk.port}", "127.0.0.1", "127.0.0.1:1", f"127.0.0.1.evil.example:{desk.port}", "", None):
            with self.subTest(host):
                self.assertIn(desk.ask("GET", "api/state", Host=host)[0], (400, 421))
        self.assertEqual(desk.ask("GET", "api/state", Host=f"localhost:{desk.port}")[0], 200)

    def test_wrong_origin(self):
        desk = self.desk()
        for origin in ("http://evil.example", "null", f"https://{desk.host}", "http://127.0.0.1", f"http://localhost:{desk.port}", None):
            with self.subTest(origin):
                self.assertEqual(desk.ask("POST", "api/edit", EDIT, Origin=origin)[0], 403)
                if origin:
                    self.assertEqual(desk.ask("GET", "api/state", Origin=origin)[0], 403)
        for site in ("cross-site", "same-site", "none", None):
            self.assertEqual(desk.ask("POST", "api/edit", EDIT, Sec_Fetch_Site=site)[0], 403, site)
        self.assertEqual(desk.ask("GET", "api/state", Sec_Fetch_Site="same-site")[0], 403)
        self.assertEqual(desk.ask("GET", "", Sec_Fetch_Site="cross-site")[0], 403)
        self.assertEqual(desk.ask("GET", "", Sec_Fetch_Site="none", Sec_Fetch_Mode="navigate")[0], 200)
        for kind in ("text/plain", "application/x-www-form-urlencoded", "multipart/form-data; boundary=x", None):
            self.assertEqual(desk.ask("POST", "api/edit", json.dumps(EDIT).encode(), Content_Type=kind)[0], 415, kind)
        self.assertEqual(desk.lines(), [])

    def test_wrong_token(self):
        desk = self.desk()
        self.assertTrue(re.fullmatch(r"http://127\.0\.0\.1:\d+/[\w-]{32}/", desk.address))
        for path in ("/", "//evil.example/", "//evil.example/%2e%2e", *(f"/{token}/api/state" for token in (
                desk.token[:-1], desk.token + "x", desk.token.swapcase(), "%00", "%C3%A9", "%FF", ""))):
            self.assertEqual(desk.ask("GET", path)[0], 403, path)

    def test_no_files_but_its_own(self):
        desk = self.desk()
        for path in ("../../etc/passwd", "%2e%2e/server.py", "page.html", "desk.css/..", "__init__.py", "api", "api/nothing", "script/x"):
            self.assertEqual(desk.ask("GET", path)[0], 404, path)
        for path in ("", "desk.css", "desk.js", "text.js"):
            self.assertEqual(desk.ask("GET", path)[0], 200, path)

    def test_what_the_browser_is_allowed(self):
        desk = self.desk()
        connection = http.client.HTTPConnection("127.0.0.1", desk.port, timeout=20)
        connection.request("GET", f"/{desk.token}/")
        answer = connection.getresponse()
        page = answer.read().decode()
        connection.close()
        self.assertTrue(answer.headers["Content-Security-Policy"].startswith("default-src 'none'; script-src 'self'; style-src 'self'; "))
        self.assertNotIn("unsafe", answer.headers["Content-Security-Policy"])
        self.assertEqual([answer.headers[name] for name in ("Referrer-Policy", "X-Content-Type-Options", "Cache-Control", "Server")],
                         ["no-referrer", "nosniff", "no-store", "bedkeep"])
        self.assertIsNone(re.search(r"<script>|\son\w+=|style=|https?:", page))

    def test_names_are_texts_alone(self):
        """No source of the page makes HTML of a text."""
        for path in Path(guard.__file__).parent.glob("page/*.js"):
            source = path.read_text(encoding="utf-8")
            self.assertIsNone(re.search(r"innerHTML|outerHTML|insertAdjacentHTML|document\.write|DOMParser|\beval\b|new Function", source), path.name)

    def test_bad_bodies(self):
        desk = self.desk()
        for body in (b"", b"{", b"[]", b"null", b"\xff", b'{"lines": 5}', b'{"lines": []}', b'{"lines": [5]}', b'{"lines": "x"}', b'{"lines": ["a\\nb"]}',
                     b'{"lines": [""]}', b'{"lines": ["# x"]}', b'{"lines": ["open\\tx\\tmerge"]}'):
            with self.subTest(body):
                self.assertEqual(desk.ask("POST", "api/edit", body)[0], 400)
        self.assertEqual(desk.ask("POST", "api/edit", b"x", Content_Length="99999999")[0], 400)
        self.assertEqual(desk.ask("POST", "api/edit", b"x", Content_Length="-5")[0], 400)
        self.assertEqual(desk.ask("POST", "api/edit", b"0\r\n\r\n", Transfer_Encoding="chunked")[0], 501)
        for body in (b'{"make": 5}', b'{"make": {"what": "split", "records": [], "value": "5"}}', b'{"make": {"what": 5, "records": [["a"]]}}'):
            self.assertIn(desk.ask("POST", "api/try", body)[0], (200, 400))
        self.assertEqual(desk.ask("GET", "api/region?sequence=chr9&start=0&end=1&margin=0")[0], 400)
        self.assertEqual(desk.ask("GET", "api/region?sequence=chr1&start=x&end=1&margin=0")[0], 400)
        self.assertEqual(desk.ask("GET", "api/region?sequence=chr1&start=-5&end=99999999999999&margin=0")[0], 200)
        self.assertEqual(desk.lines(), [])

    def test_only_this_machine(self):
        desk = self.desk()
        other = socket.gethostbyname(socket.gethostname())
        if not other.startswith("127."):
            with self.assertRaises(OSError):
                socket.create_connection((other, desk.port), 2)

    def test_nothing_of_the_token_is_left(self):
        """It isn't in the arguments or the environment of a process, and not in what is logged."""
        desk = self.process()
        desk.ask("GET", "api/state")
        desk.ask("GET", "api/nothing")
        for process in Path("/proc").glob("[0-9]*"):
            for name in ("cmdline", "environ"):
                try:
                    self.assertNotIn(desk.token.encode(), (process / name).read_bytes())
                except OSError:
                    pass  # it has ended, or is of another user
        status, said = desk.end()
        self.assertEqual((status, said), (0, "\ncorrections: 0 corrections\n"))
        self.assertFalse([path for path in self.folder.iterdir() if desk.token.encode() in path.read_bytes()])


class Crowds(Case):
    """Somebody else on the machine, who lacks the token."""

    def test_idle_connections_hold_nobody_up(self):
        """The oldest goes when there are too many: nobody waits until their time is over."""
        desk = self.desk()
        with mock.patch.object(guard, "SECONDS_TO_SHOW", 600):
            idle = [socket.create_connection(("127.0.0.1", desk.port)) for _ in range(3 * guard.MOST_UNKNOWN)]
            for one in idle[::2]:
                one.sendall(b"GET / HTTP/1.1\r\n")
            for _ in range(5):
                self.assertEqual(desk.ask("GET", "api/state")[0], 200)
            for one in idle:
                one.close()

    def test_a_slow_head_is_cut(self):
        desk = self.desk()
        begun = time.monotonic()
        with socket.create_connection(("127.0.0.1", desk.port), timeout=20) as slow:
            try:
                while time.monotonic() - begun < 4 * guard.SECONDS_TO_SHOW:
                    slow.sendall(b"x")
                    time.sleep(.2)
            except OSError:
                pass
        self.assertLess(time.monotonic() - begun, 3 * guard.SECONDS_TO_SHOW)

    def test_a_long_head_is_cut(self):
        desk = self.desk()
        with socket.create_connection(("127.0.0.1", desk.port), timeout=20) as long:
            try:
                for _ in range(100):
                    long.sendall(b"GET / HTTP/1.1\r\n" + b"X: " + b"y" * 4000 + b"\r\n")
                self.assertNotIn(b" 200 ", long.recv(1000))
            except OSError:
                pass
        self.assertEqual(desk.ask("GET", "api/state")[0], 200)

    def test_a_kept_connection_shows_the_token_each_time(self):
        desk = self.desk()
        connection = http.client.HTTPConnection("127.0.0.1", desk.port, timeout=20)
        for path, status in ((f"/{desk.token}/api/state", 200), ("/wrong/api/state", 403)):
            connection.request("GET", path)
            answer = connection.getresponse()
            answer.read()
            self.assertEqual(answer.status, status)
        connection.close()


class Edits(Case):
    """What the server does of an edit."""

    def test_tried_lines_leave_nothing(self):
        desk = self.desk("-b", "second.bed")
        before = desk.ask("GET", "api/region?sequence=chr1&start=0&end=10000&margin=0")[1]
        for line in ("replace\tchr1\t1000\t2000\tgeneA\t0\t+\tchr1\t1000\t3100\tgeneA\t0\t+", "add\tchr1\t1\t2\tx\t0\t.", "resize\tchr1\t20000", "removeb\tchr1\t1500\t1600\tgap",
                     "add\tchr1\t9\t5\tx\t0\t.", "add\tchr7\t1\t2", "remove\tchr1"):
            status, answer = desk.post("try", lines=[line])
            self.assertEqual(status, 200, (line, answer))
        self.assertEqual(desk.ask("GET", "api/region?sequence=chr1&start=0&end=10000&margin=0")[1], before)
        self.assertEqual(desk.lines(), [])
        changes = {one["view"]: one for one in desk.post("try", lines=["add\tchr1\t9990\t10000\tx\t0\t."])[1]["changes"]}
        self.assertEqual(changes["merge"]["came"], ["chr1\t9990\t10000"])
        self.assertEqual(changes["records"]["came"], ["chr1\t9990\t10000\tx\t0\t."])

    def test_refusals_have_offers(self):
        desk = self.desk("-b", "second.bed")
        for line, message, offer in (
                ("remove\tchr1\t1000\t2001\tgeneA\t0\t+", "no such record", "remove\tchr1\t1000\t2000\tgeneA\t0\t+"),
                ("replace\tchr1\t1000\t2000\tgeneX\t0\t+\tchr1\t1000\t2500\tgeneX\t0\t+", "no such record", "replace\tchr1\t1000\t2000\tgeneA\t0\t+\tchr1\t1000\t2500\tgeneA\t0\t+"),
                ("add\tchr1\t9000\t10001\tx\t0\t.", "end past the sequence's end: '10001'", "add\tchr1\t9000\t10000\tx\t0\t."),
                ("add\tchr1\t20\t10\tx\t0\t.", "start not below end", "add\tchr1\t10\t20\tx\t0\t.")):
            with self.subTest(line):
                refused = desk.post("try", lines=[line])[1]["refused"][0]
                self.assertIn(message, refused["message"])
                self.assertIn([offer], [one["lines"] for one in refused["offers"]])

    def test_several_lines_whole_or_not_at_all(self):
        desk = self.desk()
        lines = ["remove\tchr1\t1000\t2000\tgeneA\t0\t+", "remove\tchr1\t3000\t4001\tgeneB\t0\t-"]
        self.assertIn("refused", desk.edit(*lines)[1])
        self.assertEqual(desk.lines(), [])
        made = desk.post("try", make={"what": "shift", "records": [["chr1", "1000", "2000", "geneA", "0", "+"], ["chr1", "3000", "4000", "geneB", "0", "-"]], "value": "10"})[1]
        self.assertEqual(len(made["given"]), 2)
        answer = desk.edit(*made["given"], reason="ten later", version=0)[1]
        self.assertEqual([entry["lines"] for entry in answer["state"]["corrections"]], [made["given"]])
        self.assertEqual(desk.lines(), ["# together: ten later", *made["given"]])
        self.assertEqual(desk.post("undo", number=answer["entry"]["number"])[0], 200)
        self.assertEqual(desk.lines(), [])
        self.assertEqual(desk.post("redo")[0], 200)
        self.assertEqual(desk.lines(), ["# together: ten later", *made["given"]])

    def test_an_earlier_one_is_taken_back_by_itself(self):
        desk = self.desk()
        first = desk.edit("remove\tchr1\t1000\t2000\tgeneA\t0\t+", reason="one")[1]["entry"]["number"]
        desk.edit("remove\tchr1\t3000\t4000\tgeneB\t0\t-", reason="two")
        status, answer = desk.post("back", number=first, version=0)
        self.assertEqual(status, 200, answer)
        self.assertIn("add\tchr1\t1000\t2000\tgeneA\t0\t+", desk.lines())
        verdicts = {entry["number"]: entry["verdict"] for entry in answer["state"]["corrections"]}
        self.assertEqual(verdicts[first], "taken back")

    def test_several_columns_of_a_record(self):
        self.write("genes.bed", "chr1\t1000\t5000\tgene\t0\t+\t1200\t4500\t0\t3\t500,300,1000,\t0,1500,3000,\n")
        desk = self.desk()
        record = "chr1\t1000\t5000\tgene\t0\t+\t1200\t4500\t0\t3\t500,300,1000,\t0,1500,3000,".split("\t")
        for values, fresh in (
                ({"end": "5100"}, "chr1\t1000\t5100\tgene\t0\t+\t1200\t4500\t0\t3\t500,300,1100,\t0,1500,3000,"),
                ({"thickStart": "1250", "name": "other"}, "chr1\t1000\t5000\tother\t0\t+\t1250\t4500\t0\t3\t500,300,1000,\t0,1500,3000,"),
                ({"blocks": "900-1500,2500-2800,4000-5000"}, "chr1\t900\t5000\tgene\t0\t+\t1200\t4500\t0\t3\t600,300,1000,\t0,1600,3100,")):
            with self.subTest(values):
                answer = desk.post("try", make={"what": "change", "records": [record], "values": values})[1]
                self.assertEqual([one["came"] for one in answer["changes"] if one["view"] == "records"], [[fresh]])
        refused = desk.post("try", make={"what": "change", "records": [record], "values": {"blocks": "900-1500,1400-2800"}})[1]["refused"]
        self.assertIn("block 1 ends after block 2 begins", refused[0]["message"])

    def test_one_desk_for_a_script(self):
        self.process()
        with self.assertRaisesRegex(AssertionError, "has it open"):
            Process(self.folder)

    def test_interrupt_ends_cleanly(self):
        desk = self.process()
        desk.edit("remove\tchr2\t100\t200\tgeneD\t0\t.", reason="no gene")
        self.assertEqual(desk.end(), (0, "\ncorrections: 1 correction\n"))
        self.assertEqual(desk.lines(), ["# no gene", "remove\tchr2\t100\t200\tgeneD\t0\t."])

    def test_untouched_script_isnt_left(self):
        desk = self.process()
        desk.end()
        self.assertFalse(desk.script.exists())

    def test_killed_at_any_moment(self):
        """After kill -9 the script has every edit that was answered, whole, and at most one more."""
        desk = self.process()
        answered = 0
        connection = http.client.HTTPConnection("127.0.0.1", desk.port, timeout=20)
        with subprocess.Popen(["bash", "-c", f"sleep .6; kill -9 {desk.process.pid}"]):
            try:
                while True:
                    body = json.dumps({"lines": [f"add\tchr1\t{answered}\t{answered + 5}\tkilled{answered}\t0\t+"], "reason": f"reason {answered}"})
                    connection.request("POST", f"/{desk.token}/api/edit", body, {"Origin": f"http://{desk.host}", "Content-Type": "application/json", "Sec-Fetch-Site": "same-origin"})
                    json.loads(connection.getresponse().read())
                    answered += 1
            except (OSError, http.client.HTTPException, ValueError):
                pass
        connection.close()
        desk.end()
        self.assertGreater(answered, 0)
        lines = desk.lines()
        self.assertIn(len(lines) // 2, (answered, answered + 1))
        for at in range(answered):
            self.assertEqual(lines[2 * at:2 * at + 2], [f"# reason {at}", f"add\tchr1\t{at}\t{at + 5}\tkilled{at}\t0\t+"])

    def test_full_disk(self):
        """An edit that can't be written down isn't done."""
        desk = self.process()
        desk.edit("add\tchr1\t1\t5\tx\t0\t+", reason="one")
        subprocess.run(["prlimit", f"--pid={desk.process.pid}", f"--fsize={desk.script.stat().st_size}:"], check=True)
        status, answer = desk.edit("add\tchr1\t7\t9\ty\t0\t+", reason="two")
        self.assertEqual(status, 507, answer)
        subprocess.run(["prlimit", f"--pid={desk.process.pid}", "--fsize=unlimited:"], check=True)
        self.assertEqual(desk.post("try", lines=["remove\tchr1\t7\t9\ty\t0\t+"])[1]["refused"][0]["reason"], "no such record")
        self.assertEqual(desk.edit("add\tchr1\t7\t9\ty\t0\t+", reason="two")[0], 200)
        self.assertEqual(len(desk.lines()), 4)

    def test_a_dead_program(self):
        desk = self.desk()
        desk.server.core.session._talk.kill()
        status, answer = desk.edit("add\tchr1\t1\t5\tx\t0\t+")
        self.assertEqual(status, 503, answer)
        self.assertEqual(desk.lines(), [])


class Command(Case):
    """The command, from its options to Ctrl-C."""

    def run_desk(self, use, *words, **patched):
        """Runs the command with options while another thread uses the desk, then interrupts it: status, and what it printed."""
        printed, failures = io.StringIO(), []

        def begin():
            try:
                while not printed.getvalue().endswith("/\n"):
                    time.sleep(.02)
                use(Asked(printed.getvalue().strip(), self.folder / "corrections"))
            except BaseException as failure:
                failures.append(failure)
            finally:
                os.kill(os.getpid(), signal.SIGINT)

        thread = threading.Thread(target=begin)
        said = io.StringIO()
        with redirect_stdout(printed), redirect_stderr(said), mock.patch.multiple(command, SOON=.05, LAST=.5, **patched):
            thread.start()
            try:
                status = commands.main(["desk", str(self.folder / "sizes"), str(self.folder / "genes.bed"), *words])
            except SystemExit as end:
                status = end.code
            finally:
                try:
                    thread.join()
                    time.sleep(.1)
                except KeyboardInterrupt:
                    pass
        for failure in failures:
            raise failure
        return status, said.getvalue()

    def test_it_serves_until_an_interrupt(self):
        pages = []

        def shown(address):
            path = Path(address.removeprefix("file://"))
            pages.append((path.stat().st_mode & 0o777, path.read_text()))

        def use(asked):
            self.assertEqual(asked.state()["views"], ["records", "merge -d 5"])
            self.assertEqual(asked.edit("remove\tchr2\t100\t200\tgeneD\t0\t.", reason="no gene")[0], 200)
            self.assertIn(asked.token, pages[0][1])

        with mock.patch("webbrowser.open", shown):
            status, said = self.run_desk(use, "--view", "merge -d 5")
        self.assertEqual((status, pages[0][0]), (0, 0o600))
        script = self.folder / "genes.bed.corrections"
        self.assertEqual(said, f"the script is {script}\n\n{script}: 1 correction\n")
        self.assertEqual(script.read_text(), "# no gene\nremove\tchr2\t100\t200\tgeneD\t0\t.\n")

    def test_the_track_is_being_read(self):
        go_on = threading.Event()

        def slow(*given):
            go_on.wait(10)
            return opened(*given)

        def use(asked):
            self.assertEqual(json.loads(asked.ask("GET", "api/state")[1]), {"reading": "Reading the track .."})
            self.assertEqual(asked.ask("GET", "api/find?text=x")[0], 503)
            go_on.set()
            self.assertEqual(asked.state()["corrections"], [])

        self.assertEqual(self.run_desk(use, "--no-browser", opened=slow)[0], 0)

    def test_the_page_hears_why_there_is_no_track(self):
        def fails(*_):
            time.sleep(.3)
            raise Error("sizes: line 1: no length")

        def use(asked):
            while "reading" in asked.ask("GET", "api/state")[1]:
                time.sleep(.02)
            status, text = asked.ask("GET", "api/state")
            self.assertEqual((status, json.loads(text)["error"]), (503, "sizes: line 1: no length"))
            time.sleep(1)

        status, said = self.run_desk(use, "--no-browser", opened=fails)
        self.assertEqual(status, 2)
        self.assertTrue(said.endswith("sizes: line 1: no length\n"))


class Igv(Case):
    """A place is sent to what listens on IGV's port."""

    def test_nobody_listens(self):
        with socket.socket() as free:
            free.bind(("127.0.0.1", 0))
            igv.PORT, before = free.getsockname()[1], igv.PORT
            self.addCleanup(setattr, igv, "PORT", before)
            self.assertIn("No IGV listens on port", igv.show("chr1", 100, 200))
            self.assertIn("no name of a sequence with spaces", igv.show("chr1 x\nexit", 100, 200))

    def test_a_place_from_1(self):
        taken = []
        with socket.create_server(("127.0.0.1", 0)) as server:
            igv.PORT, before = server.getsockname()[1], igv.PORT
            self.addCleanup(setattr, igv, "PORT", before)

            def answer():
                for said in (b"OK\n", b"ERROR no such place\n"):
                    connection, _ = server.accept()
                    with connection:
                        taken.append(connection.recv(100))
                        connection.sendall(said)

            thread = threading.Thread(target=answer)
            thread.start()
            self.assertEqual(igv.show("chr1", 100, 200), "IGV shows chr1:101-200.")
            self.assertEqual(igv.show("chr1", 0, 1), "IGV says: ERROR no such place")
            thread.join()
        self.assertEqual(taken, [b"goto chr1:101-200\n", b"goto chr1:1-1\n"])


if __name__ == "__main__":
    unittest.main()
