"""A desk that runs over files of a folder, and requests to its server by hand."""
import argparse
import http.client
import json
import os
import signal
import subprocess
import sys
import threading
import time
from contextlib import ExitStack

import helpers
from bedkeep.commands import desk as command
from bedkeep.commands.core import opened
from bedkeep.desk.server import Server

GENES = "chr1\t1000\t2000\tgeneA\t0\t+\nchr1\t3000\t4000\tgeneB\t0\t-\nchr1\t3900\t4500\tgeneC\t5\t+\nchr2\t100\t200\tgeneD\t0\t.\n"
OLD = ("# longer\nreplace\tchr1\t1000\t2050\tgeneA\t0\t+\tchr1\t900\t2050\tgeneA\t0\t+\n\n# no gene\nremove\tchr2\t100\t200\tgeneD\t0\t.\n\n"
       "# a typo\nremove\tchr1\t7000\t7100\tgeneX\t0\t+\n\n# other score\nreplace\tchr1\t3000\t4000\tgeneB\t9\t-\tchr1\t3000\t4100\tgeneB\t9\t-\n")


class Asked:
    """Requests to the server of a desk, by hand. address: of its page; script: the file"""

    def __init__(self, address, script):
        self.address, self.script = address, script
        _, _, self.host, self.token, _ = address.split("/")
        self.port = int(self.host.split(":")[1])

    def lines(self):
        """The lines of the script that are no empty ones."""
        text = self.script.read_bytes().decode("utf-8", "replace") if self.script.exists() else ""
        return [line for line in text.split("\n") if line]

    def ask(self, method, path, body=None, **headers):
        """An answer of the server: its status, and its text."""
        connection = http.client.HTTPConnection("127.0.0.1", self.port, timeout=60)
        given = {"Host": self.host, "Connection": "close"}
        if method == "POST":
            given.update({"Origin": f"http://{self.host}", "Content-Type": "application/json", "Sec-Fetch-Site": "same-origin"})
        given.update({name.replace("_", "-"): value for name, value in headers.items()})
        connection.putrequest(method, path if path.startswith("/") else f"/{self.token}/{path}", skip_host=True, skip_accept_encoding=True)
        for name, value in given.items():
            if value is not None:
                connection.putheader(name, value)
        data = json.dumps(body).encode() if isinstance(body, dict) else body
        if data is not None and "Content_Length" not in headers:
            connection.putheader("Content-Length", str(len(data)))
        connection.endheaders(data)
        answer = connection.getresponse()
        text = answer.read().decode()
        connection.close()
        return answer.status, text

    def post(self, path, **body):
        status, text = self.ask("POST", f"api/{path}", body)
        return status, json.loads(text)

    def edit(self, *lines, reason="", **more):
        return self.post("edit", lines=list(lines), reason=reason, **more)

    def state(self, seconds=60, until=lambda state: "reading" not in state):
        """The state, once something of it is so: the track is read, by default."""
        last = time.monotonic() + seconds
        while time.monotonic() < last:
            state = json.loads(self.ask("GET", "api/state")[1])
            if until(state):
                return state
            time.sleep(.05)
        raise AssertionError(f"never so: {json.dumps(state)[:500]}")


class Here(Asked):
    """A desk in this process."""

    def __init__(self, folder, *words, script="corrections"):
        parser = argparse.ArgumentParser()
        command.options(parser)
        given = parser.parse_args(["sizes", "genes.bed", "--script", script, *words])
        files, views = command.asked(given)
        there = {name: value and os.path.join(folder, value) for name, value in files._asdict().items() if isinstance(value, str) and name != "sign"}
        files = files._replace(**there, replayed=[os.path.join(folder, path) for path in files.replayed])
        self._stack = ExitStack()
        self.server = Server(0)
        self._stack.callback(self.server.server_close)
        self._stack.callback(self.server.shutdown)
        threading.Thread(target=self.server.serve_forever, kwargs={"poll_interval": .05}, daemon=True).start()
        self.server.core = opened(files, views, self._stack)
        super().__init__(self.server.guard.address, folder / script)

    def end(self):
        self.server.is_over = True
        self._stack.close()


class Process(Asked):
    """A desk in a process of its own."""

    def __init__(self, folder, *words, script="corrections"):
        self.process = subprocess.Popen([sys.executable, "-m", "bedkeep", "desk", "sizes", "genes.bed", "--script", script, "--no-browser", *words],
                                        cwd=folder, stdout=subprocess.PIPE, stderr=subprocess.PIPE, text=True)
        address = self.process.stdout.readline().strip()
        if not address:
            raise AssertionError(self.process.communicate()[1])
        super().__init__(address, folder / script)

    def end(self, number=signal.SIGINT):
        if self.process.poll() is None:
            self.process.send_signal(number)
        self.process.wait(60)
        said = self.process.stderr.read()
        self.process.stdout.close()
        self.process.stderr.close()
        return self.process.returncode, said


class Case(helpers.Case):
    """A folder with a small track, and desks over it."""

    def setUp(self):
        super().setUp()
        self.write("sizes", "chr1\t10000\nchr2\t500\n")
        self.write("genes.bed", GENES)
        self.write("second.bed", "chr1\t1500\t1600\tgap\nchr1\t4400\t4600\trepeat\n")
        self.write("bases.fa", ">chr1\n" + "ACGTT" * 2000 + "\n")

    write = helpers.Case.file

    def desk(self, *words, **options):
        """A desk over the files."""
        desk = Here(self.folder, *words, **options)
        self.addCleanup(desk.end)
        return desk

    def process(self, *words, **options):
        """A desk that may be killed."""
        desk = Process(self.folder, *words, **options)
        self.addCleanup(lambda: desk.process.poll() is None and desk.end(signal.SIGKILL))
        desk.state()
        return desk
