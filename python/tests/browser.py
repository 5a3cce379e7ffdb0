"""Drives a headless Chromium by the DevTools protocol over two pipes: nothing but the standard library is needed."""
import base64
import json
import os
import queue
import shutil
import subprocess
import tempfile
import threading
import time

CHROMIUM = next((path for path in ("/usr/lib/chromium/chromium", shutil.which("chromium"), shutil.which("google-chrome")) if path and os.path.exists(path)), None)
KEYS = {"Enter": (13, "\r"), "Escape": (27, ""), "Tab": (9, ""), "ArrowLeft": (37, ""), "ArrowRight": (39, ""), "ArrowUp": (38, ""),
        "ArrowDown": (40, ""), "Backspace": (8, "")}


class Failed(Exception):
    """The browser says that something can't be done."""


class Browser:
    """A Chromium without a window. `events` has what its tabs say."""

    def __init__(self):
        self.folder = tempfile.TemporaryDirectory(prefix="desk-browser-", ignore_cleanup_errors=True)
        ours_out, theirs_in = os.pipe()
        theirs_out, ours_in = os.pipe()
        # The browser reads commands from 3 and writes answers to 4.
        command = ["bash", "-c", f'exec "$@" 3<&{ours_out} 4>&{ours_in}', "bash", CHROMIUM, "--headless=new", "--no-sandbox",
                   "--disable-gpu", "--remote-debugging-pipe", "--no-first-run", "--disable-dev-shm-usage", "--hide-scrollbars", "--force-color-profile=srgb",
                   f"--user-data-dir={self.folder.name}", "about:blank"]
        self.process = subprocess.Popen(command, pass_fds=(ours_out, ours_in), stdin=subprocess.DEVNULL, stdout=subprocess.DEVNULL, stderr=subprocess.DEVNULL, start_new_session=True)
        os.close(ours_out)
        os.close(ours_in)
        self._to, self._from = theirs_in, theirs_out
        self._count, self._answers, self._lock = 0, {}, threading.Lock()
        self.events = queue.Queue()
        threading.Thread(target=self._read, daemon=True).start()

    def _read(self):
        rest = b""
        while True:
            piece = os.read(self._from, 1 << 16)
            if not piece:
                return
            *messages, rest = (rest + piece).split(b"\0")
            for message in messages:
                said = json.loads(message)
                if "id" in said:
                    self._answers.pop(said["id"]).put(said)
                else:
                    self.events.put(said)

    def send(self, method, session=None, **parameters):
        with self._lock:
            self._count += 1
            waiting = self._answers[self._count] = queue.Queue()
            message = {"id": self._count, "method": method, "params": parameters, **({"sessionId": session} if session else {})}
            data = json.dumps(message).encode() + b"\0"
            while data:
                data = data[os.write(self._to, data):]
        answer = waiting.get(timeout=600)
        if "error" in answer:
            raise Failed(f"{method}: {answer['error']}")
        return answer["result"]

    def tab(self, address="about:blank", width=1280, height=800, dark=False, mobile=False):
        return Tab(self, address, width, height, dark, mobile)

    def close(self):
        try:
            self.send("Browser.close")
        except Exception:
            pass
        try:
            self.process.wait(10)
        except subprocess.TimeoutExpired:
            self.process.kill()
            self.process.wait()
        self.folder.cleanup()


class Tab:
    """A tab that shows a desk, with the keys and the mouse of who uses it."""

    def __init__(self, browser, address, width, height, dark, mobile):
        self.browser = browser
        self.target = browser.send("Target.createTarget", url="about:blank")["targetId"]
        self.session = browser.send("Target.attachToTarget", targetId=self.target, flatten=True)["sessionId"]
        self.send("Page.enable")
        self.send("Runtime.enable")
        self.send("Log.enable")
        self.size(width, height, mobile)
        self.send("Emulation.setEmulatedMedia", features=[{"name": "prefers-color-scheme", "value": "dark" if dark else "light"}])
        if address != "about:blank":
            self.open(address)

    def send(self, method, **parameters):
        return self.browser.send(method, self.session, **parameters)

    def size(self, width, height, mobile=False):
        self.send("Emulation.setDeviceMetricsOverride", width=width, height=height, deviceScaleFactor=1, mobile=mobile)

    def open(self, address):
        self.send("Page.navigate", url=address)
        self.wait("document.readyState === 'complete' && location.href !== 'about:blank'")

    def ready(self):
        """Waits until the page shows the track."""
        self.wait("window.desk && desk.state && desk.region && document.querySelector('#drawing .lane')")
        return self

    def run(self, text):
        answer = self.send("Runtime.evaluate", expression=text, awaitPromise=True, returnByValue=True)
        if "exceptionDetails" in answer:
            raise Failed(json.dumps(answer["exceptionDetails"])[:600])
        return answer["result"].get("value")

    def wait(self, text, seconds=60):
        begun = time.monotonic()
        while time.monotonic() - begun < seconds:
            try:
                if self.run(f"Boolean({text})"):
                    return
            except Failed:
                pass
            time.sleep(.02)
        raise AssertionError(f"never: {text}; the hand has {self.run('document.getElementById(`hand`)?.innerText')!r}")

    def key(self, *keys):
        for key in keys:
            code, text = KEYS.get(key, (0, key))
            named = {"key": key, **({"windowsVirtualKeyCode": code} if code else {})}
            self.send("Input.dispatchKeyEvent", type="keyDown", text=text, **named) if text else self.send("Input.dispatchKeyEvent", type="rawKeyDown", **named)
            self.send("Input.dispatchKeyEvent", type="keyUp", **named)

    def type(self, text):
        self.send("Input.insertText", text=text)

    def mouse(self, kind, x, y, buttons=1, shift=False):
        self.send("Input.dispatchMouseEvent", type=kind, x=x, y=y, button="left" if kind != "mouseMoved" or buttons else "none",
                  buttons=buttons, clickCount=1, modifiers=8 if shift else 0)

    def drawn(self):
        """Waits until what the page was asked to draw is drawn: frames come in the order in which they are asked for, and a hidden tab has none."""
        self.run("document.hidden || new Promise(done => requestAnimationFrame(() => requestAnimationFrame(() => done(true))))")

    def middle(self, element):
        """The middle of an element, on the screen, once all is drawn."""
        self.drawn()
        return self.run(f"(() => {{ const r = ({element}).getBoundingClientRect(); return [r.x + r.width / 2, r.y + r.height / 2]; }})()")

    def click(self, element, shift=False):
        x, y = self.middle(element)
        self.mouse("mouseMoved", x, y, 0)
        self.mouse("mousePressed", x, y, shift=shift)
        self.mouse("mouseReleased", x, y, 0, shift)

    def drag(self, element, dx, dy=0, steps=8, shift=False):
        self.drag_from(*self.middle(element), dx, dy, steps, shift)

    def drag_from(self, x, y, dx, dy=0, steps=8, shift=False):
        self.mouse("mouseMoved", x, y, 0)
        self.mouse("mousePressed", x, y, shift=shift)
        for at in range(1, steps + 1):
            self.mouse("mouseMoved", x + dx * at / steps, y + dy * at / steps, shift=shift)
            time.sleep(.02)
        self.mouse("mouseReleased", x + dx, y + dy, 0, shift)

    def picture(self, path):
        data = self.send("Page.captureScreenshot", format="png")["data"]
        with open(path, "wb") as file:
            file.write(base64.b64decode(data))

    def text(self, selector="body"):
        return self.run(f"document.querySelector({json.dumps(selector)})?.innerText")

    def close(self):
        self.browser.send("Target.closeTarget", targetId=self.target)
