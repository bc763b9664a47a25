"""Headless Chromium, for the tests of pages: it is told what to do by the DevTools protocol, through a pair of pipes."""
import base64
import contextlib
import json
import os
import pathlib
import re
import select
import shutil
import signal
import subprocess
import tempfile
import time

from . import tool

NAMES = ("chromium", "chromium-browser", "google-chrome")
KEYS = {"+": "Equal", "/": "Slash"}


def found():
    """The path of Chromium, or None if it isn't installed."""
    return next(filter(None, map(shutil.which, NAMES)), None)


class Silent(Exception):
    """What a browser doesn't do: it hasn't started, doesn't answer, or meets an error in a page."""


class Browser:
    """A browser with one page, as wide and as high as is asked for."""

    def __init__(self, wide=1400, high=800):
        self.folder = tempfile.mkdtemp()
        taken, self.told = os.pipe()
        self.heard, given = os.pipe()
        # The browser hears on 3 and speaks on 4, to which the shell leads the pipes.
        words = [found(), "--headless", "--no-sandbox", "--disable-gpu", "--disable-dev-shm-usage", "--no-first-run", "--remote-debugging-pipe"]
        words += [f"--user-data-dir={self.folder}", f"--window-size={wide},{high}", "about:blank"]
        script = f'exec "$@" 3<&{taken} 4>&{given}'
        settings = {"stdout": subprocess.DEVNULL, "stderr": subprocess.DEVNULL, "env": {**os.environ, "TMPDIR": self.folder}}
        self.process = subprocess.Popen(["sh", "-c", script, "sh", *words], pass_fds=(taken, given), start_new_session=True, **settings)
        os.close(taken)
        os.close(given)
        self.number, self.rest, self.events, self.session = 0, b"", [], None
        target = next(it["targetId"] for it in self.ask("Target.getTargets")["targetInfos"] if it["type"] == "page")
        self.session = self.ask("Target.attachToTarget", targetId=target, flatten=True)["sessionId"]
        for domain in ("Page", "Runtime", "Network", "Log"):
            self.ask(f"{domain}.enable")
        self.ask("Emulation.setDeviceMetricsOverride", width=wide, height=high, deviceScaleFactor=1, mobile=False)

    def __enter__(self):
        return self

    def __exit__(self, *_):
        os.killpg(self.process.pid, signal.SIGKILL)
        self.process.wait()
        os.close(self.told)
        os.close(self.heard)
        # The browser's other processes may write into its folder until they have ended too.
        until = time.monotonic() + tool.SECONDS
        while os.path.exists(self.folder) and time.monotonic() < until:
            shutil.rmtree(self.folder, ignore_errors=True)

    def ask(self, method, **words):
        """Has the browser do something, and gives its answer. What it says besides is kept."""
        self.number += 1
        session = {"sessionId": self.session} if self.session else {}
        try:
            os.write(self.told, json.dumps({"id": self.number, "method": method, "params": words, **session}).encode() + b"\0")
        except BrokenPipeError:
            raise Silent("the browser has ended") from None
        while True:
            said = self.hear()
            if said.get("id") == self.number:
                if "error" in said:
                    raise Silent(f"{method}: {said['error']}")
                return said["result"]
            self.events.append(said)

    def hear(self):
        until = time.monotonic() + tool.SECONDS
        while b"\0" not in self.rest:
            if not select.select([self.heard], [], [], max(until - time.monotonic(), 0))[0]:
                raise Silent("the browser says nothing")
            part = os.read(self.heard, 1 << 20)
            if not part:
                raise Silent("the browser has ended")
            self.rest += part
        said, _, self.rest = self.rest.partition(b"\0")
        return json.loads(said)

    # ---- the page

    def open(self, path):
        """Opens a file, and gives the seconds until it was there."""
        begun = time.monotonic()
        self.events.clear()
        self.ask("Page.navigate", url=f"file://{path}")
        while not any(it.get("method") == "Page.loadEventFired" for it in self.events):
            self.events.append(self.hear())
        self.settle()
        return time.monotonic() - begun

    def settle(self):
        """Waits until what was asked for is drawn."""
        self.value("new Promise((done) => requestAnimationFrame(() => requestAnimationFrame(() => done(1))))")

    def value(self, code):
        """The value of an expression in the page."""
        found = self.ask("Runtime.evaluate", expression=code, returnByValue=True, awaitPromise=True)
        if "exceptionDetails" in found:
            raise Silent(f"{code}: {found['exceptionDetails']}")
        return found["result"].get("value")

    def key(self, key, modifiers=0):
        text = {"text": key} if len(key) == 1 else {"text": "\r"} if key == "Enter" else {}
        common = {"key": key, "code": KEYS.get(key, key), "modifiers": modifiers}
        if key in ("Enter", "Tab"):
            common["windowsVirtualKeyCode"] = {"Enter": 13, "Tab": 9}[key]
        self.ask("Input.dispatchKeyEvent", type="keyDown", **common, **text)
        self.ask("Input.dispatchKeyEvent", type="keyUp", **common)
        self.settle()

    def write(self, text):
        self.ask("Input.insertText", text=text)
        self.settle()

    def pointer(self, x, y, click=False):
        self.ask("Input.dispatchMouseEvent", type="mouseMoved", x=x, y=y)
        for what in ("mousePressed", "mouseReleased") if click else ():
            self.ask("Input.dispatchMouseEvent", type=what, x=x, y=y, button="left", clickCount=1)
        self.settle()

    def text(self, selector):
        return self.value(f"document.querySelector({json.dumps(selector)}).innerText")

    def picture(self, path):
        """Keeps what the page looks like, as WebP."""
        with open(path, "wb") as out:
            out.write(base64.b64decode(self.ask("Page.captureScreenshot", format="webp", quality=70)["data"]))

    def spoken(self):
        """The roles and names that a screen reader has."""
        nodes = self.ask("Accessibility.getFullAXTree")["nodes"]
        return [(it["role"]["value"], it.get("name", {}).get("value", "")) for it in nodes if not it.get("ignored")]

    def memory(self):
        """The megabytes of memory of the greatest process of the browser that shows pages."""
        sizes = [0]
        for folder in pathlib.Path("/proc").glob("[0-9]*"):
            with contextlib.suppress(OSError, ValueError):
                if os.getpgid(int(folder.name)) == self.process.pid and b"--type=renderer" in (folder / "cmdline").read_bytes():
                    sizes += map(int, re.findall(r"VmRSS:\s+([0-9]+) kB", (folder / "status").read_text()))
        return round(max(sizes) * 1024 / 1e6)

    def wrong(self):
        """What the page complained of, and what it asked the network for."""
        told = [it for it in self.events if it.get("method") in ("Runtime.exceptionThrown", "Log.entryAdded")]
        asked = [it["params"]["request"]["url"] for it in self.events if it.get("method") == "Network.requestWillBeSent"]
        return told, [url for url in asked if not url.startswith("file://")]


def opened(answers, what, undone, wide=1500, high=900):
    """What a function of a page and a folder answers in Chromium. If Chromium isn't installed, that is noted as undone."""
    if not found():
        tool.UNDONE.append(f"{undone}: Chromium isn't installed")
        return
    try:
        with tempfile.TemporaryDirectory() as folder, Browser(wide, high) as page:
            yield from answers(page, pathlib.Path(folder))
    except Silent as wrong:
        yield what, str(wrong), "no fault"
