"""A headless Chromium, driven by the DevTools protocol through a pipe."""
import base64
import json
import os
import pathlib
import shutil
import subprocess
import tempfile
import time

PROGRAMS = ("chromium", "chromium-browser", "google-chrome")
WORDS = (
    *("--headless", "--no-sandbox", "--disable-gpu", "--hide-scrollbars", "--no-first-run"),
    "--remote-debugging-pipe",
)
READS, WRITES = 3, 4  # the descriptors by which Chromium reads commands and writes answers


def found():
    """The browser that is installed here, or None."""
    return next(filter(None, map(shutil.which, PROGRAMS)), None)


class Refused(Exception):
    """What the browser would not do, in its words."""


class Browser:
    """A browser with one page. It is ended by `close`, or as a context."""

    def __init__(self, width=1600, height=1000):
        self.folder = tempfile.TemporaryDirectory()
        commands, self.writes = os.pipe()
        self.reads, answers = os.pipe()
        self.process = subprocess.Popen(
            ["nice", found(), *WORDS, f"--window-size={width},{height}", f"--user-data-dir={self.folder.name}"],
            stdout=subprocess.DEVNULL,
            stderr=subprocess.DEVNULL,
            pass_fds=(READS, WRITES),
            preexec_fn=lambda: self.give(commands, answers),
        )
        os.close(commands)
        os.close(answers)
        self.rest, self.count, self.session, self.faults, self.loaded = b"", 0, None, [], False
        target = self.do("Target.createTarget", url="about:blank")["targetId"]
        self.session = self.do("Target.attachToTarget", targetId=target, flatten=True)["sessionId"]
        for domain in ("Page", "Runtime", "Log"):
            self.do(f"{domain}.enable")
        self.do("Performance.enable", timeDomain="threadTicks")

    @staticmethod
    def give(commands, answers):
        """Puts the ends of the pipes where Chromium looks for them."""
        kept = os.dup(answers)
        os.dup2(commands, READS)
        os.dup2(kept, WRITES)

    def __enter__(self):
        return self

    def __exit__(self, *_):
        self.close()

    def close(self):
        os.close(self.writes)
        try:
            self.process.wait(20)
        except subprocess.TimeoutExpired:
            self.process.kill()
            self.process.wait()
        os.close(self.reads)
        try:
            self.folder.cleanup()
        except OSError:
            pass  # a child of the browser may still write there

    def message(self):
        """The next message of the browser."""
        while b"\0" not in self.rest:
            data = os.read(self.reads, 1 << 20)
            if not data:
                raise Refused("the browser ended")
            self.rest += data
        text, _, self.rest = self.rest.partition(b"\0")
        return json.loads(text)

    def do(self, method, **words):
        """Does a command, and gives its answer. Faults of the page that are told meanwhile are kept."""
        self.count += 1
        command = {"id": self.count, "method": method, "params": words}
        if self.session:
            command["sessionId"] = self.session
        os.write(self.writes, json.dumps(command).encode() + b"\0")
        while True:
            it = self.message()
            self.note(it)
            if it.get("id") == self.count:
                if "error" in it:
                    raise Refused(it["error"]["message"])
                return it["result"]

    def note(self, it):
        method = it.get("method")
        if method == "Runtime.exceptionThrown":
            details = it["params"]["exceptionDetails"]
            self.faults.append(details.get("exception", {}).get("description", details["text"]))
        elif method == "Log.entryAdded" and it["params"]["entry"]["level"] == "error":
            self.faults.append(it["params"]["entry"]["text"])
        elif method == "Page.loadEventFired":
            self.loaded = True

    def open(self, file, hash=""):
        """Opens a page anew, and gives the seconds until it was loaded and drawn."""
        self.go("about:blank")
        begun = time.monotonic()
        self.go(pathlib.Path(file).resolve().as_uri() + hash)
        self.ask("new Promise(done => requestAnimationFrame(() => requestAnimationFrame(done)))")
        return time.monotonic() - begun

    def go(self, url):
        self.loaded = False
        self.do("Page.navigate", url=url)
        while not self.loaded:
            self.note(self.message())

    def ask(self, expression):
        """What an expression of the page is."""
        told = self.do("Runtime.evaluate", expression=expression, returnByValue=True, awaitPromise=True)
        if "exceptionDetails" in told:
            raise Refused(told["exceptionDetails"].get("exception", {}).get("description", "a fault of the page"))
        return told["result"].get("value")

    def used(self):
        """The seconds of a processor that the page's thread has used."""
        metrics = self.do("Performance.getMetrics")["metrics"]
        return next(it["value"] for it in metrics if it["name"] == "TaskDuration")

    def key(self, key, shift=False):
        """Presses a key and lets it go."""
        words = {"key": key, "modifiers": 8 if shift else 0}
        if len(key) == 1:
            words["text"] = key
        else:
            words["code"] = key
        self.do("Input.dispatchKeyEvent", type="keyDown", **words)
        self.do("Input.dispatchKeyEvent", type="keyUp", key=key)

    def type(self, text):
        self.do("Input.insertText", text=text)

    def click(self, selector):
        """Clicks the middle of an element, as a hand would."""
        place = self.ask(
            f"(() => {{ const box = document.querySelector({json.dumps(selector)}).getBoundingClientRect();"
            " return [box.left + box.width / 2, box.top + box.height / 2]; })()"
        )
        for kind in ("mousePressed", "mouseReleased"):
            self.do("Input.dispatchMouseEvent", type=kind, x=place[0], y=place[1], button="left", clickCount=1)

    def media(self, scheme="light", media=""):
        """Turns light or dark, and the page to print."""
        self.do("Emulation.setEmulatedMedia", media=media, features=[{"name": "prefers-color-scheme", "value": scheme}])

    def picture(self, file):
        """Writes a PNG of what is seen."""
        pathlib.Path(file).write_bytes(base64.b64decode(self.do("Page.captureScreenshot", format="png")["data"]))
