"""A browser without a window, which is told by its debugging pipe what to open, to press and to evaluate."""
import contextlib
import json
import os
import shutil
import subprocess
import tempfile
import time

NAMES = ["chromium", "chromium-browser", "google-chrome", "google-chrome-stable"]
WORDS = ["--headless", "--no-sandbox", "--disable-gpu", "--disable-dev-shm-usage", "--remote-debugging-pipe", "about:blank"]


def found():
    """The path of a browser that can be told so, if there is one."""
    return next(filter(None, map(shutil.which, NAMES)), None)


class Browser:
    """A browser with one page."""

    def __init__(self, path, folder):
        its_in, self.out = os.pipe()
        self.answers, its_out = os.pipe()
        self.read, self.number, self.session, self.faults, self.is_open = b"", 0, None, [], False

        def hand_over():
            """The browser reads from 3 and writes to 4."""
            ends = os.dup(its_in), os.dup(its_out)
            for end, number in zip(ends, (3, 4)):
                os.dup2(end, number)
                os.set_inheritable(number, True)

        null = subprocess.DEVNULL
        words = [path, f"--user-data-dir={folder}", *WORDS]
        self.process = subprocess.Popen(words, preexec_fn=hand_over, close_fds=False, stdin=null, stdout=null, stderr=null)
        os.close(its_in)
        os.close(its_out)
        target = self.do("Target.createTarget", url="about:blank")["targetId"]
        self.session = self.do("Target.attachToTarget", targetId=target, flatten=True)["sessionId"]
        self.do("Page.enable")
        self.do("Runtime.enable")
        self.do("Performance.enable", timeDomain="threadTicks")

    def next(self):
        """What the browser says next."""
        while b"\0" not in self.read:
            more = os.read(self.answers, 1 << 16)
            if not more:
                raise EOFError("the browser ended")
            self.read += more
        said, self.read = self.read.split(b"\0", 1)
        said = json.loads(said)
        if said.get("method") == "Runtime.exceptionThrown":
            self.faults.append(said["params"]["exceptionDetails"].get("exception", {}).get("description", "a fault"))
        self.is_open = self.is_open or said.get("method") == "Page.loadEventFired"
        return said

    def do(self, method, **params):
        """Has the browser do something, and gives its answer."""
        self.number += 1
        told = {"id": self.number, "method": method, "params": params, **({"sessionId": self.session} if self.session else {})}
        os.write(self.out, json.dumps(told).encode() + b"\0")
        while True:
            said = self.next()
            if said.get("id") == self.number:
                if "error" in said:
                    raise RuntimeError(f"{method}: {said['error']}")
                return said["result"]

    def busy(self):
        """How many seconds the page's thread has worked."""
        return next(metric["value"] for metric in self.do("Performance.getMetrics")["metrics"] if metric["name"] == "TaskDuration")

    def open(self, path, part=""):
        """Opens a file, at a part of it. A page that is open is left first, so that it is read again where the part alone is another one."""
        for url in ("about:blank", f"file://{path}{part}"):
            self.is_open = False
            self.do("Page.navigate", url=url)
            while not self.is_open:
                self.next()

    def follow(self, part):
        """Follows a link to another part of the page that is open, which it may read again for that."""
        self.of(f"location.hash = {json.dumps(part)}")
        time.sleep(0.5)

    def of(self, expression):
        """What an expression of the page's script gives."""
        came = self.do("Runtime.evaluate", expression=expression, returnByValue=True)
        if "exceptionDetails" in came:
            raise RuntimeError(f"{expression}: {came['exceptionDetails']}")
        return came["result"].get("value")

    def press(self, key, shift=False):
        """Presses a key, and lets it go."""
        for kind in ("keyDown", "keyUp"):
            self.do("Input.dispatchKeyEvent", type=kind, key=key, code=key, modifiers=8 if shift else 0)

    def show_as(self, width, is_dark=False, media=""):
        """How wide the window is, and what the reader likes."""
        self.do("Emulation.setDeviceMetricsOverride", width=width, height=900, deviceScaleFactor=1, mobile=width < 800)
        scheme = {"name": "prefers-color-scheme", "value": "dark" if is_dark else "light"}
        self.do("Emulation.setEmulatedMedia", media=media, features=[scheme])


@contextlib.contextmanager
def browser(path):
    """A browser, which goes away."""
    with tempfile.TemporaryDirectory(prefix="occam-browser-", ignore_cleanup_errors=True) as folder:
        shown = Browser(path, folder)
        try:
            yield shown
        finally:
            shown.process.kill()
            shown.process.wait()
