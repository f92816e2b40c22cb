"""Chromium without a window, as tests need it: it shows pages of this machine, presses keys, and gives what a page wrote to the console."""
import base64
import json
import os
import select
import shutil
import subprocess
import tempfile
import time

CONSOLE = ("Runtime.consoleAPICalled", "Runtime.exceptionThrown", "Log.entryAdded")
SECONDS = 60
NAMES = ("chromium", "chromium-browser", "google-chrome", "chromium-headless-shell")


def found():
    """The path of a browser, or None."""
    return next(filter(None, map(shutil.which, NAMES)), None)


class Browser:
    """A browser that is told what to do through a pipe, each message a line of JSON that ends with a zero byte."""

    def __init__(self, path):
        self.home = tempfile.mkdtemp(prefix="clfs_browser_")
        theirs, self._write = os.pipe()
        self._read, ours = os.pipe()
        # It reads its descriptor 3 and writes its descriptor 4.
        start = f'exec "$0" "$@" 3<&{theirs} 4>&{ours}'
        options = ["--headless", "--no-sandbox", "--disable-gpu", "--hide-scrollbars", f"--user-data-dir={self.home}", "--remote-debugging-pipe"]
        self._process = subprocess.Popen(["bash", "-c", start, path, *options, "about:blank"], stdin=subprocess.DEVNULL, stdout=subprocess.DEVNULL,
                                         stderr=subprocess.DEVNULL, pass_fds=(theirs, ours), env={**os.environ, "HOME": self.home})
        os.close(theirs)
        os.close(ours)
        self._rest, self._number, self._session = b"", 0, {}
        self.console = []
        target = self.ask("Target.createTarget", url="about:blank")["targetId"]
        self._session = {"sessionId": self.ask("Target.attachToTarget", targetId=target, flatten=True)["sessionId"]}
        for domain in ("Page", "Runtime", "Log"):
            self.ask(domain + ".enable")

    def ask(self, method, **params):
        self._number += 1
        line = json.dumps({"id": self._number, "method": method, "params": params, **self._session})
        os.write(self._write, line.encode() + b"\0")
        while True:
            message = self._message()
            if message.get("id") == self._number:
                assert "error" not in message, message
                return message["result"]
            if message.get("method") in CONSOLE:
                self.console.append(message["params"])

    def _message(self):
        while b"\0" not in self._rest:
            assert select.select([self._read], [], [], SECONDS)[0], "the browser says nothing"
            piece = os.read(self._read, 1 << 16)
            assert piece, "the browser has ended"
            self._rest += piece
        line, self._rest = self._rest.split(b"\0", 1)
        return json.loads(line)

    def show(self, path, width=1280, height=900, is_dark=False, at=""):
        """Shows a page that says by `data-loaded` when it is ready. Gives the seconds until then."""
        self.ask("Emulation.setDeviceMetricsOverride", width=width, height=height, deviceScaleFactor=1, mobile=False)
        self.ask("Emulation.setEmulatedMedia", features=[{"name": "prefers-color-scheme", "value": "dark" if is_dark else "light"}])
        self.ask("Page.navigate", url="about:blank")
        began = time.monotonic()
        self.ask("Page.navigate", url=f"file://{path}{at}")
        while not self.value("location.protocol === 'file:' && document.documentElement?.dataset.loaded || ''"):
            assert time.monotonic() < began + SECONDS, f"the page isn't ready: {self.console}"
            time.sleep(0.02)
        return time.monotonic() - began

    def value(self, script):
        """What an expression gives in the page."""
        result = self.ask("Runtime.evaluate", expression=script, returnByValue=True, awaitPromise=True)
        assert "exceptionDetails" not in result, result
        return result["result"].get("value")

    def texts(self, selector):
        """The texts of the elements that the selector finds."""
        return self.value(f"[...document.querySelectorAll({json.dumps(selector)})].map((found) => found.textContent)")

    def settle(self):
        """Waits until the page has drawn."""
        self.value("new Promise((done) => requestAnimationFrame(() => setTimeout(done)))")

    def press(self, key):
        """Presses a key. Gives the seconds until the page has drawn again."""
        began = time.monotonic()
        text = {"text": key} if len(key) == 1 else {}
        self.ask("Input.dispatchKeyEvent", type="keyDown", key=key, **text)
        self.ask("Input.dispatchKeyEvent", type="keyUp", key=key)
        self.settle()
        return time.monotonic() - began

    def click(self, x, y):
        """Clicks at a place of the window. Gives the seconds until the page has drawn again."""
        began = time.monotonic()
        for kind in ("mousePressed", "mouseReleased"):
            self.ask("Input.dispatchMouseEvent", type=kind, x=x, y=y, button="left", clickCount=1)
        self.settle()
        return time.monotonic() - began

    def picture(self, path):
        """Writes what the window shows as PNG."""
        data = self.ask("Page.captureScreenshot", format="png")["data"]
        with open(path, "wb") as file:
            file.write(base64.b64decode(data))

    def end(self):
        self._process.kill()
        self._process.wait()
        os.close(self._read)
        os.close(self._write)
        shutil.rmtree(self.home, ignore_errors=True)
