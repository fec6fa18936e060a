"""Chromium without a window, for the tests of pages. It is driven over a pipe, as its DevTools protocol describes."""

import base64
import json
import os
import select
import shutil
import subprocess
import time

CHROMIUM = next(filter(None, map(shutil.which, ("chromium", "chromium-browser", "google-chrome"))), None)
SECONDS = 30
# The code of the protocol's error for a page that was left.
LEFT = -32000
KEYS = {"Enter": 13, "Escape": 27, "ArrowLeft": 37, "ArrowUp": 38, "ArrowRight": 39, "ArrowDown": 40, "Tab": 9, "/": 191, "End": 35}


class PageLeft(ValueError):
    """The page was left before the answer."""


class Browser:
    """A browser with one page. `faults` has what its console says, and `asked` all addresses that it has loaded."""

    def __init__(self, room):
        here, there = os.pipe(), os.pipe()
        options = ["--headless", "--no-sandbox", "--disable-gpu", "--disable-dev-shm-usage", "--no-first-run", "--disable-background-networking"]
        words = [CHROMIUM, *options, "--remote-debugging-pipe", f"--user-data-dir={room}/browser", "about:blank"]
        ways = ["bash", "-c", f'exec "$@" 3<&{here[0]} 4>&{there[1]}', "bash", *words]
        self.ran = subprocess.Popen(
            ways, pass_fds=(here[0], there[1]), stdin=subprocess.DEVNULL, stdout=subprocess.DEVNULL, stderr=subprocess.DEVNULL,
            env={**os.environ, "HOME": room, "TMPDIR": room}, start_new_session=True,
        )  # fmt: skip
        os.close(here[0])
        os.close(there[1])
        self.to, self.back = os.fdopen(here[1], "wb", buffering=0), os.fdopen(there[0], "rb")
        self.number, self.session, self.left, self.faults, self.asked = 0, None, b"", [], []
        target = self.call("Target.createTarget", url="about:blank")["targetId"]
        self.session = self.call("Target.attachToTarget", targetId=target, flatten=True)["sessionId"]
        for it in ("Runtime", "Log", "Page", "Network"):
            self.call(f"{it}.enable")

    def message(self):
        """Returns the next message of the browser."""
        while b"\0" not in self.left:
            if not select.select([self.back], [], [], SECONDS)[0]:
                raise TimeoutError("the browser doesn't answer")
            data = os.read(self.back.fileno(), 1 << 16)
            if not data:
                raise EOFError("the browser has ended")
            self.left += data
        line, _, self.left = self.left.partition(b"\0")
        return json.loads(line)

    def note(self, it):
        """Keeps what an event says."""
        what, of = it.get("method"), it.get("params", {})
        if what == "Runtime.exceptionThrown":
            self.faults.append(str(of["exceptionDetails"]))
        elif what == "Runtime.consoleAPICalled" and of["type"] in ("error", "warning", "assert"):
            self.faults.append(str(of["args"]))
        elif what == "Log.entryAdded" and of["entry"]["level"] in ("error", "warning"):
            self.faults.append(of["entry"]["text"])
        elif what == "Network.requestWillBeSent":
            self.asked.append(of["request"]["url"])

    def call(self, method, **given):
        """Calls a method of the browser, and returns its answer."""
        self.number += 1
        of = {"id": self.number, "method": method, "params": given, **({"sessionId": self.session} if self.session else {})}
        self.to.write(json.dumps(of).encode() + b"\0")
        while True:
            it = self.message()
            if it.get("id") == self.number:
                if "error" in it:
                    raise (PageLeft if it["error"].get("code") == LEFT else ValueError)(f"{method}: {it['error']}")
                return it["result"]
            self.note(it)

    def open(self, path):
        """Opens a page, and waits until it is loaded."""
        self.call("Page.navigate", url=f"file://{path}")
        if not self.until("location.protocol === 'file:' && document.readyState === 'complete'"):
            raise TimeoutError(f"{path} isn't loaded")

    def value(self, text):
        """Returns the value of a JavaScript expression, which may be a promise."""
        found = self.call("Runtime.evaluate", expression=text, returnByValue=True, awaitPromise=True)
        if "exceptionDetails" in found:
            raise ValueError(str(found["exceptionDetails"]))
        return found["result"].get("value")

    def until(self, text):
        """Waits until an expression holds, at most twenty seconds. A page that is left meanwhile has no value."""
        end = time.monotonic() + 20
        while time.monotonic() < end:
            try:
                if self.value(f"!!({text})"):
                    return True
            except PageLeft:
                pass
            time.sleep(0.05)
        return False

    def key(self, name):
        """Presses a key."""
        of = {"key": name, "code": name, "windowsVirtualKeyCode": KEYS[name]}
        text = {"Enter": "\r", "/": "/"}.get(name)
        self.call("Input.dispatchKeyEvent", type="keyDown", **of, **({"text": text} if text else {}))
        self.call("Input.dispatchKeyEvent", type="keyUp", **of)

    def write(self, text):
        self.call("Input.insertText", text=text)

    def look(self, width, height, scheme="light"):
        """Sets the size of the window, and whether it is dark."""
        self.call("Emulation.setDeviceMetricsOverride", width=width, height=height, deviceScaleFactor=1, mobile=False)
        self.call("Emulation.setEmulatedMedia", features=[{"name": "prefers-color-scheme", "value": scheme}])

    def picture(self):
        """Returns the page as it looks, as PNG."""
        return base64.b64decode(self.call("Page.captureScreenshot", format="png")["data"])

    def close(self):
        """Ends the browser."""
        self.session = None
        try:
            self.call("Browser.close")
        except (EOFError, OSError, ValueError):
            pass
        try:
            self.ran.wait(10)
        except subprocess.TimeoutExpired:
            self.ran.kill()
            self.ran.wait()
        self.to.close()
        self.back.close()
