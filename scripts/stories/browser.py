"""A page in a headless Chromium, spoken to over pipes by the DevTools protocol. It needs Python's own modules alone."""

import json
import os
import select
import shutil
import signal
import subprocess
import tempfile
import time
from base64 import b64decode

# (not every machine has a sandbox for it, and it opens pages of this repository alone)
FLAGS = ["--headless=new", "--remote-debugging-pipe", "--disable-gpu", "--no-first-run", "--hide-scrollbars",
         "--disable-extensions", "--disable-background-networking", "--disable-component-update", "--disable-sync",
         "--disable-dev-shm-usage", "--mute-audio", "--no-sandbox"]
# A call that takes longer fails.
SECONDS = 120


def found():
    return shutil.which("chromium") or shutil.which("chromium-browser") or shutil.which("google-chrome")


class Browser:
    """One page of a Chromium of its own. `errors` has what the page reported."""

    def __init__(self):
        self.errors, self.count, self.rest, self.session = [], 0, b"", None
        self.folder = tempfile.TemporaryDirectory(prefix="story-browser-", ignore_cleanup_errors=True)
        # Chromium reads what is asked on descriptor 3, and answers on 4.
        shell = 'exec "$@" 3<&0 4>&1 0< /dev/null 1> /dev/null'
        words = [found(), *FLAGS, f"--user-data-dir={self.folder.name}", "about:blank"]
        self.process = subprocess.Popen(["bash", "-c", shell, "bash", *words], stdin=subprocess.PIPE, bufsize=0,
                                        stdout=subprocess.PIPE, stderr=subprocess.DEVNULL, start_new_session=True)
        target = next(it for it in self.call("Target.getTargets")["targetInfos"] if it["type"] == "page")
        self.session = self.call("Target.attachToTarget", targetId=target["targetId"], flatten=True)["sessionId"]
        for domain in ("Page", "Runtime", "Log"):
            self.call(f"{domain}.enable")

    def __enter__(self):
        return self

    def __exit__(self, *_):
        os.killpg(self.process.pid, signal.SIGKILL)
        self.process.communicate()
        self.folder.cleanup()

    def call(self, method, **words):
        self.count += 1
        session = {"sessionId": self.session} if self.session else {}
        sent = {"id": self.count, "method": method, "params": words, **session}
        self.process.stdin.write(json.dumps(sent).encode() + b"\0")
        while True:
            got = self.message()
            self.note(got)
            if got.get("id") == self.count:
                if "error" in got:
                    raise RuntimeError(f"{method}: {got['error']['message']}")
                return got["result"]

    def message(self):
        while b"\0" not in self.rest:
            if not select.select([self.process.stdout], [], [], SECONDS)[0]:
                raise TimeoutError(f"the browser said nothing for {SECONDS} seconds")
            read = self.process.stdout.read(1 << 16)
            if not read:
                raise RuntimeError("the browser ended")
            self.rest += read
        text, self.rest = self.rest.split(b"\0", 1)
        return json.loads(text)

    def note(self, got):
        """Keeps what the page reports: exceptions, failed assertions and errors of its console."""
        method, words = got.get("method"), got.get("params", {})
        if method == "Runtime.exceptionThrown" or (
                method == "Runtime.consoleAPICalled" and words["type"] in ("error", "assert", "warning")) or (
                method == "Log.entryAdded" and words["entry"]["level"] == "error"):
            self.errors.append(json.dumps(words))

    def open(self, path, place=""):
        """Opens a file anew, at a place of it."""
        for url in ("about:blank", f"file://{path}{place}"):
            self.call("Page.navigate", url=url)
            self.until('document.readyState === "complete"')

    def run(self, code):
        got = self.call("Runtime.evaluate", expression=code, returnByValue=True, awaitPromise=True)
        if "exceptionDetails" in got:
            raise RuntimeError(got["exceptionDetails"].get("exception", {}).get("description", "an exception"))
        return got["result"].get("value")

    def until(self, code):
        """Waits for what this is, once it is something."""
        end = time.monotonic() + SECONDS
        while not (found := self.run(code)):
            if time.monotonic() > end:
                raise RuntimeError(f"the page did not come to {code}")
            time.sleep(0.02)
        return found

    def of(self, name, what):
        return self.run(f'document.getElementById("{name}").{what}')

    def key(self, name, code):
        for kind in ("keyDown", "keyUp"):
            self.call("Input.dispatchKeyEvent", type=kind, key=name, code=name, windowsVirtualKeyCode=code)

    def look(self, width, height, scheme):
        """Sets the size of the window in pixels, and light or dark."""
        self.call("Emulation.setDeviceMetricsOverride", width=width, height=height, deviceScaleFactor=1, mobile=False)
        self.call("Emulation.setEmulatedMedia", features=[{"name": "prefers-color-scheme", "value": scheme}])

    def shot(self):
        return b64decode(self.call("Page.captureScreenshot", format="png", optimizeForSpeed=False)["data"])
