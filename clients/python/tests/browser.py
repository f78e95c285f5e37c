"""A headless browser that a test drives: Chromium over two pipes, by its DevTools protocol, with the standard library alone."""

import base64
import json
import os
import shlex
import shutil
import subprocess
import tempfile

NAMES = ("chromium", "chromium-browser", "google-chrome", "chrome")
LIMIT = 60  # seconds that an answer may take
WIDE, HIGH = 1200, 1400  # of a page, in its own pixels


def found():
    """The browser of this machine, or None."""
    return next((place for place in map(shutil.which, NAMES) if place), None)


class Browser:
    """A browser with one page. `told` has what it wrote on its console, and the errors of the page."""

    def __init__(self):
        self.folder = tempfile.TemporaryDirectory(ignore_cleanup_errors=True)
        (to_read, self.to), (self.of, to_write) = os.pipe(), os.pipe()
        words = [found(), "--headless", "--no-sandbox", "--disable-gpu", "--hide-scrollbars", "--no-first-run", "--remote-debugging-pipe",
                 "--user-data-dir=" + self.folder.name, "about:blank"]
        line = "exec %s 3<&%d 4>&%d" % (" ".join(map(shlex.quote, words)), to_read, to_write)
        self.process = subprocess.Popen(["sh", "-c", line], pass_fds=(to_read, to_write), stdin=subprocess.DEVNULL, stdout=subprocess.DEVNULL,
                                        stderr=subprocess.DEVNULL, start_new_session=True)
        os.close(to_read)
        os.close(to_write)
        self.count, self.rest, self.session, self.told = 0, b"", None, []
        target = self.call("Target.createTarget", url="about:blank")["targetId"]
        self.session = self.call("Target.attachToTarget", targetId=target, flatten=True)["sessionId"]
        for what in ("Page", "Runtime", "Log"):
            self.call(what + ".enable")
        self.call("Emulation.setDeviceMetricsOverride", width=WIDE, height=HIGH, deviceScaleFactor=1, mobile=False)

    def end(self):
        """Ends the browser."""
        try:
            self.session = None
            self.call("Browser.close")
            self.process.wait(LIMIT)
        finally:
            if self.process.poll() is None:
                self.process.kill()
                self.process.wait()
            os.close(self.to)
            os.close(self.of)
            self.folder.cleanup()

    def call(self, method, **given):
        """A call of the protocol, and its result."""
        self.count += 1
        asked = {"id": self.count, "method": method, "params": given}
        if self.session:
            asked["sessionId"] = self.session
        os.write(self.to, json.dumps(asked).encode() + b"\0")
        while True:
            said = self.hear()
            if said.get("id") == self.count:
                if "error" in said:
                    raise RuntimeError("%s: %s" % (method, said["error"]))
                return said["result"]

    def hear(self):
        """The next thing that the browser says; what concerns the console is kept."""
        while b"\0" not in self.rest:
            read = os.read(self.of, 1 << 20)
            if not read:
                raise EOFError("the browser has ended")
            self.rest += read
        said, self.rest = self.rest.split(b"\0", 1)
        event = json.loads(said)
        if event.get("method") in ("Runtime.exceptionThrown", "Runtime.consoleAPICalled", "Log.entryAdded"):
            self.told.append(event["params"])
        if event.get("method") == "Page.loadEventFired":
            self.loaded = True
        return event

    def open(self, path):
        """Opens a file, and waits until it has begun."""
        self.loaded = False
        self.call("Page.navigate", url="file://" + path)
        while not self.loaded:
            self.hear()

    def value(self, expression):
        """The value of an expression of the page's language."""
        said = self.call("Runtime.evaluate", expression=expression, returnByValue=True)
        if "exceptionDetails" in said:
            raise RuntimeError("%s: %s" % (expression, said["exceptionDetails"]))
        return said["result"].get("value")

    def key(self, name):
        """Presses a key."""
        for kind in ("rawKeyDown", "keyUp"):
            self.call("Input.dispatchKeyEvent", type=kind, key=name, code=name)

    def shot(self, scheme):
        """The page as a picture, in a colour scheme: `light` or `dark`."""
        self.call("Emulation.setEmulatedMedia", features=[{"name": "prefers-color-scheme", "value": scheme}])
        foot = self.value("Math.ceil(document.body.getBoundingClientRect().bottom)")
        whole = {"x": 0, "y": 0, "width": WIDE, "height": min(HIGH, foot), "scale": 1}
        return base64.b64decode(self.call("Page.captureScreenshot", format="png", clip=whole)["data"])

    def printed(self):
        """The page as it is printed."""
        return base64.b64decode(self.call("Page.printToPDF")["data"])
