"""Chromium without a window, steered over two pipes by the protocol of its developer tools: a page
is opened, looked at and clicked, and all that its console tells is kept."""
import base64
import json
import os
import pathlib
import select
import shutil
import subprocess
import tempfile
import time
import unittest

LONGEST = 60
WIDTH, HEIGHT = 1280, 900


def chromium():
    """The path of Chromium, or a test that is skipped."""
    found = shutil.which("chromium") or shutil.which("chromium", path="/usr/bin")
    if found is None:
        raise unittest.SkipTest("chromium isn't installed")
    return found


class Browser:
    """A browser with one page at a time. Use it by `with`."""

    def __enter__(self):
        self.room = tempfile.TemporaryDirectory()
        asks, self.asks = os.pipe()
        self.tells, tells = os.pipe()
        words = ["--headless", "--no-sandbox", "--disable-gpu", "--disable-dev-shm-usage"]
        words += ["--remote-debugging-pipe", "--user-data-dir=" + self.room.name, "--no-first-run"]
        words += ["--window-size=%d,%d" % (WIDTH, HEIGHT), "about:blank"]
        # (the browser reads from descriptor 3 and writes to 4, whatever these are here)
        shell = 'exec 5<&%d 6>&%d; exec 3<&5 4>&6 5<&- 6>&-; exec "$@"' % (asks, tells)
        self.process = subprocess.Popen(
            ["bash", "-c", shell, "bash", chromium(), *words],
            pass_fds=(asks, tells),
            stdout=subprocess.DEVNULL,
            stderr=subprocess.DEVNULL,
        )
        os.close(asks)
        os.close(tells)
        self.number, self.rest, self.session = 0, b"", None
        self.console = []
        return self

    def __exit__(self, *raised):
        try:
            self.ask("Browser.close", session=False)
            self.process.wait(10)
        except (OSError, EOFError, subprocess.TimeoutExpired):
            self.process.kill()
            self.process.wait()
        os.close(self.asks)
        os.close(self.tells)
        shutil.rmtree(self.room.name, ignore_errors=True)
        self.room._finalizer.detach()

    def message(self, until):
        """The next message of the browser."""
        while b"\0" not in self.rest:
            ready, _, _ = select.select([self.tells], [], [], max(0, until - time.monotonic()))
            more = os.read(self.tells, 1 << 16) if ready else b""
            if not more:
                raise EOFError("the browser says nothing")
            self.rest += more
        first, _, self.rest = self.rest.partition(b"\0")
        told = json.loads(first)
        if told.get("method") in (
            "Runtime.consoleAPICalled",
            "Runtime.exceptionThrown",
            "Log.entryAdded",
        ):
            self.console.append(told["params"])
        return told

    def ask(self, method, session=True, **words):
        """The result of a call of the protocol."""
        self.number += 1
        asked = {"id": self.number, "method": method, "params": words}
        if session and self.session:
            asked["sessionId"] = self.session
        os.write(self.asks, json.dumps(asked).encode() + b"\0")
        until = time.monotonic() + LONGEST
        told = self.message(until)
        while told.get("id") != self.number:
            told = self.message(until)
        if "error" in told:
            raise AssertionError("%s: %s" % (method, told["error"]))
        return told["result"]

    def open(self, path):
        """Opens a file as a page, and waits until it is loaded."""
        target = self.ask("Target.createTarget", session=False, url="about:blank")["targetId"]
        self.session = self.ask(
            "Target.attachToTarget", session=False, targetId=target, flatten=True
        )["sessionId"]
        self.console = []
        for domain in ("Page", "Runtime", "Log"):
            self.ask(domain + ".enable")
        self.ask("Page.navigate", url=pathlib.Path(path).resolve().as_uri())
        until = time.monotonic() + LONGEST
        while self.message(until).get("method") != "Page.loadEventFired":
            pass

    def value(self, expression):
        """What an expression of the page's script comes to."""
        told = self.ask("Runtime.evaluate", expression=expression, returnByValue=True)
        if "exceptionDetails" in told:
            raise AssertionError(told["exceptionDetails"])
        return told["result"].get("value")

    def middle(self, selector):
        """The middle of an element on the screen."""
        box = self.value(
            "(() => { const one = document.querySelector(%s);"
            " one.scrollIntoView({block: 'nearest'}); const box = one.getBoundingClientRect();"
            " return [box.x + box.width / 2, box.y + box.height / 2]; })()" % json.dumps(selector)
        )
        return {"x": box[0], "y": box[1]}

    def mouse(self, kind, place, **words):
        """Moves the mouse, presses or releases it, or turns its wheel."""
        self.ask("Input.dispatchMouseEvent", type=kind, **place, **words)

    def click(self, selector):
        """Clicks an element."""
        place = self.middle(selector)
        for kind in ("mousePressed", "mouseReleased"):
            self.mouse(kind, place, button="left", clickCount=1)

    def screenshot(self, path):
        """Writes what the screen shows as a PNG file."""
        shot = base64.b64decode(self.ask("Page.captureScreenshot", format="png")["data"])
        with open(path, "wb") as file:
            file.write(shot)
        return shot
