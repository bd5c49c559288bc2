"""A headless Chromium over its own protocol (Chrome DevTools Protocol, by a pipe), for the tests of pages, and what these show."""

import base64
import contextlib
import itertools
import json
import os
import select
import shutil
import subprocess
import tempfile
import time

from support import PATIENCE, until

CALL_SECONDS = 5  # that a call has which is tried again
KEYS = {"Enter": (13, "\r"), "ArrowDown": (40, ""), "ArrowUp": (38, ""), "Escape": (27, ""), "/": (191, "/"), "j": (74, "j"), "k": (75, "k")}
EVIL = '<script>window.hacked = 1</script><img src=x onerror="window.hacked = 1">'
LETTER = """From ann@x Mon Jan  1 09:00:00 2024
Message-ID: <first@x>
From: Ann <ann@x>
To: Bob <bob@x>
Date: Mon, 1 Jan 2024 09:00:00 +0000
Subject: The <red> fox

The quick red fox jumps over the lazy dog.

"""


def chromium():
    """The path of the browser, None where there is none."""
    return shutil.which("chromium") or shutil.which("chromium-browser")


class Browser:
    """One browser with one page, in a `with`."""

    def __init__(self):
        self.numbers = itertools.count(1)
        self.rest = b""
        self.events = []
        self.session = None

    def __enter__(self):
        self.folder = tempfile.mkdtemp(prefix="bunco-browser-")
        to_it, self.to = os.pipe()
        self.from_it, from_it = os.pipe()
        words = [chromium(), "--headless=new", "--disable-gpu", "--no-first-run", "--disable-background-networking"]
        words += ["--remote-debugging-pipe", f"--user-data-dir={self.folder}"]
        # Its sandbox does not run for the system's own user.
        words += ["--no-sandbox"] if os.geteuid() == 0 else []

        def as_it_wants():
            # It reads from the file 3, and writes to the file 4; neither may be in the other's way.
            read, write = os.dup(to_it), os.dup(from_it)
            os.dup2(read, 3)
            os.dup2(write, 4)

        self.process = subprocess.Popen(words, preexec_fn=as_it_wants, close_fds=False, stderr=subprocess.DEVNULL)
        os.close(to_it)
        os.close(from_it)
        target = self.call("Target.createTarget", url="about:blank")["targetId"]
        self.session = self.call("Target.attachToTarget", targetId=target, flatten=True)["sessionId"]
        for domain in ("Page", "Runtime", "Log", "DOM"):
            self.call(f"{domain}.enable")
        return self

    def __exit__(self, *what):
        with contextlib.suppress(OSError, AssertionError):
            self.session = None
            self.call("Browser.close")
        self.process.kill()
        self.process.wait()
        os.close(self.to)
        os.close(self.from_it)
        shutil.rmtree(self.folder, ignore_errors=True)

    # -- The protocol.

    def call(self, method, seconds=PATIENCE, **parameters):
        """The result of a call of the protocol; events that come before it are kept."""
        number = next(self.numbers)
        message = {"id": number, "method": method, "params": parameters}
        if self.session:
            message["sessionId"] = self.session
        os.write(self.to, json.dumps(message).encode() + b"\0")
        until = time.monotonic() + seconds
        while True:
            reply = self.message(until)
            if reply.get("id") == number:
                if "error" in reply:
                    raise AssertionError(f"{method}: {reply['error']}")
                return reply["result"]
            self.events.append(reply)

    def message(self, until):
        """The next message of the browser, which has to come before this time."""
        while b"\0" not in self.rest:
            if not select.select([self.from_it], [], [], max(0, until - time.monotonic()))[0]:
                raise AssertionError("the browser does not answer")
            data = os.read(self.from_it, 1 << 16)
            if not data:
                raise AssertionError("the browser has ended")
            self.rest += data
        text, self.rest = self.rest.split(b"\0", 1)
        return json.loads(text)

    # -- The page.

    def open(self, address):
        """Opens an address, and waits until it is there: until then the page before it would answer in its place."""
        # A place in the page that is shown already has no loader of its own.
        loader = self.call("Page.navigate", url=address).get("loaderId")
        until(lambda: loader in (None, self.loader()))
        self.until("document.readyState === 'complete'")

    def loader(self):
        """What has loaded the page that is shown, by a number; empty where there is none at the moment."""
        with contextlib.suppress(AssertionError):
            return self.call("Page.getFrameTree", CALL_SECONDS)["frameTree"]["frame"]["loaderId"]
        return ""

    def leave(self):
        """Leaves the page, and what the browser had to say of it. Its server may end then: nothing is asked of that any more.

        A browser asks for the icon of a page when that is complete already.
        """
        self.open("about:blank")
        self.events.clear()

    def value(self, expression, seconds=PATIENCE):
        """What an expression in the page comes to."""
        found = self.call("Runtime.evaluate", seconds, expression=expression, returnByValue=True, awaitPromise=True)
        if "exceptionDetails" in found:
            raise AssertionError(f"{expression}: {found['exceptionDetails']}")
        return found["result"].get("value")

    def until(self, expression):
        """Waits until an expression in the page is true."""
        end = time.monotonic() + PATIENCE
        while True:
            # While a page takes the place of another one, nothing can be asked of either, and a call may get no answer.
            with contextlib.suppress(AssertionError):
                if self.value(expression, CALL_SECONDS):
                    return
            if time.monotonic() > end:
                raise AssertionError(f"it does not come: {expression}")
            time.sleep(0.02)

    def type(self, text):
        """Types a text, a character at a time."""
        for character in text:
            self.call("Input.insertText", text=character)

    def press(self, key):
        code, text = KEYS[key]
        for kind in ("keyDown", "keyUp"):
            said = {"text": text} if kind == "keyDown" and text else {}
            self.call("Input.dispatchKeyEvent", type=kind, key=key, windowsVirtualKeyCode=code, **said)

    def html(self):
        """The HTML of the page, which the browser tells without a script; empty where there is no page at the moment."""
        with contextlib.suppress(AssertionError):
            root = self.call("DOM.getDocument", CALL_SECONDS)["root"]["nodeId"]
            return self.call("DOM.getOuterHTML", CALL_SECONDS, nodeId=root)["outerHTML"]
        return ""

    def has(self, selector):
        """Whether the page has such an element, which the browser tells without a script."""
        with contextlib.suppress(AssertionError):
            root = self.call("DOM.getDocument", CALL_SECONDS)["root"]["nodeId"]
            return self.call("DOM.querySelector", CALL_SECONDS, nodeId=root, selector=selector)["nodeId"] != 0
        return False

    def show_as(self, width, height, scheme="light"):
        """Shows the page on a screen of this size, in the light or the dark."""
        mobile = width < 600
        self.call("Emulation.setDeviceMetricsOverride", width=width, height=height, deviceScaleFactor=1, mobile=mobile)
        self.call("Emulation.setEmulatedMedia", features=[{"name": "prefers-color-scheme", "value": scheme}])

    def picture(self, path):
        """Writes what is shown to a file."""
        with open(path, "wb") as file:
            file.write(base64.b64decode(self.call("Page.captureScreenshot", format="png")["data"]))

    def complaints(self):
        """What the browser had to say of the pages: errors, and what their policy forbade."""
        self.value("0")
        said = [event["params"]["entry"] for event in self.events if event.get("method") == "Log.entryAdded"]
        thrown = [event["params"] for event in self.events if event.get("method") == "Runtime.exceptionThrown"]
        return [f"{entry['text']}: {entry.get('url')}" for entry in said if entry["level"] == "error"] + [str(one) for one in thrown]
