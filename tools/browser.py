"""Drives a headless Chromium over a pipe, without any library."""

import json
import os
import shutil
import subprocess
import tempfile

NAMES = ("chromium", "chromium-browser", "google-chrome")


class BrowserFault(Exception):
    """The browser said that a command failed, or ended."""


def path_of_browser():
    """Returns the path of a Chromium, or None if there is none."""
    return next((path for path in map(shutil.which, NAMES) if path), None)


class Browser:
    """A Chromium with one page."""

    def __init__(self, path):
        self.folder = tempfile.TemporaryDirectory(ignore_cleanup_errors=True)
        to_read, self.to_write = os.pipe()
        self.to_read, to_write = os.pipe()
        # The browser reads commands from file 3 and writes answers to file 4.
        self.process = subprocess.Popen(
            ["sh", "-c", 'exec "$@" 3<&"$IN" 4>&"$OUT"', "sh", path, "--headless", "--no-sandbox", "--disable-gpu",
             "--disable-dev-shm-usage", "--hide-scrollbars", "--remote-debugging-pipe",
             "--user-data-dir=" + self.folder.name, "about:blank"],
            env={**os.environ, "IN": str(to_read), "OUT": str(to_write)}, pass_fds=(to_read, to_write),
            stdin=subprocess.DEVNULL, stdout=subprocess.DEVNULL, stderr=subprocess.DEVNULL)
        os.close(to_read)
        os.close(to_write)
        self.rest = b""
        self.number = 0
        self.events = []
        targets = self.ask("Target.getTargets", session=None)["targetInfos"]
        target = next(it["targetId"] for it in targets if it["type"] == "page")
        self.session = self.ask("Target.attachToTarget", {"targetId": target, "flatten": True}, session=None)["sessionId"]
        for domain in ("Page", "Runtime", "Log", "Network", "Accessibility"):
            self.ask(domain + ".enable")
        # Without a window no element would get the events of the focus.
        self.ask("Emulation.setFocusEmulationEnabled", {"enabled": True})

    def close(self):
        try:
            self.ask("Browser.close", session=None)
        except (BrowserFault, OSError):
            self.process.kill()
        self.process.wait()
        os.close(self.to_read)
        os.close(self.to_write)
        self.folder.cleanup()

    def receive(self):
        """Returns the next answer or event."""
        while b"\0" not in self.rest:
            more = os.read(self.to_read, 1 << 20)
            if not more:
                raise BrowserFault("the browser ended")
            self.rest += more
        message, self.rest = self.rest.split(b"\0", 1)
        return json.loads(message)

    def ask(self, method, parameters=None, session=""):
        """Sends a command and returns its answer. Events that come before it are kept."""
        self.number += 1
        command = {"id": self.number, "method": method, "params": parameters or {}}
        if session is not None:
            command["sessionId"] = self.session
        os.write(self.to_write, json.dumps(command).encode() + b"\0")
        while True:
            message = self.receive()
            if message.get("id") == self.number:
                if "error" in message:
                    raise BrowserFault(f"{method}: {message['error']}")
                return message["result"]
            self.events.append(message)

    def open(self, path):
        """Opens a file and waits until it is loaded."""
        self.events = []
        self.ask("Page.navigate", {"url": "file://" + path})
        while not any(event.get("method") == "Page.loadEventFired" for event in self.events):
            self.events.append(self.receive())

    def run(self, script):
        """Returns the value of an expression in the page."""
        answer = self.ask("Runtime.evaluate", {"expression": script, "returnByValue": True, "awaitPromise": True})
        if "exceptionDetails" in answer:
            raise BrowserFault(str(answer["exceptionDetails"])[:400])
        return answer["result"].get("value")

    def press(self, key, code):
        """Presses a key."""
        for kind in ("keyDown", "keyUp"):
            self.ask("Input.dispatchKeyEvent", {"type": kind, "key": key, "code": key, "windowsVirtualKeyCode": code})

    def complaints(self):
        """Returns what the page wrote to the console, its exceptions, and its requests but for the page itself."""
        found = []
        for event in self.events:
            method, it = event.get("method"), event.get("params", {})
            if method in ("Runtime.consoleAPICalled", "Runtime.exceptionThrown", "Log.entryAdded"):
                found.append(method + " " + json.dumps(it)[:300])
            if method == "Network.requestWillBeSent" and it.get("type") != "Document":
                found.append("a request for " + it["request"]["url"][:100])
        return found
