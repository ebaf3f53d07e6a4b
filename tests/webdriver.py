"""Three browsers of the distribution's packages, each with one page: Chromium and WebKit by their WebDriver programs, Firefox by
the Marionette protocol, of which WebDriver is a cover. Nothing but Python's own library is needed."""

from __future__ import annotations

import base64
import json
import os
import shutil
import socket
import subprocess
import tempfile
import time
import urllib.error
import urllib.request
from pathlib import Path

ELEMENT = "element-6066-11e4-a52e-4f735466cecf"
PATIENCE = 60  # seconds
QUIET = {"stdout": subprocess.DEVNULL, "stderr": subprocess.DEVNULL}


def free_port() -> int:
    with socket.socket() as it:
        it.bind(("127.0.0.1", 0))
        return it.getsockname()[1]


def retried(act):
    """What `act` gives, once nothing refuses the connection."""
    end = time.monotonic() + PATIENCE
    while True:
        try:
            return act()
        except OSError:
            if time.monotonic() > end:
                raise
            time.sleep(0.2)


class Screen:
    """A screen that nobody sees, for browsers that want one."""

    def __enter__(self):
        # the server tells the number of the screen by a pipe
        back, ahead = os.pipe()
        words = ["Xvfb", "-displayfd", str(ahead), "-screen", "0", "1280x1024x24", "-nolisten", "tcp"]
        self.server = subprocess.Popen(words, pass_fds=[ahead], **QUIET)
        os.close(ahead)
        with os.fdopen(back) as told:
            self.name = f":{told.readline().strip()}"
        return self

    def __exit__(self, *_):
        self.server.terminate()
        self.server.wait()


class Driver:
    """What all three can do, over `ask(method, path, words)` of the one that is driven."""

    name = ""

    def run(self, script: str):
        """The value of an expression in the page."""
        return self.ask("POST", "execute/sync", {"script": f"return {script}", "args": []})

    def open(self, url: str) -> None:
        self.ask("POST", "url", {"url": url})
        self.wait_for_start()

    def wait_for_start(self) -> None:
        end = time.monotonic() + PATIENCE
        started = "document.querySelector('#desk:not([hidden]), #unable[role=alert]') !== null"
        while not self.run(started):
            if time.monotonic() > end:
                raise RuntimeError(f"{self.name}: the page doesn't start")
            time.sleep(0.1)

    def tap(self, selector: str) -> None:
        self.ask("POST", f"element/{self.found(selector)[ELEMENT]}/click", {})

    def found(self, selector: str) -> dict[str, str]:
        return self.ask("POST", "element", {"using": "css selector", "value": selector})

    def touch(self, selector: str) -> None:
        """A tap by a finger, where the driver knows fingers: Firefox's does. Chromium is touched by page_game.py."""
        if self.name != "Firefox":
            self.tap(selector)
            return
        steps = [{"type": "pointerMove", "duration": 0, "origin": self.found(selector), "x": 0, "y": 0}]
        steps += [{"type": "pointerDown", "button": 0}, {"type": "pointerUp", "button": 0}]
        finger = {"type": "pointer", "id": "finger", "parameters": {"pointerType": "touch"}, "actions": steps}
        self.ask("POST", "actions", {"actions": [finger]})
        # a tap is told to the page a little after the finger is up
        self.run("new Promise(done => setTimeout(done, 60))")

    def enter(self, selector: str) -> None:
        """What is asked from now on is asked of the page within this frame."""
        found = self.found(selector)
        self.ask("POST", "frame", {"id": found, "element": found[ELEMENT]})
        self.wait_for_start()

    def picture(self, file: Path) -> None:
        file.write_bytes(base64.b64decode(self.ask("GET", "screenshot")))


class ByHttp(Driver):
    """A browser behind a WebDriver program."""

    def __init__(self, name: str, program: str, wanted: dict, environment: dict | None = None):
        self.name = name
        port = free_port()
        self.process = subprocess.Popen([program, f"--port={port}"], env={**os.environ, **(environment or {})}, **QUIET)
        self.place = f"http://127.0.0.1:{port}/session"
        session = retried(lambda: self.call("POST", self.place, {"capabilities": {"alwaysMatch": wanted}}))
        self.place += f"/{session['sessionId']}"
        self.version = session["capabilities"].get("browserVersion", "")

    def call(self, method: str, place: str, words: dict | None):
        body = None if words is None else json.dumps(words).encode()
        asked = urllib.request.Request(place, data=body, method=method, headers={"Content-Type": "application/json"})
        try:
            with urllib.request.urlopen(asked, timeout=PATIENCE * 5) as told:
                return json.load(told)["value"]
        except urllib.error.HTTPError as failure:
            raise RuntimeError(f"{self.name}: {method} {place}: {failure.read().decode(errors='replace')[:500]}") from None

    def ask(self, method: str, path: str, words: dict | None = None):
        return self.call(method, f"{self.place}/{path}", words)

    def close(self) -> None:
        try:
            self.call("DELETE", self.place, None)
        finally:
            self.process.terminate()
            self.process.wait()


class Firefox(Driver):
    """Firefox by its own protocol: each message is its length, a colon, and JSON."""

    name = "Firefox"
    COMMANDS = {
        "execute/sync": "ExecuteScript", "url": "Navigate", "element": "FindElement", "screenshot": "TakeScreenshot",
        "window/rect": "SetWindowRect", "frame": "SwitchToFrame", "actions": "PerformActions",
    }

    def __init__(self):
        self.home = tempfile.mkdtemp(prefix="desk-firefox-")
        port = free_port()
        settings = {"marionette.port": port, "browser.shell.checkDefaultBrowser": False}
        settings |= {"datareporting.policy.dataSubmissionEnabled": False}
        rows = [f"user_pref({json.dumps(key)}, {json.dumps(value)});" for key, value in settings.items()]
        Path(self.home, "user.js").write_text("\n".join(rows), "utf-8")
        words = ["firefox-esr", "--headless", "--marionette", "--profile", self.home, "--no-remote", "about:blank"]
        self.process = subprocess.Popen(words, env={**os.environ, "HOME": self.home}, **QUIET)
        self.socket = retried(lambda: socket.create_connection(("127.0.0.1", port), timeout=PATIENCE * 5))
        self.rest, self.number = b"", 0
        self.message()
        session = self.command("NewSession", {"capabilities": {"alwaysMatch": {"acceptInsecureCerts": False}}})
        self.version = session["capabilities"]["browserVersion"]

    def message(self):
        while b":" not in self.rest:
            self.rest += self.more()
        length, _, self.rest = self.rest.partition(b":")
        while len(self.rest) < int(length):
            self.rest += self.more()
        said, self.rest = self.rest[: int(length)], self.rest[int(length) :]
        return json.loads(said)

    def more(self) -> bytes:
        return self.socket.recv(1 << 16) or self.ended()

    def ended(self):
        raise RuntimeError("Firefox has ended")

    def command(self, name: str, words: dict):
        self.number += 1
        said = json.dumps([0, self.number, f"WebDriver:{name}", words]).encode()
        self.socket.sendall(b"%d:%s" % (len(said), said))
        _, _, failure, value = self.message()
        if failure:
            raise RuntimeError(f"Firefox: {name}: {failure}")
        return value["value"] if isinstance(value, dict) and set(value) == {"value"} else value

    def ask(self, method: str, path: str, words: dict | None = None):
        if path == "frame":
            words = {"element": words["element"]}
        parts = path.split("/")
        if parts[0] == "element" and len(parts) == 3:
            return self.command("ElementClick", {"id": parts[1]})
        return self.command(self.COMMANDS[path], {**(words or {}), **({"full": False} if path == "screenshot" else {})})

    def close(self) -> None:
        self.socket.close()
        self.process.terminate()
        self.process.wait()
        shutil.rmtree(self.home, ignore_errors=True)


def chromium(_: Screen) -> Driver:
    switches = ["--headless=new", "--disable-gpu", "--no-first-run", *(["--no-sandbox"] if os.getuid() == 0 else [])]
    options = {"binary": shutil.which("chromium"), "args": switches}
    return ByHttp("Chromium", "chromedriver", {"browserName": "chrome", "goog:chromeOptions": options})


def firefox(_: Screen) -> Driver:
    return Firefox()


def webkit(screen: Screen) -> Driver:
    programs = sorted(Path("/usr/lib").glob("*/webkit2gtk-4.*/MiniBrowser"))
    options = {"binary": str(programs[-1]), "args": ["--automation"]}
    environment = {"DISPLAY": screen.name, "GDK_BACKEND": "x11"}
    environment |= {"WEBKIT_DISABLE_COMPOSITING_MODE": "1", "LIBGL_ALWAYS_SOFTWARE": "1"}
    return ByHttp("WebKit", "WebKitWebDriver", {"webkitgtk:browserOptions": options}, environment)


BROWSERS = (chromium, firefox, webkit)
