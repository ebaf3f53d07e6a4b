"""A headless Chromium, driven by the DevTools protocol over a pipe: no port, and nothing but Python's own library."""

from __future__ import annotations

import base64
import itertools
import json
import os
import shutil
import subprocess
import tempfile
from pathlib import Path


# A page is moved so often at most until an element is seen.
MOST_SWIPES = 4


class Browser:
    """A browser with one page. Its methods wait for what they ask."""

    def __init__(self, program: str, home: str | None = None):
        self.program = program
        self.home = home or tempfile.mkdtemp(prefix="desk-browser-")
        to_browser, self.to = os.pipe()
        self.back, from_browser = os.pipe()
        words = [program, "--headless=new", "--remote-debugging-pipe", "--no-first-run", "--disable-gpu", "--mute-audio"]
        words += [f"--user-data-dir={self.home}", *(["--no-sandbox"] if os.getuid() == 0 else []), "about:blank"]

        def place_pipes() -> None:
            ends = os.dup(to_browser), os.dup(from_browser)
            os.dup2(ends[0], 3)
            os.dup2(ends[1], 4)

        quiet = {"stdout": subprocess.DEVNULL, "stderr": subprocess.DEVNULL}
        self.process = subprocess.Popen(words, preexec_fn=place_pipes, close_fds=False, **quiet)
        os.close(to_browser)
        os.close(from_browser)
        self.numbers, self.rest, self.events = itertools.count(1), b"", []
        self.session = None
        target = self.ask("Target.createTarget", url="about:blank")["targetId"]
        self.session = self.ask("Target.attachToTarget", targetId=target, flatten=True)["sessionId"]
        for part in ("Page", "Runtime", "Network", "Log"):
            self.ask(f"{part}.enable")

    def close(self) -> None:
        self.process.terminate()
        self.ended()
        shutil.rmtree(self.home, ignore_errors=True)

    def ended(self) -> None:
        self.process.wait()
        os.close(self.to)
        os.close(self.back)

    def begun_again(self) -> Browser:
        """Kills the browser at once, as where the power goes, and begins it anew over what lies on the disk."""
        self.process.kill()
        self.ended()
        return Browser(self.program, self.home)

    def message(self) -> dict:
        while b"\0" not in self.rest:
            more = os.read(self.back, 1 << 20)
            if not more:
                raise RuntimeError("the browser has ended")
            self.rest += more
        said, _, self.rest = self.rest.partition(b"\0")
        return json.loads(said)

    def call(self, method: str, **parameters) -> int:
        """Calls a method of the protocol, and waits for nothing; gives the number of the call."""
        number = next(self.numbers)
        call = {"id": number, "method": method, "params": parameters}
        call |= {"sessionId": self.session} if self.session else {}
        said = json.dumps(call).encode() + b"\0"
        while said:
            said = said[os.write(self.to, said) :]
        return number

    def crash(self) -> None:
        """Ends the process of the page at once, as a phone does that wants its memory."""
        self.call("Page.crash")
        while self.message().get("method") != "Inspector.targetCrashed":
            pass

    def ask(self, method: str, **parameters) -> dict:
        """Calls a method of the protocol; events that come meanwhile are kept in `events`."""
        number = self.call(method, **parameters)
        while (said := self.message()).get("id") != number:
            self.events.append(said)
        if "error" in said:
            raise RuntimeError(f"{method}: {said['error']}")
        return said["result"]

    def run(self, script: str):
        """The value of an expression in the page."""
        said = self.ask("Runtime.evaluate", expression=script, returnByValue=True, awaitPromise=True, userGesture=True)
        if "exceptionDetails" in said:
            raise RuntimeError(f"{script}: {said['exceptionDetails']}")
        return said["result"].get("value")

    def open(self, page: Path | str) -> None:
        """Opens a file or an address, and waits until the page has started or says why it can't."""
        # a link within the page that is open would not load it anew
        self.ask("Page.navigate", url="about:blank")
        self.ask("Page.navigate", url=page if isinstance(page, str) else page.as_uri())
        self.started()

    def reload(self) -> None:
        self.run("document.getElementById('desk').hidden = true")
        self.ask("Page.reload")
        self.started()

    def started(self) -> None:
        self.run(
            "new Promise(done => { const look = () => document.getElementById('desk')?.hidden === false || "
            "document.getElementById('unable')?.getAttribute('role') === 'alert' ? done() : setTimeout(look, 20); look(); })"
        )

    def size(self, width: int, height: int, touch: bool = False) -> None:
        finer = 2 if touch else 1
        self.ask("Emulation.setDeviceMetricsOverride", width=width, height=height, deviceScaleFactor=finer, mobile=touch)
        self.ask("Emulation.setTouchEmulationEnabled", enabled=touch)

    def zoom(self, width: int, height: int) -> None:
        """A screen of this size at 200 %: half as many pixels of the page in each direction, each twice as fine."""
        self.ask("Emulation.setDeviceMetricsOverride", width=width // 2, height=height // 2, deviceScaleFactor=2, mobile=False)
        self.ask("Emulation.setTouchEmulationEnabled", enabled=False)

    def scheme(self, name: str) -> None:
        """Light or dark, and no motion, so that colours don't change while they are looked at."""
        wanted = {"prefers-color-scheme": name, "prefers-reduced-motion": "reduce"}
        self.ask("Emulation.setEmulatedMedia", features=[{"name": key, "value": value} for key, value in wanted.items()])

    def tap(self, selector: str) -> None:
        """A press and a release of the mouse in the middle of an element, as a person does it."""
        place = (
            f"(() => {{ const it = document.querySelector({json.dumps(selector)}); it.scrollIntoView({{block: 'center'}});"
            " const box = it.getBoundingClientRect(); return [box.x + box.width / 2, box.y + box.height / 2]; })()"
        )
        x, y = self.run(place)
        for sort in ("mousePressed", "mouseReleased"):
            self.ask("Input.dispatchMouseEvent", type=sort, x=x, y=y, button="left", clickCount=1)

    def place(self, selector: str) -> tuple[float, float] | None:
        """The middle of what is seen of an element; None where it is out of sight or something else lies upon it."""
        script = (
            f"(() => {{ const it = document.querySelector({json.dumps(selector)}); const box = it.getBoundingClientRect();"
            " const [x, y] = [box.x + box.width / 2, box.y + box.height / 2];"
            " const top = document.elementFromPoint(x, y);"
            " return top && (it.contains(top) || top.contains(it)) ? [x, y] : null; })()"
        )
        return self.run(script)

    def touch(self, selector: str) -> bool:
        """A tap by touch events alone, where the element is seen; whether the page had to be moved by a swipe for it."""
        found = self.place(selector)
        is_moved = found is None
        for _ in range(MOST_SWIPES if is_moved else 0):
            self.swipe_to(selector)
            found = self.place(selector)
            if found is not None:
                break
        x, y = found
        self.ask("Input.dispatchTouchEvent", type="touchStart", touchPoints=[{"x": x, "y": y}])
        self.ask("Input.dispatchTouchEvent", type="touchEnd", touchPoints=[])
        self.run("new Promise(done => requestAnimationFrame(() => requestAnimationFrame(done)))")
        return is_moved

    def swipe_to(self, selector: str) -> None:
        """Moves the page by a finger, which stays on the screen and rests before it is lifted, until the element is about the middle of what is
        seen."""
        box = f"document.querySelector({json.dumps(selector)}).getBoundingClientRect()"
        away, height = self.run(f"[{box}.y + {box}.height / 2 - innerHeight / 2, innerHeight]")
        away = max(20 - height, min(height - 20, away))
        start = (height + away) / 2
        self.ask("Input.dispatchTouchEvent", type="touchStart", touchPoints=[{"x": 20, "y": start}])
        for step in range(1, 11):
            self.ask("Input.dispatchTouchEvent", type="touchMove", touchPoints=[{"x": 20, "y": start - away * step / 10}])
        self.run("new Promise(done => setTimeout(done, 150))")
        self.ask("Input.dispatchTouchEvent", type="touchMove", touchPoints=[{"x": 20, "y": start - away}])
        self.ask("Input.dispatchTouchEvent", type="touchEnd", touchPoints=[])
        self.run("new Promise(done => setTimeout(done, 400))")

    def key(self, name: str, times: int = 1, is_back: bool = False) -> None:
        codes = {"Tab": 9, "Enter": 13, " ": 32, "Backspace": 8, "ArrowLeft": 37, "ArrowUp": 38, "ArrowRight": 39, "ArrowDown": 40}
        codes |= {"Home": 36, "End": 35, "Escape": 27}
        text = {"Enter": {"text": "\r"}, " ": {"text": " "}}.get(name, {})
        for _ in range(times):
            about = {"key": name, "code": "Space" if name == " " else name}
            about |= {"windowsVirtualKeyCode": codes[name], "modifiers": 8 if is_back else 0}
            self.ask("Input.dispatchKeyEvent", type="keyDown", **about, **text)
            self.ask("Input.dispatchKeyEvent", type="keyUp", **about)

    def type(self, text: str) -> None:
        self.ask("Input.insertText", text=text)

    def picture(self, file: Path, whole: bool = False) -> None:
        said = self.ask("Page.captureScreenshot", format="png", captureBeyondViewport=whole)
        file.write_bytes(base64.b64decode(said["data"]))
