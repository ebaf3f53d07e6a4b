"""tests/hall_pages.py FOLDER [chromium]: the pages of a hall in three browsers, as two phones of one table and a director, each browser
in each part in turn; with `chromium` that one alone, in all three parts. Between a phone and the hall stands a network that can be slow
or lost. It prints `all right`, or what is wrong. It wants what tests/hall_rows.py wants; pictures go into the folder."""

from __future__ import annotations

import contextlib
import json
import socket
import sys
import threading
import time
from pathlib import Path

from hall_kit import Served
from webdriver import BROWSERS, Driver, Screen, chromium

SLOW = 0.3
"""Seconds by which a slow network holds back each part of what is sent."""


class Network:
    """A way to the hall that can be slow, or lost."""

    def __init__(self, port: int) -> None:
        self.to, self.is_slow, self.is_lost = port, False, False
        self.open: list[socket.socket] = []
        self.server = socket.create_server(("127.0.0.1", 0))
        self.port = int(self.server.getsockname()[1])
        threading.Thread(target=self._accept, daemon=True).start()

    def lose(self) -> None:
        """Nothing goes through any more."""
        self.is_lost = True
        for it in self.open:
            with contextlib.suppress(OSError):
                it.shutdown(socket.SHUT_RDWR)

    def _accept(self) -> None:
        while True:
            near, _ = self.server.accept()
            if self.is_lost:
                near.close()
                continue
            with contextlib.suppress(OSError):
                far = socket.create_connection(("127.0.0.1", self.to))
                self.open += [near, far]
                for one, other in ((near, far), (far, near)):
                    threading.Thread(target=self._pass, args=(one, other), daemon=True).start()

    def _pass(self, one: socket.socket, other: socket.socket) -> None:
        with contextlib.suppress(OSError):
            while part := one.recv(1 << 16):
                if self.is_slow:
                    time.sleep(SLOW)
                other.sendall(part)
        for it in (one, other):
            with contextlib.suppress(OSError):
                it.shutdown(socket.SHUT_RDWR)


class Page:
    """A page of the hall in a browser."""

    def __init__(self, driver: Driver, url: str) -> None:
        self.driver, self.url = driver, url
        driver.wait_for_start = lambda: None
        with contextlib.suppress(RuntimeError):
            driver.ask("POST", "window/rect", {"width": 360, "height": 740})
        driver.open(url)

    def text(self, selector: str = "body") -> str:
        """What is read in a part of the page."""
        return str(self.driver.run(f"(document.querySelector({json.dumps(selector)})?.innerText ?? '')"))

    def until(self, words: str, selector: str = "body", seconds: float = 10, gone: bool = False) -> float:
        """Waits until a part of the page says something, or doesn't any more; how long that took."""
        start = time.monotonic()
        while (words in self.text(selector)) == gone:
            if time.monotonic() - start > seconds:
                raise AssertionError(f"{self.driver.name}: `{words}` is {'still' if gone else 'not'} there: {self.text()[:1500]!r}")
            time.sleep(0.05)
        return time.monotonic() - start

    def tap(self, words: str, within: str = "body") -> None:
        """Taps the button that says so."""
        buttons = f"[...document.querySelector({json.dumps(within)}).querySelectorAll('button')]"
        find = f"{buttons}.find(it => it.textContent === {json.dumps(words)} && it.offsetParent)"
        end = time.monotonic() + 10
        while not self.driver.run(f"(it => it ? (it.click(), true) : false)({find})"):
            if time.monotonic() > end:
                raise AssertionError(f"{self.driver.name}: no button `{words}`: {self.text()[:1500]!r}")
            time.sleep(0.05)

    def picture(self, file: Path) -> None:
        """What is seen of the page. (WebKit's driver waits for ever for a page that listens to a stream.)"""
        if self.driver.name != "WebKit":
            self.driver.picture(file)

    def hand_in(self, line: str) -> None:
        """Types a line and hands it in."""
        self.driver.run(f"(it => {{ it.value = {json.dumps(line)}; }})(document.getElementById('line'))")
        self.driver.run("document.getElementById('hand-in').click()")


def evening(hall: Served, drivers: list[Driver], folder: Path, kept: list[str]) -> list[str]:
    """One evening: what each sees, and how long it took until the other phone saw a deal. Who opened the page without network is added
    to `kept`."""
    networks = [Network(hall.port), Network(hall.port)]
    director = Page(drivers[2], f"http://127.0.0.1:{hall.port}/director#{hall.director}")
    one, two = (Page(drivers[it], f"http://127.0.0.1:{networks[it].port}/table#1.{hall.tables[1]}") for it in (0, 1))
    director.tap("Begin")
    one.until("Hand in deal 1")
    two.until("Hand in deal 1")
    names = one.driver.run("[...document.querySelectorAll('.players .name')].map(it => it.textContent)")
    waits = []
    # a deal by taps
    one.tap("Ron")
    one.tap(names[1], "#taps fieldset:nth-of-type(2)")
    one.tap(names[2], "#taps fieldset:nth-of-type(3)")
    one.until(f"{names[1]} +1000", "#look")
    one.picture(folder / f"{one.driver.name}-taps.png")
    one.tap("Hand in deal 1")
    waits.append(two.until(f"ron {names[1]} from {names[2]} 1.30", "#deals"))
    # a slow network
    networks[1].is_slow = True
    two.hand_in(f"tsumo {names[3]} 2.30")
    waits.append(one.until(f"tsumo {names[3]} 2.30", "#deals"))
    two.until("Hand in deal 3")
    networks[1].is_slow = False
    # a lost one: the phone goes on by itself
    networks[1].lose()
    two.until("No network")
    two.hand_in("draw")
    two.hand_in(f"draw ready {names[0]}")
    two.until("Not handed in yet")
    two.until(f"draw ready {names[0]}", "#waiting")
    two.picture(folder / f"{two.driver.name}-lost.png")
    if two.driver.run("(navigator.serviceWorker?.controller ?? null) !== null"):
        # the page is opened anew meanwhile: what waits is still there
        two.driver.open(two.url)
        two.until(f"draw ready {names[0]}", "#waiting")
        two.until("Hand in deal 5")
        kept.append(two.driver.name)
    networks[1].is_lost = False
    one.until(f"draw ready {names[0]}", "#deals", 20)
    two.until("Not handed in yet", "#waiting", 20, gone=True)
    # entered differently while one was away: both see both
    networks[1].lose()
    two.until("No network")
    two.hand_in(f"tsumo {names[3]} 1.30")
    one.hand_in(f"tsumo {names[2]} 1.30")
    one.until(f"tsumo {names[2]} 1.30", "#deals")
    networks[1].is_lost = False
    for phone in (one, two):
        phone.until(f"Not kept: tsumo {names[3]} 1.30", "#disputes", 20)
        phone.until(f"Kept: tsumo {names[2]} 1.30", "#disputes")
    one.picture(folder / f"{one.driver.name}-both.png")
    one.tap("The second is right")
    for phone in (one, two):
        phone.until("Not kept", "#disputes", gone=True)
        phone.until(f"tsumo {names[3]} 1.30", "#deals")
    two.until("Not handed in yet", "#waiting", gone=True)
    two.until("Hand in deal 7")
    directed(hall, director, names)
    director.picture(folder / f"{director.driver.name}-director.png")
    one.until("The session is closed")
    looked(hall, director.driver, folder)
    wide = [page.driver.name for page in (one, two) if page.driver.run("document.documentElement.scrollWidth > innerWidth")]
    return [f"a deal was seen after {max(waits):.1f} s"] * (max(waits) > 2) + [f"{it}: the page is wider than the screen" for it in wide]


def directed(hall: Served, director: Page, names: list[str]) -> None:
    """What the director does: a penalty, a correction, the end of the session, and the seats of the next one."""
    director.until("6 deals", "#tables")
    row = "[...document.querySelectorAll('#tables li')].find(it => it.textContent.includes('6 deals'))"
    director.driver.run(f"{row}.querySelector('button').click()")
    director.until("Table 1, session 1", "#game-part")
    director.driver.run(f"document.querySelector('#game-part input').value = 'penalty {names[0]} 2000'")
    director.tap("Hand in the line")
    director.until(f"penalty {names[0]} 2000", "#game-part ol")
    # (the second button: that of the deal before the penalty)
    director.driver.run("document.querySelectorAll('#game-part ol button')[1].click()")
    director.driver.run(f"document.querySelector('#game-part input').value = 'tsumo {names[1]} 1.30'")
    director.tap("Deal 6 was this")
    director.until(f"tsumo {names[1]} 1.30", "#game-part ol")
    director.tap("Close")
    director.until("Games go on", "#said")
    director.tap("End all games and close")
    director.tap("Sure? End all games and close")
    director.until("closed", "#sessions")
    director.until("All games that were played", "#standings", 15)
    director.tap("Seat by standings")
    director.tap("Sure? Seat by standings")
    director.tap("Show the links and their codes")
    director.until("Table 2", "#codes")
    end = time.monotonic() + 10
    while "session=2" not in "".join(file.read_text("utf-8") for file in hall.exported().glob("open/session-02*")):
        assert time.monotonic() < end


def looked(hall: Served, driver: Driver, folder: Path) -> None:
    """The page for a projector."""
    wall = Page(driver, f"http://127.0.0.1:{hall.port}/wall#{hall.wall}")
    wall.until("Standings after session 1")
    wall.until("Seats of session 2")
    wall.picture(folder / f"{driver.name}-wall.png")


def main(room: str, which: str = "all") -> int:
    """The evenings."""
    folder, wrong = Path(room), []
    kept: list[str] = []
    turns = [(chromium, chromium, chromium)] if which == "chromium" else [(*BROWSERS[it:], *BROWSERS[:it]) for it in range(3)]
    with Screen() if which != "chromium" else contextlib.nullcontext() as screen:
        for number, turn in enumerate(turns):
            hall = Served(folder / str(number), 8, 2)
            drivers: list[Driver] = []
            try:
                drivers += [browser(screen) for browser in turn]
                wrong += evening(hall, drivers, folder, kept)
            except (AssertionError, RuntimeError, OSError) as fault:
                wrong.append(str(fault))
            finally:
                for driver in drivers:
                    driver.close()
                hall.kill()
            if "Traceback" in hall.log():
                wrong.append(hall.log()[-500:])
    if "Chromium" not in kept:
        wrong.append("no page was opened without network")
    print("; ".join(wrong) or "all right")
    return 1 if wrong else 0


if __name__ == "__main__":
    sys.exit(main(*sys.argv[1:3]))
