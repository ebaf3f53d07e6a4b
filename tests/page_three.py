"""The page in Chromium, Firefox and WebKit: 2,000 answers of each are those of the command `line`, a hand that is tapped, a reload,
a narrow window, and the site without its server."""

from __future__ import annotations

import shutil
import subprocess
import tempfile
from pathlib import Path

from page_chances import chances_in, chances_of_thirteen
from page_game import begin_game, game_text, play
from page_kept import READY, served
from page_looks import LANGUAGES, VIEWS, sound
from page_rows import LINE, PAGE, RAW, SITE, TOP, answers_of, fill, texts, told
from webdriver import BROWSERS, Driver, Screen

TAPS = ["2m", "3m", "4m", "5m", "6m", "7m", "3p", "4p", "5p", "6s", "7s", "9s", "9s", "5s"]
WIN = "win 234567m345p6799s on=5s by=tsumo seat=E round=E riichi=1"


def test_lines(driver: Driver) -> None:
    lines = subprocess.run([TOP / "tests/lines"], check=True, capture_output=True, text=True).stdout
    told(f"{driver.name}: lines", 2000, lines.count("\n"))
    driver.tap("label:has(input[value=many])")
    fill(driver, "lines", lines)
    told(f"{driver.name}: answers", answers_of(lines.splitlines()), texts(driver, "#answers .told"))


def test_taps(driver: Driver) -> None:
    driver.tap("label:has(input[name=mode][value=win])")
    for tile in TAPS:
        driver.tap(f"#picker [data-kind='{tile}']")
    for name, value in (("by", "tsumo"), ("seat", "E"), ("riichi", "1")):
        driver.tap(f"label:has(input[name={name}][value='{value}'])")
    told(f"{driver.name}: a hand that was tapped", [WIN, answers_of([WIN])[0]], driver.run(f"[{LINE}, {RAW}]"))
    driver.open(PAGE.as_uri())
    told(f"{driver.name}: a reload keeps it", WIN, driver.run(LINE))
    driver.tap("#why")
    told(f"{driver.name}: the sheet", True, driver.run("document.querySelector('#sheet[open] .why') !== null"))


def test_game(driver: Driver, address: str) -> None:
    """An evening of deals with every outcome, by taps in a frame as large as a small phone: no window is so narrow everywhere."""
    kept = []
    for is_first in (True, False):
        driver.ask("POST", "url", {"url": f"{address}/frame.html"})
        driver.enter("iframe")
        told(f"{driver.name}: a small phone", [360, 640], driver.run("[innerWidth, innerHeight]"))
        if is_first:
            begin_game(driver)
            play(driver, about=f"{driver.name}: ")
        kept.append(game_text(driver))
    told(f"{driver.name}: the page opened again has the game", kept[0], kept[1])


def in_a_frame(test, *given) -> None:
    """Runs a test over an address with the page, and with a page that has it in a frame."""
    with tempfile.TemporaryDirectory() as room:
        shutil.copy(PAGE, room)
        frame = "<!doctype html><body style='margin: 0'><iframe src='desk.html' width='360' height='640' style='border: 0'></iframe>"
        Path(room, "frame.html").write_text(frame, "utf-8")
        server = served(Path(room))
        try:
            test(*given, f"http://127.0.0.1:{server.server_port}")
        finally:
            server.shutdown()
            server.server_close()


def test_narrow(driver: Driver, folder: Path) -> None:
    """A window as narrow as the browser makes it: all of a win is in reach, as on a phone."""
    driver.ask("POST", "window/rect", {"x": 0, "y": 0, "width": 390, "height": 900})
    fill(driver, "line", VIEWS["melds"])
    told(f"{driver.name}: narrow", True, driver.run("innerWidth < 640"))
    sound(driver, f"{driver.name}, narrow", "tooWide", "cut", "broken", "small", "outOfReach")
    driver.picture(folder / f"{driver.name}-narrow.png")
    for names in LANGUAGES:
        driver.run(f"document.querySelector('#settings input[name=names][value={names}]').click()")
        sound(driver, f"{driver.name}, narrow, {names}", "tooWide", "cut", "broken", "small", "outOfReach")
    driver.run("document.querySelector('#settings input[name=names][value=english]').click()")


def test_site(driver: Driver) -> None:
    server = served(SITE)
    address = f"http://127.0.0.1:{server.server_port}/"
    driver.open(address)
    told(f"{driver.name}: files that are kept", len(list(SITE.iterdir())), driver.run(READY))
    server.shutdown()
    server.server_close()
    driver.open(f"{address}?again#waits%201112345678999m")
    told(f"{driver.name}: the site without its server", answers_of(["waits 1112345678999m"]), [driver.run(RAW)])
    chances_of_thirteen(driver, f"{driver.name}: the site without its server: ")


def test_three(folder: Path) -> None:
    with Screen() as screen:
        for begin in BROWSERS:
            driver = begin(screen)
            try:
                driver.open(PAGE.as_uri())
                for test in (test_lines, test_taps):
                    test(driver)
                driver.picture(folder / f"{driver.name}.png")
                driver.run("document.getElementById('sheet').close()")
                chances_in(driver)
                in_a_frame(test_game, driver)
                driver.open(PAGE.as_uri())
                test_narrow(driver, folder)
                test_site(driver)
                print(f"page: {driver.name} {driver.version}")
            finally:
                driver.close()
