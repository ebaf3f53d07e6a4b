"""How quick the page is on a slow phone, which is reckoned as six times as slow: the processor time of the page's own thread, times six,
so that other work of the machine says little. Of a tap it is what scripts, styles and layout take, of opening all of that thread; the least
of some tries. The figures go into a file beside the pictures; docs/PAGE.md has them."""

from __future__ import annotations

from pathlib import Path

from browser import Browser
from page_game import HAND, begin_game, control
from page_kept import served
from page_rows import PAGE, SITE, fresh, tiles_of, told

SLOWED = 6
TRIES = 3
# Milliseconds that are wanted; what else the machine does takes caches and shared cores away, so no more than three times as many fail.
MOST_FOR_TAP, MOST_FOR_OPENING = 100, 1500
LEEWAY = 3
TAP = ("ScriptDuration", "LayoutDuration", "RecalcStyleDuration")
SHOWN = "new Promise(done => requestAnimationFrame(() => requestAnimationFrame(() => setTimeout(() => done(true), 20))))"


def tiles(text: str) -> list[tuple[str, str]]:
    return [(f"tile {tile}", f"#picker [data-kind='{tile}']") for tile in tiles_of(text)]


def choice(name: str, value: str) -> tuple[str, str]:
    return f"{name} {value}", f"label:has(input[name={name}][value='{value}'])"


def keys(words: str) -> list[tuple[str, str]]:
    return [(word, control(word)) for word in words.split()]


FLOWS = {
    "a win": [*tiles("234567m345p6799s5s"), choice("by", "tsumo"), choice("seat", "S"), choice("riichi", "1"), ("why", "#why")],
    "waits": [choice("mode", "waits"), *tiles("2223456777m111z")],
    "a shape": [choice("mode", "shape"), *tiles("19m19p19s12345z247m")],
    "a deal by han and fu": keys("bet-1 win-1 from-2 han-2 fu-30 count"),
    "a draw": keys("draw ready-1 ready-2 count"),
    "a deal by its tiles": [*keys("tiles-0 from-3"), *tiles(HAND.split()[0] + "5s"), ("count", "#count")],
}


def spent(browser: Browser, *names: str) -> float:
    """What the thread of the page has worked so far, slowed, in milliseconds."""
    told_now = {it["name"]: it["value"] for it in browser.ask("Performance.getMetrics")["metrics"]}
    return sum(told_now[name] for name in names) * SLOWED * 1000


def work_of_tap(browser: Browser, selector: str) -> float:
    browser.run(f"document.querySelector({selector!r}).scrollIntoView({{block: 'nearest'}}); {SHOWN}")
    x, y = browser.place(selector)
    before = spent(browser, *TAP)
    for sort, points in (("touchStart", [{"x": x, "y": y}]), ("touchEnd", [])):
        browser.ask("Input.dispatchTouchEvent", type=sort, touchPoints=points)
    browser.run(SHOWN)
    return spent(browser, *TAP) - before


def taps_of(browser: Browser, name: str) -> list[float]:
    fresh(browser)
    if "deal" in name or name == "a draw":
        begin_game(browser)
    return [work_of_tap(browser, selector) for _, selector in FLOWS[name]]


def opening(browser: Browser, address: str) -> float:
    """From the visit to a hand that can be tapped."""
    browser.ask("Page.navigate", url="about:blank")
    before = spent(browser, "TaskDuration")
    browser.open(address)
    browser.run(SHOWN)
    after = spent(browser, "TaskDuration")
    # a page of another site has a thread of its own
    return after - before if after > before else after


def openings(browser: Browser) -> dict[str, float]:
    server = served(SITE)
    try:
        address = f"http://127.0.0.1:{server.server_port}/"
        browser.ask("Network.setCacheDisabled", cacheDisabled=True)
        first = min(opening(browser, f"{address}?{at}") for at in range(TRIES))
        browser.ask("Network.setCacheDisabled", cacheDisabled=False)
        again = min(opening(browser, address) for _ in range(TRIES))
        return {"the one file": min(opening(browser, PAGE.as_uri()) for _ in range(TRIES)), "the site, first": first, "the site, again": again}
    finally:
        server.shutdown()
        server.server_close()


def test_quick(browser: Browser, folder: Path) -> None:
    browser.size(360, 640, touch=True)
    browser.ask("Performance.enable", timeDomain="threadTicks")
    rows = ["| What | Most, of the least of each | Taps |", "|---|---|---|"]
    try:
        for name, flow in FLOWS.items():
            tries = [taps_of(browser, name) for _ in range(TRIES)]
            least = [min(times) for times in zip(*tries)]
            slow = {flow[at][0]: took for at, took in enumerate(least) if took > LEEWAY * MOST_FOR_TAP}
            told(f"{name}: taps that take longer than {LEEWAY * MOST_FOR_TAP} ms", {}, slow)
            rows.append(f"| {name} | {max(least):.0f} ms | {len(least)} |")
        for name, took in openings(browser).items():
            told(f"{name} is open within {LEEWAY * MOST_FOR_OPENING} ms", True, took <= LEEWAY * MOST_FOR_OPENING)
            rows.append(f"| opening {name} | {took:.0f} ms | |")
    finally:
        browser.ask("Performance.disable")
    (folder / "quick.md").write_text("\n".join(rows) + "\n", "utf-8")
