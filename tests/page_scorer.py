"""The page as a scorer uses it: on a phone's screen, by touch alone. Each tap is counted, and each time that the page had to be
moved. The table goes into a file beside the pictures; docs/PAGE.md has it."""

from __future__ import annotations

from pathlib import Path

from browser import Browser
from page_rows import ANSWER, LINE, MODE, RAW, answers_of, fresh, told, tiles_of

PHONE = (360, 640)
WINS = {
    "closed, self-draw, riichi": "win 234567m345p6799s on=5s by=tsumo seat=S round=E riichi=1",
    "closed, ron, seven pairs": "win 1122m5588p3377s6z on=6z by=ron seat=W round=E riichi=1",
    "the dealer's, dora": "win 345678m234p5567s on=5s by=ron seat=E round=E riichi=1 dora=4m",
    "one run called": "win 34678p22345s open=chi:345m on=2p by=ron seat=N round=E",
    "two melds, dora": "win 567m34p99s open=pon:777z,chi:234m on=2p by=ron seat=S round=E dora=8s",
    "closed kong, two indicators": "win 23499m567p34s open=ankan:7777z on=5s by=tsumo seat=W round=S dora=1p3s",
    "four melds": "win 4z open=pon:111z,pon:999m,chi:789m,pon:666z on=4z by=ron seat=E round=S",
    "self-draw after a kong": "win 345m22p67s open=kan:5555z,pon:888p on=8s by=tsumo seat=N round=E flags=rinshan",
    "counters and sticks": "win 123456789m11p23s on=1s by=ron seat=S round=E riichi=1 counters=2 sticks=1",
    "riichi, ippatsu, ura": "win 222m333p4445678s on=8s by=tsumo seat=W round=S riichi=1 flags=ippatsu dora=9m ura=7s",
}


class Scorer:
    """A thumb: its taps, and the swipes that they needed."""

    def __init__(self, browser: Browser):
        self.browser, self.taps, self.swipes = browser, 0, 0

    def tap(self, selector: str) -> None:
        self.taps += 1
        self.swipes += self.browser.touch(selector)

    def tile(self, tile: str) -> None:
        self.tap(f"#picker [data-kind='{tile}']")

    def choose(self, name: str, value: str) -> None:
        self.tap(f"label:has(input[name={name}][value='{value}'])")

    def enter(self, line: str) -> None:
        """The hand of a line, as a scorer taps it: melds, tiles, the winning tile, and what was chosen."""
        _, hand, *words = line.split()
        keys = dict(word.split("=") for word in words)
        for word, tiles in (meld.split(":") for meld in keys.get("open", "").split(",") if meld):
            self.tap(f"[data-target={word}]")
            self.tile(tiles_of(tiles)[0])
        for tile in [*tiles_of(hand), *tiles_of(keys.get("on", ""))]:
            self.tile(tile)
        for key in ("dora", "ura"):
            for tile in tiles_of(keys.get(key, "")):
                self.tap(f"[data-target={key}]")
                self.tile(tile)
        self.enter_choices(keys)

    def enter_choices(self, keys: dict[str, str]) -> None:
        for key in ("by", "seat", "round", "riichi"):
            if key in keys and not self.browser.run(f"document.querySelector('input[name={key}][value=\"{keys[key]}\"]').checked"):
                self.choose(key, keys[key])
        for flag in keys.get("flags", "").split(","):
            if flag:
                self.choose("flags", flag)
        for key in ("counters", "sticks"):
            for _ in range(int(keys.get(key, "0"))):
                self.tap(f"[data-number={key}][data-by='1']")


def same_line(one: str, other: str) -> bool:
    """Whether two lines say the same: their words and the tiles of these may stand in another order."""
    return sorted(sorted(word) for word in one.split()) == sorted(sorted(word) for word in other.split())


def ten_wins(browser: Browser, rows: list[str]) -> None:
    for name, line in WINS.items():
        fresh(browser)
        thumb = Scorer(browser)
        thumb.enter(line)
        [wanted] = answers_of([line])
        told(f"{name}: the hand", True, same_line(line, browser.run(LINE)))
        told(f"{name}: the answer", wanted, browser.run(RAW))
        told(f"{name}: is a win", True, wanted.startswith("won"))
        bottom = browser.run("document.querySelector('#answer .headline').getBoundingClientRect().bottom")
        told(f"{name}: the answer is seen", True, bottom <= PHONE[1])
        if "open" not in line and "dora" not in line and "counters" not in line:
            told(f"{name}: seventeen taps at most", True, thumb.taps <= 17)
            told(f"{name}: nothing is moved", 0, thumb.swipes)
        rows.append(f"| {name} | `{line}` | {thumb.taps} | {thumb.swipes} |")


def shape_with_discards(browser: Browser, rows: list[str]) -> None:
    fresh(browser)
    line = "shape 123456789m11348p"
    thumb = Scorer(browser)
    thumb.choose("mode", "shape")
    thumb.enter(line)
    told("a shape that was tapped", [line, answers_of([line])[0]], browser.run(f"[{LINE}, {RAW}]"))
    rows.append(f"| a shape with its discards | `{line}` | {thumb.taps} | {thumb.swipes} |")


def disputed_hand(browser: Browser, rows: list[str], folder: Path) -> None:
    """A hand is entered, put right, explained, named and shared; the page is loaded again, and the hand is there."""
    fresh(browser)
    line = "win 78999m444p22567s on=9m by=ron seat=S round=E riichi=1"
    thumb = Scorer(browser)
    thumb.enter(line.replace("by=ron", "by=tsumo"))
    thumb.choose("by", "ron")
    thumb.tap("#why")
    told("why", True, "8 concealed triplet" in browser.run("document.querySelector('#sheet .answer .why').innerText"))
    browser.picture(folder / "disputed.png")
    browser.run("navigator.share = (parts) => { window.shared = parts; return Promise.resolve(); }")
    thumb.tap("#sheet-share")
    shared = browser.run("window.shared.text")
    told("the hand is shared with its reasons", True, "50 fu" in shared and "reading" in shared)
    thumb.tap("#sheet .close")
    rows.append(f"| a disputed hand: won by ron after all, why, shared, closed | `{line}` | {thumb.taps} | {thumb.swipes} |")
    browser.ask("Network.emulateNetworkConditions", offline=True, latency=0, downloadThroughput=0, uploadThroughput=0)
    browser.reload()
    told("the network cut, the page loaded again", [line, answers_of([line])[0], "win"], browser.run(f"[{LINE}, {RAW}, {MODE}]"))
    browser.ask("Network.emulateNetworkConditions", offline=False, latency=0, downloadThroughput=-1, uploadThroughput=-1)


def test_scorer(browser: Browser, folder: Path) -> None:
    browser.size(*PHONE, touch=True)
    rows = ["| Hand | Line | Taps | Swipes |", "|---|---|---|---|"]
    ten_wins(browser, rows)
    shape_with_discards(browser, rows)
    disputed_hand(browser, rows, folder)
    told("nothing is said of a hand that isn't there", True, browser.run(ANSWER) != "")
    (folder / "taps.md").write_text("\n".join(rows) + "\n", "utf-8")
