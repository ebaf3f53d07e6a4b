"""Chances and points by turn, below the answer to a shape: the table, the curves, what ends the counting, how it looks, and how long a question
takes in each browser. What hands are worth is written here by hand, from docs/CHANCES.md, or said by the command `study`."""

from __future__ import annotations

import json
import random
import time
from functools import cache
from pathlib import Path
from statistics import median

from browser import Browser
from page_looks import sound
from page_rows import attribute, choose, fill, fresh, said_of, set_choice, text, told, type_line
from page_words import COLUMNS, look_at_words

THIRTEEN = "shape 234m45678p34s558s"
FOURTEEN = "shape 23678m23p1236789s"
# Two-shanten, of fourteen best discards in many columns.
WIDE = "shape 44577m23p3356678s"
# Three-shanten, and slow to count: some tenths of a second. Of the second thirteen tiles.
FAR = "shape 13459m3677899p27s"
AS_FAR = "shape 13459m3677899p2s"
SUMMARY = "#answer .chances summary"
BUSY = "document.querySelector('#answer .chances [aria-busy]')?.getAttribute('aria-busy')"
# A row by its draws, of which the most is marked by a star.
TABLE = """Object.fromEntries([...document.querySelectorAll('#answer .by-turn tr')].slice(1).map((row) =>
  [row.cells[0].textContent, [...row.cells].slice(1).map((it) => it.textContent + (it.className === 'most' ? '*' : ''))]))"""
HEADS = """[...document.querySelectorAll('#answer .by-turn thead th')].slice(1).map((it) =>
  [...it.querySelectorAll('.face')].map((one) => one.dataset.face).join(''))"""
CURVES = "[...document.querySelectorAll('#answer .curve')].map((it) => it.points.length)"
# Each worker that the page begins is kept, with whether it was ended.
KEPT_WORKERS = """(window.begun = [], window.Worker = class Kept extends Worker {
  constructor(...given) { super(...given); begun.push(this); }
  terminate() { this.isOver = true; super.terminate(); }
}, true)"""
PATIENCE = 60  # seconds
VIEWS = ((320, 568, "light"), (360, 640, "dark"), (768, 1024, "dark"), (1280, 800, "light"))
# So many hands of each sort are dealt for the measure.
DEALT = 20


def counted(driver) -> dict[str, list[str]]:
    """The table, once all of it is told."""
    end = time.monotonic() + PATIENCE
    while driver.run(BUSY) != "false" and time.monotonic() < end:
        time.sleep(0.05)
    return driver.run(TABLE)


def chances_of_thirteen(driver, about: str) -> None:
    """The part is closed."""
    fill(driver, "line", THIRTEEN)
    told(f"{about}closed at first", {}, driver.run(TABLE))
    driver.tap(SUMMARY)
    table = counted(driver)
    told(f"{about}ready and win of thirteen tiles", [["16.3", "0"], ["30.0", "1.1"], ["96.9", "56.5"]], [table[it] for it in ("1", "2", "18")])
    told(f"{about}turns, and what is at most", [*map(str, range(1, 19)), "at most"], sorted(table, key=lambda it: int(it) if it.isdigit() else 99))
    told(f"{about}curves", [18, 18], driver.run(CURVES))


def test_chances(browser: Browser) -> None:
    fresh(browser)
    chances_of_thirteen(browser, "")
    told("what it comes to", "By 18 draws this play reaches: ready 96.9\u00a0%, win 56.5\u00a0%.", text(browser, "#answer .chances [role=status]"))
    told("heads of rows and columns", {"row", "col"}, set(browser.run("[...document.querySelectorAll('.by-turn th')].map(it => it.scope)")))
    told("what the table has", "Reached by so many draws, in percent", text(browser, ".by-turn caption"))
    told("the picture has a name", "Curve by turn; the table below has its numbers", attribute(browser, ".picture", "aria-label"))
    for line, by_eighteen in (("shape 3678m23p1236789s seen=2m", "49.8"), ("shape 23678m23p123789s seen=6s", "44.6")):
        type_line(browser, line)
        told(f"{line}: open for the next hand", by_eighteen, counted(browser)["18"][1])
    type_line(browser, "shape 123456789m1134p")
    told("of a ready hand wins alone", ["12.6"], counted(browser)["2"])
    type_line(browser, "shape 147m258p369s1234z")
    told("nothing of a hand that is far", 0, browser.run("document.querySelectorAll('.chances').length"))


def test_discard_chances(browser: Browser) -> None:
    fresh(browser)
    type_line(browser, FOURTEEN)
    browser.tap(SUMMARY)
    table = counted(browser)
    told("discards that reach the same stand together, the best first", ["2m3m2p3p", "6s9s"], browser.run(HEADS))
    told("the best discard turns", [["9.6", "10.3*"], ["46.7*", "42.2"]], [table["6"], table["17"]])
    told("at most by the last draw", ["46.7", "44.4"], table["at most"])
    told("curves of discards", [17, 17], browser.run(CURVES))
    told("signs at their ends", [2, 2], browser.run("[...document.querySelectorAll('.sign')].map(it => it.querySelectorAll('.tile').length)"))
    told("the best by the last draw", True, "reaches most: 46.7" in text(browser, "#answer .chances [role=status]"))
    choose(browser, "goal", "ready")
    told("ready", ["99.2*", "93.6"], sorted(counted(browser)["17"], reverse=True))
    choose(browser, "goal", "win")


def test_worths(browser: Browser) -> None:
    """The points that a hand brings: eight of 123 tiles win a mangan."""
    fresh(browser)
    type_line(browser, "shape 123456789m1134p")
    browser.tap(SUMMARY)
    counted(browser)
    choose(browser, "goal", "worth")
    table = counted(browser)
    told("points of a dealer's hand by one draw", ["780"], table["1"])
    told("points have no upper end", sorted(map(str, range(1, 19))), sorted(table))
    choose(browser, "worth-seat", "S")
    table = counted(browser)
    told("points of another's", ["520"], table["1"])
    told("what it brings", f"By 18 draws this play brings {table['18'][0]} points on the average.", text(browser, "#answer .chances [role=status]"))
    type_line(browser, FOURTEEN)
    table = counted(browser)
    (answer,) = [json.loads(it) for it in said_of("study", "--json", lines=[f"worth {FOURTEEN.split()[1]} turns=17 seat=S round=E"])]
    worths = {f"{int(float(it['worth']) + 0.5):,}".replace(",", "\u202f") for it in answer["discards"]}
    told("points after discards", worths, {it.rstrip("*") for it in table["17"]})
    told("the most is marked", 1, sum(it.endswith("*") for it in table["17"]))
    told("curves of points", len(worths), browser.run("document.querySelectorAll('#answer .curve').length"))
    choose(browser, "goal", "win")
    told("chances again", ["46.7*", "42.2"], counted(browser)["17"])


def test_end_of_counting(browser: Browser) -> None:
    """The worker ends where the hand changes, where the part is closed, and with the last answer."""
    fresh(browser)
    browser.run(KEPT_WORKERS)
    type_line(browser, FAR)
    begun = "begun.map((it) => it.isOver === true)"
    waited = "new Promise((done) => setTimeout(() => done(true), 60))"
    browser.run(f"(document.querySelector('{SUMMARY}').click(), {waited})")
    told("it counts", ([False], "true"), (browser.run(begun), browser.run(BUSY)))
    fill(browser, "line", AS_FAR)
    told("another hand ends it, and is counted itself", [True, False], browser.run(begun))
    fill(browser, "line", "shape 13459m3677899p2")
    told("a hand that isn't whole ends it", [True, True], browser.run(begun))
    fill(browser, "line", FAR)
    browser.run(f"(document.querySelector('{SUMMARY}').click(), {waited})")
    told("a part that is closed ends it", [True, True, True], browser.run(begun))
    browser.tap(SUMMARY)
    counted(browser)
    told("it goes on where it was, to the end", [True] * 4, browser.run(begun))
    browser.tap(SUMMARY)


def test_looks_of_chances(browser: Browser, folder: Path) -> None:
    for width, height, scheme in VIEWS:
        browser.size(width, height, touch=width < 700)
        browser.scheme(scheme)
        fresh(browser)
        for name, line, goal in (("goals", THIRTEEN, "win"), ("discards", WIDE, "win"), ("points", WIDE, "worth")):
            type_line(browser, line)
            browser.run(f"document.querySelector('#answer .chances').open || document.querySelector('{SUMMARY}').click()")
            browser.run(f"document.querySelector('#answer [name=goal][value={goal}]').click()")
            counted(browser)
            about = f"chances-{name} {width}x{height} {scheme}"
            sound(browser, about, "pale", "faint", "tooWide", "cut", "broken", *(["small"] if width < 700 else []))
            browser.run("(document.activeElement.blur(), document.querySelector('.chances').scrollIntoView())")
            browser.picture(folder / f"{about.replace(' ', '-')}.png")
    browser.size(320, 568, touch=True)
    browser.scheme("light")
    for names, column in COLUMNS.items():
        set_choice(browser, "names", names)
        for goal in ("worth", "win"):
            browser.run(f"document.querySelector('#answer [name=goal][value={goal}]').click()")
            counted(browser)
            look_at_words(browser, f"chances at 320, {goal}, {names}", column)
    told("chances at 320 have all of the width", 320, browser.run("document.getElementById('answer').offsetWidth"))
    set_choice(browser, "names", "english")
    browser.zoom(1280, 800)
    counted(browser)
    sound(browser, "chances at 200 %", "tooWide", "cut", "broken")


@cache
def dealt() -> dict[int, tuple[list[str], list[dict]]]:
    """Hands of fourteen dealt tiles, the first two-shanten and three-shanten ones, as questions, and what the command answers to them."""
    dice = random.Random(20261201)
    wall = [f"{digit}{suit}" for suit in "mpsz" for digit in range(1, 8 if suit == "z" else 10) for _ in range(4)]
    hands = ["".join(dice.sample(wall, 14)) for _ in range(20 * DEALT)]
    shanten = [json.loads(it)["shanten"] for it in said_of("line", "--json", lines=[f"shape {hand}" for hand in hands])]
    asked = {far: [f"chances {hand} turns=17" for hand, its in zip(hands, shanten) if its == far][:DEALT] for far in (2, 3)}
    return {far: (lines, [json.loads(it) for it in said_of("study", "--json", lines=lines)]) for far, lines in asked.items()}


# What the worker of the page answers to lines, and how long each takes.
ASKED = """(async () => {
  const textOf = (id) => document.getElementById(id).textContent;
  const module = await WebAssembly.compile(Uint8Array.from(atob(textOf('module').trim()), (letter) => letter.charCodeAt(0)));
  const worker = new Worker(URL.createObjectURL(new Blob([textOf('chances-worker')], { type: 'text/javascript' })));
  const [lines, told, times] = [LINES, [], [performance.now()]];
  await new Promise((done, fail) => {
    worker.onerror = fail;
    worker.onmessage = ({ data }) => {
      told.push(data);
      if (times.push(performance.now()) > lines.length) done();
    };
    worker.postMessage({ module, lines });
  });
  worker.terminate();
  return [told, times.slice(1).map((it, at) => it - times[at])];
})()"""


def measure_chances(driver) -> None:
    """Each hand is asked twice, and the second time counts, since a browser makes code quicker as it is used."""
    for far, (lines, wanted) in dealt().items():
        answers, times = driver.run(ASKED.replace("LINES", json.dumps(lines * 2)))
        told(f"{driver.name}: chances of {far}-shanten hands", wanted * 2, answers)
        later = times[len(lines) :]
        print(f"page: {driver.name}: chances of {len(lines)} {far}-shanten hands by 17 draws, a call {median(later):.0f} ms median, {max(later):.0f} at most")


def chances_in(driver) -> None:
    """In one of three browsers."""
    chances_of_thirteen(driver, f"{driver.name}: ")
    driver.tap(SUMMARY)
    measure_chances(driver)
