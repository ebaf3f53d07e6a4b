"""What a person does with the form of the page, and what it then shows. Each answer is compared with one written here by hand,
or with that of the command."""

from __future__ import annotations

import re
import subprocess

from browser import Browser
from page_rows import (
    ANSWER, FAULTY, LINE, MODE, RAW, TOP, answers_of, attribute, choose, fill, fresh, said_of, set_choice, tap_tiles, text, texts,
    told, type_line,
)


def test_taps(browser: Browser) -> None:
    fresh(browser)
    chosen = browser.run("[...document.querySelectorAll('#fields input:checked')].map(it => it.name)")
    told("nothing is chosen for the person", {"round", "riichi"}, set(chosen))
    lacking = "13 more tiles, the winning tile, ron or self-draw, the seat wind."
    told("what a new hand lacks", f"Tap the tiles of the hand: {lacking}", browser.run(ANSWER))
    tap_tiles(browser, "2m 3m 4m 5m 6m 7m 3p 4p 5p 6s 7s 9s 9s 5s")
    told("a hand without its choices", "Still wanted: ron or self-draw, the seat wind.", browser.run(ANSWER))
    told("no answer to it", "", browser.run(RAW))
    told("a fifteenth tile isn't taken", "true", attribute(browser, "[data-kind='1z']", "aria-disabled"))
    tap_tiles(browser, "1z")
    choose(browser, "by", "ron")
    choose(browser, "seat", "S")
    told("a hand that was tapped", "win 234567m345p6799s on=5s by=ron seat=S round=E", browser.run(LINE))
    told("its answer", "won 1 han 30 fu 1000 gain 1000 pinfu", browser.run(RAW))
    choose(browser, "riichi", "1")
    choose(browser, "by", "tsumo")
    choose(browser, "seat", "E")
    told("a choice in the line", "win 234567m345p6799s on=5s by=tsumo seat=E round=E riichi=1", browser.run(LINE))
    told("a choice in the answer", "won 3 han 20 fu 1300 all gain 3900 riichi fully-concealed pinfu", browser.run(RAW))
    told("the points", "3\u202f900 points", text(browser, "#answer .headline"))
    browser.tap("#tray button")
    told("another tile of the hand is the winning one", ["34567m345p56799s", "on=2m"], browser.run(LINE).split()[1:3])
    browser.tap("#undo")
    browser.tap("#tray .winning button")
    browser.tap("#tray button")
    told("a tile that was taken out", "34567m345p6799s", browser.run(LINE).split()[1])
    told("what is then lacking", "Still wanted: 1 more tile, the winning tile.", browser.run(ANSWER))
    browser.tap("#back")
    told("undone", "234567m345p6799s", browser.run(LINE).split()[1])
    told("the winning tile is taken out", "Still wanted: the winning tile.", browser.run(ANSWER))
    tap_tiles(browser, "8s")
    told("another winning tile", "8s", re.search(r"on=(\S+)", browser.run(LINE))[1])
    browser.tap("[data-number=counters][data-by='1']")
    browser.tap("[data-number=sticks][data-by='1']")
    told("counters and sticks", ["counters=1", "sticks=1"], browser.run(LINE).split()[-2:])
    browser.tap("[data-target=dora]")
    tap_tiles(browser, "9m")
    told("an indicator, and the dora that it makes", ["9m", "1m"], browser.run("[...document.querySelectorAll('#dora .face')].map(it => it.dataset.face)"))
    browser.tap("#new")
    told("a new hand keeps the round alone", "win round=E", browser.run(LINE))
    choose(browser, "mode", "shape")
    browser.tap("#back")
    told("the tab goes back too", "win", browser.run(MODE))


def test_melds(browser: Browser) -> None:
    fresh(browser)
    for word, tile in (("chi", "2m"), ("ankan", "1z"), ("pon", "9s")):
        browser.tap(f"[data-target={word}]")
        tap_tiles(browser, tile)
    told("melds by two taps each", "win open=chi:234m,ankan:1111z,pon:999s round=E", browser.run(LINE))
    browser.tap("[data-target=chi]")
    told("no run from an eight", "true", attribute(browser, "[data-kind='8s']", "aria-disabled"))
    told("nor of honours", "true", attribute(browser, "[data-kind='2z']", "aria-disabled"))
    told("what a tap would take", "Chi 3 4 5, from 3 of circles on", attribute(browser, "[data-kind='3p']", "aria-label"))
    browser.tap("[data-target=chi]")
    browser.tap("#tray .meld:last-child button")
    browser.tap("#tray .meld button")
    told("melds that were taken out", "win open=ankan:1111z round=E", browser.run(LINE))
    browser.tap("#new")
    tap_tiles(browser, "2m 3m 4m 5m 6m 7m 3p 4p 5p 6s 7s 9s 9s")
    browser.tap("[data-target=chi]")
    tap_tiles(browser, "2m")
    told("a run of the hand is turned into a meld", "win 567m345p6799s open=chi:234m round=E", browser.run(LINE))
    browser.tap("#new")
    browser.tap("[data-target=dora]")
    tap_tiles(browser, "1m 1m 1m 1m 1m")
    told("a kind has four tiles", sorted("win 111m dora=1m round=E".split()), sorted(browser.run(LINE).split()))
    browser.tap("#dora button")
    told("an indicator that was taken out", "win 111m round=E", browser.run(LINE))


def test_red_fives(browser: Browser) -> None:
    fresh(browser)
    told("no red fives under the first profile", True, browser.run("document.getElementById('red').hidden"))
    set_choice(browser, "rules", "2")
    browser.tap("#red")
    told("a red five is named", "red 5 of circles", attribute(browser, "[data-kind='5p']", "aria-label"))
    tap_tiles(browser, "5m 1m 2m 3m 4m 6m 7m 8m 9m 2s 2s 3p 4p 2p")
    choose(browser, "by", "ron")
    choose(browser, "seat", "S")
    told("a red five", "won 4 han 30 fu 8000 gain 8000 pinfu pure-straight dora 1", browser.run(RAW))
    browser.tap("#new")
    browser.tap("[data-target=pon]")
    browser.tap("#red")
    told("the meld is still wanted", "true", attribute(browser, "[data-target=pon]", "aria-pressed"))
    tap_tiles(browser, "5s")
    told("a meld with a red five", "win open=pon:550s round=E", browser.run(LINE))
    browser.tap("[data-target=chi]")
    browser.tap("#red")
    run = "Chi 3 4 red 5, from 3 of circles on"
    told("what a run with a red five would take", run, attribute(browser, "[data-kind='3p']", "aria-label"))
    tap_tiles(browser, "3p")
    told("a run with a red five within", "win open=pon:550s,chi:340p round=E", browser.run(LINE))
    browser.tap("#new")
    browser.tap("#red")
    tap_tiles(browser, "5m 4m 6m 1p 1p 2p 3p 4p 2s 3s 4s 7s 8s")
    browser.tap("[data-target=chi]")
    tap_tiles(browser, "4m")
    told("a run of the hand with a red five is turned into a meld", "win 11234p23478s open=chi:406m round=E", browser.run(LINE))


def test_refusals(browser: Browser) -> None:
    fresh(browser)
    line = "win 234m567m345p67s99s on=5s by=ron seat=S round=E"
    rows = [
        ("refused H10", "riichi", "win 567m345p67s88s open=chi:234m on=5s by=ron seat=S round=E riichi=1"),
        ("refused H11", "flags", f"{line} flags=ippatsu"),
        ("refused H11", "ura", f"{line} ura=1m"),
        ("refused H12", "flags", f"{line} flags=rinshan"),
        ("refused H13", "flags", f"{line.replace('ron', 'tsumo')} flags=chankan"),
        ("refused H14", "flags", f"{line} flags=chankan,last"),
        ("refused H15", "flags", f"{line} flags=first"),
        ("refused N2 hand at 2", "hand", "waits 12x3m"),
        ("refused N6 dora at 4", "dora", f"{line} dora=11111m"),
        ("refused H5", "on", f"{line} on=5s"),
        ("refused H4", "line", "waits 1m tiles=2m"),
        ("refused H7", "open", "waits 2223456777m open=pon:112z"),
        ("refused H8", "hand", "waits 123456789m111222z"),
        ("refused H2", "line", "score 1m"),
    ]
    for answer, field, given in rows:
        type_line(browser, given)
        told(f"{given}: answer", answer, browser.run(RAW))
        told(f"{given}: field", field, browser.run(FAULTY))
        said = said_of("explain", lines=[given])[1:]
        words = re.sub(r"^ *(\^ )?", "", said[-1] if " at " in answer else said[0])
        # where the page has no words of its own
        has_cause = browser.run("document.querySelector('#answer .refused .quiet') !== null")
        told(f"{given}: a cause of the page, or words of the library", not has_cause, words in text(browser, "#answer"))
    type_line(browser, "win 111m234m567p678s9s on=9s by=ron seat=S round=E dora=11m")
    told("five of a kind", "refused H9", browser.run(RAW))


# The discards as they are shown, in the words of the answer.
DISCARDS = """[...document.querySelectorAll('#answer .discards > li')].map((it) => {
  const kind = (tile) => tile.querySelector('.face').dataset.face;
  const accepted = [...it.querySelectorAll('.accepted li')].map((one) => ' ' + kind(one) + ':' + one.textContent.slice(1)).join('');
  return 'discard ' + kind(it) + ' accepts' + (accepted || ' -') + ' live ' + it.children[1].textContent.split(' ')[0];
})"""


def test_shapes(browser: Browser) -> None:
    fresh(browser)
    lines = ["shape 123456789m11348p", "shape 19m19p19s12345z247m", "shape 159m159p159s12345z"]
    lines += ["shape 11z open=pon:222z,chi:123m,chi:123m,chi:123m"]
    for line in lines:
        type_line(browser, line)
        told(f"{line}: the tab", "shape", browser.run(MODE))
        wanted = re.findall(r"discard .*? live [0-9]+", browser.run(RAW))
        told(f"{line}: some discards", True, len(wanted) > 0)
        told(f"{line}: discards as pictures", sorted(wanted), sorted(browser.run(DISCARDS)))
    type_line(browser, "shape 123456789m1134p seen=2222p")
    accepted = (attribute(browser, "#answer .accepted .tile", "aria-label"), texts(browser, "#answer .accepted li"))
    told("what thirteen tiles accept", ("5 of circles", ["×4"]), accepted)
    type_line(browser, "waits 1112345678999m")
    told("waits", 9, browser.run("document.querySelectorAll('#answer .accepted .tile').length"))


# The rows of what stands beyond the next step: the numbers of each, the most marked by a star.
FURTHER = """[...document.querySelectorAll('#answer .further tbody tr')].map((row) =>
  [...row.querySelectorAll('td')].map((it) => it.textContent + (it.className === 'most' ? '*' : '')).join(' '))"""


# A browser tells a part that is open some moments after the tap that opens it.
OPENED = """new Promise((done) => {
  const part = document.querySelector('#answer details');
  if (part.childElementCount > 1) done();
  part.addEventListener('toggle', () => done(), { once: true });
})"""


def test_further_steps(browser: Browser) -> None:
    fresh(browser)
    type_line(browser, "shape 123456789m1134p")
    told("nothing beyond a hand that is ready", [], browser.run(FURTHER))
    type_line(browser, "shape 234m45678p34s558s")
    told("closed at first", [], browser.run(FURTHER))
    browser.tap("#answer summary")
    browser.run(OPENED)
    told("of thirteen tiles", ["20 20 165"], browser.run(FURTHER))
    type_line(browser, "shape 45678m345p2467s88s")
    told("open for the next hand", True, len(browser.run(FURTHER)) > 1)
    told("the most tiles and the most good ones", True, {"33* 10", "20 20*"} <= {" ".join(it.split()[:2]) for it in browser.run(FURTHER)})


# The calls that are shown: the tiles of each meld, and its best discards with the live tiles behind them.
CALLED = """[...document.querySelectorAll('#answer .calls > li')].map((it) => {
  const kinds = (part) => [...part.querySelectorAll('.face')].map(one => one.dataset.face).join('');
  return kinds(it.querySelector('.bound')) + ' ' + [...it.querySelectorAll('.accepted li')].map(one => kinds(one) + ':' + parseInt(one.textContent)).join(' ');
})"""


def throw(browser: Browser, who: str, tile: str) -> None:
    browser.tap(f"[data-target={who}]")
    tap_tiles(browser, tile)


def test_calls(browser: Browser) -> None:
    """Of a hand of thirteen tiles the calls that bring it nearer. A run with 2p, and 9s thrown away, makes the first ready for 3m, 6m and 9m, of
    which it has one 3m and one 6m; a triplet of 7z the second for 2p."""
    fresh(browser)
    hidden = "document.getElementById('throwers').hidden"
    choose(browser, "mode", "shape")
    told("nobody throws to a hand that isn't whole", True, browser.run(hidden))
    type_line(browser, "shape 12345678m13p55z9s")
    told("somebody throws to a hand of thirteen", False, browser.run(hidden))
    browser.tap("[data-target=left]")
    told("what to tap", True, "Left: tap the tile that is thrown." in browser.run(ANSWER))
    tap_tiles(browser, "2p")
    told("a run of the player before", ["1p2p3p 9s:10"], browser.run(CALLED))
    told("the hand stays", "shape 12345678m13p55z9s", browser.run(LINE))
    throw(browser, "across", "2p")
    told("no run of another", ([], True), (browser.run(CALLED), "No call brings the hand nearer." in browser.run(ANSWER)))
    type_line(browser, "shape 123456m13p5577z9s")
    told("another hand has no tile thrown", 0, browser.run("document.querySelectorAll('#answer .thrown').length"))
    throw(browser, "right", "7z")
    told("a triplet of any", ["7z7z7z 9s:4"], browser.run(CALLED))
    tap_tiles(browser, "9p")
    told("nobody throws to a hand of fourteen", True, browser.run(hidden))


def test_explanations(browser: Browser) -> None:
    """The rows of an explanation are those of the command `explain`; tiles are drawn, so their text is left out here, melds have their
    names, and points are written as everywhere on the page."""
    fresh(browser)
    lines = [
        "win 99978m444p567s22s on=9m by=ron seat=S round=E riichi=1",
        "win 1133m5577p2288s4z on=4z by=tsumo seat=W round=E counters=1",
        "win 456m22s34p open=chi:123m,chi:678p on=2p by=ron seat=S round=E",
        "win 123456789m22s34p on=9s by=ron seat=S round=E",
        "shape 123456789m1134p",
    ]
    for line in lines:
        type_line(browser, line)
        said = said_of("explain", lines=[line])[1:]
        told(f"{line}: some rows", True, len(said) > 0)
        wanted = [re.sub(r"([0-9]+[mps]|[1-7]+z)+(?![0-9a-z])", "", " ".join(row.split())).replace("chi:", "Chi ") for row in said]
        wanted = [re.sub(r"\b([0-9]+)([0-9]{3})\b", "\\1\u202f\\2", row) for row in wanted]
        rows = zip(texts(browser, "#answer .why dt"), texts(browser, "#answer .why dd"), strict=True)
        told(f"{line}: rows", wanted, [f"{word} {said}" for word, said in rows])


def test_many_lines(browser: Browser) -> None:
    fresh(browser)
    lines = subprocess.run([TOP / "tests/lines"], check=True, capture_output=True, text=True).stdout
    wanted = answers_of(lines.splitlines())
    choose(browser, "mode", "many")
    fill(browser, "lines", lines)
    told("answers to many lines", wanted, texts(browser, "#answers .told"))
    told("the count of many lines", f"{len(wanted)} answers", text(browser, "#many-count").split(",")[0])
    red = "waits 340m1112345678p"
    for first in ("rules 1", "rules 2", " rules  2 ", "rules 2\r", "Rules 2", "rules 3", "rules 2 2", "# rules 2", ""):
        fill(browser, "lines", f"{first}\n{red}\n# rules 2\nrules 2\n{red}\n")
        told(f"a first line {first!r}", answers_of([first, red, "# rules 2", "rules 2", red]), texts(browser, "#answers .told"))
    fill(browser, "lines", red)
    set_choice(browser, "rules", "2")
    told("another profile answers what is shown anew", answers_of([red], "--rules", "2"), texts(browser, "#answers .told"))


# a win with a red five, an open hand of simples, one with an indicator below
HOUSE = "1+red-fives-open-simples-ura"
HOUSE_HANDS = [
    "win 123406789m22s34p on=2p by=ron seat=S round=E",
    "win 567m345p67s88s open=chi:234m on=5s by=tsumo seat=S round=E",
    "win 234m567m345p67s99s on=5s by=ron seat=S round=E riichi=1 ura=1m",
]


def test_house(browser: Browser) -> None:
    fresh(browser)
    choose(browser, "mode", "many")
    fill(browser, "lines", "\n".join(HOUSE_HANDS))
    set_choice(browser, "rules", "house")
    told("the rules of a house begin as the profile", answers_of(HOUSE_HANDS), texts(browser, "#answers .told"))
    for rule in "red-fives", "open-simples", "ura":
        browser.run(f"document.querySelector('#house [data-rule={rule}]').click()")
    wanted = answers_of(HOUSE_HANDS, "--rules", HOUSE)
    told("the rules of a house", wanted, texts(browser, "#answers .told"))
    told("the rules on the button", "own", text(browser, "#rules-now"))
    set_choice(browser, "rules", "2")
    fill(browser, "lines", "\n".join([f"# --rules {HOUSE}", *HOUSE_HANDS]))
    told("the rules of a house above a text", wanted, texts(browser, "#answers .told"))
    fill(browser, "lines", "\n".join(["# --rules 1+red-five", *HOUSE_HANDS]))
    told("a word that names no rule", answers_of(HOUSE_HANDS, "--rules", "2"), texts(browser, "#answers .told"))


def test_paste(browser: Browser) -> None:
    fresh(browser)
    browser.run("""(() => {
      const data = new DataTransfer();
      data.setData('text/plain', 'rules 2\\nwaits 1112345678999m\\n# no hand\\nwaits 1m\\n');
      document.getElementById('line').dispatchEvent(new ClipboardEvent('paste', { clipboardData: data, cancelable: true }));
    })()""")
    told("lines that were pasted", ["waits 123456789m", "refused H8"], texts(browser, "#answers .told"))
    browser.tap("#answers li:last-child button")
    told("one of them in the form", ["waits 1m", "2"], browser.run(f"[{LINE}, document.getElementById('rules-now').textContent]"))


def test_keyboard(browser: Browser) -> None:
    """A shape by the keys alone, from the start of the page."""
    fresh(browser)
    browser.key("Tab")
    browser.key("ArrowRight", 2)
    told("a tab by the arrow keys", "shape", browser.run(MODE))
    browser.key("Tab", 2)
    told("the picker by Tab", "1m", browser.run("document.activeElement.dataset.kind"))
    along, across = ("ArrowDown", "ArrowRight") if browser.run("innerWidth < 640") else ("ArrowRight", "ArrowDown")
    for key, times in (("Enter", 1), (along, 1), ("Enter", 1), (along, 1), ("Enter", 2), (across, 1), ("Home", 1), (" ", 1)):
        browser.key(key, times)
    told("tiles by keys", "shape 1233m1p", browser.run(LINE))
    browser.key("Backspace", 2)
    told("tiles taken back by a key", "shape 123m", browser.run(LINE))
    told("the focus stays", "1p", browser.run("document.activeElement.dataset.kind"))
    for _ in range(20):
        if browser.run("document.activeElement.id") == "line":
            break
        browser.key("Tab")
    told("the line by Tab", "line", browser.run("document.activeElement.id"))
