"""The mode Game: an evening of deals entered by taps alone, what the page shows of it against the answers of the command `game`, and how
its screens look. The taps of each outcome go into a file beside the pictures; docs/PAGE.md has
them."""

from __future__ import annotations

import json
import re
from pathlib import Path

from browser import Browser
from page_looks import SIZES, measured, named_roles, sound
from page_rows import fresh, said_of, text, texts, tiles_of, told

PHONE = (360, 640)
NAMES = ["Anna", "Bo", "Cyd", "Dee"]
GAME = "game Anna Bo Cyd Dee nagashi=on"
HAND = "234567m345p6799s on=5s dora=4m"
# Each outcome: what it is, the line that it makes, and the taps; a name of a control, or the tiles of a hand.
DEALS = [
    ("ron by han and fu, riichi", "ron Bo from Cyd 2.30 riichi Bo", "bet-1 win-1 from-2 han-2 fu-30 count"),
    ("self-draw by a limit hand", "tsumo Cyd mangan", "win-2 from-tsumo limit-mangan count"),
    ("ron by the tiles, riichi, dora", f"ron Anna from Dee {HAND} riichi Anna", f"tiles-0 from-3 riichi {HAND} count"),
    ("draw, two riichi, four ready", "draw ready Anna,Bo,Cyd,Dee riichi Anna,Dee", "draw riichi-0 riichi-3 ready-1 ready-2 count"),
    ("draw with a nagashi mangan", "draw ready Anna nagashi Bo", "draw ready-0 nagashi-1 count"),
    ("two win on one discard", "ron Bo from Dee 1.30 and Cyd 3.40", "win-1 from-3 han-1 fu-30 also-2 han-3 fu-40 count"),
    ("self-draw of a yakuman, one liable", "tsumo Dee yakuman liable Anna", "win-3 from-tsumo limit-yakuman liable-0 count"),
    ("abort, four riichi", "abort riichi Anna,Bo,Cyd,Dee", "more four-riichi count"),
    ("dead hand", "chombo Cyd", "more chombo player-2 count"),
    ("penalty", "penalty Bo 8000", "more penalty player-1 points-8000 count"),
    ("the end", "end", "more end count"),
]
# The most taps of a deal.
MOST = {"ron by han and fu, riichi": 6, "draw, two riichi, four ready": 6, "ron by the tiles, riichi, dora": 14 + 4, "abort, four riichi": 3}
TAPS_OF_DORA = 2


def control(name: str) -> str:
    return f"[data-key='{name}']"


class Thumb:
    """Taps by touch, counted with the moves of the page that they needed."""

    def __init__(self, browser):
        self.browser, self.taps, self.swipes = browser, 0, 0

    def tap(self, selector: str) -> None:
        self.taps += 1
        if isinstance(self.browser, Browser):
            self.swipes += self.browser.touch(selector)
        else:
            # a driver takes what lies under the bar for seen
            self.browser.run(f"document.querySelector({json.dumps(selector)}).scrollIntoView({{block: 'center'}})")
            self.browser.touch(selector)

    def hand(self, hand: str, on: str, *others: str) -> None:
        for tile in tiles_of(hand) + tiles_of(on.removeprefix("on=")):
            self.tap(f"#picker [data-kind='{tile}']")
        for key, tiles in (word.split("=") for word in others):
            for tile in tiles_of(tiles):
                self.tap(f"[data-target={key}]")
                self.tap(f"#picker [data-kind='{tile}']")

    def deal(self, taps: str) -> None:
        words = taps.split()
        while words:
            word = words.pop(0)
            if word == "riichi":
                self.tap("label:has(input[name=riichi][value='1'])")
            elif re.match(r"\d", word):
                hand = [word]
                while words and "=" in words[0]:
                    hand.append(words.pop(0))
                self.hand(*hand)
            else:
                is_form = self.browser.run("document.documentElement.dataset.game") == "tiles" and word == "count"
                self.tap("#count" if is_form else control(word))


def write_names(browser) -> None:
    """The names and the rule of a new game; the name of a field is typed, and a rule chosen from its list."""
    for at, name in enumerate(NAMES):
        field = f"document.querySelector({json.dumps(control(f'name-{at}'))})"
        browser.run(f"({field}.value = {json.dumps(name)}, {field}.dispatchEvent(new Event('input')))")


def begin_game(browser, nagashi: bool = True) -> None:
    browser.run("document.querySelector('#modes input[value=game]').click()")
    browser.run(f"document.querySelector({json.dumps(control('new-game'))}).click()")
    write_names(browser)
    if nagashi:
        rule = f"document.querySelector({json.dumps(control('rule-nagashi'))})"
        browser.run(f"({rule}.value = 'on', {rule}.dispatchEvent(new Event('change')))")
    browser.run(f"document.querySelector({json.dumps(control('begin'))}).click()")


def game_text(browser) -> str:
    """The text of the game that is open."""
    return browser.run("(() => { const { id } = JSON.parse(localStorage['riichi_desk.evening']);"
                       " return JSON.parse(localStorage[`riichi_desk.game.${id}`]).lines.join('\\n') + '\\n'; })()")


def points_shown(browser) -> list[int]:
    return [int(re.sub(r"\D", "", it)) * (-1 if it.startswith("\u2212") else 1) for it in texts(browser, ".seat-points strong")]


def points_told(answer: str) -> list[int]:
    return [int(it) for it in answer.split(" points ")[1].split()]


def changes_shown(browser) -> list[str]:
    return [it.replace("\u202f", "").replace("\u2212", "-") for it in texts(browser, ".four .change")]


def play(browser, rows: list[str] | None = None, about: str = "") -> None:
    """All the deals, each compared with what the command answers."""
    lines = [GAME]
    for name, line, taps in DEALS:
        thumb = Thumb(browser)
        *before, last = taps.split()
        thumb.deal(" ".join(before))
        lines.append(line)
        answers = said_of("game", lines=lines)
        answer = answers[len(lines) - 1]
        if " changes " in answer:
            told(f"{about}{name}: what it changes is shown before", answer.split(" changes ")[1].split(" points ")[0].split(), changes_shown(browser))
        thumb.deal(last)
        told(f"{about}{name}: its line", lines, game_text(browser).splitlines())
        if " changes " in answer:
            told(f"{about}{name}: the points", points_told(answer), points_shown(browser))
        if rows is not None:
            most = MOST.get(name)
            dora = TAPS_OF_DORA if "dora=" in line else 0
            told(f"{name}: taps", True, most is None or thumb.taps - dora <= most)
            told(f"{name}: swipes", 0, thumb.swipes if most is not None else 0)
            rows.append(f"| {name} | `{line}` | {thumb.taps} | {thumb.swipes} |")
    finals = [it for it in said_of("game", lines=lines) if it.startswith("final")]
    totals = [it.split(" total ")[1] for it in finals]
    told(f"{about}the final points", totals, [it.replace("\u2212", "-") for it in texts(browser, ".final .total")])
    told(f"{about}the places", [it.split()[1:3] for it in finals], [list(it) for it in zip(texts(browser, ".final .place-of"), texts(browser, ".final tbody th"))])


def test_game(browser: Browser, folder: Path) -> None:
    browser.size(*PHONE, touch=True)
    fresh(browser)
    begin_game(browser)
    rows = ["| Outcome | Line | Taps | Swipes |", "|---|---|---|---|"]
    play(browser, rows)
    (folder / "game-taps.md").write_text("\n".join(rows) + "\n", "utf-8")
    browser.picture(folder / "game-over.png")
    kept = game_text(browser)
    browser.reload()
    told("the end outlasts a reload", kept, game_text(browser))
    browser.tap(control("text"))
    told("the text", kept, browser.run("document.getElementById('game-text').value"))
    browser.tap(control("open-text"))
    told("the text opened again, to the byte", kept, game_text(browser))
    told("as a game of its own", 2, browser.run("JSON.parse(localStorage['riichi_desk.games']).length"))


def test_game_right(browser: Browser) -> None:
    """A former deal is put right: what comes after is reckoned again, and shown where it differs; and taken back."""
    fresh(browser)
    begin_game(browser, nagashi=False)
    thumb = Thumb(browser)
    for taps in ("win-1 from-2 han-1 fu-30 count", "win-1 from-0 han-3 fu-30 count", "draw ready-1 count"):
        thumb.deal(taps)
    before = game_text(browser)
    thumb.deal("deals deal-0 right from-3")
    told("before it is put right, what differs", True, "Reckoned otherwise: East 2, East 2" in text(browser, ".reasons"))
    thumb.deal("count")
    lines = before.replace("ron Bo from Cyd 1.30", "ron Bo from Dee 1.30")
    told("the line that was put right", lines, game_text(browser))
    told("which deals differ", 3, len(texts(browser, ".deal.is-changed")))
    sums = [int(re.sub(r"\D", "", it)) for it in texts(browser, ".row-sum span")]
    told("the points behind it", points_told(said_of("game", lines=lines.splitlines())[-1]), sums)
    browser.tap(control("deal-1"))
    browser.run("document.querySelector('[data-key=note]').focus()")
    browser.type("a tip, and tea")
    told("a note", True, "ron Bo from Anna 3.30 # a tip, and tea" in game_text(browser))
    browser.reload()
    told("a note outlasts a reload", "a tip, and tea", browser.run("document.querySelector('[data-key=note]').value"))
    browser.tap(control("out"))
    told("a deal that was taken out", 2, len(texts(browser, ".deal")))
    browser.tap(".way-back")
    browser.tap(control("undo"))
    browser.tap(control("undo"))
    told("both taken back", before, game_text(browser).replace(" # a tip, and tea", ""))


def test_game_refusals(browser: Browser) -> None:
    """What can't be is said before it counts, in words, and can't be counted."""
    fresh(browser)
    begin_game(browser, nagashi=False)
    thumb = Thumb(browser)
    thumb.deal("bet-2 draw ready-2")
    told("a riichi that isn't ready", "Who declared riichi is ready: tap the name above.", text(browser, ".count-bar .fault"))
    told("it can't be counted", True, browser.run("document.querySelector('[data-key=count]').disabled"))
    thumb.deal("ready-2")
    browser.tap(".way-back")
    thumb.deal("tiles-1 from-0 123456789m22s34p on=9p")
    told("tiles that are no win", "These tiles are no win.", text(browser, "#answer .fault"))
    browser.tap(".way-back")
    thumb.deal("more stands round-west")
    told("a round that isn't there", "This table has no such round.", text(browser, ".count-bar .fault"))


def test_game_four_riichi(browser: Browser) -> None:
    """One tap says that all four declared riichi; on the way back, and taken back, the bets are as they were."""
    fresh(browser)
    begin_game(browser)
    thumb = Thumb(browser)
    bets = "[...document.querySelectorAll('.seat [aria-pressed]')].map(it => it.ariaPressed).join()"
    thumb.deal("bet-1 more four-riichi")
    told("all four declared riichi", ["true"] * 4, browser.run("[...document.querySelectorAll('.bets button')].map(it => it.ariaPressed)"))
    browser.tap(".way-back")
    told("the bets on the way back", "false,true,false,false", browser.run(bets))
    thumb.deal("more four-riichi count")
    told("the abort", "abort riichi Anna,Bo,Cyd,Dee", game_text(browser).splitlines()[-1])
    browser.tap(control("undo"))
    told("the bets where it is taken back", "false,true,false,false", browser.run(bets))


def test_game_need(browser: Browser) -> None:
    """What a player needs for a place, in the last round: the row of the page that the command has."""
    fresh(browser)
    lines = ["game Anna Bo Cyd Dee", "stands south 4 counters 1 sticks 1 points 28000 38000 30000 23000"]
    open_text(browser, lines)
    browser.tap(control("need"))
    browser.tap(control("need-2-1"))
    rows = dict(zip(texts(browser, ".needs dt"), texts(browser, ".needs dd"), strict=True))
    told("what Cyd needs from Bo", True, rows["From Bo"].startswith("1 han 110 fu: 3\u202f900"))
    told("for a tie", True, "For a tie: 1 han 100 fu, 2 han 50 fu, 3 han 25 fu: 3\u202f500" in rows["From Bo"])


def open_text(browser: Browser, lines: list[str]) -> None:
    browser.run("document.querySelector('#modes input[value=game]').click()")
    browser.run("document.querySelector('[data-key=text]').click()")
    browser.run(f"document.getElementById('game-text').value = {json.dumps(chr(10).join(lines) + chr(10))}")
    browser.run("document.querySelector('[data-key=open-text]').click()")


def test_game_texts(browser: Browser) -> None:
    """Games of texts: what is taken back is left out, hands by their tiles are read as the command reads them."""
    dragons = "tsumo Bo 23m99p open=pon:555z,pon:666z,pon:777z on=4m liable Dee"
    rows = [
        ["game A B C D", "ron B from C 1.30", "ron B from B 1.30", "draw", "undo", "tsumo A mangan"],
        ["game Anna Bo Cyd Dee rules=2", "ron B from C 40m22p345678s on=6m open=chi:340p dora=1z"],
        ["game table=league chombo=mangan", "chombo 3", "penalty 2 1000 # late", "stands east 2 counters 1 sticks 1 points 24000 25000 25000 25000"],
        ["game Anna Bo Cyd Dee", dragons],
    ]
    for lines in rows:
        fresh(browser)
        open_text(browser, lines)
        wanted = [it for it in said_of("game", lines=lines) if it.startswith("stands")][-1]
        told(f"{lines[-1]}: the points", points_told(wanted), points_shown(browser))
        last = [it for it in said_of("game", lines=game_text(browser).splitlines()) if it.startswith("stands")][-1]
        told(f"{lines[-1]}: its text answers the same", wanted, last)
    fresh(browser)
    open_text(browser, ["game A B C D", "ron B from C 1.35"])
    told("a text with a refused line isn't opened", "Refused: ron B from C 1.35", text(browser, "#said"))


# ---- How it looks

SCREENS = {
    "game-setup": "new-game", "game-table": "", "game-pad": "win-1 from-2 han-2 fu-30", "game-pad-empty": "win-1",
    "game-tiles": f"tiles-0 from-3 {HAND}", "game-tiles-empty": "tiles-0", "game-draw": "draw ready-0 riichi-1", "game-more": "more",
    "game-penalty": "more penalty player-1", "game-stands": "more stands", "game-need": "more need", "game-deals": "deals",
    "game-deal": "deals deal-0", "game-sheet": "more sheet", "game-text": "more text", "game-rules": "more rules",
}
EVENING = [
    "game Anna Bo Cyd Dee table=online bust=off", "ron Bo from Cyd 3.40 riichi Bo # the first", "tsumo Anna haneman riichi Dee",
    f"ron Dee from Anna {HAND} riichi Dee", "draw ready Cyd,Dee riichi Cyd", "stands south 4 counters 1 sticks 1 points 12300 41000 28700 17000",
]


def show_screen(browser: Browser, name: str) -> None:
    browser.run("document.documentElement.dataset.game === undefined && document.querySelector('#modes input[value=game]').click()")
    for key in SCREENS[name].split() if name != "game-tiles" else []:
        browser.run(f"document.querySelector({json.dumps(control(key))}).click()")
    if name == "game-tiles":
        Thumb(browser).deal(SCREENS[name])


def look_at_game(browser: Browser, about: str, folder: Path | None = None) -> None:
    for name in SCREENS:
        fresh(browser)
        if name != "game-setup":
            open_text(browser, EVENING)
        show_screen(browser, name)
        if name == "game-setup":
            browser.run("document.querySelector('.rules-of-table').open = true")
        browser.run("document.activeElement.blur(); scrollTo(0, 0)")
        sound(browser, f"{name} {about}", "tooWide", "pale", "small", "cut", "broken", "otherwiseNamed")
        if folder:
            browser.picture(folder / f"{name}-{about.replace(' ', '-')}.png")


def test_game_looks(browser: Browser, folder: Path) -> None:
    for scheme in ("light", "dark"):
        for width, height in SIZES:
            browser.scheme(scheme)
            browser.size(width, height, touch=width < 700)
            look_at_game(browser, f"{width}x{height} {scheme}", folder)


def test_game_narrow(browser: Browser) -> None:
    browser.size(320, 568, touch=True)
    look_at_game(browser, "320")


def test_game_zoomed(browser: Browser, folder: Path) -> None:
    """At 200 % on a laptop nothing of a game is lost."""
    browser.zoom(*SIZES[3])
    look_at_game(browser, "zoomed", folder)


def test_game_names(browser: Browser) -> None:
    """Each control of each screen has a name of its own for a screen reader (equal tiles have the same), and with the most space between letters none is cut."""
    browser.size(*PHONE, touch=True)
    for name in SCREENS:
        fresh(browser)
        if name != "game-setup":
            open_text(browser, EVENING)
        show_screen(browser, name)
        roles = named_roles(browser)
        told(f"{name}: controls without a name", [], [role for role, said in roles if not said])
        buttons = [said for role, said in roles if role == "button"]
        told(f"{name}: two buttons of one name", [], sorted({said for said in buttons if buttons.count(said) > 1 and " of " not in said}))
        measured(browser, "space")
        sound(browser, f"{name} spaced", "tooWide", "cut")


def test_game_focus(browser: Browser) -> None:
    """The Tab key goes through each screen in the order of its text, and each stop is seen and marked."""
    for width, height in (PHONE, (1280, 800)):
        for name in ("game-table", "game-pad", "game-tiles-empty", "game-draw", "game-deals", "game-text"):
            browser.size(width, height)
            fresh(browser)
            open_text(browser, EVENING)
            show_screen(browser, name)
            browser.reload()
            stops = []
            for _ in range(80):
                browser.key("Tab")
                stop = measured(browser, "focus")
                if stop["name"] is None or (stops and stop["at"] <= stops[-1]["at"]):
                    break
                stops.append(stop)
            told(f"{name} {width}: stops that aren't seen", [], [stop["name"] for stop in stops if not stop["seen"]])
            told(f"{name} {width}: stops that aren't marked", [], [stop["name"] for stop in stops if not stop["marked"]])
            told(f"{name} {width}: enough stops", True, len(stops) > 6)
        fresh(browser)
        open_text(browser, EVENING)
        browser.run("document.querySelector('[data-key=win-1]').focus()")
        browser.key("Enter")
        told(f"{width}: the focus goes to the head of another screen", "Bo: win", browser.run("document.activeElement.textContent"))
        browser.run("document.querySelector('[data-key=from-2]').focus()")
        browser.key("Enter")
        told(f"{width}: the focus stays with its control", "from-2", browser.run("document.activeElement.dataset.key"))
