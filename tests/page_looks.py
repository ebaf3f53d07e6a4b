"""How the page looks, and whether everyone can use it: pictures of each mode in four sizes and both schemes, contrasts, the size of
what is touched, words that are cut, names, and the order of the focus. page_looks.js measures."""

from __future__ import annotations

from pathlib import Path
from urllib.parse import unquote

from browser import Browser
from page_rows import ANSWER, PAGE, attribute, choose, fresh, set_choice, told, type_line

MEASURES = Path(__file__).with_suffix(".js").read_text("utf-8")
SIZES = ((360, 640), (390, 844), (768, 1024), (1280, 800))
# Screens that are looked at at 200 %.
ZOOMED = ((1280, 800), (768, 1024), (1024, 768))
LANGUAGES = ("english", "romanised", "script", "german", "french", "polish")
VIEWS = {
    "win": "win 234567m345p6799s on=5s by=tsumo seat=S round=E riichi=1 dora=4p ura=1z counters=1 sticks=1",
    "melds": "win 34p99s open=ankan:1111z,chi:234m,chi:567m on=2p by=tsumo seat=S round=E flags=rinshan dora=1p",
    "yakuman": "win 19m19p19s1234567z on=1m by=tsumo seat=E round=E",
    "shape": "shape 123456789m11348p seen=2p",
    "far-shape": "shape 19m19p19s12345z247m",
    "waits": "waits 2223456777m open=pon:111z",
    "refused": "win 567m345p67s88s open=chi:234m on=5s by=ron seat=S round=E riichi=1",
    "refused-place": "waits 12x3m",
}


def measured(browser, name: str):
    """What the function of page_looks.js with this name gives."""
    return browser.run(f"(() => {{ {MEASURES}\nreturn {name}(); }})()")


def sound(browser, about: str, *names: str) -> None:
    """These measures find nothing."""
    for name in names:
        told(f"{about}: {name}", [], measured(browser, name))


def look(browser: Browser, name: str, folder: Path) -> None:
    browser.run("document.activeElement.blur(); scrollTo(0, 0)")
    sound(browser, name, "tooWide", "pale", "small", "cut", "broken", "otherwiseNamed")
    browser.picture(folder / f"{name.replace(' ', '-')}.png")


def test_looks(browser: Browser, folder: Path) -> None:
    for scheme in ("light", "dark"):
        for width, height in SIZES:
            browser.scheme(scheme)
            browser.size(width, height, touch=width < 700)
            fresh(browser)
            look_at_modes(browser, f"{width}x{height} {scheme}", width < 700, folder)


def look_at_modes(browser: Browser, about: str, is_phone: bool, folder: Path) -> None:
    look(browser, f"empty {about}", folder)
    for name, line in VIEWS.items():
        browser.run("document.getElementById('new').click()")
        type_line(browser, line)
        look(browser, f"{name} {about}", folder)
        if is_phone and line.startswith("win"):
            sound(browser, f"{name} {about}", "outOfReach")
            is_beside = "document.getElementById('one').dataset.full === 'yes'"
            is_low = browser.run(f"{is_beside} || document.getElementById('bar').offsetHeight <= innerHeight / 4 + 0.5")
            told(f"{name} {about}: the bar is a quarter at most, or beside the choices", True, is_low)
    type_line(browser, VIEWS["win"])
    browser.run("document.getElementById('why').click()")
    look(browser, f"sheet {about}", folder)
    browser.run("document.getElementById('sheet').close(); document.getElementById('open-settings').click()")
    look(browser, f"settings {about}", folder)
    profile = browser.run("document.querySelector('#settings input[name=rules]:checked').value")
    set_choice(browser, "rules", "house")
    look(browser, f"house {about}", folder)
    set_choice(browser, "rules", profile)
    browser.run("document.getElementById('settings').close()")
    set_choice(browser, "rules", "2")
    set_choice(browser, "names", "script")
    look(browser, f"script {about}", folder)
    set_choice(browser, "names", "romanised")
    browser.run("document.querySelector('[data-target=chi]').click()")
    look(browser, f"romanised-chi {about}", folder)
    browser.run("document.querySelector('[data-target=chi]').click()")
    set_choice(browser, "names", "english")
    set_choice(browser, "rules", "1")
    choose(browser, "mode", "many")
    browser.run("document.getElementById('lines').value = ''; document.getElementById('lines').focus()")
    browser.type("\n".join(["# an evening", *VIEWS.values()]))
    look(browser, f"many {about}", folder)
    choose(browser, "mode", "hands")
    look(browser, f"hands {about}", folder)
    choose(browser, "mode", "win")


def test_narrow(browser: Browser) -> None:
    """At 320 pixels, as at four times the size on a screen of 1280: nothing is lost, and nothing moves sideways."""
    browser.size(320, 568, touch=True)
    fresh(browser)
    for name, line in VIEWS.items():
        type_line(browser, line)
        sound(browser, f"{name} at 320", "tooWide", "small", "cut", "broken")


def test_zoomed(browser: Browser, folder: Path) -> None:
    """At 200 % on a laptop, on a tablet and on a small laptop nothing is lost, and nothing moves sideways."""
    for width, height in ZOOMED:
        browser.zoom(width, height)
        fresh(browser)
        look_at_modes(browser, f"zoomed {width}x{height}", False, folder)
        type_line(browser, "win 234567m345p6799s round=E")
        for name in ("#tray", "#picker", "#fields", "#answer", "#why", "#new", "#line"):
            reach = f"(() => {{ const it = document.querySelector('{name}'); it.scrollIntoView({{block: 'nearest'}}); return it.checkVisibility(); }})()"
            told(f"zoomed {width}x{height}: {name} can be reached", True, browser.run(reach))


def test_wide(browser: Browser) -> None:
    """On a wide screen the answer stands beside the hand and the tiles, as far down as these, and nothing of it is scrolled to."""
    for width, height in ((1280, 800), (1440, 900), (1920, 1080), (2560, 1440)):
        browser.size(width, height)
        fresh(browser)
        for name in ("win", "melds", "shape", "waits"):
            type_line(browser, VIEWS[name])
            sound(browser, f"{name} at {width}x{height}", "tooWide", "cut", "broken", "notBeside")
            told(f"{name} at {width}x{height}: it scrolls", False, browser.run("document.documentElement.scrollHeight > innerHeight"))


def test_spaced(browser: Browser) -> None:
    """With more space between letters no word is cut, in all names."""
    for width, height in ((320, 568), *SIZES):
        browser.size(width, height, touch=width < 700)
        fresh(browser)
        measured(browser, "space")
        for names in LANGUAGES:
            set_choice(browser, "names", names)
            for name in ("win", "melds", "shape", "refused"):
                type_line(browser, VIEWS[name])
                sound(browser, f"{name} at {width}, spaced, {names}", "tooWide", "cut")


def test_lying(browser: Browser) -> None:
    """On a phone that lies on its side the answer and its buttons are seen with the hand."""
    for width, height in ((568, 320), (667, 375), (844, 390)):
        browser.size(width, height, touch=True)
        fresh(browser)
        type_line(browser, VIEWS["win"])
        browser.run("document.activeElement.blur(); scrollTo(0, 0)")
        sound(browser, f"{width}x{height}", "tooWide", "below", "small", "cut", "broken")


def named_roles(browser: Browser) -> list[tuple[str, str]]:
    """What of the page must have a name for a screen reader, with the name."""
    wanted = {"button", "radio", "checkbox", "combobox", "textbox", "spinbutton", "link", "image", "radiogroup", "region", "dialog", "heading"}
    nodes = [node for node in browser.ask("Accessibility.getFullAXTree")["nodes"] if not node.get("ignored")]
    roles = [(node.get("role", {}).get("value"), node.get("name", {}).get("value", "")) for node in nodes]
    return [(role, name) for role, name in roles if role in wanted]


def test_names_of_controls(browser: Browser) -> None:
    """Each control has a name for a screen reader, and so has each tile and answer."""
    browser.size(*SIZES[3])
    fresh(browser)
    type_line(browser, VIEWS["win"])
    roles = named_roles(browser)
    told("controls without a name", [], [role for role, name in roles if not name])
    told("tiles, choices and buttons", True, len(roles) > 70)
    names = {name for _, name in roles}
    read_aloud = {"1 of characters", "White dragon", "Winning tile. Take out 5 of bamboos", "2 of characters: make it the winning tile", "East, the dealer", "Answer", "Counters"}
    told("names that are read aloud", set(), read_aloud - names)
    told("the answer is told when it changes", "polite", browser.run("document.getElementById('answer').ariaLive"))
    told("the language of the page", "en", browser.run("document.documentElement.lang"))
    set_choice(browser, "names", "script")
    told("a tile's language", ["1萬", "ja"], [attribute(browser, "#picker [data-kind='1m']", it) for it in ("aria-label", "lang")])


def test_focus(browser: Browser) -> None:
    """The Tab key goes through the page in the order of its text, each stop is seen and marked, and it goes back the same way."""
    for width, height in (SIZES[0], SIZES[3], (640, 400)):
        browser.size(width, height)
        fresh(browser)
        type_line(browser, VIEWS["win"])
        browser.reload()
        stops = []
        for _ in range(60):
            browser.key("Tab")
            stop = measured(browser, "focus")
            if stop["name"] is None or (stops and stop["at"] <= stops[-1]["at"]):
                break
            stops.append(stop)
        told(f"{width}: the last stop", "line", stops[-1]["name"])
        told(f"{width}: stops that aren't seen", [], [stop["name"] for stop in stops if not stop["seen"]])
        told(f"{width}: stops that aren't marked", [], [stop["name"] for stop in stops if not stop["marked"]])
        told(f"{width}: enough stops", True, len(stops) > 30)
        browser.run("document.getElementById('line').focus()")
        browser.key("Tab", is_back=True)
        told(f"{width}: back", stops[-2]["name"], measured(browser, "focus")["name"])


def picture(browser: Browser, tile: str) -> str:
    """The drawing of a tile: a part of the picture of all faces, which is a ground in the styles."""
    rules = "[...document.styleSheets].flatMap(it => [...it.cssRules]).map(it => it.cssText)"
    faces = unquote(browser.run(f"{rules}.find(it => it.startsWith('.face') && it.includes('data:image'))"))
    return faces.split(f'id="{tile}"')[1].split("</g>")[0]


def test_without_colour(browser: Browser) -> None:
    """A choice, a refusal and a red five are told otherwise than by a colour too."""
    fresh(browser)
    type_line(browser, VIEWS["refused"])
    mark = browser.run("getComputedStyle(document.querySelector('.faulty'), '::after').content")
    told("a refused field has a word", '"refused"', mark)
    weight = browser.run("getComputedStyle(document.querySelector('#fields input:checked + span')).fontWeight")
    told("a choice is bold", True, int(weight) > 600)
    red, plain = (picture(browser, tile) for tile in ("0p", "5p"))
    told("a red five has a zero", True, ">0</text>" in red)
    told("and a dot", plain.count("<circle") + 1, red.count("<circle"))
    told("the refusal is said", True, "Refused" in browser.run(ANSWER))


def test_schemes(browser: Browser) -> None:
    browser.scheme("dark")
    fresh(browser, PAGE)
    ground = "getComputedStyle(document.body).backgroundColor"
    told("dark as the device", "rgb(18, 23, 22)", browser.run(ground))
    set_choice(browser, "scheme", "light")
    told("light where it is chosen", "rgb(244, 243, 238)", browser.run(ground))
    browser.reload()
    told("and over a reload", "rgb(244, 243, 238)", browser.run(ground))
    browser.scheme("light")
