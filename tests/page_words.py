"""The words of the page: each phrase is there in every language, nothing of another language is shown, and each word has the space
that it needs."""

from __future__ import annotations

import json
import re
from pathlib import Path

from browser import Browser
from page_game import EVENING, SCREENS, open_text, show_screen
from page_looks import LANGUAGES, VIEWS, sound
from page_rows import choose, fresh, set_choice, texts, told, type_line

WEB = Path(__file__).resolve().parent.parent / "web"
TABLE = re.compile(r"^(?:export )?const ([A-Z_]+) = (\{\n.*?^\});", re.M | re.S)
ORDER = ["en", "ja", "de", "fr", "pl"]
COLUMNS = {"romanised": "en", "script": "ja", "german": "de", "french": "fr", "polish": "pl"}
SMALL_PHONE = (360, 640)
NARROW = (320, 568)


def tables() -> dict[str, dict]:
    """The tables of phrases by their names: of each key its phrases, or the one phrase of all languages."""
    sources = "\n".join(it.read_text("utf-8") for it in [*sorted(WEB.glob("words-*.js")), WEB / "rules.js"])
    plain = re.sub(r"^ *//.*$", "", sources, flags=re.M)
    found = {name: json.loads(re.sub(r",(\s*[\]}])", r"\1", table)) for name, table in TABLE.findall(plain) if '": ' in table}
    return {name: table for name, table in found.items() if name.endswith("_WORDS") or name in ("RULE_NAMES", "ROMANISED")}


def phrases() -> dict[str, list[str]]:
    """Of each key the phrases of all languages."""
    rows = [row for name, table in tables().items() if name != "ROMANISED" for row in table.items()]
    told("keys that stand twice", [], sorted({key for key, _ in rows if [it for it, _ in rows].count(key) > 1}))
    return {key: [row] * len(ORDER) if isinstance(row, str) else row for key, row in rows}


def given_to(phrase: str) -> list[str]:
    return sorted(re.findall(r"\{(\w+)\}", phrase))


def test_words(browser: Browser) -> None:
    """Each language has each phrase, with the same words put in; and the scripts say no other."""
    rows = phrases()
    told("phrases", True, len(rows) > 300)
    told("phrases that a language lacks", [], [key for key, row in rows.items() if len(row) != len(ORDER) or not all(row)])
    told("what is put in", [], [key for key, row in rows.items() if any(given_to(it) != given_to(row[0]) for it in row)])
    names = {name for row in rows.values() for it in row for name in re.findall(r"\{(@[^}]+)\}", it)}
    told("names that are put in and aren't there", [], sorted(names - set(rows)))
    romanised = tables()["ROMANISED"]
    told("Japanese names of phrases", [], [key for key, it in romanised.items() if key not in rows or given_to(it) != given_to(rows[key][0])])
    page = (WEB / "desk.html").read_text("utf-8")
    scripts = "".join(it.read_text("utf-8") for it in WEB.glob("*.js"))
    said = re.findall(r'phrase\("([^"]+)"', scripts) + re.findall(r'data-(?:phrase|says)="([^"]+)"', page)
    named = re.findall(r'named\("([^"]+)"\)', scripts) + re.findall(r'data-name="([^"]+)"', page)
    told("phrases that aren't there", [], sorted({*said, *(f"@{it}" for it in named)} - set(rows)))


# What is seen and what is read aloud, without the library's own text.
SEEN = """(() => {
  const own = [...document.querySelectorAll('[lang=en], .raw, textarea, #about')];
  for (const it of own) it.hidden = true;
  const seen = document.body.innerText;
  for (const it of own) it.hidden = false;
  return seen + ' ' + [...document.querySelectorAll('[aria-label]')].map(it => it.ariaLabel).join(' ');
})()"""


def english_left(browser: Browser, column: str) -> list[str]:
    """The English phrases that are shown, of those that the language says otherwise."""
    at = ORDER.index(column)
    others = {row[0] for row in phrases().values() if row[at] != row[0] and "{" not in row[0] and len(row[0]) > 4}
    others -= {row[at] for row in phrases().values()}
    seen = browser.run(SEEN)
    return sorted(it for it in others if re.search(rf"(?<!\w){re.escape(it)}(?!\w)", seen))


def look_at_words(browser: Browser, about: str, column: str) -> None:
    sound(browser, about, "tooWide", "small", "cut", "broken")
    told(f"{about}: English words", [], english_left(browser, column))


def look_at_page(browser: Browser, about: str, column: str) -> None:
    """The form with each sort of answer, and what opens from it."""
    for name, line in VIEWS.items():
        type_line(browser, line)
        look_at_words(browser, f"{name} {about}", column)
    type_line(browser, VIEWS["win"])
    browser.run("document.getElementById('why').click()")
    look_at_words(browser, f"sheet {about}", column)
    browser.run("document.getElementById('sheet').close(); document.getElementById('open-settings').click()")
    set_choice(browser, "rules", "house")
    look_at_words(browser, f"settings {about}", column)
    browser.run("document.getElementById('settings').close()")
    for mode in ("hands", "many"):
        browser.run(f"document.querySelector('#modes input[value={mode}]').click()")
        look_at_words(browser, f"{mode} {about}", column)


def test_languages(browser: Browser, folder: Path) -> None:
    """At 320 pixels each word has its space in each language, and none is English."""
    browser.size(*NARROW, touch=True)
    for names, column in COLUMNS.items():
        fresh(browser)
        set_choice(browser, "names", names)
        told(f"{names}: the language of the page", column, browser.run("document.documentElement.lang"))
        look_at_page(browser, f"{names} at 320", column)


def test_language_of_device(browser: Browser) -> None:
    """On the first visit the page speaks as the device does; what is chosen lasts."""
    agent = browser.run("navigator.userAgent")
    for device, wanted in (("de-AT", "de"), ("pl", "pl"), ("ja-JP", "ja"), ("sv-SE", "en"), ("en-GB", "en")):
        browser.ask("Emulation.setUserAgentOverride", userAgent=agent, acceptLanguage=device)
        fresh(browser)
        told(f"a device in {device}", wanted, browser.run("document.documentElement.lang"))
    browser.ask("Emulation.setUserAgentOverride", userAgent=agent, acceptLanguage="en-US")
    fresh(browser)
    set_choice(browser, "names", "french")
    browser.reload()
    told("a language outlasts a reload", "fr", browser.run("document.documentElement.lang"))


def test_game_languages(browser: Browser, folder: Path) -> None:
    for names, column in COLUMNS.items():
        for name in SCREENS:
            browser.size(*SMALL_PHONE, touch=True)
            fresh(browser)
            set_choice(browser, "names", names)
            if name != "game-setup":
                open_text(browser, EVENING)
            show_screen(browser, name)
            browser.picture(folder / f"{name}-{names}.png")
            browser.size(*NARROW, touch=True)
            look_at_words(browser, f"{name} {names} at 320", column)


def test_pictures_of_languages(browser: Browser, folder: Path) -> None:
    """The form in each language at 360 pixels, for the eye; and all of a win is in reach."""
    browser.size(*SMALL_PHONE, touch=True)
    fresh(browser)
    for names in LANGUAGES:
        set_choice(browser, "names", names)
        for name in ("win", "melds", "shape", "waits", "refused"):
            browser.run("document.getElementById('new').click()")
            browser.picture(folder / f"empty-{names}.png")
            type_line(browser, VIEWS[name])
            browser.run("document.activeElement.blur(); scrollTo(0, 0)")
            sound(browser, f"{name} {names} at 360", "tooWide", "small", "cut", "broken", "otherwiseNamed")
            if name in ("win", "melds"):
                sound(browser, f"{name} {names} at 360", "outOfReach")
            browser.picture(folder / f"{name}-{names}.png")


def test_reasons_in_words(browser: Browser) -> None:
    """What the library tells as text alone is said in the language of the page, as far as its words are known."""
    fresh(browser)
    set_choice(browser, "names", "script")
    type_line(browser, "waits 13m456m789p234s88s")
    told("a wait in Japanese", ["残り4枚、嵌張"], texts(browser, "#answer .why dd"))
    type_line(browser, "shape 123456789m1134p")
    told("a shape in Japanese", ["一般形 0、七対子 5、国士無双 9"], texts(browser, "#answer .why dd"))
    type_line(browser, "waits 123456789m1111z")
    told("no tile is left", ["和了できる牌が残っていません"], texts(browser, "#answer .why dd"))
    set_choice(browser, "names", "german")
    type_line(browser, "waits 2345m567p678s999s")
    told("waits in German", ["noch 3, Tanki", "noch 3, Tanki"], texts(browser, "#answer .why dd"))
    set_choice(browser, "names", "polish")
    choose(browser, "mode", "win")
    type_line(browser, "win 234567m345p6799s on=5s by=tsumo seat=S round=E riichi=1")
    told("why in Polish", True, "podstawa 20 fu" in " ".join(texts(browser, "#answer .why dd")[0].split()))
