"""What the tests of the page share: the count of rows, what a page says of itself, and how a person acts on it."""

from __future__ import annotations

import json
import os
import subprocess
from pathlib import Path

from browser import Browser

TOP = Path(__file__).resolve().parent.parent
PAGE = TOP / "bin/desk.html"
SITE = TOP / "bin/site"
PROGRAM = os.environ.get("PROGRAM", str(TOP / "desk"))
TOLD = {True: 0, False: 0}

LINE = "document.getElementById('line').value"
RAW = "document.querySelector('#answer > .raw')?.textContent ?? ''"
ANSWER = "document.getElementById('answer').innerText"
FAULTY = "[...document.querySelectorAll('.faulty')].map(it => it.dataset.field).join(' ')"
MODE = "document.querySelector('#modes input:checked').value"


# Both copies of what the page keeps are gone.
FORGET = """new Promise(done => {
  localStorage.clear();
  const gone = indexedDB.deleteDatabase('riichi_desk');
  gone.onsuccess = gone.onerror = () => done(true);
})"""


def told(name: str, wanted, got) -> None:
    TOLD[wanted == got] += 1
    if wanted != got:
        print(f"{name}: wanted {wanted!r}, got {got!r}")


def answers_of(lines: list[str], *words: str) -> list[str]:
    """What the command `line` answers."""
    return said_of("line", *words, lines=lines)


def said_of(*words: str, lines: list[str]) -> list[str]:
    """What the program says of these lines."""
    given = "".join(f"{line}\n" for line in lines)
    return subprocess.run([PROGRAM, *words], input=given, capture_output=True, text=True, check=False).stdout.splitlines()


def text(browser, selector: str) -> str:
    return browser.run(f"document.querySelector({json.dumps(selector)}).textContent")


def texts(browser, selector: str) -> list[str]:
    return browser.run(f"[...document.querySelectorAll({json.dumps(selector)})].map(it => it.textContent)")


def attribute(browser, selector: str, name: str) -> str:
    return browser.run(f"document.querySelector({json.dumps(selector)}).getAttribute('{name}')")


def fill(browser, name: str, value: str) -> None:
    """Gives a field of this id a text, as if it had been typed."""
    field = f"document.getElementById('{name}')"
    browser.run(f"({field}.value = {json.dumps(value)}, {field}.dispatchEvent(new Event('input')))")


def fresh(browser: Browser, page: Path | str = PAGE) -> None:
    """The page as on the first visit."""
    browser.open(page)
    browser.run(FORGET)
    browser.open(page)


def type_line(browser: Browser, line: str) -> None:
    browser.run("document.getElementById('line').focus(); document.getElementById('line').select()")
    browser.type(line)


def choose(browser: Browser, name: str, value: str) -> None:
    browser.tap(f"label:has(input[name={name}][value='{value}'])")


def set_choice(browser: Browser, name: str, value: str) -> None:
    """A choice of the settings, whether they are open or not."""
    browser.run(f"document.querySelector('#settings input[name={name}][value={json.dumps(value)}]').click()")


def tap_tiles(browser: Browser, tiles: str) -> None:
    for tile in tiles.split():
        browser.tap(f"#picker [data-kind='{tile}']")


def tiles_of(text: str) -> list[str]:
    """The tiles of a text such as 123m44z, one after another."""
    found, digits = [], ""
    for letter in text:
        if letter.isdigit():
            digits += letter
        else:
            found += [digit + letter for digit in digits]
            digits = ""
    return found
