"""What lasts when the page or the whole browser is killed: at a hundred random taps of a game, at thirty of a hand, and where the power
goes."""

from __future__ import annotations

import json
import random

from browser import Browser
from page_game import PHONE, begin_game, control, game_text
from page_rows import LINE, PAGE, fresh, said_of, told

# What a person sees: of what is hidden nothing has to last, as the tiles of a hand that was left.
SHOWN = """['game', 'game-fields', 'answer', 'tray'].map(id => document.getElementById(id)).filter(it => it.checkVisibility())
  .map(it => it.id === 'tray' ? it.innerHTML : it.innerText).join() + document.documentElement.dataset.game"""
CONTROLS = "[...document.querySelectorAll('#game button, #game-fields button, #picker .on-tile, #fields label, #count')]"


def free_controls(browser: Browser, only: str = "") -> list[int]:
    """The places of the controls that can be tapped now and lead on within a game; only those of this name, if there is one."""
    script = (
        f"{CONTROLS}.map((it, at) => [it, at]).filter(([it]) => it.checkVisibility() && !it.disabled && it.ariaDisabled !== 'true' &&"
        " !/^(share|print|save|copy|drop-.*|open-text|text)$/.test(it.dataset.key ?? '') &&"
        " !(it.dataset.key === 'back' && document.getElementById('game').dataset.screen === 'table') &&"
        f" ({json.dumps(only)} === '' || [it.id, it.dataset.key].includes({json.dumps(only)}))).map(([, at]) => at)"
    )
    return browser.run(script)


def test_game_killed(browser: Browser) -> None:
    """At a hundred random taps of a game the page is killed; opened again, it is as it was."""
    browser.size(*PHONE, touch=True)
    fresh(browser)
    begin_game(browser)
    chance = random.Random(68)
    lost = []
    for tap in range(100):
        # What can be counted is counted every second time, so that there are deals.
        counts = [it for it in free_controls(browser, "count") if chance.random() < 0.5]
        browser.run(f"{CONTROLS}[{chance.choice(counts or free_controls(browser))}].click()")
        if browser.run("document.querySelector('[data-key=begin]') !== null"):
            browser.run("document.querySelector('[data-key=begin]').click()")
        before, kept = browser.run(SHOWN), game_text(browser)
        browser.crash()
        browser.open(PAGE)
        if (before, kept) != (browser.run(SHOWN), game_text(browser)):
            lost.append((tap, before, browser.run(SHOWN)))
    told("what is lost at a hundred taps", [], lost[:2])
    told("some deals were counted", True, game_text(browser).count("\n") > 1)
    told("the text is read by the command", [], [it for it in said_of("game", lines=game_text(browser).splitlines()) if it.startswith("refused")])


# What was given to the second copy before is on the disk.
WRITTEN = """new Promise((done, fail) => {
  const opened = indexedDB.open('riichi_desk');
  opened.onerror = fail;
  opened.onsuccess = () => {
    const turn = opened.result.transaction('kept', 'readwrite', { durability: 'strict' });
    turn.oncomplete = () => done(opened.result.close());
    turn.objectStore('kept').count();
  };
})"""


def test_game_power(browser: Browser) -> None:
    """The whole browser is killed as soon as it says that what it was given before is on the disk: nothing is lost."""
    other = Browser(browser.program)
    try:
        fresh(other)
        begin_game(other)
        lost = []
        for key in ("bet-1", "win-2", "from-tsumo", "limit-mangan", "count", "draw", "ready-3", "count"):
            other.run(f"document.querySelector({json.dumps(control(key))}).click()")
            before = other.run(SHOWN), game_text(other)
            other.run(WRITTEN)
            other = other.begun_again()
            other.open(PAGE)
            if before != (other.run(SHOWN), game_text(other)):
                lost.append(key)
        told("what is lost where the power goes", [], lost)
    finally:
        other.close()


def test_hand_killed(browser: Browser) -> None:
    """At thirty random taps of a hand the page is killed; opened again, the hand is as it was."""
    browser.size(*PHONE, touch=True)
    fresh(browser)
    chance = random.Random(68)
    shown = f"[{LINE}, document.getElementById('tray').innerText, document.getElementById('answer').innerText]"
    lost = []
    for tap in range(30):
        controls = "[...document.querySelectorAll('#picker .on-tile, #fields label, #tray button')].filter(it => it.checkVisibility() && it.ariaDisabled !== 'true')"
        browser.run(f"(all => all[Math.floor({chance.random()} * all.length)].click())({controls})")
        before = browser.run(shown)
        browser.crash()
        browser.open(PAGE)
        if before != browser.run(shown):
            lost.append((tap, before, browser.run(shown)))
    told("what is lost of a hand at thirty taps", [], lost[:2])
