"""What lasts, and what leaves the page: a reload, the list of hands, links, sharing, files, paper, names, a page without a
network."""

from __future__ import annotations

import functools
import http.server
import re
import threading
from pathlib import Path

from browser import Browser
from page_rows import (
    ANSWER, LINE, MODE, PAGE, RAW, SITE, answers_of, choose, fill, fresh, set_choice, text, texts, told, type_line,
)

WIN = "win 234567m345p6799s on=5s by=tsumo seat=S round=E riichi=1"
# The hand of the form: its line, profile and tab.
OPENED = f"[{LINE}, document.getElementById('rules-now').textContent, {MODE}]"
HANDS = "[...document.querySelectorAll('#hand-list > li > .raw')].map(it => it.textContent)"


def test_reload(browser: Browser) -> None:
    fresh(browser)
    type_line(browser, "win 234567m345p67s open=pon:999s seat=S round=S")
    set_choice(browser, "rules", "2")
    set_choice(browser, "names", "romanised")
    browser.reload()
    told("a hand that isn't whole outlasts a reload", "win 234567m345p67s open=pon:999s seat=S round=S", browser.run(LINE))
    told("so do profile and names", ("2", "Tsumo"), (text(browser, "#rules-now"), text(browser, "[data-name=tsumo]")))
    choose(browser, "mode", "shape")
    choose(browser, "mode", "hands")
    browser.reload()
    told("so does the tab", "hands", browser.run(MODE))


def test_list(browser: Browser) -> None:
    fresh(browser)
    lines = [WIN, "waits 1112345678999m", "shape 123456789m1134p"]
    for line in lines:
        browser.tap("#new")
        type_line(browser, line)
    choose(browser, "mode", "hands")
    told("hands that were answered", lines[::-1], browser.run(HANDS))
    told("their answers", ["Ready", "Waits for 9 kinds", "2\u202f700 points"], texts(browser, "#hand-list strong"))
    told("all of them is seen at once", True, browser.run("document.documentElement.scrollHeight <= innerHeight"))
    browser.tap("#hand-list > li:last-child .open-hand + button")
    browser.run("document.getElementById('sheet-name').focus()")
    browser.type("Table 3, East 2")
    browser.key("Escape")
    # (a sheet tells some moments later that it is closed)
    browser.run("new Promise(done => setTimeout(done, 300))")
    name = "#hand-list > li:last-child .hand-name"
    told("a name in the list", "Table 3, East 2", text(browser, name))
    browser.reload()
    told("a name outlasts a reload", "Table 3, East 2", text(browser, name))
    browser.run("navigator.clipboard.writeText = (text) => { window.copied = text; return Promise.resolve(); }")
    browser.tap("#hands-copy")
    copied = browser.run("window.copied").splitlines()
    told("copied as lines, the oldest first", ["# Table 3, East 2", *lines], copied)
    told("which the command reads", 3, len(answers_of(copied)))
    browser.run("window.print = () => { window.printed = document.getElementById('paper').innerText; }")
    browser.tap("#hands-print")
    paper = browser.run("window.printed")
    words = ("Table 3, East 2", "Ready", "Waits for 9 kinds", "2\u202f700 points")
    told("what the list lacks on paper", [], [it for it in words if it not in paper])
    browser.tap("#hand-list > li:first-child .take-away")
    told("a hand that was taken away", lines[1::-1], browser.run(HANDS))
    browser.tap("#hands-undo")
    told("and put back", lines[::-1], browser.run(HANDS))
    browser.tap("#hand-list > li:first-child .take-away")
    choose(browser, "mode", "waits")
    told("the form that held it is empty", "waits", browser.run(LINE))
    type_line(browser, "waits 1112345678999s")
    choose(browser, "mode", "hands")
    browser.tap("#hands-undo")
    told("put back below what was answered since", ["waits 1112345678999s", *lines[::-1]], browser.run(HANDS))
    browser.tap("#hand-list > li:first-child .take-away")
    browser.reload()
    told("what is taken away doesn't come back", lines[::-1], browser.run(HANDS))
    browser.run("""(async () => {
      const data = new DataTransfer();
      data.items.add(new File(['rules 2\\n# Table 5\\nwaits 1112345678999p\\n'], 'hands.lines'));
      const field = document.getElementById('hands-file');
      field.files = data.files;
      field.dispatchEvent(new Event('change'));
      await new Promise(done => setTimeout(done, 200));
    })()""")
    told("hands of a file", ["waits 1112345678999p", *lines[::-1]], browser.run(HANDS))
    told("with their names", "Table 5", text(browser, "#hand-list .hand-name"))
    browser.tap("#hand-list > li:first-child .open-hand")
    told("a hand that was opened again", ["waits 1112345678999p", "2", "waits"], browser.run(OPENED))
    many = [f"waits 1112345678999m{' ' * at}" for at in range(120)]
    for line in many:
        browser.run("document.getElementById('new').click()")
        fill(browser, "line", line)
    choose(browser, "mode", "hands")
    told("the last hundred are kept", 100, browser.run("document.querySelectorAll('#hand-list > li').length"))


def test_link(browser: Browser) -> None:
    fresh(browser)
    browser.open(f"{PAGE.as_uri()}#{WIN.replace(' ', '%20')}")
    told("the hand of a link", [WIN, "1", "win"], browser.run(OPENED))
    told("its answer", "2\u202f700 points", text(browser, "#answer .headline"))
    browser.tap("#new")
    browser.reload()
    told("a reload doesn't bring it back", "win round=E", browser.run(LINE))
    browser.open(f"{PAGE.as_uri()}#rules%202%0Awaits%20340m1112345678p")
    told("a link with its profile", ["waits 340m1112345678p", "2", "waits"], browser.run(OPENED))
    browser.open(f"{PAGE.as_uri()}##%20--rules%201+red-fives%0Awaits%20340m1112345678p")
    told("a link with the rules of a house", ["waits 340m1112345678p", "own", "waits"], browser.run(OPENED))
    browser.reload()
    told("a reload keeps them", ["own", False, True], browser.run("[document.getElementById('rules-now').textContent, document.getElementById('house').hidden, document.querySelector('[data-rule=red-fives]').checked]"))


def test_sheet(browser: Browser, folder: Path) -> None:
    fresh(browser)
    type_line(browser, WIN)
    browser.tap("#why")
    told("the answer in the sheet", "2\u202f700 points", browser.run("document.querySelector('#sheet .headline').textContent"))
    browser.run("navigator.share = (parts) => { window.shared = parts; return Promise.resolve(); }")
    browser.tap("#sheet-share")
    shared = browser.run("window.shared")
    told("what is shared", [WIN, answers_of([WIN])[0]], shared["text"].splitlines()[:2])
    told("a page from a file shares no link", False, "url" in shared)
    browser.run("window.print = () => { window.printed = document.getElementById('paper').innerHTML; }")
    browser.tap("#sheet-print")
    told("paper has the hand", True, browser.run("window.printed.includes('2\u202f700 points')"))
    browser.ask("Emulation.setEmulatedMedia", media="print")
    browser.picture(folder / "paper.png", whole=True)
    shown = browser.run("[...document.body.children].filter(it => getComputedStyle(it).display !== 'none').map(it => it.id)")
    told("nothing else is on paper", ["paper"], shown)
    browser.ask("Emulation.setEmulatedMedia", media="")
    browser.key("Escape")
    told("Escape closes the sheet", False, browser.run("document.getElementById('sheet').open"))
    told("the focus is where it was", "why", browser.run("document.activeElement.id"))


def test_names(browser: Browser) -> None:
    fresh(browser)
    type_line(browser, "win 234567m345p6799s on=5s by=tsumo seat=S round=E riichi=1 flags=last")
    yaku = "[...document.querySelectorAll('#answer .yaku li')].map(it => it.textContent)"
    rows = {
        "english": ["Riichi", "Fully concealed", "Pinfu", "Last tile"],
        "romanised": ["Riichi", "Menzen tsumo", "Pinfu", "Haitei"],
        "script": ["立直", "門前清自摸和", "平和", "海底摸月"],
    }
    for name, wanted in rows.items():
        set_choice(browser, "names", name)
        told(f"yaku: {name}", wanted, browser.run(yaku))
    told("script has its language", "ja", browser.run("document.querySelector('#answer .yaku [lang]').lang"))
    told("and no English has it", [], [it for it in texts(browser, "#answer [lang=ja]") if re.search("[a-z]", it)])
    told("a tile in script", "1萬", browser.run("document.querySelector(\"#picker [data-kind='1m']\").getAttribute('aria-label')"))
    words = {"romanised": "Menzen tsumo 1", "script": "門前清自摸和 1"}
    for name, wanted in words.items():
        set_choice(browser, "names", name)
        told(f"an explanation: {name}", True, wanted in browser.run(ANSWER))
    told("the answer's own words stay", True, browser.run(RAW).endswith("riichi fully-concealed pinfu last-tile"))


def test_about(browser: Browser) -> None:
    fresh(browser)
    about = browser.run("document.getElementById('about').textContent")
    told("version, sources and proof", True, all(it in about for it in ("riichi_desk ", "Sources", "Proved with", "logic ")))


def test_lacking_browser(browser: Browser, folder: Path) -> None:
    rows = {
        "WebAssembly is missing": "delete globalThis.WebAssembly",
        "64-bit numbers (BigInt) are missing": "delete globalThis.BigInt64Array",
        "Dialogs are missing": "delete globalThis.HTMLDialogElement",
        "its WebAssembly is too old": "WebAssembly.compile = () => Promise.reject(new WebAssembly.CompileError())",
    }
    for words, script in rows.items():
        added = browser.ask("Page.addScriptToEvaluateOnNewDocument", source=script)["identifier"]
        browser.open(PAGE)
        told(f"what is missing: {words}", True, words in browser.run("document.getElementById('unable').innerText"))
        told("and nothing else is shown", True, browser.run("document.getElementById('desk').hidden"))
        browser.picture(folder / "lacking-browser.png")
        browser.ask("Page.removeScriptToEvaluateOnNewDocument", identifier=added)
    forgetful = "Object.defineProperty(globalThis, 'localStorage', { get() { throw new Error('no'); } })"
    added = browser.ask("Page.addScriptToEvaluateOnNewDocument", source=forgetful)["identifier"]
    browser.open(PAGE)
    type_line(browser, WIN)
    choose(browser, "mode", "hands")
    told("a browser that keeps nothing has the hands while the page is open", [WIN], browser.run(HANDS))
    told("and says so", True, "not kept" in browser.run("document.getElementById('about').textContent"))
    browser.ask("Page.removeScriptToEvaluateOnNewDocument", identifier=added)


class Quiet(http.server.SimpleHTTPRequestHandler):
    def log_message(self, *_) -> None:
        pass


def served(folder: Path) -> http.server.ThreadingHTTPServer:
    """The folder behind an address of this machine, until it is shut down."""
    server = http.server.ThreadingHTTPServer(("127.0.0.1", 0), functools.partial(Quiet, directory=str(folder)))
    threading.Thread(target=server.serve_forever, daemon=True).start()
    return server


# Whether the worker has all files of the page.
STORE = "navigator.serviceWorker.ready.then(() => caches.keys()).then((names) => caches.open(names[0]))"
READY = f"{STORE}.then((store) => store.keys()).then((keys) => keys.length)"


def test_site(browser: Browser) -> None:
    """The folder, served; then without its server."""
    server = served(SITE)
    address = f"http://127.0.0.1:{server.server_port}/"
    browser.open(address)
    told("files that are kept", len(list(SITE.iterdir())), browser.run(READY))
    type_line(browser, WIN)
    told("an answer of the site", answers_of([WIN])[0], browser.run(RAW))
    browser.run("navigator.share = (parts) => { window.shared = parts; return Promise.resolve(); }")
    browser.tap("#why")
    browser.tap("#sheet-share")
    told("a link is shared", f"{address}#{WIN.replace(' ', '%20')}", browser.run("window.shared.url"))
    faults = browser.ask("Page.getInstallabilityErrors")["installabilityErrors"]
    told("the site can be installed", [], [it for it in faults if it["errorId"] != "in-incognito"])
    server.shutdown()
    server.server_close()
    browser.reload()
    told("the page without a network", [WIN, answers_of([WIN])[0]], browser.run(f"[{LINE}, {RAW}]"))
    browser.run("location.hash = '#waits%201112345678999m', new Promise(done => setTimeout(done, 100))")
    told("a link without a network", "waits", browser.run(MODE))

