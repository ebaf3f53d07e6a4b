"""module_in_browsers.py FOLDER LINES: has the package for JavaScript, which lies in FOLDER, answer the file LINES in Chromium, Firefox
and WebKit. For each it prints the name of the browser and the sum (SHA-256) of the answers."""

from __future__ import annotations

import functools
import hashlib
import http.server
import shutil
import sys
import tempfile
import threading
from pathlib import Path

from webdriver import BROWSERS, Screen

PAGE = """<!doctype html>
<main id="desk" hidden></main>
<script type="module">
import { answerLines } from "./riichi_desk.js";
const text = new Uint8Array(await (await fetch("lines")).arrayBuffer());
window.told = answerLines(text);
document.getElementById("desk").hidden = false;
</script>
"""


class Quiet(http.server.SimpleHTTPRequestHandler):
    def log_message(self, *_: object) -> None:
        pass


def main(folder: str, lines: str) -> None:
    with tempfile.TemporaryDirectory() as name, Screen() as screen:
        site = Path(name, "site")
        shutil.copytree(folder, site)
        shutil.copy(lines, site / "lines")
        (site / "index.html").write_text(PAGE)
        server = http.server.ThreadingHTTPServer(("127.0.0.1", 0), functools.partial(Quiet, directory=site))
        threading.Thread(target=server.serve_forever, daemon=True).start()
        for begin in BROWSERS:
            driver = begin(screen)
            try:
                driver.open(f"http://127.0.0.1:{server.server_port}/index.html")
                print(driver.name, hashlib.sha256(driver.run("told").encode()).hexdigest(), flush=True)
            finally:
                driver.close()
        server.shutdown()


if __name__ == "__main__":
    main(*sys.argv[1:])
