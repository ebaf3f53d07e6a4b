"""What the pages print: programs and commands, run where their reader has them, and compared with what stands below them.

In a block `console` each command begins with `$ ` and is followed by what it writes; a line `...` stands for any lines. In a block
`sh` each line is a command. A block of a language whose first line is a comment with a file's name is that file, another is run. A
block of no language that begins with a record line has its answers below it.
"""

from __future__ import annotations

import ast
import os
import re
import shutil
import subprocess
from collections.abc import Callable
from concurrent.futures import ThreadPoolExecutor
from dataclasses import dataclass
from pathlib import Path

Told = Callable[[str, object, object], None]
Skip = Callable[[str, str], None]

# what isn't run here, and why: how a command begins, or the name of a page
NOT_RUN = {
    "./prove": "proves for long: tests/scripts.sh runs it with a stand-in for the kit",
    "./test": "is what this is a part of",
    "./desk waits HAND": "HAND stands for a hand",
    "./page": "builds for minutes: ./page --test tries it",
    "./packages": "tests/packages.sh runs what it builds",
    "./release": "tests/release.sh runs it",
    "tests/install": "installs packages, as root",
    "tests/fuzz": "runs for minutes to hours",
    "rt ": "needs the kit and proofs: the gate runs it",
    "(cd crates/": "needs the kit and proofs: the gate runs it",
    "git ": "changes a tree of sources: tests/documents tries whether the diff applies",
    "bench/": "measures for minutes: the gate measures nothing",
    "cargo build --release --offline": "builds bench/, which the gate doesn't measure",
    "./target/release/bench": "is built in bench/, which the gate doesn't measure",
    "install -D": "writes to /usr/local",
    "@only ": "is of the archives for other systems: tests/packages.sh builds it",
    "docs/HALL.md": "tests/hall.sh plays its evening",
    "hall/README.md": "tests/hall.sh plays its evening",
    "docs/SCALE.md": "tests/cores.sh and tests/machines.sh run its recipes",
}
TOOLS = ("cc", "cargo", "rustc", "npm", "npx", "node", "pkg-config")
# what a command wants of the release's packages
SCRIPT = "*.tgz"
WANTS = {
    **{"npm ": SCRIPT, "npx ": SCRIPT, "node ": SCRIPT},
    **{"python/bin": "*_x86_64.whl", "cargo ": "*.crate", "portable.c": "*_portable.c"},
}
# a program of a language is run so, in a folder that is set up so; what is installed, pages share
RUNS = {
    "python": ("printed.py", "python/bin/python3 printed.py"),
    "js": ("printed.mjs", "node printed.mjs"),
    "rust": ("printed.rs", "cp printed.rs mine/src/main.rs && cargo run -q --offline --manifest-path mine/Cargo.toml"),
}
SET_UP = {
    "python": "(flock 9; [ -d ../python ] || { python3 -m venv ../python && "
    "../python/bin/pip install -q --no-index packages/riichi_desk-*_x86_64.whl; }) 9> ../python.lock\n"
    "[ -d python ] || ln -s ../python python",
    "js": "[ -d node_modules ] || npm install --silent --offline ./packages/riichi_desk-*.tgz",
    "rust": "[ -d mine ] || { tar -xf packages/riichi_desk-*.crate && cargo new -q mine && "
    "cargo add -q --offline --manifest-path mine/Cargo.toml --path riichi_desk-*/; }",
}


@dataclass(frozen=True)
class Block:
    """A block of a page: its language, its lines, and where it begins."""

    page: Path
    line: int
    language: str
    lines: tuple[str, ...]

    def name(self) -> str:
        return f"{self.page}:{self.line}"


def parts(top: Path, page: Path) -> tuple[list[Block], str]:
    """The blocks of a page, and its text without them."""
    blocks: list[Block] = []
    prose: list[str] = []
    block: list[str] = []
    start, language = 0, ""
    for number, line in enumerate((top / page).read_text().splitlines(), 1):
        if line.startswith("```"):
            if start:
                blocks.append(Block(page, start, language, tuple(block)))
            start, language, block = (0, "", []) if start else (number, line[3:].strip(), [])
        elif start:
            block.append(line.replace("@program@", "./riichi_desk"))
        else:
            prose.append(line)
    return blocks, "\n".join(prose)


def run(command: str, place: Path) -> tuple[str, int]:
    """What a command writes on either stream, and its status. Pages of installed packages find the program on the path."""
    words = ["bash", "-c", command]
    path = {**os.environ, "PATH": f"{os.environ['PATH']}:{place}"}
    done = subprocess.run(words, cwd=place, env=path, stdout=-1, stderr=-2, stdin=subprocess.DEVNULL, check=False, timeout=300)
    return done.stdout.decode(errors="replace"), done.returncode


def agrees(printed: list[str], got: str) -> bool:
    """Whether an output is what is printed, where `...` stands for any lines."""
    form = "".join(r"(?:.*\n)*" if it == "..." else re.escape(it) + "\n" for it in printed)
    return re.fullmatch(form, got) is not None


def commented(line: str) -> tuple[str, object] | None:
    """An expression of Python and the value that stands behind it as a comment."""
    code, mark, comment = line.partition("  # ")
    try:
        ast.parse(code.strip(), mode="eval")
        return (code.strip(), ast.literal_eval(comment.split(": ")[0].strip())) if mark else None
    except (SyntaxError, ValueError):
        return None


class Place:
    """A folder as a reader has it, in which what a page prints is run."""

    def __init__(self, folder: Path, told: Told, skip: Skip) -> None:
        self.folder, self.told, self.skip = folder, told, skip

    def lacking(self, command: str) -> str:
        """What a command wants that isn't here: a tool, or a package that isn't built (a stand-in is a few bytes)."""
        for tool in TOOLS:
            if re.search(rf"(^|[\s(]){tool}\s", command) and not shutil.which(tool):
                return f"{tool} is not here; tests/install installs it"
        for word, package in WANTS.items():
            if word in command and not any(it.stat().st_size > 200 for it in (self.folder / "packages").glob(package)):
                return f"packages/{package} is not built"
        return ""

    def try_command(self, name: str, command: str, printed: list[str]) -> None:
        """Runs a command, and compares what it writes, where anything is printed; else its status is looked at."""
        if any(command.startswith(start) for start in NOT_RUN):
            return
        why = self.lacking(command)
        if why:
            self.skip(name, why)
            return
        if "npx " in command and "npm " not in command:
            command = f"{SET_UP['js']}\n{command}"
        got, status = run(command, self.folder)
        if printed:
            self.told(name, "\n".join(printed), "\n".join(printed) if agrees(printed, got) else got)
        else:
            # (a command that answers ends with 1 where a line is refused)
            self.told(name, "answered", "answered" if status == 0 or (status == 1 and "\nrefused " in got) else got)

    def console(self, block: Block) -> None:
        commands: list[tuple[str, list[str]]] = []
        for line in block.lines:
            if line.startswith("$ "):
                commands.append((line[2:], []))
            else:
                commands[-1][1].append(line)
        for command, printed in commands:
            self.try_command(f"{block.name()}: {command}", command, printed)

    def shell(self, block: Block) -> None:
        """A block of commands, of which all are run or none."""
        lines = [it for it in block.lines if it.strip() and not it.startswith("#")]
        if lines and not any(it.startswith(start) for it in lines for start in NOT_RUN):
            self.try_command(block.name(), "set -e\n" + "\n".join(lines), [])

    def program(self, block: Block) -> None:
        """A program: one that has a file's name is kept for the commands below it, another is run."""
        found = re.fullmatch(r"(?:#|//|/\*) (\w+\.\w+)(?: \*/)?", block.lines[0])
        if found:
            (self.folder / found[1]).write_text("\n".join(block.lines[1:]) + "\n")
        elif block.language in RUNS:
            lines = list(block.lines)
            if block.language == "python":
                values = [commented(it) for it in lines]
                lines = [it if value is None else f"assert ({value[0]}) == {value[1]!r}" for it, value in zip(lines, values)]
            file, command = RUNS[block.language]
            (self.folder / file).write_text("\n".join(lines) + "\n")
            self.try_command(block.name(), f"{SET_UP[block.language]}\n{command}", [])

    def records(self, block: Block) -> None:
        """Record lines, each with what `explain`, `explain --json` or `line --json` answers to it below, or none.

        Those with `=> ` are tried by tests/program.sh.
        """
        job = r"(?:win|waits|shape) "
        if not re.match(job, block.lines[0]) or any(it.startswith("=> ") for it in block.lines):
            return
        objects = [it for it in block.lines if it.startswith("{")]
        form = "explain --json" if any('"why":' in it for it in objects) else "line --json" if objects else "explain"
        rest = list(block.lines)
        while rest:
            (self.folder / "record").write_text(f"{rest[0]}\n")
            got = run(f"./riichi_desk {form} < record", self.folder)[0].splitlines()
            name, printed = f"{block.name()}: {rest[0]}", rest[1 : 1 + len(got)]
            if printed != got and all(re.match(job, it) for it in block.lines):
                printed = []
            self.told(name, "\n".join(printed or ["answered"]), "\n".join(got if printed else ["answered"]))
            rest = rest[1 + len(printed) :]


def test_page(place: Place, blocks: list[Block]) -> None:
    """Tries what a page prints."""
    sorts = {"console": place.console, "sh": place.shell, "": place.records, **dict.fromkeys(("c", *RUNS), place.program)}
    for block in blocks:
        if block.language in sorts:
            sorts[block.language](block)
    shutil.rmtree(place.folder)


def test_printed(top: Path, pages: list[Path], reader: Callable[[Path], Path], told: Told, skip: Skip) -> None:
    """Tries what each page prints, in a folder of its own that `reader` makes, the pages side by side."""
    with ThreadPoolExecutor(os.cpu_count()) as pool:
        tries = []
        for page in pages:
            blocks = [it for it in parts(top, page)[0] if it.lines]
            if str(page) not in NOT_RUN and blocks:
                tries.append(pool.submit(test_page, Place(reader(page), told, skip), blocks))
        for each in tries:
            each.result()
