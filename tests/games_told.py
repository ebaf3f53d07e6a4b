#!/usr/bin/env python3
"""tests/games_told.py PROGRAM: has the program answer the texts of docs/GAME.md and of examples/, and the worked deals of
tests/ledger-rows.txt, and compares; with reasons too, which have to add up to what the answers say. Its last line counts them."""

import re
import subprocess
import sys
from itertools import takewhile
from pathlib import Path

TOP = Path(__file__).resolve().parent.parent
PROGRAM = sys.argv[1]
counts = {"passed": 0, "failed": 0}


def answered(text: str, *words: str) -> str:
    """What the program writes for a text on standard input, and its exit status."""
    done = subprocess.run([PROGRAM, *words, "-"], input=text, capture_output=True, text=True, check=False)
    return f"{done.stdout}status {done.returncode} {done.stderr}"


def count(name: str, wanted: object, got: object) -> None:
    counts["passed" if got == wanted else "failed"] += 1
    if got != wanted:
        print(f"FAILED: {name}: wanted {wanted!r}, got {got!r}")


def told(name: str, wanted: list[str], got: str) -> None:
    status = int(any(line.startswith("refused") for line in wanted))
    count(name, "\n".join([*wanted, f"status {status} "]), got)


def try_block(block: str, mark: str, *words: str) -> None:
    """A text whose answers stand behind a mark."""
    lines = block.splitlines()
    text = "".join(f"{line}\n" for line in lines if not line.startswith(mark))
    told(text, [line[3:] for line in lines if line.startswith(mark)], answered(text, *words))
    try_reasons(text)


def moved(names: list[str], lines: list[str]) -> list[int]:
    """What the lines below the answer to a deal move, for each of the four."""
    sums = dict.fromkeys(names, 0)
    for line in lines:
        if found := re.fullmatch(r"  (\S+) pays (\S+) (\d+): .+", line):
            sums[found[1]] -= int(found[3])
            sums[found[2]] += int(found[3])
        elif found := re.fullmatch(r"  (\S+) bets 1000", line):
            sums[found[1]] -= 1000
        elif found := re.fullmatch(r"  (\S+) takes .+: (\d+)", line):
            sums[found[1]] += int(found[2])
        elif not re.match(r"  (over|\S+'s hand): ", line):
            raise ValueError(line)
    return [sums[name] for name in names]


def added(lines: list[str], finals: dict[str, str]) -> list[bool]:
    """Whether the sums below an end give the totals of the players."""
    sums = [re.fullmatch(r"  (\S+): \((-?\d+) - (\d+)\) \+ bonus (-?\d+) - penalty (\d+) = (-?\d+)", it) for it in lines]
    return [
        int(it[2]) - int(it[3]) + int(it[4]) - int(it[5]) == int(it[6]) == round(float(finals[it[1]]) * 1000) for it in sums if it
    ]


def try_reasons(text: str) -> None:
    """The answers with reasons are those without, but for the reasons; and these add up to what the answers say."""
    plain = answered(text, "game").splitlines()
    explained = answered(text, "game", "--explain").splitlines()
    count(f"without the reasons: {text}", plain, [line for line in explained if not line.startswith("  ")])
    stood = [int(line.split(":")[0]) for line in answered(text, "game", "--number").splitlines() if " changes " in line]
    typed = [text.splitlines()[number - 1].split()[0] for number in stood]
    names, finals, behind = [], {}, 0
    for at, line in enumerate(explained):
        reasons = list(takewhile(lambda it: it.startswith("  "), explained[at + 1 :]))
        if line.startswith("game "):
            names, finals = line.split()[1:5], {}
        elif line.startswith("final "):
            finals[line.split()[2]] = line.split()[-1]
            if reasons:
                count(f"the totals of {text}", [True] * 4, added(reasons, finals))
        elif " changes " in line:
            behind += 1
            if typed[behind - 1] != "stands":
                count(f"{line}", [int(it) for it in line.split(" changes ")[1].split()[:4]], moved(names, reasons))


def try_row(lines: list[str]) -> None:
    """A worked deal of tests/ledger-rows.txt."""
    keys = {line.split(" ")[0]: line.partition(" ")[2] for line in lines}
    begun = f"game Anna Bo Cyd Dee {keys.get('rules', '')}\nstands {keys['before']}\n"
    if "need" in keys:
        try_need(begun, keys, lines)
        return
    try_reasons(f"{begun}{keys['line']}\n")
    got = answered(f"{begun}{keys['line']}\n", "game").splitlines()[2:]
    if "refused" in keys:
        wanted = [f"refused {keys['refused']}", f"stands {keys['before']}", "status 1 "]
        got[0] = " ".join(got[0].split(" ")[:2])
    else:
        place = keys["before"].partition(" points ")[0]
        ends = [it for it in lines if re.match(r"left|final", it)]
        after = ["over", *ends] if keys["after"] == "over" else [f"stands {keys['after']}"]
        wanted = [f"{place} changes {keys['changes']}", *after, "status 0 "]
        got[0] = got[0].partition(" points ")[0]
    count(keys["row"], wanted, got)


def try_need(begun: str, keys: dict[str, str], lines: list[str]) -> None:
    """What a player needs: by each way the points to be ahead alone, and to be ahead by ties."""
    behind = [it.split(" ")[0] for it in lines].index("need") + 1
    wanted = [line.split() for line in lines[behind:]]
    got = []
    for line in answered(begun, "need", *keys["need"].split()).splitlines()[1:-1]:
        way, strictly, tie = re.fullmatch(r"(.*) strictly (\S+)(?: all)?.* tie (\S+).*", line).groups()
        got.append([*way.split(), strictly, tie])
    wanted = [line if line[0] in ("from", "tsumo") else ["from", *line] for line in wanted]
    count(keys["row"], wanted, got)


def try_keys() -> None:
    """The keys of an evening that docs/GAME.md counts: as games, and its wins alone as lines, each of which is a win."""
    page = (TOP / "docs/GAME.md").read_text()
    games, wins = ((TOP / "examples/games" / f"four-tables.{it}").read_text() for it in ("game", "lines"))
    wanted = [f"{len(games.splitlines())} lines and {len(games)} keys", f"are {len(wins)} keys"]
    answers = answered(wins, "line", "--file").splitlines()[:-1]
    holds = all(it in page for it in wanted) and len(answers) == len(wins.splitlines()) and all(it.startswith("won ") for it in answers)
    counts["passed" if holds else "failed"] += 1
    if not holds:
        print(f"FAILED: docs/GAME.md says another number of keys than {wanted}, or a line of four-tables.lines is no win")


def main() -> None:
    blocks = re.findall(r"^```\n(.*?)^```$", (TOP / "docs/GAME.md").read_text(), re.M | re.S)
    for block in blocks:
        if "=> " in block:
            try_block(block, "=> ", "game")
        if "-> " in block:
            try_block(block, "-> ", "game", "--explain")
    rows = (TOP / "tests/ledger-rows.txt").read_text().split("\n\n")
    for row in rows:
        lines = [line for line in row.splitlines() if line and not line.startswith("#")]
        if lines and lines[0].startswith("row "):
            try_row(lines)
    for game in sorted((TOP / "examples" / "games").glob("*.game")):
        wanted = game.with_suffix(".answers").read_text().splitlines()
        told(game.name, wanted, answered(game.read_text(), "game"))
        try_reasons(game.read_text())
    try_keys()
    print(f"{counts['passed']} passed, {counts['failed']} failed")


if __name__ == "__main__":
    main()
