#!/usr/bin/env python3
"""tests/games_as_values.py PROGRAM: has the program answer the texts of docs/GAME.md, of examples/ and the worked deals of
tests/ledger-rows.txt by `game --json`. The objects have to be valid by docs/game.schema.json, where the package jsonschema is
there, to say what `game` says in words, and their moves to add up to the changes. Its last line counts."""

from __future__ import annotations

import json
import re
import subprocess
import sys
from pathlib import Path

try:
    import jsonschema
except ImportError:
    jsonschema = None

TOP = Path(__file__).resolve().parent.parent
PROGRAM = sys.argv[1]
SCHEMA = json.loads((TOP / "docs/game.schema.json").read_text())
counts = {"passed": 0, "failed": 0}


def answered(text: str, *words: str) -> tuple[list[str], int]:
    """The lines that the program writes for a text on standard input, and its exit status."""
    done = subprocess.run([PROGRAM, "game", *words, "-"], input=text, capture_output=True, text=True, check=False)
    return done.stdout.splitlines(), done.returncode


def count(name: str, wanted: object, got: object) -> None:
    counts["passed" if got == wanted else "failed"] += 1
    if got != wanted:
        print(f"FAILED: {name}: wanted {wanted!r}, got {got!r}")


def thousands(points: int) -> str:
    return f"{points / 1000:+.1f}" if points else "0.0"


def table_of(it: dict) -> str:
    return f"{it['round']} {it['dealer'] + 1} counters {it['counters']} sticks {it['sticks']}"


def hand_of(hand: dict) -> str:
    """A hand's own answer in words."""
    if hand["answer"] != "refused":
        return f" {hand['answer']}"
    place = f" {hand['text']} at {hand['place']}" if "text" in hand else ""
    return f" refused {hand['code']}{place}"


def over_of(it: dict) -> list[str]:
    """The end of a game in words: the players by place, and then by first seat."""
    left = [f"left {it['left']}"] if it["left"] else []
    players = sorted(it["players"], key=lambda final: final["place"])
    return ["over", *left] + [
        f"final {of['place']} {of['name']} points {of['points']} bonus {thousands(of['bonus'])} "
        f"penalty {of['penalty']} total {thousands(of['total'])}"
        for of in players
    ]


def words_of(it: dict, names: list[str]) -> list[str]:
    """An answer in words, in a game of these players."""
    if it["answer"] == "game":
        return [f"game {' '.join(it['names'])} start {it['start']}"]
    if it["answer"] == "deal":
        changes = " ".join(f"{points:+}" if points else "0" for points in it["changes"])
        return [f"{table_of(it)} changes {changes} points {' '.join(map(str, it['points']))}"]
    if it["answer"] == "stands":
        return [f"stands {table_of(it)} points {' '.join(map(str, it['points']))}"]
    if it["answer"] == "penalty":
        return [f"penalty {names[it['player']]} {it['points']}"]
    if it["answer"] == "refused":
        return [f"refused {it['code']}{hand_of(it['hand']) if 'hand' in it else ''}"]
    return over_of(it) if it["answer"] == "over" else []


def moved(it: dict) -> list[int]:
    """What the moves of a deal change for each player."""
    sums = [0] * 4
    for move in it["moves"]:
        for player, sign in ((move["from"], -1), (move["to"], 1)):
            if player is not None:
                sums[player] += sign * move["points"]
    return sums


def try_text(text: str) -> None:
    words, status = answered(text)
    lines, also = answered(text, "--json")
    count(f"the status of {text}", status, also)
    told: list[str] = []
    names: list[str] = []
    for line in lines:
        it = json.loads(line)
        if jsonschema:
            fault = next(jsonschema.Draft7Validator(SCHEMA).iter_errors(it), None)
            count(f"by the schema: {line}", None, fault and fault.message)
        names = it.get("names", names)
        told += words_of(it, names)
        if it["answer"] == "deal" and it["outcome"] != "stands":
            count(f"the moves of {line}", it["changes"], moved(it))
    count(f"the words of {text}", words, told)
    try_numbers(text, lines)


def try_numbers(text: str, lines: list[str]) -> None:
    """By the numbers of lines each object is the same but for its first member, and what ends a game has none."""
    numbered = [json.loads(line) for line in answered(text, "--json", "--number")[0]]
    plain = [{key: value for key, value in it.items() if key != "line"} for it in numbered]
    count(f"the numbers of {text}", [json.loads(line) for line in lines], plain)
    typed = text.splitlines()
    for it in numbered:
        if it["answer"] == "deal":
            count(f"line {it.get('line')} of {text}", it["outcome"], typed[it["line"] - 1].split()[0])


def text_of(block: str) -> str:
    """The lines of a block of the page without the answers."""
    return "".join(f"{line}\n" for line in block.splitlines() if not re.match(r"(=|-|:|\|)>( |$)", line))


def row_text(row: str) -> str | None:
    """A worked deal as a text, where the row is one."""
    keys = {line.split(" ")[0]: line.partition(" ")[2] for line in row.splitlines() if line and not line.startswith("#")}
    if "row" not in keys or "line" not in keys:
        return None
    return f"game Anna Bo Cyd Dee {keys.get('rules', '')}\nstands {keys['before']}\n{keys['line']}\n"


def main() -> None:
    blocks = re.findall(r"^```\n(.*?)^```$", (TOP / "docs/GAME.md").read_text(), re.M | re.S)
    for block in [it for it in blocks if re.search(r"^[=:]> ", it, re.M)]:
        try_text(text_of(block))
        if wanted := re.findall(r"^:> (.*)$", block, re.M):
            count(block, wanted, answered(text_of(block), "--json")[0])
    for row in (TOP / "tests/ledger-rows.txt").read_text().split("\n\n"):
        if text := row_text(row):
            try_text(text)
    for game in sorted((TOP / "examples" / "games").glob("*.game")):
        try_text(game.read_text())
    try_text('game a"b \\ \\"\\ 東\npenalty a 500\nend\n')
    skipped = "" if jsonschema else ", the schema is not looked at: no package jsonschema"
    print(f"{counts['passed']} passed, {counts['failed']} failed{skipped}")


if __name__ == "__main__":
    main()
