#!/usr/bin/env python3
"""tests/reasons_agree.py PROGRAM: whether `explain --json` says of some wins as values what `explain --all` says in words, and
of other lines what `line --json` says."""

import json
import subprocess
import sys

WINS = [
    "win 1122334m556677s on=4m by=ron seat=S round=E",
    "win 99978m444p567s22s on=9m by=ron seat=S round=E riichi=1 dora=3p ura=8m counters=2 sticks=1",
    "win 6667778888999m on=7m by=ron seat=S round=E riichi=1",
    "win 1133m5577p2288s4z on=4z by=tsumo seat=W round=E counters=1",
    "win 19m19p19s1234567z on=1m by=ron seat=E round=E",
    "win 234m567m34p99s open=ankan:1111z on=2p by=tsumo seat=E round=E flags=rinshan dora=1p",
    "win 456m22s34p open=chi:123m,chi:678p on=2p by=ron seat=S round=E",
    "win 123456789m22s34p on=9s by=ron seat=S round=E",
]
OTHERS = ["waits 123456789m1134p", "shape 123456789m11348p", "waits 8z", "win 8z", "# a comment", ""]


def told(program, *words, lines):
    return subprocess.run([program, *words], input="\n".join(lines) + "\n", capture_output=True, text=True, check=False).stdout


def reading(it, melds):
    """A reading as `explain` begins it, and the block that is completed."""
    if it["form"] != "standard":
        return it["form"], None
    return " ".join([*it["sets"], it["pair"], *melds]), it["completed"]


def part(row):
    """What earns fu, without its tiles, as `explain` has it."""
    return row["part"] + (f" ({row['japanese']})" if "japanese" in row else "")


def faults_of(win, object_, text):
    """What the lines of `explain --all` don't bear out."""
    why, lines = object_["why"], [line[2:] for line in text.split("\n")[1:] if line]
    melds = next((word[5:].split(",") for word in win.split() if word.startswith("open=")), [])
    said = {}
    blocks = []
    for line in lines:
        label, rest = line[:8].strip(), line[8:]
        if label in ("reading", "other"):
            said = {"reading": rest}
            blocks.append(said)
        else:
            said[label] = rest
    if object_["answer"] == "no win":
        forms = why["shanten"]
        names = {"standard": "sets and a pair", "seven_pairs": "seven pairs", "thirteen_orphans": "thirteen orphans"}
        yield lines[0] == "shanten " + ", ".join(f"{names[name]} {forms[name]}" for name in forms)
        yield [it.split()[0] for it in said.get("waits", "").split("; ") if it] == why["waits"]
        return
    every = ([why] if "reading" in why else []) + why["others"]
    yield len(every) == len(blocks)
    for it, block in zip(every, blocks):
        begins, completed = reading(it["reading"], melds)
        yield block["reading"].startswith(begins)
        yield completed is None or f"completes {completed}" in block["reading"]
        yield ("gain" not in it and it is not why) == block["reading"].endswith(": no yaku")
        if it is not why and "gain" in it:
            yield block["gain"].split(" = ")[-1] == str(it["gain"])
            yield "yakuman" in block or block["fu"].split()[-1 if "rounded" in block["fu"] or ":" in block["fu"] else 0] == str(it["fu"])
            yield "yakuman" in block or block["han"].split()[-1] == str(it["han"])
    if "reading" not in why:
        return
    best = blocks[0]
    if object_["yakuman"]:
        yield [row["japanese"] for row in why["han"]] == [it["japanese"] for it in object_["yaku"]]
        yield why["fu"] == why["dora"] == []
    else:
        names = [row["part"] + (f" ({row['japanese']})" if row.get("japanese", row["part"]) != row["part"].replace("-", " ") else "") for row in why["han"]]
        yield best["han"].split(": ")[0].split(", ") == [f"{name} {row['han']}" for name, row in zip(names, why["han"])]
        yield sum(row["han"] for row in why["han"]) == object_["han"]
        yield sum(row["han"] for row in why["dora"]) == object_["dora"]
        rows = best["fu"].split(": ")[0].split(", rounded")[0].split(", ")
        yield [row.split()[0] for row in rows] == [str(row["fu"]) for row in why["fu"]]
        yield all(row["part"] in line and row.get("japanese", "") in line for row, line in zip(why["fu"], rows))
    pays = best["pays"].split(", ")
    yield [f"{row['payer']} {row['points']}" for row in why["payments"]] == [it.split(" + ")[0].removesuffix(" each") for it in pays]
    yield [row["counters"] for row in why["payments"]] == [int(it.split(" + ")[1].split()[0]) if " + " in it else 0 for it in pays]


def main():
    program = sys.argv[1]
    objects = [json.loads(line) for line in told(program, "explain", "--json", lines=WINS).splitlines()]
    for win, object_ in zip(WINS, objects):
        faults = [at for at, holds in enumerate(faults_of(win, object_, told(program, "explain", "--all", lines=[win]))) if not holds]
        if faults:
            return print(f"{win}: not borne out: {faults}: {json.dumps(object_)}")
        del object_["why"]
    if objects != [json.loads(line) for line in told(program, "line", "--json", lines=WINS).splitlines()]:
        return print("without its reasons an object is not that of `line --json`")
    if told(program, "explain", "--json", lines=OTHERS) != told(program, "line", "--json", lines=OTHERS):
        return print("other lines are not answered as by `line --json`")
    numbered = [json.loads(line) for line in told(program, "explain", "--json", "--number", "--all", lines=OTHERS + WINS).splitlines()]
    if [it["line"] for it in numbered] != [1, 2, 3, 4, *range(7, 15)] or "why" not in numbered[-1]:
        return print("the numbers of the lines are not so")
    print("the same")


main()
