#!/usr/bin/env python3
"""tests/keyword_answers.py FILE: asks the Python package by keywords for what the lines of FILE say, and compares the answers with
those to the lines; writes each answer as JSON, and compares that with the library's; tries the names of tiles elsewhere, the
words of rules, lines to try and payments by seat. It says `all right` where all are.
"""

from __future__ import annotations

import sys
from collections.abc import Callable

import riichi_desk
from riichi_desk import Hint, KeywordRefused, Refused, Rules, Won, tiles

CALLS: dict[str, Callable[..., object]] = {"win": riichi_desk.win, "waits": riichi_desk.waits, "shape": riichi_desk.shape}
NUMBERS = ("riichi", "counters", "sticks")
G = {"on": "5s", "by": "ron", "seat": "S", "round": "E"}
HAND = "234m567m345p67s99s"
G_LINE = f"win {HAND} on=5s by=ron seat=S round=E"


def asked(line: str) -> object:
    """The answer to a line by keywords; None where it can't be said so."""
    words = [word for word in line.split(" ") if word]
    job, hand, *pairs = words if len(words) > 1 else ("", "")
    said = dict(pair.split("=", 1) for pair in pairs if "=" in pair)
    takes = CALLS[job].__kwdefaults__ if job in CALLS else {}
    must = G if job == "win" else {}
    if job not in CALLS or "=" in hand or len(said) < len(pairs) or not said.keys() <= {*takes, *must} - {"rules"}:
        return None
    if not must.keys() <= said.keys() or not all(said.values()):
        return None
    numbers = {key: int(said[key]) for key in NUMBERS if said.get(key, "").isdigit() and said[key] == str(int(said[key]))}
    lists = {key: said[key].split(",") for key in ("open", "flags") if key in said}
    return CALLS[job](hand, **{**said, **lists, **numbers})


def try_lines(lines: list[str]) -> None:
    tried = 0
    for line, told, words in zip(lines, riichi_desk.answers(lines), riichi_desk.jsons(lines)):
        assert told is None or riichi_desk.json(told) == words, line
        found = asked(line)
        if found is not None:
            tried += 1
            assert found == told or (isinstance(found, Refused) and isinstance(told, Refused) and found.code == told.code), line
    assert tried > len(lines) // 2, tried
    text = "\n".join(lines).encode("utf-8", "surrogateescape")
    assert riichi_desk.json_lines(text).decode().split("\n")[:-1] == [it for it in riichi_desk.jsons(lines) if it is not None]


def try_words() -> None:
    assert riichi_desk.line("win", HAND, **G, dora=iter(["1m", "9p"]), flags=["last"], sticks=0, open=()) == (
        f"{G_LINE} dora=1m9p flags=last"
    )
    for key, value in ("on", "5s dora=1m"), ("on", "5s\n"), ("dora", ["1m", " "]), ("ura", "1m\r"):
        try:
            riichi_desk.win(HAND, **{**G, key: value})
        except KeywordRefused as refused:
            assert refused.key == key and isinstance(refused, ValueError) and key in str(refused)
            continue
        raise AssertionError(key)
    refused = riichi_desk.win(HAND, **{**G, "seat": "South"})
    assert isinstance(refused, Refused) and (refused.code, refused.key) == ("H4", "seat")
    waits = riichi_desk.waits("123456789m1134p")
    for kind in waits.kinds:
        assert isinstance(riichi_desk.win("123456789m1134p", **{**G, "on": kind}), Won)
    assert riichi_desk.shape("123456789m1134p", seen=waits.kinds).accepts.live == 6
    assert riichi_desk.waits(tiles.counts("123456789m1134p"))[0] == sum(1 << tiles.number_of(kind) for kind in waits.kinds)


def try_rules() -> None:
    for text in "1", "2", "1+red-fives-ura", "2-raise", "1+double-yakuman+blessing-of-man-open-simples":
        assert riichi_desk.text(G_LINE, Rules.parse(text)) == "won 1 han 30 fu 1000 gain 1000 pinfu"
        assert riichi_desk.jsons([G_LINE], text) == riichi_desk.jsons([G_LINE], Rules.parse(text))
    house = Rules(red_fives=True, ura=False, add_yakuman=True)
    told = riichi_desk.win(HAND, **G, rules=house)
    assert isinstance(told, Won) and told.rules is not None
    assert Rules.parse(told.rules) == house and riichi_desk.win(HAND, **G, rules=told.rules) == told
    assert Rules.parse("2") == Rules(red_fives=True, raised=True) and Rules.parse("1") == Rules()
    try:
        Rules.parse("1+red-five")
    except ValueError as error:
        assert "from byte 2 on" in str(error)
        return
    raise AssertionError("rules that are none")


def try_hints() -> None:
    line = G_LINE
    assert riichi_desk.hint(line) is None and riichi_desk.hint("# a comment") is None
    assert riichi_desk.hint(line.replace("seat=S", "seat=s")) == Hint(line, False, "")
    assert riichi_desk.hint(line.replace("ron", "rob")) == Hint(line, False, "by=rob is read as by=ron.")
    guessed = riichi_desk.hint(line.replace(" seat=S", ""))
    assert guessed is not None and guessed.is_guess and "seat=S" in guessed.words and guessed.line == line
    assert riichi_desk.hint("try 1m") is None and riichi_desk.hint(f"{line} try") == Hint(line, False, "try is left out.")


def paid(winner: str, discarder: str | None, **more: str) -> dict[str, int] | str:
    told = riichi_desk.win(HAND, **{**G, "by": "ron" if discarder else "tsumo", "seat": winner, **more})
    try:
        return dict(told.payments(winner, discarder))
    except ValueError as error:
        return str(error)


def try_payments() -> None:
    assert paid("S", None) == {"E": 700, "W": 400, "N": 400} and paid("E", None) == {"S": 700, "W": 700, "N": 700}
    assert paid("S", "N") == {"E": 0, "W": 0, "N": 1000} and paid("E", "N") == {"S": 0, "W": 0, "N": 1500}
    by_self_draw = riichi_desk.win(HAND, **{**G, "by": "tsumo"})
    for wrong in ("E", None), ("S", "N"):
        try:
            by_self_draw.payments(*wrong)
        except ValueError:
            continue
        raise AssertionError(wrong)
    assert "discarder" in paid("S", "S")


def try_worths() -> None:
    """What an answer tells of a win is taken by a game as what a player wins."""
    dragons = riichi_desk.win("555666777z11p11m", **{**G, "on": "1m"})
    limit = riichi_desk.win("234m567m345p67s99s", **G, riichi=2, flags=["ippatsu"], dora="1m9p8s", ura="1m")
    need = riichi_desk.Game().need(1).off[2].strictly
    worths = {
        riichi_desk.win(HAND, **G, counters=3, sticks=2): riichi_desk.HanFu(1, 30),
        dragons: riichi_desk.Yakuman(dragons.base // 8000),
        riichi_desk.Liable(dragons, 3): riichi_desk.Liable(riichi_desk.Yakuman(), 3),
        limit: riichi_desk.LimitHand(limit.base),
        need: need.hands[0],
    }
    assert dragons.yakuman and limit.limit is not None
    for told, value in worths.items():
        games = [riichi_desk.Game(), riichi_desk.Game()]
        for game, worth in zip(games, (told, value)):
            game.add(riichi_desk.Ron(2, ((1, worth),)))
        assert games[0].state == games[1].state and games[0].moves == games[1].moves, told


def try_tiles() -> None:
    with_reds, without = tiles.from_numbers(range(136)), tiles.from_numbers(range(136), reds=False)
    assert [at for at in range(136) if with_reds[at] != without[at]] == [16, 52, 88]
    assert [with_reds[at] for at in (16, 17, 52, 88, 108, 135)] == ["0m", "5m", "0p", "0s", "1z", "7z"]
    assert tiles.to_numbers(with_reds) == tiles.to_numbers(without, reds=False) == tuple(range(136))
    assert tiles.from_mjai(tiles.to_mjai(with_reds)) == with_reds
    assert tiles.to_mjai(("1z", "2z", "3z", "4z", "5z", "6z", "7z", "0s", "5s")) == ("E", "S", "W", "N", "P", "F", "C", "5sr", "5s")
    assert tiles.split(tiles.join(reversed(with_reds))) == tuple(sorted(with_reds, key=lambda it: ("mpsz".index(it[1]), it[0].replace("0", "4.5"))))
    assert tiles.counts("123456789m1134p") == bytes([1] * 9 + [2, 0, 1, 1] + [0] * 21) and tiles.counts("00m5m")[4] == 3
    assert tiles.kinds_in((1 << 34) - 1) == tiles.KINDS and [tiles.number_of(it) for it in tiles.KINDS] == list(range(34))
    wrong: list[Callable[[], object]] = [
        *[lambda text=text: tiles.split(text) for text in ("1", "m", "1x", "8z", "0z", "1m 2m", "1m2")],
        *[lambda given=given: tiles.to_numbers(given) for given in (["0m", "0m"], ["5m"] * 4, ["1z"] * 5, ["x"])],
        *[lambda given=given: tiles.from_numbers([given]) for given in (-1, 136)],
        *[lambda: tiles.from_mjai(["5z"]), lambda: tiles.to_mjai(["E"]), lambda: tiles.join(["9z"]), lambda: tiles.number_of("1")],
        lambda: tiles.to_numbers(["0m"], reds=False),
    ]
    for at, call in enumerate(wrong):
        try:
            call()
        except tiles.TilesRefused:
            continue
        raise AssertionError(at)


if __name__ == "__main__":
    with open(sys.argv[1], encoding="utf-8", errors="surrogateescape") as file:
        try_lines(file.read().split("\n")[:8000])
    try_words()
    try_rules()
    try_hints()
    try_payments()
    try_worths()
    try_tiles()
    print("all right")
