#!/usr/bin/env python3
"""tests/array_answers.py: asks the Python package for hands and wins as arrays, from each sort of buffer, and compares each row with
the answer to the line that says the same. Ends with `all right`.
"""

from __future__ import annotations

import array
import random
from pathlib import Path

import riichi_desk

TOP = Path(__file__).resolve().parent.parent

KINDS = [f"{rank + 1}{suit}" for suit in "mpsz" for rank in range(7 if suit == "z" else 9)]
WALL = [kind for kind in range(34) for _ in range(4)]


def line_of(job: str, tiles: list[int], meld: int | None, seen: list[int]) -> str:
    def text(kinds: list[int]) -> str:
        return "".join(KINDS[kind] for kind in kinds)

    words = [job, text(tiles)]
    words += [f"open=pon:{KINDS[meld] * 3}"] if meld is not None else []
    words += [f"seen={text(seen)}"] if seen and job == "shape" else []
    return " ".join(words)


def kinds_of(bits: int) -> list[str]:
    return [KINDS[kind] for kind in range(34) if bits >> kind & 1]


def counts_of(tiles: list[int]) -> bytes:
    return bytes(tiles.count(kind) for kind in range(34))


def try_hands(draw: random.Random, size: int, hands: int) -> None:
    rows = []
    for _ in range(hands):
        wall = draw.sample(WALL, 136)
        meld = draw.choice([None, None, draw.randrange(34)])
        if meld is not None:
            wall = [kind for kind in wall if kind != meld]
        held = size if meld is None else size - 3
        rows.append((wall[:held], meld, wall[held : held + draw.choice([0, 0, 20])]))
    counts = b"".join(counts_of(tiles) for tiles, _, _ in rows)
    melds = bytes(byte for _, meld, _ in rows for byte in ((0 if meld is None else riichi_desk.pon(meld)), 0, 0, 0))
    seen = b"".join(counts_of(tiles) for _, _, tiles in rows)
    wanted = [riichi_desk.answer(line_of("shape", *row)) for row in rows]
    assert all(isinstance(it, riichi_desk.Shape) for it in wanted)
    wide = [array.array(letter, list(counts)) for letter in "bBhHiIlLqQ"]
    with_gaps = memoryview(bytes(byte for count in counts for byte in (count, 9)))[::2]
    for given in counts, bytearray(counts), memoryview(counts), *wide, with_gaps:
        assert list(riichi_desk.shanten(given, melds)) == [it.shanten for it in wanted]
    assert list(riichi_desk.shanten(counts, array.array("q", list(melds)))) == [it.shanten for it in wanted]
    shapes, discards = riichi_desk.shapes(counts, melds, seen), riichi_desk.discards(counts, melds, seen)
    waits = riichi_desk.waits(counts, melds)
    for row, it in enumerate(wanted):
        if size == 13:
            assert shapes.shanten[row] == it.shanten and discards.shanten[row] == riichi_desk.NO_HAND
            assert kinds_of(shapes.accepts[row]) == list(it.accepts.kinds)
            assert {KINDS[kind]: shapes.live[row, kind] for kind in range(34) if shapes.live[row, kind]} == it.accepts.kinds
            assert kinds_of(waits[row]) == list(riichi_desk.answer(line_of("waits", *rows[row])).kinds)
            continue
        assert discards.shanten[row] == it.shanten
        assert shapes.shanten[row] == riichi_desk.NO_HAND and waits[row] == riichi_desk.NO_WAITS
        assert sorted(kinds_of(discards.kinds[row])) == sorted(it.discards)
        for kind in range(34):
            told = it.discards.get(KINDS[kind])
            assert kinds_of(discards.accepts[row, kind]) == (list(told.kinds) if told else [])
            assert discards.live[row, kind] == (told.live if told else 0)


# ---- wins

AFTER_ALL_WORDS = [f"H{number}" for number in range(9, 17)]
"""The faults of a line whose words can all be written as a row: of the others H8 may be two winning tiles."""
SORTS = {"chi": riichi_desk.chi, "pon": riichi_desk.pon, "kan": riichi_desk.kan, "ankan": riichi_desk.ankan}


def tiles_of(text: str) -> list[str]:
    tiles, digits = [], ""
    for letter in text:
        if letter.isdigit():
            digits += letter
            continue
        tiles += [digit + letter for digit in digits]
        digits = ""
    return tiles


def kinds_in(text: str) -> list[int]:
    return [KINDS.index(tile.replace("0", "5")) for tile in tiles_of(text)]


def win_of(line: str) -> riichi_desk.Win:
    """The row of a line whose words can all be read."""
    _, hand, *pairs = line.split()
    said = dict(pair.split("=") for pair in pairs)
    melds = [it.split(":") for it in said.get("open", "").split(",") if it]
    win = riichi_desk.Win(winning=kinds_in(said["on"])[0], by=["ron", "tsumo"].index(said["by"]))
    win.seat, win.round = "ESWN".index(said["seat"]), "ESWN".index(said["round"])
    for kind in kinds_in(hand):
        win.concealed[kind] += 1
    for place, (sort, text) in enumerate(melds):
        win.melds[place] = SORTS[sort](min(kinds_in(text)))
    for place, suit in enumerate("mps"):
        win.reds[place] = sum(tiles_of(text).count("0" + suit) for text in (hand, said["on"], *(text for _, text in melds)))
    for name in "riichi", "counters", "sticks":
        setattr(win, name, int(said.get(name, 0)))
    for name in filter(None, said.get("flags", "").split(",")):
        setattr(win, name, 1)
    for place, kind in enumerate(kinds_in(said.get("dora", ""))):
        win.dora[place] = kind + 1
    for place, kind in enumerate(kinds_in(said.get("ura", ""))):
        win.ura[place] = kind + 1
    return win


def told_by(answer: object) -> dict[str, int]:
    """What a score has that isn't 0."""
    if isinstance(answer, riichi_desk.Refused):
        return {"told": int(answer.code[1:])}
    if not isinstance(answer, riichi_desk.Won):
        return {"told": riichi_desk.NO_YAKU if isinstance(answer, riichi_desk.NoYaku) else riichi_desk.NO_WIN}
    paid = answer.payment
    told = {
        **{"told": riichi_desk.WON, "yaku": sum(1 << yaku.number for yaku in answer.yaku), "base": answer.base},
        **{"han": answer.han, "fu": answer.fu, "dora": answer.dora, "gain": answer.gain},
        **{"discarder": paid.get("discarder", 0), "dealer": paid.get("dealer", 0)},
        "other": paid.get("each_other", paid.get("each", 0)),
    }
    return {name: number for name, number in told.items() if number}


def told_in(score: riichi_desk.Score) -> dict[str, int]:
    return {name: getattr(score, name) for name, _ in score._fields_ if getattr(score, name)}


def try_wins(rules: int) -> None:
    rows, wanted = [], []
    for name in "rules", "rules-two", "club-night":
        for line in (TOP / f"examples/{name}.lines").read_text().splitlines():
            answer = riichi_desk.answer(line, rules)
            has_row = not isinstance(answer, riichi_desk.Refused) or answer.code in AFTER_ALL_WORDS
            if line.startswith("win ") and has_row:
                rows.append(win_of(line))
                wanted.append(told_by(answer))
    assert len(rows) > 100
    given = (riichi_desk.Win * len(rows))(*rows)
    for buffer in given, bytes(given), memoryview(given), array.array("B", bytes(given)):
        assert [told_in(score) for score in riichi_desk.wins(buffer, rules)] == wanted
    assert memoryview(riichi_desk.wins(given, rules)).nbytes == 32 * len(rows)
    strange = riichi_desk.Win.from_buffer_copy(bytes([5] * 64))
    assert [told_in(score) for score in riichi_desk.wins((riichi_desk.Win * 2)(strange, rows[0]), rules)] == [{"told": 4}, wanted[0]]


def try_numpy() -> None:
    """Arrays of numpy, where it is here: of each integer type and order of bytes, with gaps, by columns, that can't be written to."""
    try:
        import numpy
    except ImportError:
        return
    counts = numpy.frombuffer(b"".join(counts_of(random.Random(seed).sample(WALL, 13)) for seed in range(40)), numpy.uint8).reshape(40, 34)
    wanted = list(riichi_desk.shanten(counts))
    for letter in "bBhHiIlLqQ":
        for order in "<>":
            wide = counts.astype(numpy.dtype(letter).newbyteorder(order))
            for given in wide, numpy.asfortranarray(wide), numpy.repeat(wide, 2, axis=1)[:, ::2], wide[::-1]:
                assert list(riichi_desk.shanten(given)) == wanted[:: -1 if given.strides[0] < 0 else 1], (letter, order)
    rows = numpy.zeros(3, riichi_desk.Win)
    rows["concealed"][::2, :13], rows["winning"], rows["by"] = counts[0, :13], 8, 1
    assert [it.told for it in riichi_desk.wins(rows[::2])] == [it.told for it in riichi_desk.wins(rows)][::2]
    assert refused(counts.astype(float)) and refused(counts.astype(object)) and refused(counts[:, 1:])


def refused(*given: object) -> bool:
    try:
        riichi_desk.shanten(*given)  # type: ignore[arg-type]
    except ValueError:
        return True
    return False


def wrong_rules(rules: object) -> str:
    """What is said of rules that are none."""
    try:
        riichi_desk.text("waits 1m", rules)  # type: ignore[arg-type]
    except ValueError as error:
        return str(error)
    return ""


def try_rules() -> None:
    line = "win 123406789m22s34p on=2p by=ron seat=S round=E dora=1m ura=1p riichi=1"
    house = riichi_desk.Rules(red_fives=True, ura=False)
    told = riichi_desk.answer(line, house)
    assert isinstance(told, riichi_desk.Won) and told.rules == "1+red-fives-ura"
    assert riichi_desk.text(line, told.rules) == riichi_desk.text(line, house)
    assert riichi_desk.text(line, "2") == riichi_desk.text(line, 2)
    assert "from byte 2 on" in wrong_rules("1+red-five") and "from byte 0 on" in wrong_rules("")
    assert wrong_rules(True) and wrong_rules(1.0) and wrong_rules(3)


def main() -> None:
    draw = random.Random(7)
    for size in 13, 14:
        for hands in 1, 15, 300:
            try_hands(draw, size, hands)
    assert riichi_desk.shanten(b"").tolist() == [] and riichi_desk.discards(b"").accepts.tolist() == []
    assert riichi_desk.shanten(bytes(34)).tolist() == [riichi_desk.NO_HAND]
    assert refused(bytes(33)) and refused(bytes(68), bytes(4)) and refused(array.array("H", bytes(66)))
    assert refused(array.array("d", [0.0] * 34))
    for strange in -1, 256, 2**31:
        assert riichi_desk.shanten(array.array("q", [strange, *[0] * 33, *[1] * 13, *[0] * 21])).tolist()[0] == riichi_desk.NO_HAND
    try_wins(1)
    try_wins(2)
    try_rules()
    try_numpy()
    assert len(riichi_desk.wins(b"")) == 0
    print("all right")


main()
