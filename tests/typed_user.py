"""A program of a user, for `mypy --strict`: each name that the Python package has is seen with its type, and what is no word of the
notation is an error (an ignored error that is none is one too)."""

from __future__ import annotations

from array import array

import riichi_desk
from riichi_desk import Answer, Game, Hint, KeywordRefused, NoWin, NoYaku, Refused, Ron, Rules, Shape, Tsumo, Waits, Wind, Won, tiles


def gain(seat: Wind, rules: riichi_desk.Profile) -> int:
    told = riichi_desk.win("234m567m345p67s99s", on="5s", by="ron", seat=seat, round="E", riichi=1, dora=("1m", "9p"), rules=rules)
    if isinstance(told, Won):
        return told.gain + told.payments(seat, "W")["W"] + sum(yaku.number for yaku in told.yaku)
    if isinstance(told, Refused):
        raise ValueError(told.words if told.key is None else f"{told.key}: {told.words}")
    nothing: NoYaku | NoWin = told
    return len(nothing.rules or "")


def kinds(hand: str) -> tuple[str, ...]:
    waits = riichi_desk.waits(hand, open=["pon:111z"])
    shape = riichi_desk.shape(hand, seen="1m")
    if isinstance(waits, Waits):
        return waits.kinds
    return tuple(shape.discards) if isinstance(shape, Shape) else ()


def many(lines: list[str]) -> dict[str, Answer | None]:
    texts: list[str | None] = riichi_desk.texts(lines)
    objects: list[str | None] = riichi_desk.jsons(lines)
    found = dict(zip(lines, riichi_desk.answers(lines, rules=Rules.parse("1+red-fives"))))
    told = found[lines[0]]
    assert told is None or riichi_desk.json(told) == objects[0]
    hint: Hint | None = riichi_desk.hint(lines[0])
    return found if texts and hint else {}


def sets_of_kinds(counts: array[int]) -> list[tuple[str, ...]]:
    view: memoryview = riichi_desk.waits(counts)
    return [tiles.kinds_in(bits) for bits in view]


def played() -> tuple[int, int, int, int]:
    game = Game(riichi_desk.table("club"))
    worth = riichi_desk.win("234m567m345p67s99s", on="5s", by="ron", seat="S", round="E")
    if isinstance(worth, Won):
        game.add(Ron(discarder=2, wins=((1, worth),)))
    needed = game.need(0).by_tsumo.strictly
    if needed is not None:
        game.add(Tsumo(0, needed))
    return game.state.points


def wrong() -> None:
    riichi_desk.win("1m", on="5s", by="rob", seat="S", round="E")  # type: ignore[arg-type]
    riichi_desk.win("1m", on="5s", by="ron", seat="South", round="E")  # type: ignore[arg-type]
    riichi_desk.win("1m", on="5s", by="ron", seat="S", round="E", riichi=3)  # type: ignore[arg-type]
    riichi_desk.win("1m", on="5s", by="ron", seat="S", round="E", flags=["haitei"])  # type: ignore[list-item]
    riichi_desk.win("1m", by="ron", seat="S", round="E")  # type: ignore[call-arg]
    riichi_desk.waits("1m").kinds  # type: ignore[union-attr]
    riichi_desk.answers([5])  # type: ignore[list-item]
    riichi_desk.nothing()  # type: ignore[attr-defined]
    Won.gian  # type: ignore[attr-defined]


try:
    print(gain("S", 2), kinds("2223456777m"), many(["waits 1m"]), played(), riichi_desk.__version__)
except KeywordRefused as refused:
    print(refused.key, refused.value)
