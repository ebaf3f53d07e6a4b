#!/usr/bin/env python3
"""tests/typed_riichi_desk.py: answers the lines of standard input by the Python package, as values, and tells them in the words of the command `line`."""

import sys
from collections.abc import Mapping

import riichi_desk


def paid(payment: Mapping[str, int]) -> str:
    if "discarder" in payment:
        return f"{payment['discarder']}"
    if "each" in payment:
        return f"{payment['each']} all"
    return f"{payment['each_other']}/{payment['dealer']}"


def won(score: riichi_desk.Won) -> str:
    worth = "yakuman" if score.yakuman else f"{score.han} han {score.fu} fu"
    words = [f"won {worth} {paid(score.payment)} gain {score.gain}", *(each.word for each in score.yaku)]
    if score.dora:
        words.append(f"dora {score.dora}")
    return " ".join(words)


def accepted(kinds: riichi_desk.Accepted) -> str:
    each = " ".join(f"{kind}:{live}" for kind, live in kinds.kinds.items()) or "-"
    return f"accepts {each} live {kinds.live}"


def tiles(kinds: tuple[str, ...]) -> str:
    suits = ("".join(kind[0] for kind in kinds if kind[1] == suit) + suit for suit in "mpsz")
    return "".join(suit for suit in suits if len(suit) > 1) or "-"


def shape(told: riichi_desk.Shape) -> str:
    words = [f"shanten {told.shanten}"]
    if told.accepts is not None:
        words.append(accepted(told.accepts))
    words += [f"discard {kind} {accepted(kinds)}" for kind, kinds in told.discards.items()]
    return " ".join(words)


def words_of(told: riichi_desk.Answer) -> str:
    match told:
        case riichi_desk.Won():
            return won(told)
        case riichi_desk.NoYaku():
            return "no yaku"
        case riichi_desk.NoWin():
            return "no win"
        case riichi_desk.Waits():
            return f"waits {tiles(told.kinds)}"
        case riichi_desk.Shape():
            return shape(told)
        case riichi_desk.Refused(code=code, text=None):
            return f"refused {code}"
    return f"refused {told.code} {told.text} at {told.place}"


lines = sys.stdin.buffer.read().split(b"\n")
for line, many in zip(lines, riichi_desk.answers(lines)):
    told = riichi_desk.answer(line)
    assert told == many and hash(told) == hash(many), line
    if told is not None:
        print(words_of(told))
