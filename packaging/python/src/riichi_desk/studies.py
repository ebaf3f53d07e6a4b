"""Questions of a player: what stands beyond a hand's next step, how likely it is to be ready, and to win, and what it is worth."""

from __future__ import annotations

import ctypes
import json as json_of
import threading
from typing import Any

from .library import CALLS, ROOMS, Line, bytes_of

_MOST = 65536
_HELD_BY_PLACE, _HELD_BY_ROWS, _HELD_BY_WORTHS = 564, 152, 57
# So many hands have room where there is too little; no list has more than the last.
_STEPS = (512, 5120, 65535)


class _Places(threading.local):
    """For each thread the places that its calls lend for the hands that a hand may come to."""

    def __init__(self) -> None:
        self.make(0)

    def make(self, hands: int) -> None:
        self.hands = hands
        self.places = (ctypes.c_uint16 * (_HELD_BY_PLACE * hands))()
        self.rows = (ctypes.c_uint64 * (_HELD_BY_ROWS * hands))()
        self.worths = (ctypes.c_uint64 * (_HELD_BY_WORTHS * hands))()


_PLACES = _Places()


def _told(given: bytes) -> dict[str, Any] | None:
    room, lent = ROOMS.room, _PLACES
    places = (lent.places, lent.hands, lent.rows, lent.hands, lent.worths, lent.hands)
    needed = CALLS.riichi_study(given, len(given), *places, room, _MOST)
    return json_of.loads(ctypes.string_at(room, needed)) if needed else None


def study(line: Line) -> dict[str, Any] | None:
    """The answer to a question of a player (NOTATION.md), as its JSON has it; None where the line is a comment or blank. Chances
    and worths of a far hand take some megabytes for each thread, which keeps them.

    >>> told = study("chances 123456789m1134p turns=2")
    >>> told["win"]
    {'part': '316', 'whole': '2501', 'chance': 0.1263}
    >>> study("worth 123456789m1134p turns=1 seat=S round=E")["worth"]
    520.3252
    >>> study("chances 1357m245p2346s77z turns=18")["win"]["part"]
    '225207024146689'
    """
    given = bytes_of(line)
    told = _told(given)
    for hands in _STEPS:
        if told is None or told.get("code") != "places":
            break
        if hands > _PLACES.hands:
            _PLACES.make(hands)
            told = _told(given)
    if told is not None and told.get("code") == "places":
        raise MemoryError("the hand may come to more hands than any list has")
    return told
