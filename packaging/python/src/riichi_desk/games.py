"""Answers to texts of games."""

from __future__ import annotations

import ctypes

from .library import CALLS, ROOM, ROOMS, Line, encoded
from .rules import Profile, rules_of


def game(text: Line, rules: Profile = 1) -> str:
    """The answers to a whole text of games, as the command `game` writes them: a line for each deal, and behind the last line of
    each game its places and final points, or how it stands. GAME.md of the release has the lines. The rules are those for the hands
    of a game that names none. Other threads run meanwhile.

    >>> print(game("game Anna Bo Cyd Dee\\nron Bo from Cyd 1.30\\n"), end="")
    game Anna Bo Cyd Dee start 30000
    east 1 counters 0 sticks 0 changes 0 +1000 -1000 0 points 30000 31000 29000 30000
    stands east 2 counters 0 sticks 0 points 30000 31000 29000 30000
    """
    given, number, room = encoded(text), rules_of(rules), ROOMS.room
    pieces: list[bytes] = []
    start, taken = 0, ctypes.c_size_t()
    while start <= len(given):
        filled = CALLS.riichi_game_lines(number, given, len(given), start, room, ROOM, ctypes.byref(taken))
        if taken.value == start:
            raise ValueError(f"this library takes no text of games of {len(given)} bytes")
        pieces.append(ctypes.string_at(room, filled))
        start = taken.value
    return b"".join(pieces).decode("utf-8")
