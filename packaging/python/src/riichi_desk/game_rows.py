"""The structs of a game, as riichi_desk.h has them."""

from __future__ import annotations

import ctypes

_BYTE, _WORD, _LONG = ctypes.c_uint8, ctypes.c_uint32, ctypes.c_int64

NOTHING = 0xFFFFFFFF
"""What a number of points has for none: no round more; a mangan for a dead hand."""


class TableRow(ctypes.Structure):
    """The rules of a table."""

    _fields_ = (
        *((name, _WORD) for name in ("rules", "start", "returns", "extra", "chombo")),
        ("uma", ctypes.c_int32 * 4),
        *((name, _BYTE) for name in ("ties", "ron", "counters", "sticks", "liable", "nagashi", "renchan", "length")),
        *((name, _BYTE) for name in ("bust", "stop", "left", "zero")),
    )

    rules: int
    start: int
    returns: int
    extra: int
    chombo: int
    uma: ctypes.Array[ctypes.c_int32]
    ties: int
    ron: int
    counters: int
    sticks: int
    liable: int
    nagashi: int
    renchan: int
    length: int
    bust: int
    stop: int
    left: int


class StateRow(ctypes.Structure):
    """What the table shows between two deals."""

    _fields_ = (("points", ctypes.c_int32 * 4), *((name, _BYTE) for name in ("round", "dealer", "counters", "sticks")))

    points: ctypes.Array[ctypes.c_int32]
    round: int
    dealer: int
    counters: int
    sticks: int


class ProgressRow(ctypes.Structure):
    """How far a game has come."""

    _fields_ = (("state", StateRow), ("penalties", _WORD * 4), ("over", _WORD))

    state: StateRow
    penalties: ctypes.Array[ctypes.c_uint32]
    over: int


class WorthRow(ctypes.Structure):
    """What a player wins."""

    _fields_ = (("base", ctypes.c_uint16), *((name, _BYTE) for name in ("limits", "kind", "liable", "liable_limits")))

    base: int
    limits: int
    kind: int
    liable: int
    liable_limits: int


class OutcomeRow(ctypes.Structure):
    """How a deal ended."""

    _fields_ = (
        *((name, ctypes.c_uint16) for name in ("kind", "player")),
        *((name, _BYTE * 4) for name in ("riichi", "ready", "nagashi")),
        ("wins", WorthRow * 4),
        ("points", _WORD),
        ("state", StateRow),
    )

    kind: int
    player: int
    riichi: ctypes.Array[ctypes.c_uint8]
    ready: ctypes.Array[ctypes.c_uint8]
    nagashi: ctypes.Array[ctypes.c_uint8]
    wins: ctypes.Array[WorthRow]
    points: int
    state: StateRow


class MoveRow(ctypes.Structure):
    """Something that is moved."""

    _fields_ = (("points", _WORD), ("sticks", _WORD), ("giver", _BYTE), ("taker", _BYTE), ("why", ctypes.c_uint16))

    points: int
    sticks: int
    giver: int
    taker: int
    why: int


class ChangesRow(ctypes.Structure):
    """What all moves of an outcome change."""

    _fields_ = (("points", _LONG * 4), ("sticks", _WORD), ("moves", _WORD))

    points: ctypes.Array[ctypes.c_int64]
    sticks: int
    moves: int


class FinalRow(ctypes.Structure):
    """What a player has at the end."""

    _fields_ = (*((name, _LONG) for name in ("points", "bonus", "total")), ("penalty", _WORD), ("place", _WORD))

    points: int
    bonus: int
    total: int
    penalty: int
    place: int


class QuestionRow(ctypes.Structure):
    """Which place a player is to reach."""

    _fields_ = (("player", _BYTE), ("place", _BYTE), ("riichi", _BYTE * 4))

    player: int
    place: int
    riichi: ctypes.Array[ctypes.c_uint8]


class PaidRow(ctypes.Structure):
    """A row of the table of payments."""

    _fields_ = tuple((name, _WORD) for name in ("base", "discarder", "dealer", "other"))

    base: int
    discarder: int
    dealer: int
    other: int


class NeedRow(ctypes.Structure):
    """What a player needs by one way of winning."""

    _fields_ = (("strictly", PaidRow), ("with_tie", PaidRow))

    strictly: PaidRow
    with_tie: PaidRow


class NeedsRow(ctypes.Structure):
    """What a player needs."""

    _fields_ = (("off", NeedRow * 4), ("by_tsumo", NeedRow))

    off: ctypes.Array[NeedRow]
    by_tsumo: NeedRow
