"""Many wins a call, as arrays, without text: what each is worth.

A win is a `Win`, 64 bytes, and what is told of it a `Score`, 32 bytes. Many lie in `(Win * n)()`, in bytes, or in an array of numpy:
`numpy.zeros(n, Win)` has a column for each field. What comes back is such an array too, and `numpy.asarray` takes it without a copy.
"""

from __future__ import annotations

import ctypes
from typing import TYPE_CHECKING

from .buffers import lend
from .library import CALLS
from .rules import Profile, rules_of

if TYPE_CHECKING:
    from _typeshed import ReadableBuffer as Buffer

_BYTE, _WORD = ctypes.c_uint8, ctypes.c_uint32

WON, NO_YAKU, NO_WIN = 100, 101, 102
"""What a `Score` has for `told`: a win with a yaku; a complete hand without one; a hand that isn't complete. A win that is refused
as `refused Hn` has n, and 4 where a number is in no table."""


class Win(ctypes.Structure):
    """A win. What isn't said is 0; a flag is set where it isn't 0."""

    _fields_ = (
        ("concealed", _BYTE * 34),
        ("melds", _BYTE * 4),
        *((name, _BYTE) for name in ("winning", "by", "seat", "round", "riichi", "ippatsu", "rinshan", "chankan", "last", "first")),
        *((name, _BYTE) for name in ("counters", "sticks")),
        ("reds", _BYTE * 3),
        ("dora", _BYTE * 5),
        ("ura", _BYTE * 5),
        ("zero", _BYTE),
    )

    concealed: ctypes.Array[ctypes.c_uint8]
    """How many tiles of each kind are concealed, without the winning tile."""
    melds: ctypes.Array[ctypes.c_uint8]
    """`chi` and so on; 0 for none."""
    winning: int
    """The kind of the winning tile."""
    by: int
    """0 by ron, 1 by self-draw."""
    seat: int
    """The winner's wind: 0 East, who is the dealer, to 3 North."""
    round: int
    """The prevalent wind."""
    riichi: int
    """1, or 2 for double riichi."""
    ippatsu: int
    rinshan: int
    chankan: int
    last: int
    first: int
    counters: int
    """On the table, 0 to 99, each worth 300 points."""
    sticks: int
    """The riichi sticks on the table, 0 to 99."""
    reds: ctypes.Array[ctypes.c_uint8]
    """The red fives of m, p and s among all its tiles."""
    dora: ctypes.Array[ctypes.c_uint8]
    """The dora indicators, of each one more than its kind; 0 for none."""
    ura: ctypes.Array[ctypes.c_uint8]
    """The indicators under them."""
    zero: int
    """Always 0."""


class Score(ctypes.Structure):
    """What is told of a win. All but `told` is 0 where that isn't WON."""

    _fields_ = (
        ("yaku", ctypes.c_uint64),
        *((name, _WORD) for name in ("base", "gain", "discarder", "dealer", "other")),
        *((name, _BYTE) for name in ("told", "han", "fu", "dora")),
    )

    yaku: int
    """Bit n for the yaku with number n."""
    base: int
    """The base points; of a yakuman, whose han, fu and dora are 0, 8000 for each limit."""
    gain: int
    """All that the winner gains, in points, with counters and sticks."""
    discarder: int
    """What the discarder pays; 0 by self-draw."""
    dealer: int
    """What the dealer pays for another's self-draw; else 0."""
    other: int
    """What each who isn't the dealer pays for a self-draw; else 0."""
    told: int
    han: int
    """With the dora."""
    fu: int
    dora: int
    """How many of the han are dora."""


def wins(rows: Buffer, rules: Profile = 1) -> ctypes.Array[Score]:
    """What each win is worth.

    >>> straight = Win(concealed=(1, 1, 1, 1, 1, 1, 1, 1, 1, 0, 0, 1, 1, 0, 0, 0, 0, 0, 0, 2), winning=10, seat=1)
    >>> score = wins((Win * 1)(straight))[0]
    >>> score.told == WON, score.han, score.fu, score.gain, score.yaku == 1 << 4 | 1 << 16
    (True, 3, 30, 3900, True)
    """
    given, count = lend(rows, ctypes.sizeof(Win), size=ctypes.sizeof(Win))
    told = (Score * count)()
    CALLS.riichi_wins(rules_of(rules), given, count, ctypes.byref(told), count)
    return told
