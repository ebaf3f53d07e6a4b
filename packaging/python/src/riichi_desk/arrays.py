"""Many hands a call, as arrays, without text: shanten, accepted kinds, discards, waits, further steps and calls.

A hand is 34 counts, those of the kinds 1m to 9m, 1p to 9p, 1s to 9s, East, South, West, North, white, green, red; so the kind of 2p
is 10, and bit 10 of a set of kinds says that 2p is in it. Hands lie one behind the other in any buffer of integers: bytes, a
bytearray, a memoryview, an array of any integer type (`array`, numpy), whatever its strides. Bytes are lent to the library as they
are, and so is a buffer of bytes without gaps that can be written to; another one is copied. Columns come back as views, which
`numpy.asarray` takes without a copy. Other threads run during a call.
"""

from __future__ import annotations

import ctypes
from typing import TYPE_CHECKING, Any, NamedTuple

from .buffers import NOTHING, lend
from .library import CALLS

if TYPE_CHECKING:
    from _typeshed import ReadableBuffer as Buffer

KINDS = 34
NO_HAND = -128
"""The shanten of a row that is no hand: a count above four, no meld, another number of tiles, a fifth tile of a kind."""
NO_WAITS = 2**64 - 1
"""The waits of such a row."""


class Shapes(NamedTuple):
    """What hands of thirteen tiles accept, a row for each hand."""

    shanten: memoryview
    """int8: 0 of a hand that is ready; NO_HAND of a row that is no hand of thirteen tiles."""
    accepts: memoryview
    """uint64: the kinds that bring the hand nearer and of which a tile is left, a bit for each."""
    live: memoryview
    """uint8, 34 a hand: how many tiles of each of these kinds are left; 0 of every other."""


class Discards(NamedTuple):
    """Which tile to discard from hands of fourteen tiles, a row for each hand."""

    shanten: memoryview
    """int8: -1 of a complete hand; NO_HAND of a row that is no hand of fourteen tiles."""
    kinds: memoryview
    """uint64: the kinds whose discard leaves the least shanten, a bit for each."""
    accepts: memoryview
    """uint64, 34 a hand: at each of these kinds those that the rest then accepts, a bit for each; 0 at every other."""
    live: memoryview
    """uint8, 34 a hand: how many tiles of those are left in all; 0 at every other."""


class Outlooks(NamedTuple):
    """What stands beyond the next step of hands of thirteen tiles, a row for each hand."""

    shanten: memoryview
    """int8: NO_HAND of a row that is no hand of thirteen tiles. Where it is 0 or less, the other two are 0."""
    second: memoryview
    """uint16: the sum over the accepted kinds of their live copies times the most live copies that a best discard then leaves."""
    good: memoryview
    """uint8: the live copies of the accepted kinds after which a best discard leaves at least five."""


class Calls(NamedTuple):
    """Which calls of a thrown tile bring hands of thirteen tiles nearer, four a hand: for a run of which the tile is the highest, the
    middle or the lowest, and for a triplet."""

    melds: memoryview
    """uint8, 4 a hand: the byte of each meld; 0 where there is no such call."""
    kinds: memoryview
    """uint64, 4 a hand: the kinds whose discard is best after it, a bit for each."""
    live: memoryview
    """uint8, 136 a hand: for each call at each of these kinds how many copies of what is then accepted are live; 0 at every other."""


LEFT, ACROSS, RIGHT = range(3)
"""Who throws a tile, seen from the hand: the player before, from whom alone a run may be called; across; the player after."""


def chi(kind: int) -> int:
    """The byte of a chow, by its lowest kind."""
    return 1 + kind


def pon(kind: int) -> int:
    """The byte of a pung."""
    return 65 + kind


def kan(kind: int) -> int:
    """The byte of an open kong."""
    return 129 + kind


def ankan(kind: int) -> int:
    """The byte of a concealed kong."""
    return 193 + kind


def _column(letter: str, size: int, hands: int, width: int = 1) -> tuple[Any, memoryview]:
    """A column to be filled, as a call is given it and as a view."""
    if hands == 0:
        return NOTHING, memoryview(b"").cast(letter)
    room = bytearray(size * width * hands)
    shape = [hands] if width == 1 else [hands, width]
    return ctypes.byref(ctypes.c_char.from_buffer(room)), memoryview(room).cast(letter, shape)


def shanten(counts: Buffer, melds: Buffer | None = None) -> memoryview:
    """The shanten of each hand of thirteen or fourteen tiles, as int8. `melds` has four bytes for each hand, each a meld (`chi` and
    so on) or 0; a meld counts as three tiles.

    >>> ready = bytes([1, 1, 1, 1, 1, 1, 1, 1, 1, 2, 0, 1, 1] + [0] * 21)
    >>> shanten(ready + bytes(34)).tolist()
    [0, -128]
    """
    rows, hands = lend(counts, KINDS)
    melded, beside = lend(melds, 4, hands)
    filled, column = _column("b", 1, hands)
    CALLS.riichi_shantens(rows, hands, melded, beside, filled, hands)
    return column


def shapes(counts: Buffer, melds: Buffer | None = None, seen: Buffer | None = None) -> Shapes:
    """What each hand of thirteen tiles accepts. `seen` has 34 counts for each hand, of the tiles that are seen elsewhere.

    >>> ready = bytes([1, 1, 1, 1, 1, 1, 1, 1, 1, 2, 0, 1, 1] + [0] * 21)
    >>> told = shapes(ready)
    >>> told.shanten[0], told.accepts[0] == 1 << 10 | 1 << 13, told.live[0, 10]
    (0, True, 4)
    """
    rows, hands = lend(counts, KINDS)
    melded, beside = lend(melds, 4, hands)
    elsewhere, known = lend(seen, KINDS, hands)
    distance, shanten = _column("b", 1, hands)
    kinds, accepts = _column("Q", 8, hands)
    copies, live = _column("B", 1, hands, KINDS)
    CALLS.riichi_shapes(rows, hands, melded, beside, elsewhere, known, distance, hands, kinds, hands, copies, hands)
    return Shapes(shanten, accepts, live)


def discards(counts: Buffer, melds: Buffer | None = None, seen: Buffer | None = None) -> Discards:
    """Which tile to discard from each hand of fourteen tiles, and what the rest then accepts.

    >>> told = discards(bytes([1, 1, 1, 1, 1, 1, 1, 1, 1, 2, 0, 1, 1] + [0] * 20 + [1]))
    >>> told.kinds[0] == 1 << 33, told.accepts[0, 33] == 1 << 10 | 1 << 13, told.live[0, 33]
    (True, True, 8)
    """
    rows, hands = lend(counts, KINDS)
    melded, beside = lend(melds, 4, hands)
    elsewhere, known = lend(seen, KINDS, hands)
    distance, shanten = _column("b", 1, hands)
    best, kinds = _column("Q", 8, hands)
    after, accepts = _column("Q", 8, hands, KINDS)
    copies, live = _column("B", 1, hands, KINDS)
    CALLS.riichi_discards(
        *[rows, hands, melded, beside, elsewhere, known],
        *[distance, hands, best, hands, after, hands, copies, hands],
    )
    return Discards(shanten, kinds, accepts, live)


def deeper(counts: Buffer, melds: Buffer | None = None, seen: Buffer | None = None) -> Outlooks:
    """Second and good of each hand of thirteen tiles that isn't ready. After a discard of fourteen tiles the row is that of the other
    thirteen, and the discarded tile is one of those seen.

    >>> hand = [0, 1, 1, 1] + [0] * 8 + [1] * 5 + [0] * 3 + [1, 1, 2, 0, 0, 1] + [0] * 8  # 234m45678p34s558s
    >>> told = deeper(bytes(hand))
    >>> told.shanten[0], told.second[0], told.good[0]
    (1, 165, 20)
    """
    rows, hands = lend(counts, KINDS)
    melded, beside = lend(melds, 4, hands)
    elsewhere, known = lend(seen, KINDS, hands)
    distance, shanten = _column("b", 1, hands)
    steps, second = _column("H", 2, hands)
    copies, good = _column("B", 1, hands)
    CALLS.riichi_deeper(rows, hands, melded, beside, elsewhere, known, distance, hands, steps, hands, copies, hands)
    return Outlooks(shanten, second, good)


def calls(counts: Buffer, thrown: Buffer, melds: Buffer | None = None, seen: Buffer | None = None) -> Calls:
    """Which calls of a thrown tile bring each hand of thirteen tiles nearer. `thrown` has two bytes for each hand: the kind, and LEFT,
    ACROSS or RIGHT; it is not yet one of those seen.

    >>> hand = [0, 1, 1, 1] + [0] * 8 + [1] * 5 + [0] * 3 + [1, 1, 2, 0, 0, 1] + [0] * 8  # 234m45678p34s558s
    >>> told = calls(bytes(hand), bytes([11, LEFT]))
    >>> told.melds.tolist() == [[0, 0, chi(11), 0]]
    True
    >>> told.kinds[0, 2] == 1 << 22 | 1 << 25, told.live[0, 2 * KINDS + 25], told.live[0, 2 * KINDS + 22]
    (True, 6, 3)
    """
    rows, hands = lend(counts, KINDS)
    tiles, lent = lend(thrown, 2, hands)
    melded, beside = lend(melds, 4, hands)
    elsewhere, known = lend(seen, KINDS, hands)
    told, called = _column("B", 1, hands, 4)
    best, kinds = _column("Q", 8, hands, 4)
    copies, live = _column("B", 1, hands, 4 * KINDS)
    CALLS.riichi_calls(
        *[rows, hands, melded, beside, elsewhere, known, tiles, lent],
        *[told, hands, best, hands, copies, hands],
    )
    return Calls(called, kinds, live)


def waits(counts: Buffer, melds: Buffer | None = None) -> memoryview:
    """The kinds that each hand of thirteen tiles waits for, as uint64, a bit for each; NO_WAITS of a row that is no such hand.

    >>> waits(bytes([1, 1, 1, 1, 1, 1, 1, 1, 1, 2, 0, 1, 1] + [0] * 21))[0] == 1 << 10 | 1 << 13
    True
    """
    rows, hands = lend(counts, KINDS)
    melded, beside = lend(melds, 4, hands)
    kinds, column = _column("Q", 8, hands)
    CALLS.riichi_waits_of(rows, hands, melded, beside, kinds, hands)
    return column
