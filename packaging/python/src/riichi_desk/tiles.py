"""Tiles by their names here, by the numbers of 136 tiles, and by the names of mjai.

A tile is a text: a digit and the letter of its suit, `5m`, and `0m` for the red five. The kinds have the numbers 0 to 33 in the order
of `KINDS`; the tiles of a kind k have the numbers 4 k to 4 k + 3 among 136, of which 16, 52 and 88 are the red fives where there
are such. mjai has `5mr` for a red five, and `E S W N P F C` for the winds and the dragons, white, green, red.
"""

from __future__ import annotations

import re
from collections import Counter
from collections.abc import Iterable

KINDS = tuple(f"{digit}{suit}" for suit in "mpsz" for digit in range(1, 8 if suit == "z" else 10))
"""The names of the kinds, each at the place of its number."""
NUMBERS = range(136)

_COPIES = 4
_KIND_OF = {**{kind: number for number, kind in enumerate(KINDS)}, "0m": 4, "0p": 13, "0s": 22}
_RED_NUMBERS = {16: "0m", 52: "0p", 88: "0s"}
_MJAI = {
    **{kind: kind for kind in KINDS if not kind.endswith("z")},
    **{f"{digit}z": letter for digit, letter in enumerate("ESWNPFC", 1)},
    **{"0m": "5mr", "0p": "5pr", "0s": "5sr"},
}
_OF_MJAI = {name: tile for tile, name in _MJAI.items()}
_GROUP = re.compile("([0-9]+)([mps])|([1-7]+)(z)")


class TilesRefused(ValueError):
    """What is no tile, or more tiles than there are."""


def split(text: str) -> tuple[str, ...]:
    """The tiles of a text, in the order in which they stand there.

    >>> split("340m1z")
    ('3m', '4m', '0m', '1z')
    """
    tiles: list[str] = []
    place = 0
    while place < len(text):
        group = _GROUP.match(text, place)
        if group is None:
            raise TilesRefused(f"no tiles from place {place} on: {text!r}")
        digits, suit = group[1] or group[3], group[2] or group[4]
        tiles += [digit + suit for digit in digits]
        place = group.end()
    return tuple(tiles)


def join(tiles: Iterable[str]) -> str:
    """The text of tiles, a group for each suit, red fives before the others.

    >>> join(("1z", "5m", "0m", "3p"))
    '05m3p1z'
    """
    held = sorted(tiles, key=lambda tile: (number_of(tile), tile))
    return "".join(digits + suit for suit in "mpsz" if (digits := "".join(tile[0] for tile in held if tile[1] == suit)))


def number_of(tile: str) -> int:
    """The number of the kind of a tile, 0 to 33.

    >>> number_of("2p"), number_of("0p"), KINDS[31]
    (10, 13, '5z')
    """
    if tile not in _KIND_OF:
        raise TilesRefused(f"no tile: {tile!r}")
    return _KIND_OF[tile]


def kinds_in(bits: int) -> tuple[str, ...]:
    """The kinds of a set with a bit for each, as array calls tell it.

    >>> kinds_in(1 << 10 | 1 << 13)
    ('2p', '5p')
    """
    return tuple(kind for number, kind in enumerate(KINDS) if bits >> number & 1)


def counts(text: str) -> bytes:
    """How many of each kind a text has, as array calls take a hand; a red five counts as a five.

    >>> list(counts("340m1z")[:5])
    [0, 0, 1, 1, 1]
    """
    numbers = [number_of(tile) for tile in split(text)]
    return bytes(numbers.count(number) for number in range(len(KINDS)))


def from_numbers(numbers: Iterable[int], reds: bool = True) -> tuple[str, ...]:
    """The tiles of numbers of 136, in their order. Without `reds` there are no red fives.

    >>> from_numbers([16, 17, 108]), from_numbers([16], reds=False)
    (('0m', '5m', '1z'), ('5m',))
    """
    return tuple(_tile_of(number, reds) for number in numbers)


def _tile_of(number: int, reds: bool) -> str:
    if number not in NUMBERS:
        raise TilesRefused(f"the tiles have the numbers 0 to 135, and not {number!r}")
    return _RED_NUMBERS.get(number, KINDS[number // _COPIES]) if reds else KINDS[number // _COPIES]


_NUMBERS_OF = {reds: {tile: [it for it in NUMBERS if _tile_of(it, reds) == tile] for tile in _KIND_OF} for reds in (False, True)}
"""The numbers of each tile, with red fives and without."""


def to_numbers(tiles: Iterable[str], reds: bool = True) -> tuple[int, ...]:
    """A number of 136 for each tile, none twice: of those that are the same tile the least that is left. With `reds` one five of
    each suit is red; without, none is.

    >>> to_numbers(("0m", "5m", "5m", "1z")), to_numbers(("5m", "5m"), reds=False)
    ((16, 17, 18, 108), (16, 17))
    """
    told, taken = [], Counter[str]()
    for tile in tiles:
        copies = _NUMBERS_OF[reds].get(tile, ())
        if taken[tile] == len(copies):
            raise TilesRefused(f"no tile, or more than there are: {tile!r}")
        told.append(copies[taken[tile]])
        taken[tile] += 1
    return tuple(told)


def from_mjai(names: Iterable[str]) -> tuple[str, ...]:
    """The tiles that mjai names.

    >>> from_mjai(["5mr", "5m", "E", "C"])
    ('0m', '5m', '1z', '7z')
    """
    return tuple(_named(name, _OF_MJAI) for name in names)


def to_mjai(tiles: Iterable[str]) -> tuple[str, ...]:
    """The names that mjai has for tiles.

    >>> to_mjai(split("0m5m17z"))
    ('5mr', '5m', 'E', 'C')
    """
    return tuple(_named(tile, _MJAI) for tile in tiles)


def _named(name: str, names: dict[str, str]) -> str:
    if name not in names:
        raise TilesRefused(f"no tile: {name!r}")
    return names[name]
