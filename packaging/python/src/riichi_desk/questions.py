"""Questions by keywords: the line of NOTATION.md is built of them, and its answer is a value."""

from __future__ import annotations

from collections.abc import Iterable
from operator import index
from typing import TYPE_CHECKING, Optional, SupportsIndex, Union, cast, overload

from . import arrays
from .records import answer
from .rules import Profile
from .values import NoWin, NoYaku, Refused, Shape, Waits, Won
from .words import By, Flag, Job, Riichi, Wind

if TYPE_CHECKING:
    from _typeshed import ReadableBuffer as Buffer

Texts = Union[str, Iterable[str]]
"""One text, or several: tiles one behind the other, melds and flags joined by commas. Kinds that an answer names are such texts."""

_BY_COMMAS = ("open", "flags")
_PARTING = (" ", "\n", "\r")


class KeywordRefused(ValueError):
    """A value of a keyword that can't stand in a line: it has a space or the end of a line in it."""

    def __init__(self, key: str, value: str) -> None:
        super().__init__(f"{key} has neither a space nor the end of a line in it: {value!r}")
        self.key = key
        self.value = value


def _word(key: str, value: Union[Texts, SupportsIndex]) -> str:
    if isinstance(value, SupportsIndex):
        return str(index(value))
    text = value if isinstance(value, str) else ("," if key in _BY_COMMAS else "").join(value)
    if any(letter in text for letter in _PARTING):
        raise KeywordRefused(key, text)
    return text


def line(job: Job, hand: str, **keys: Union[Texts, SupportsIndex, None]) -> str:
    """The line that asks so, for the calls that take one, as `explain` and `hint`. A key whose value is empty or 0 is left out.

    >>> line("win", "234m567m345p67s99s", on="5s", by="ron", seat="S", round="E", dora=("1m", "9p"), flags=())
    'win 234m567m345p67s99s on=5s by=ron seat=S round=E dora=1m9p'
    >>> line("waits", "123m 456m")
    Traceback (most recent call last):
    riichi_desk.questions.KeywordRefused: hand has neither a space nor the end of a line in it: '123m 456m'
    """
    words = {key: _word(key, value) for key, value in keys.items() if value}
    said = [f"{key}={word}" for key, word in words.items() if word]
    return " ".join([job, _word("hand", hand), *said])


def win(
    hand: str,
    *,
    on: Texts,
    by: By,
    seat: Wind,
    round: Wind,
    open: Texts = (),
    riichi: Riichi = 0,
    flags: Union[Flag, Iterable[Flag]] = (),
    dora: Texts = (),
    ura: Texts = (),
    counters: int = 0,
    sticks: int = 0,
    rules: Profile = 1,
) -> Union[Won, NoYaku, NoWin, Refused]:
    """What a win is worth. The hand is without its winning tile and its melds.

    >>> told = win("234m567m345p67s99s", on="5s", by="ron", seat="S", round="E", riichi=1)
    >>> told.han, told.fu, told.gain, [it.word for it in told.yaku]
    (2, 30, 2000, ['riichi', 'pinfu'])
    """
    said = {"on": on, "by": by, "seat": seat, "round": round, "open": open, "riichi": riichi, "flags": flags}
    asked = line("win", hand, **said, dora=dora, ura=ura, counters=counters, sticks=sticks)
    return cast("Union[Won, NoYaku, NoWin, Refused]", answer(asked, rules))


@overload
def waits(hand: str, *, open: Texts = ()) -> Union[Waits, Refused]:
    ...


@overload
def waits(hand: Buffer, melds: Optional[Buffer] = None) -> memoryview:
    ...


def waits(hand: Union[str, Buffer], melds: Optional[Buffer] = None, *, open: Texts = ()) -> Union[Waits, Refused, memoryview]:
    """The kinds that complete a hand of thirteen tiles, as a value. Of many hands as an array of counts (`arrays`) the set of each,
    as uint64, a bit for each kind; NO_WAITS of a row that is no such hand.

    >>> waits("2223456777m", open="pon:111z").kinds
    ('1m', '2m', '3m', '4m', '5m', '6m', '7m', '8m')
    >>> waits(bytes([1, 1, 1, 1, 1, 1, 1, 1, 1, 2, 0, 1, 1] + [0] * 21))[0] == 1 << 10 | 1 << 13
    True
    """
    if isinstance(hand, str):
        return cast("Union[Waits, Refused]", answer(line("waits", hand, open=open)))
    return arrays.waits(hand, melds)


def shape(hand: str, *, open: Texts = (), seen: Texts = ()) -> Union[Shape, Refused]:
    """How far a hand of thirteen or fourteen tiles is from winning, and which tiles bring it nearer. `seen` are tiles elsewhere.

    >>> shape("123456789m11348p").discards["8p"].kinds
    {'2p': 4, '5p': 4}
    """
    return cast("Union[Shape, Refused]", answer(line("shape", hand, open=open, seen=seen)))
