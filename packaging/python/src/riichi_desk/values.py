"""The answers of riichi_desk as values, read from their JSON (answer.schema.json). They are never changed, and can be hashed."""

from __future__ import annotations

from dataclasses import dataclass, field
from functools import lru_cache
from typing import Any, Optional, Union, cast

from .told import Table, Told, object_of, unread
from .words import WINDS, Key, Limit, Wind


def _none() -> None:
    return None


@dataclass(frozen=True)
class Yaku:
    """A yaku by its number, 0 to 41, its word, and the Japanese name by which players know it."""

    number: int
    word: str
    japanese: str


@lru_cache(maxsize=4096)
def _yaku_of(rest: str) -> tuple[tuple[Yaku, ...], Optional[str]]:
    """The yaku and the rules of a win, of what its object has from these on. Few lists of yaku stand in many answers."""
    told = object_of(f'{{"yaku":{rest}')
    return tuple(Yaku(it["number"], it["word"], it["japanese"]) for it in told["yaku"]), told.get("rules")


@lru_cache(maxsize=4096)
def _worth_of(front: str) -> dict[str, Any]:
    """What a win is worth, of what its object has up to there: the same for all wins that are worth as much."""
    told = object_of(front + "}")
    del told["answer"]
    return told


@lru_cache(maxsize=16384)
def _payment_of(paid: str) -> Table[int]:
    """What each payer pays, once for all wins that are paid so."""
    return Table(object_of(paid + "}"))


@dataclass(frozen=True)
class Won(Told):
    """What a win is worth. Of a yakuman `han`, `fu` and `dora` are 0."""

    yakuman: bool
    han: int
    fu: int
    dora: int
    base: int
    limit: Limit | None
    payment: Table[int]
    """What each payer pays: `discarder`, or `dealer` and `each_other`, or `each`."""
    gain: int
    yaku: tuple[Yaku, ...]
    rules: str | None = field(default_factory=_none)
    """The rules of a house, as `1+red-fives`; none under a profile."""

    @classmethod
    def _read(cls, text: str) -> dict[str, Any]:
        front, _, rest = text.partition(',"payment":')
        paid, _, rest = rest.partition('},"gain":')
        gain, _, rest = rest.partition(',"yaku":')
        yaku, rules = _yaku_of(rest)
        return {**_worth_of(front), "payment": _payment_of(paid), "gain": int(gain), "yaku": yaku, "rules": rules}

    def payments(self, winner: Wind, discarder: Wind | None = None) -> Table[int]:
        """What each other seat pays to a winner with this seat: for a win by ron the discarder alone, who has to be named.

        >>> won = Won(False, 2, 20, 0, 320, None, Table({"dealer": 700, "each_other": 400}), 1500, ())
        >>> won.payments("S")
        {'E': 700, 'W': 400, 'N': 400}
        """
        others = [wind for wind in WINDS if wind != winner]
        if "discarder" in self.payment:
            if discarder not in others:
                raise ValueError(f"the discarder is one of {', '.join(others)}, and not {discarder}")
            return Table({wind: self.payment["discarder"] if wind == discarder else 0 for wind in others})
        is_dealer = winner == "E"
        if discarder is not None or is_dealer != ("each" in self.payment):
            raise ValueError(f"nobody pays {self.payment} to {winner} for a discard of {discarder}")
        payers = {wind: "each" if is_dealer else "dealer" if wind == "E" else "each_other" for wind in others}
        return Table({wind: self.payment[payer] for wind, payer in payers.items()})


class _Unworthy(Told):
    """What is worth nothing."""

    @classmethod
    def _fields(cls, told: dict[str, Any]) -> dict[str, Any]:
        return {"rules": told.get("rules")}


@dataclass(frozen=True)
class NoYaku(_Unworthy):
    """The tiles are a win, and have no yaku under these rules."""

    rules: str | None = field(default_factory=_none)


@dataclass(frozen=True)
class NoWin(_Unworthy):
    """The tiles are no win."""

    rules: str | None = field(default_factory=_none)


@dataclass(frozen=True)
class Waits(Told):
    """The kinds that complete a hand."""

    kinds: tuple[str, ...]

    @classmethod
    def _fields(cls, told: dict[str, Any]) -> dict[str, Any]:
        return {"kinds": tuple(told["kinds"])}


@dataclass(frozen=True)
class Accepted:
    """The kinds that bring a hand nearer, each with its live copies, and how many these are in all."""

    kinds: Table[int]
    live: int


@dataclass(frozen=True)
class Shape(Told):
    """How far a hand is from winning. Of thirteen tiles it accepts kinds; of fourteen one is discarded first."""

    shanten: int
    accepts: Accepted | None
    discards: Table[Accepted]
    """The kinds to discard, the best first, with what the hand then accepts."""

    @classmethod
    def _fields(cls, told: dict[str, Any]) -> dict[str, Any]:
        discards = {each["discard"]: _accepted(each) for each in told.get("discards", ())}
        accepts = _accepted(told) if "accepts" in told else None
        return {"shanten": told["shanten"], "accepts": accepts, "discards": Table(discards)}


@dataclass(frozen=True)
class Refused(Told):
    """Why a line is refused: `text` and `place` where one of its texts of tiles is; the key at fault, as `seat`, where it is one;
    `at` and `length` in bytes where one word of the line is at fault; and what may stand there."""

    code: str
    text: Key | None
    place: int | None
    key: Key | None
    at: int | None
    length: int | None
    words: str

    @classmethod
    def _fields(cls, told: dict[str, Any]) -> dict[str, Any]:
        return {name: told.get(name) for name in ("code", "text", "place", "key", "at", "length", "words")}


Answer = Union[Won, NoYaku, NoWin, Waits, Shape, Refused]

_SORT = slice(len('{"answer":"'), len('{"answer":"no yak'))
_SORTS: dict[str, type[Answer]] = {
    **{'won","': Won, "no yak": NoYaku, "no win": NoWin},
    **{'waits"': Waits, 'shape"': Shape, "refuse": Refused},
}
"""The sorts of answers, by the letters that stand in this place."""


def read(text: str) -> Answer:
    """The answer that a line of JSON holds.

    >>> read('{"answer":"waits","kinds":["2p","5p"]}')
    Waits(kinds=('2p', '5p'))
    >>> read('{"answer":"refused","code":"H6","key":"by","words":"a win tells on, by, seat and round"}').key
    'by'
    """
    return cast("Answer", unread(_SORTS[text[_SORT]], text))


def _accepted(told: dict[str, Any]) -> Accepted:
    return Accepted(Table({each["kind"]: each["live"] for each in told["accepts"]}), told["live"])
