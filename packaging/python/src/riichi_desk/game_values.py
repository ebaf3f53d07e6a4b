"""The values of a game: rules of a table, outcomes, states, and what is told of them. They are never changed, and can be hashed."""

from __future__ import annotations

import enum
from dataclasses import dataclass
from typing import Literal, Optional, Union

from .rules import Profile
from .scores import Win
from .values import Won
from .words import Limit

Points = tuple[int, int, int, int]
"""Points of each player, by the first seats."""


@dataclass(frozen=True)
class TableRules:
    """The rules of a table; what isn't said is as a club has it. docs/GAME.md says what each word means."""

    rules: Profile = 1
    start: int = 30000
    returns: int = 30000
    uma: Points = (15000, 5000, -5000, -15000)
    ties: Literal["share", "seat"] = "share"
    ron: Literal["all", "nearest", "two"] = "all"
    counters: Literal["nearest", "each"] = "nearest"
    sticks: Literal["nearest", "own"] = "nearest"
    liable: bool = True
    nagashi: bool = False
    renchan: Literal["ready", "win"] = "ready"
    length: Literal["south", "east"] = "south"
    extra: Optional[int] = None
    """The points for which no round more is played; none is played anyway where it is None."""
    bust: bool = False
    stop: bool = False
    left: Literal["first", "lost"] = "first"
    chombo: Union[int, Literal["mangan"]] = 20000


@dataclass(frozen=True)
class State:
    """What the table shows between two deals. Players have the numbers 0 to 3, by their first seats."""

    points: Points
    round: Literal["east", "south", "west", "north"] = "east"
    dealer: int = 0
    counters: int = 0
    sticks: int = 0


@dataclass(frozen=True)
class HanFu:
    """What a hand of so many han and fu is worth."""

    han: int
    fu: int


class LimitHand(enum.IntEnum):
    """A limit hand below a yakuman, by its base points."""

    MANGAN = 2000
    HANEMAN = 3000
    BAIMAN = 4000
    SANBAIMAN = 6000


@dataclass(frozen=True)
class Yakuman:
    """A yakuman of so many limits."""

    limits: int = 1


@dataclass(frozen=True)
class Paid:
    """A row of the table of payments: what each pays, with the counters, and the hands that are paid so."""

    base: int
    discarder: int
    dealer: int
    other: int
    hands: tuple[HanFu, ...]
    """With four han at most."""
    limit: Optional[Limit]
    """The limit hand, as `mangan`, where it is one."""


@dataclass(frozen=True)
class Liable:
    """A yakuman, as such or as a hand, that a player is liable for, or for so many of its limits."""

    value: Union[HanFu, LimitHand, Yakuman, Win, Won, Paid]
    player: int
    limits: int = 1


Value = Union[HanFu, LimitHand, Yakuman, Win, Won, Paid, Liable]
"""What a player wins; of a `Win`, its seat, round, counters and sticks are those of the game. A `Won` is worth what it tells, and a
`Paid` what a `Need` names."""


@dataclass(frozen=True)
class Ron:
    """Wins on a discard: what each wins who said ron, whether or not the rules let them all win."""

    discarder: int
    wins: tuple[tuple[int, Value], ...]
    """The number of each winner, and what that one wins."""
    riichi: tuple[int, ...] = ()
    """Who has bet in the deal."""


@dataclass(frozen=True)
class Tsumo:
    """A win by self-draw."""

    winner: int
    value: Value
    riichi: tuple[int, ...] = ()


@dataclass(frozen=True)
class Draw:
    """Nobody wins: who is ready, and who has a nagashi mangan."""

    ready: tuple[int, ...] = ()
    nagashi: tuple[int, ...] = ()
    riichi: tuple[int, ...] = ()


@dataclass(frozen=True)
class Abort:
    """The deal is broken off by the rules."""

    riichi: tuple[int, ...] = ()


@dataclass(frozen=True)
class Chombo:
    """A dead hand."""

    player: int


@dataclass(frozen=True)
class Penalty:
    """Points off the final points."""

    player: int
    points: int


@dataclass(frozen=True)
class Stands:
    """The state as it is written: of a game that begins elsewhere, or a correction."""

    state: State


@dataclass(frozen=True)
class End:
    """The game ends here."""


Outcome = Union[Ron, Tsumo, Draw, Abort, Chombo, Penalty, Stands, End]


class Fault(enum.IntEnum):
    """Why an outcome is refused; of several reasons the first in this order."""

    NOBODY_WINS = 1
    DISCARDER_WINS = 2
    WINNER_LIABLE = 3
    NO_SUCH_WORTH = 4
    LIABLE_LIMITS = 5
    LIABLE_OFF = 6
    NAGASHI_OFF = 7
    BET_OF_TOO_FEW = 8
    NOT_READY = 9
    STANDS_SUM = 10
    STANDS_ROUND = 11
    OVER_COUNTERS = 12
    OVER_STICKS = 13
    OVER_POINTS = 14
    GAME_OVER = 15


class OutcomeRefused(ValueError):
    """An outcome that can't be; the game is as it was."""

    def __init__(self, fault: Fault) -> None:
        super().__init__(f"refused: {fault.name.lower().replace('_', ' ')}")
        self.fault = fault


class HandRefused(ValueError):
    """A hand that is worth nothing: `answer` is `no yaku`, `no win`, or the code of a fault, as `H8`. The game is as it was."""

    def __init__(self, answer: str) -> None:
        super().__init__(f"the hand: {answer}")
        self.answer = answer


class RulesRefused(ValueError):
    """Rules that no table may choose."""


Why = Literal["ron", "tsumo", "liable", "other half", "counters", "ready", "nagashi", "chombo", "bet", "sticks", "own bet"]
"""For what something is moved."""


@dataclass(frozen=True)
class Move:
    """Something that is moved: points from a player to another, or sticks, of 1000 points each, to the table or from it."""

    giver: Optional[int]
    """A player, or None for the table."""
    taker: Optional[int]
    points: int
    sticks: int
    why: Why


@dataclass(frozen=True)
class Final:
    """What a player has at the end, in points."""

    place: int
    points: int
    """With the sticks that the rules give."""
    bonus: int
    penalty: int
    total: int
    """The final points."""


@dataclass(frozen=True)
class Need:
    """The least row that brings a player to a place, if any up to one yakuman does."""

    strictly: Optional[Paid]
    """With fewer others than the place who have as many points or more."""
    with_tie: Optional[Paid]
    """With fewer others than the place who are ahead."""


@dataclass(frozen=True)
class Needs:
    """What a player needs."""

    off: tuple[Optional[Need], ...]
    """By ron off each player; None for the own discard."""
    by_tsumo: Need
