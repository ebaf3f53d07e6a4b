"""The rules of a table, and the row that the library takes of them."""

from __future__ import annotations

import ctypes
from collections.abc import Iterable
from typing import Any

from .game_rows import NOTHING, TableRow
from .game_values import Points, RulesRefused, TableRules
from .library import CALLS
from .rules import rules_of

_NAMES = {"club": 1, "league": 2, "online": 3}
_CHOICES = {
    "ties": ("share", "seat"),
    "ron": ("all", "nearest", "two"),
    "counters": ("nearest", "each"),
    "sticks": ("nearest", "own"),
    "renchan": ("ready", "win"),
    "length": ("south", "east"),
    "left": ("first", "lost"),
}
_FLAGS = ("liable", "nagashi", "bust", "stop")
_RULES_FAULTS = (
    "points are whole hundreds up to 1000000",
    "a start is 100 points at least",
    "the return is not fewer than the start",
    "a bonus is whole thousands, up to 1000000 either way",
    "no bonus is greater than the one before it",
    "the bonuses add up to 0",
)


def within(number: int, most: int, what: str) -> int:
    """A number that is not above another, and not below 0."""
    if not 0 <= number <= most:
        raise ValueError(f"{what} is 0 to {most}, and not {number}")
    return number


def points_of(row: Iterable[int]) -> Points:
    """The points of the four players, as a row has them."""
    first, second, third, fourth = row
    return first, second, third, fourth


def table(name: str) -> TableRules:
    """The rules of a name: `club`, `league` or `online`."""
    row = TableRow()
    if CALLS.riichi_game_table(_NAMES.get(name, 0), ctypes.byref(row)):
        raise RulesRefused(f"a table is club, league or online, and not {name}")
    words: dict[str, Any] = {word: getattr(row, word) for word in ("rules", "start", "returns")}
    words |= {word: values[getattr(row, word)] for word, values in _CHOICES.items()}
    words |= {word: bool(getattr(row, word)) for word in _FLAGS}
    words["uma"] = points_of(row.uma)
    words["extra"] = None if row.extra == NOTHING else row.extra
    words["chombo"] = "mangan" if row.chombo == NOTHING else row.chombo
    return TableRules(**words)


def table_row(rules: TableRules) -> TableRow:
    """The row of the rules; those that no table may choose raise `RulesRefused`."""
    row = TableRow(rules=rules_of(rules.rules))
    for word in ("start", "returns", "extra", "chombo"):
        points = getattr(rules, word)
        setattr(row, word, NOTHING if points in (None, "mangan") else within(points, NOTHING - 1, word))
    for place, bonus in enumerate(rules.uma):
        if abs(bonus) >= 1 << 31:
            raise RulesRefused(_RULES_FAULTS[3])
        row.uma[place] = bonus
    for word, values in _CHOICES.items():
        if getattr(rules, word) not in values:
            raise RulesRefused(f"{word} is one of {', '.join(values)}, and not {getattr(rules, word)}")
        setattr(row, word, values.index(getattr(rules, word)))
    for word in _FLAGS:
        setattr(row, word, bool(getattr(rules, word)))
    fault = CALLS.riichi_game_table_fault(ctypes.byref(row))
    if fault:
        raise RulesRefused(_RULES_FAULTS[fault - 1])
    return row
