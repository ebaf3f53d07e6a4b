"""The words of lines and answers that are one of few, as types (NOTATION.md of the release)."""

from __future__ import annotations

from typing import Literal

Job = Literal["win", "waits", "shape"]
Wind = Literal["E", "S", "W", "N"]
"""A seat, or the prevalent wind. E is the dealer."""
By = Literal["ron", "tsumo"]
Flag = Literal["ippatsu", "rinshan", "chankan", "last", "first"]
Riichi = Literal[0, 1, 2]
"""2 is double riichi."""
Limit = Literal["mangan", "haneman", "baiman", "sanbaiman", "yakuman"]
Key = Literal["hand", "on", "by", "seat", "round", "open", "riichi", "flags", "dora", "ura", "counters", "sticks", "seen"]
"""A key of a line, or its hand."""

WINDS: tuple[Wind, ...] = ("E", "S", "W", "N")
