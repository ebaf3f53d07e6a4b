"""What a hand of riichi mahjong is worth and why, its waits, and how far it is from a win. The answers are proved.

By keywords: `win`, `waits`, `shape`. One line a call: `text`, `answer`, `json`, `explain`, `why`, `hint`. Many: `texts`, `jsons`,
`answers`, `lines`, `json_lines`. Many hands without text: `shanten`, `shapes`, `discards`, `waits`, over buffers of counts; many wins:
`wins`. A question of a player, as how likely a hand is to win: `study`. A game of four, deal by deal: `Game`; as a text: `game`. Names of tiles elsewhere: `tiles`.
The package has the shared library inside; RIICHI_DESK in the environment names another one.
"""

from __future__ import annotations

import ctypes

from . import tiles
from .arrays import ACROSS, LEFT, NO_HAND, NO_WAITS, RIGHT, Calls, Discards, Outlooks, Shapes
from .arrays import ankan, calls, chi, deeper, discards, kan, pon, shanten, shapes
from .game_values import Abort, Chombo, Draw, End, Fault, Final, HandRefused, HanFu, Liable, LimitHand, Move, Need, Needs, Outcome
from .game_values import OutcomeRefused, Paid, Penalty, Ron, RulesRefused, Stands, State, TableRules, Tsumo, Value, Yakuman
from .games import game
from .hints import Hint, hint
from .ledger import Game
from .library import CALLS, ROOMS
from .many import answers, json_lines, jsons, lines, texts
from .questions import KeywordRefused, line, shape, waits, win
from .records import answer, explain, json, text, why
from .rules import Profile, Rules
from .scores import NO_WIN, NO_YAKU, WON, Score, Win, wins
from .studies import study
from .tables import table
from .told import Table
from .values import Accepted, Answer, NoWin, NoYaku, Refused, Shape, Waits, Won, Yaku
from .words import By, Flag, Job, Key, Limit, Riichi, Wind

# (each name as it stands: type checkers read this list as a text)
__all__ = [
    "ACROSS",
    "LEFT",
    "NO_HAND",
    "NO_WAITS",
    "NO_WIN",
    "NO_YAKU",
    "RIGHT",
    "WON",
    "Abort",
    "Accepted",
    "Answer",
    "By",
    "Calls",
    "Chombo",
    "Discards",
    "Draw",
    "End",
    "Fault",
    "Final",
    "Flag",
    "Game",
    "HanFu",
    "HandRefused",
    "Hint",
    "Job",
    "Key",
    "KeywordRefused",
    "Liable",
    "Limit",
    "LimitHand",
    "Move",
    "Need",
    "Needs",
    "NoWin",
    "NoYaku",
    "Outcome",
    "OutcomeRefused",
    "Outlooks",
    "Paid",
    "Penalty",
    "Profile",
    "Refused",
    "Riichi",
    "Ron",
    "Rules",
    "RulesRefused",
    "Score",
    "Shape",
    "Shapes",
    "Stands",
    "State",
    "Table",
    "TableRules",
    "Tsumo",
    "Value",
    "Waits",
    "Win",
    "Wind",
    "Won",
    "Yaku",
    "Yakuman",
    "ankan",
    "answer",
    "answers",
    "calls",
    "chi",
    "deeper",
    "discards",
    "explain",
    "game",
    "hint",
    "json",
    "json_lines",
    "jsons",
    "kan",
    "line",
    "lines",
    "pon",
    "shanten",
    "shape",
    "shapes",
    "study",
    "table",
    "text",
    "texts",
    "tiles",
    "version",
    "waits",
    "why",
    "win",
    "wins",
]


def version() -> str:
    """The name and version of the library."""
    room = ROOMS.room
    return ctypes.string_at(room, CALLS.riichi_version(room, 64)).decode("ascii")


__version__ = version().rpartition(" ")[2]
