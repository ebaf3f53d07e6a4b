"""Answers to lines, one a call."""

from __future__ import annotations

import ctypes
import json as json_of
from typing import Any, overload

from .as_json import written
from .library import CALLS, MOST, ROOMS, Line, bytes_of
from .rules import Profile, rules_of
from .told import Told
from .values import Answer, read


def _told(call: Any, line: Line, rules: Profile) -> str | None:
    given, room = bytes_of(line), ROOMS.room
    needed = call(rules_of(rules), given, len(given), room, MOST)
    return ctypes.string_at(room, needed).decode("utf-8") if needed else None


def text(line: Line, rules: Profile = 1) -> str | None:
    """The answer to one line under the rules (1, 2 or `Rules(..)`), in the words of the command `line`; None where the line is a comment or blank.

    >>> text("waits 1112345678999m")
    'waits 123456789m'
    """
    return _told(CALLS.riichi_answer, line, rules)


@overload
def json(line: Line, rules: Profile = 1) -> str | None:
    ...


@overload
def json(line: Answer) -> str:
    ...


def json(line: Line | Answer, rules: Profile = 1) -> str | None:
    """The same answer as one line of JSON; of an answer that is a value already the line of JSON that says the same.

    >>> json("waits 123456789m1134p")
    '{"answer":"waits","kinds":["2p","5p"]}'
    >>> json(answer("waits 123456789m1134p"))
    '{"answer":"waits","kinds":["2p","5p"]}'
    """
    if isinstance(line, Told):
        return written(line)
    return _told(CALLS.riichi_json, line, rules)


def answer(line: Line, rules: Profile = 1) -> Answer | None:
    """The same answer as a value.

    >>> answer("waits 1112345678999m")
    Waits(kinds=('1m', '2m', '3m', '4m', '5m', '6m', '7m', '8m', '9m'))
    """
    told = json(line, rules)
    return read(told) if told is not None else None


def why(line: Line, rules: Profile = 1) -> dict[str, Any] | None:
    """The same answer as the object of JSON, which says of a win why it is so: its member `why` has the reading and its rows.

    >>> why("win 456m22s34p open=chi:123m,chi:678p on=2p by=ron seat=S round=E")["why"]["others"][0]["reading"]["pair"]
    '22s'
    """
    told = _told(CALLS.riichi_explain_json, line, rules)
    return json_of.loads(told) if told is not None else None


def explain(line: Line, rules: Profile = 1) -> list[str]:
    """The lines that say why one line is answered as it is; none for a comment or a blank line.

    >>> explain("shape 123456789m1134p")
    ['  shanten sets and a pair 0, seven pairs 5, thirteen orphans 9']
    """
    return (_told(CALLS.riichi_explain, line, rules) or "").splitlines()
