"""A line to try in place of one that is refused."""

from __future__ import annotations

import re
from dataclasses import dataclass

from .library import Line
from .records import explain
from .rules import Profile

_HERE = "  here "
_SHOWN = re.compile("  (try|guess): ((?:win|waits|shape) .*)")


@dataclass(frozen=True)
class Hint:
    """A line like a refused one, which is answered."""

    line: str
    is_guess: bool
    """Whether it says what no word of the refused line did, so that it is to be looked at before it is taken."""
    words: str
    """What became of the words, and what is guessed; empty where each stands as it was."""


def hint(line: Line, rules: Profile = 1) -> Hint | None:
    """The line to try that the desk has for a line that is refused, if it has one.

    >>> hint("win 234m567m345p67s99s on=5s by=ron dealer pao=W")
    Hint(line='win 234m567m345p67s99s on=5s by=ron seat=E round=E', is_guess=True, words='dealer is read as seat=E. pao=W is left out. round=E is a guess.')
    """
    lines = explain(line, rules)
    found = _SHOWN.fullmatch(lines[-1]) if lines else None
    if found is None:
        return None
    here = lines[-2] if len(lines) > 1 and lines[-2].startswith(_HERE) else _HERE
    return Hint(found[2], found[1] == "guess", here[len(_HERE) :])
