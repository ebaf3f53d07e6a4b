"""What is decided when the tables of a hall hand in their deals.

A table's book is a text: the line `game`, and a line a deal behind it, each ended by a line feed; a withdrawn deal has the words
`# withdrawn ` before its line. The caller keeps it; nothing is kept here, and other threads run meanwhile.

>>> from riichi_desk import hall
>>> book = hall.begin("game Anna Bo Cyd Dee session=1 at=1")
>>> one = hall.hand_in(book, 1, "ron Bo from Cyd 1.30")
>>> one.verdict.value, one.next
('taken', 2)
>>> hall.hand_in(one.book, 1, "ron B from C 1.30").verdict.value
'again'
>>> hall.withdraw(one.book, 1).book
'game Anna Bo Cyd Dee session=1 at=1\\n# withdrawn ron Bo from Cyd 1.30\\n'
"""

from __future__ import annotations

import ctypes
import enum
from dataclasses import dataclass
from typing import Optional

from .library import CALLS, ROOM, ROOMS
from .rules import Profile, rules_of

WITHDRAWN = "# withdrawn "
"""The words before the line of a withdrawn deal."""


class Verdict(enum.Enum):
    """What a message comes to."""

    TAKEN = "taken"
    """The number is the next one, and the line is accepted."""
    AGAIN = "again"
    """The number has the same outcome: answered as the first time."""
    ANOTHER = "another"
    """The number has another outcome: nothing is taken."""
    EARLY = "early"
    """The number is beyond the next one."""
    REFUSED = "refused"
    """The game refuses the line at that number; it isn't held."""
    GONE = "gone"
    """A line for a number whose deal was withdrawn."""
    WITHDRAWN = "withdrawn"
    """The last live deal is withdrawn; its number is never given again."""
    GONE_ALREADY = "gone-already"
    """It was withdrawn before."""
    NOT_LAST = "not-last"
    """A later live deal stands on it."""
    NO_DEAL = "no-deal"
    """No deal has this number."""
    NO_TABLE = "no-table"
    """Never told here: for whoever keeps books by tables, and has none of this one."""

    @property
    def changes(self) -> bool:
        """Whether the next book is another one."""
        return self in (Verdict.TAKEN, Verdict.WITHDRAWN)


_NUMBERED = (None, *(it for it in Verdict if it is not Verdict.NO_TABLE))


class NoBook(ValueError):
    """The text is no book's: its first line begins no game, the game refuses a live deal, or the last line isn't ended."""


@dataclass(frozen=True)
class Judged:
    """What a message to a book comes to."""

    verdict: Verdict
    number: int
    text: str
    """The answer, without a line feed at its end; of ANOTHER two lines: that of the book's deal, and that of the line handed in."""
    next: int
    """The number that the next deal has behind the message."""
    book: str
    """The next book's text: the very text that was given where nothing changes."""
    line: Optional[str]
    """The line that the book has at the number behind the message, also of a withdrawn deal."""


@dataclass(frozen=True)
class Deal:
    """A deal of a book."""

    number: int
    line: str
    is_withdrawn: bool


class _Row(ctypes.Structure):
    _fields_ = [("next", ctypes.c_uint64), ("place", ctypes.c_uint64), ("verdict", ctypes.c_uint32), ("nothing", ctypes.c_uint32)]


def deals_of(book: str) -> list[Deal]:
    """The deals of a book's text, in the order of their numbers."""
    lines = enumerate(book.split("\n")[1:-1], 1)
    return [Deal(number, line.removeprefix(WITHDRAWN), line.startswith(WITHDRAWN)) for number, line in lines]


def _line_at(book: str, number: int) -> Optional[str]:
    deals = deals_of(book)
    return deals[number - 1].line if 0 < number <= len(deals) else None


def _judged(book: str, number: int, line: Optional[str], rules: Profile) -> Judged:
    given, row, room = book.encode("utf-8", "surrogateescape"), _Row(), ROOMS.room
    asked = min(max(number, 0), 2**64 - 1)
    if line is None:
        filled = CALLS.riichi_hall_withdraw(rules_of(rules), given, len(given), asked, room, ROOM, ctypes.byref(row))
        more = WITHDRAWN
    else:
        words = line.encode("utf-8", "surrogateescape")
        filled = CALLS.riichi_hall_hand_in(
            rules_of(rules), given, len(given), asked, words, len(words), room, ROOM, ctypes.byref(row)
        )
        more = line + "\n"
    verdict = _NUMBERED[row.verdict]
    if verdict is None:
        raise NoBook("the text is no book's")
    text = ctypes.string_at(room, filled).decode("utf-8", "surrogateescape")
    if verdict.changes:
        front, rest = given[: row.place], given[row.place :]
        book = (front + more.encode("utf-8", "surrogateescape") + rest).decode("utf-8", "surrogateescape")
    return Judged(verdict, number, text, row.next + (verdict is Verdict.TAKEN), book, _line_at(book, number))


def hand_in(book: str, number: int, line: str, rules: Profile = 1) -> Judged:
    """What a line comes to that is handed in at a number."""
    return _judged(book, number, line, rules)


def withdraw(book: str, number: int, rules: Profile = 1) -> Judged:
    """What the withdrawal of a number does."""
    return _judged(book, number, None, rules)


def begin(line: str, rules: Profile = 1) -> str:
    """A book before its first deal. NoBook where the line begins no game."""
    book = line + "\n"
    if "\n" in line:
        raise NoBook("a book begins with one line")
    withdraw(book, 0, rules)
    return book


class Book:
    """A table's book, which changes by what is handed in and withdrawn. One thread at a time."""

    def __init__(self, text: str, rules: Profile = 1) -> None:
        self._rules = rules
        self._next = withdraw(text, 0, rules).next
        self._text = text

    @property
    def text(self) -> str:
        """The text so far."""
        return self._text

    @property
    def next(self) -> int:
        """The number that the next deal has."""
        return self._next

    @property
    def deals(self) -> list[Deal]:
        """All deals, the withdrawn ones too."""
        return deals_of(self._text)

    def _keep(self, judged: Judged) -> Judged:
        self._text, self._next = judged.book, judged.next
        return judged

    def hand_in(self, number: int, line: str) -> Judged:
        """What a line comes to that is handed in at a number."""
        return self._keep(hand_in(self._text, number, line, self._rules))

    def withdraw(self, number: int) -> Judged:
        """What the withdrawal of a number does."""
        return self._keep(withdraw(self._text, number, self._rules))
