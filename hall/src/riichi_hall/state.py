"""What a hall has, as it lies on the disk: sessions, books, disputes. Objects here are never changed, but replaced."""

from __future__ import annotations

from dataclasses import dataclass, field
from enum import Enum
from typing import NamedTuple


class Stage(str, Enum):
    """How far a session is."""

    PAIRED = "paired"
    BEGUN = "begun"
    CLOSED = "closed"


class Key(NamedTuple):
    """A game: the session, and the table at which it is played."""

    session: int
    table: int


class Entry(NamedTuple):
    """Who handed a deal in, and when, in seconds since 1970."""

    who: str
    came: float


@dataclass(frozen=True)
class Book:
    """The book of one game: the four players by their first seats, its text as the library reads it, and who handed in each deal."""

    key: Key
    names: tuple[str, ...]
    text: str
    next: int
    ending: tuple[str, ...]
    entries: tuple[Entry, ...] = ()

    @property
    def header(self) -> str:
        """The line `game`."""
        return self.text.partition("\n")[0]

    @property
    def is_over(self) -> bool:
        """Whether the game has ended."""
        return self.ending[:1] == ("over",)

    @property
    def came(self) -> float | None:
        """When the last deal was handed in."""
        return self.entries[-1].came if self.entries else None


@dataclass(frozen=True)
class Dispute:
    """A line that somebody handed in for a number which the book has otherwise. `text` is what the game would answer it."""

    number: int
    key: Key
    deal: int
    line: str
    who: str
    text: str

    def members(self) -> dict[str, str | int]:
        """As an object of JSON."""
        return {"dispute": self.number, "number": self.deal, "line": self.line, "who": self.who, "text": self.text}


@dataclass
class State:
    """All that changes in a hall. Whoever reads one sees what lies on the disk; the next one takes its place at once."""

    sessions: dict[int, Stage] = field(default_factory=dict)
    begun: dict[int, float] = field(default_factory=dict)
    """When a session began, in seconds since 1970."""
    books: dict[Key, Book] = field(default_factory=dict)
    disputes: dict[Key, tuple[Dispute, ...]] = field(default_factory=dict)
    last_dispute: int = 0

    def copy(self) -> State:
        """Another state of the same objects."""
        return State(dict(self.sessions), dict(self.begun), dict(self.books), dict(self.disputes), self.last_dispute)

    def open_session(self) -> int | None:
        """The session that is begun and not closed."""
        return next((number for number, stage in self.sessions.items() if stage is Stage.BEGUN), None)

    def next_session(self) -> int | None:
        """The first session that is paired and not begun."""
        return next((number for number in sorted(self.sessions) if self.sessions[number] is Stage.PAIRED), None)

    def shown_session(self) -> int | None:
        """The session that a table shows: the open one, else the last that is closed, else the first."""
        closed = [number for number, stage in self.sessions.items() if stage is Stage.CLOSED]
        candidates = [self.open_session(), *sorted(closed)[-1:], *sorted(self.sessions)[:1]]
        return next((number for number in candidates if number is not None), None)

    def books_of(self, session: int) -> list[Book]:
        """The books of a session, by table."""
        return [self.books[key] for key in sorted(key for key in self.books if key.session == session)]
