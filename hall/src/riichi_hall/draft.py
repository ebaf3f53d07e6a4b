"""What one request changes, before it is on the disk: rows for the file, and the objects that take the place of others."""

from __future__ import annotations

import time
from dataclasses import dataclass, field, replace
from typing import Any

from . import deciding
from .refusals import Reason, Refused
from .state import Book, Dispute, Entry, Key, Stage, State
from .store import Statement


@dataclass
class Draft:
    """A state and what is to be changed in it. Where a request is refused its draft is thrown away, and nothing has happened."""

    state: State
    statements: list[Statement] = field(default_factory=list)
    books: dict[Key, Book] = field(default_factory=dict)
    sessions: dict[int, Stage] = field(default_factory=dict)
    begun: dict[int, float] = field(default_factory=dict)
    disputes: dict[Key, tuple[Dispute, ...]] = field(default_factory=dict)
    last_dispute: int = 0
    news: dict[Key, dict[int, dict[str, Any]]] = field(default_factory=dict)
    """What changed of which deals, for those who look at the game."""
    now: float = field(default_factory=time.time)

    def book(self, key: Key) -> Book:
        """The book of a game, as it is behind what the draft has changed."""
        book = self.books.get(key) or self.state.books.get(key)
        if book is None:
            raise Refused(Reason.NO_TABLE if key.session in self.state.sessions else Reason.NO_SESSION)
        return book

    def stage(self, session: int) -> Stage:
        """How far a session is."""
        stage = self.sessions.get(session) or self.state.sessions.get(session)
        if stage is None:
            raise Refused(Reason.NO_SESSION)
        return stage

    def disputes_of(self, key: Key) -> tuple[Dispute, ...]:
        """What is in dispute at a game."""
        return self.disputes.get(key, self.state.disputes.get(key, ()))

    def add_deal(self, book: Book, judged: deciding.Judged, line: str, who: str) -> Book:
        """The book with one deal more."""
        words = "INSERT INTO deal (session, place, number, line, who, came) VALUES (?, ?, ?, ?, ?, ?)"
        self.statements.append((words, (*book.key, judged.number, line, who, self.now)))
        news = {"number": judged.number, "line": line, "withdrawn": False, "text": judged.text, "who": who}
        self.news.setdefault(book.key, {})[judged.number] = news
        return self._put(book, judged, (*book.entries, Entry(who, self.now)))

    def mark_withdrawn(self, book: Book, judged: deciding.Judged, who: str) -> Book:
        """The book with a deal withdrawn."""
        self.statements.append(
            (
                "UPDATE deal SET withdrawn_by = ?, withdrawn_at = ? WHERE session = ? AND place = ? AND number = ?",
                (who, self.now, *book.key, judged.number),
            )
        )
        self.news.setdefault(book.key, {})[judged.number] = {
            "number": judged.number,
            "line": judged.line,
            "withdrawn": True,
            "text": "",
            "who": book.entries[judged.number - 1].who,
        }
        return self._put(book, judged, book.entries)

    def _put(self, book: Book, judged: deciding.Judged, entries: tuple[Entry, ...]) -> Book:
        after = replace(book, text=judged.book, next=judged.next, ending=deciding.ending(judged.book), entries=entries)
        self.books[book.key] = after
        return after

    def add_dispute(self, key: Key, deal: int, line: str, who: str, text: str) -> Dispute:
        """A line more that differs from the book's."""
        self.last_dispute = max(self.last_dispute, self.state.last_dispute) + 1
        dispute = Dispute(self.last_dispute, key, deal, line, who, text)
        self.statements.append(
            (
                "INSERT INTO dispute (number, session, place, deal, line, who, text, came) VALUES (?, ?, ?, ?, ?, ?, ?, ?)",
                (dispute.number, *key, deal, line, who, text, self.now),
            )
        )
        self.disputes[key] = (*self.disputes_of(key), dispute)
        return dispute

    def drop_dispute(self, dispute: Dispute) -> None:
        """It isn't in dispute any more."""
        self.statements.append(("UPDATE dispute SET dropped = 1 WHERE number = ?", (dispute.number,)))
        self.disputes[dispute.key] = tuple(it for it in self.disputes_of(dispute.key) if it.number != dispute.number)

    def set_stage(self, session: int, stage: Stage) -> None:
        """How far a session is from now on."""
        words = (
            "INSERT INTO session (number, stage, begun) VALUES (?, ?, ?)"
            " ON CONFLICT (number) DO UPDATE SET stage = excluded.stage, begun = coalesce(begun, excluded.begun)"
        )
        begun = self.now if stage is Stage.BEGUN else None
        self.statements.append((words, (session, stage.value, begun)))
        self.sessions[session] = stage
        if begun is not None:
            self.begun[session] = begun

    def set_game(self, key: Key, line: str) -> None:
        """A game that is drawn, in the place of another one that was."""
        words = "INSERT INTO game VALUES (?, ?, ?) ON CONFLICT (session, place) DO UPDATE SET line = excluded.line"
        self.statements.append((words, (*key, line)))
        text = deciding.begin(line)
        self.books[key] = Book(key, deciding.names(text), text, deciding.next_number(text), deciding.ending(text))

    def put_into(self, state: State) -> None:
        """Changes the state as the draft says."""
        state.books.update(self.books)
        state.sessions.update(self.sessions)
        state.begun.update(self.begun)
        state.disputes.update(self.disputes)
        state.last_dispute = max(state.last_dispute, self.last_dispute)
