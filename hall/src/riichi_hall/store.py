"""The file of a hall: SQLite, with its log written ahead and on the disk at each commit."""

from __future__ import annotations

import fcntl
import os
import sqlite3
from collections.abc import Iterable
from dataclasses import dataclass
from pathlib import Path

from . import deciding
from .keys import new_secret
from .refusals import Reason, Refused
from .state import Book, Dispute, Entry, Key, Stage, State

VERSION = "1"

SCHEMA = """
CREATE TABLE hall (name TEXT PRIMARY KEY, value TEXT NOT NULL) STRICT, WITHOUT ROWID;
CREATE TABLE place (number INTEGER PRIMARY KEY, secret TEXT NOT NULL) STRICT;
CREATE TABLE session (number INTEGER PRIMARY KEY, stage TEXT NOT NULL, begun REAL) STRICT;
CREATE TABLE game (session INTEGER, place INTEGER, line TEXT NOT NULL, PRIMARY KEY (session, place)) STRICT, WITHOUT ROWID;
CREATE TABLE deal (session INTEGER, place INTEGER, number INTEGER, line TEXT NOT NULL, who TEXT NOT NULL, came REAL NOT NULL,
  withdrawn_by TEXT, withdrawn_at REAL, PRIMARY KEY (session, place, number)) STRICT, WITHOUT ROWID;
CREATE TABLE dispute (number INTEGER PRIMARY KEY, session INTEGER, place INTEGER, deal INTEGER, line TEXT NOT NULL, who TEXT NOT NULL,
  text TEXT NOT NULL, came REAL NOT NULL, dropped INTEGER NOT NULL DEFAULT 0) STRICT;
"""

Statement = tuple[str, tuple[object, ...]]
"""A statement of SQL and its values."""


@dataclass(frozen=True)
class Fixed:
    """What stays as it was when the hall was made: names, secrets, the words of the rules."""

    names: str
    words: str
    director: str
    wall: str
    tables: dict[int, str]


class Store:
    """A hall's file, open. One process has it at a time for writing; what it has is read by others too."""

    def __init__(self, file: Path, alone: bool = True) -> None:
        if not alone and not file.is_file():
            raise Refused(Reason.NOT_NOW, f"There is no hall {file}.")
        self._lock = _locked(file) if alone else None
        # (for its owner's eyes alone: it has the secrets)
        os.close(os.open(file, os.O_CREAT | os.O_RDWR, 0o600))
        self._connection = sqlite3.connect(file, timeout=10, isolation_level=None, check_same_thread=False)
        self._connection.execute("PRAGMA journal_mode = WAL")
        self._connection.execute("PRAGMA synchronous = FULL")
        self._connection.execute("PRAGMA cache_size = -4096")

    def close(self) -> None:
        """Writes all of the log into the file, and gives the file back."""
        self._connection.close()
        if self._lock is not None:
            os.close(self._lock)

    def is_empty(self) -> bool:
        """Whether nothing was made of the file yet."""
        return not self._connection.execute("SELECT count(*) FROM sqlite_schema").fetchone()[0]

    def make(self, names: str, words: str, games: Iterable[tuple[Key, str]]) -> None:
        """The first rows: secrets, sessions, and the games that are drawn."""
        drawn = list(games)
        rows: list[Statement] = [
            ("INSERT INTO hall VALUES (?, ?)", pair)
            for pair in (
                ("version", VERSION),
                ("names", names),
                ("words", words),
                ("director", new_secret()),
                ("wall", new_secret()),
            )
        ]
        rows += [("INSERT INTO place VALUES (?, ?)", (table, new_secret())) for table in sorted({key.table for key, _ in drawn})]
        sessions = sorted({key.session for key, _ in drawn})
        rows += [("INSERT INTO session (number, stage) VALUES (?, ?)", (it, Stage.PAIRED.value)) for it in sessions]
        rows += [("INSERT INTO game VALUES (?, ?, ?)", (*key, line)) for key, line in drawn]
        made: list[Statement] = [(words, ()) for words in SCHEMA.split(";") if words.strip()]
        self.keep([made, rows])

    def keep(self, batches: Iterable[list[Statement]]) -> None:
        """All of these, or where the disk doesn't take them none. When it returns they are on the disk."""
        self._connection.execute("BEGIN IMMEDIATE")
        try:
            for statements in batches:
                self._execute(statements)
            self._connection.execute("COMMIT")
        except BaseException:
            if self._connection.in_transaction:
                self._connection.execute("ROLLBACK")
            raise

    def _execute(self, statements: Iterable[Statement]) -> None:
        for words, values in statements:
            self._connection.execute(words, values)

    def fixed(self) -> Fixed:
        """Names, secrets and words."""
        try:
            of = dict(self._connection.execute("SELECT name, value FROM hall"))
            tables = dict(self._connection.execute("SELECT number, secret FROM place"))
        except sqlite3.DatabaseError as fault:
            raise Refused(Reason.NOT_NOW, f"The file is no hall: {fault}.") from None
        if of.get("version") != VERSION:
            raise Refused(Reason.NOT_NOW, f"The hall is of version {of.get('version')}, and this program has {VERSION}.")
        return Fixed(of["names"], of["words"], of["director"], of["wall"], tables)

    def state(self) -> State:
        """All that changes, as it lies on the disk at one moment. Each book is asked of the library, which refuses one that is none."""
        self._connection.execute("BEGIN")
        try:
            return self._read()
        finally:
            self._connection.execute("COMMIT")

    def _read(self) -> State:
        state = State()
        for number, stage, begun in self._connection.execute("SELECT number, stage, begun FROM session ORDER BY number"):
            state.sessions[number] = Stage(stage)
            if begun is not None:
                state.begun[number] = begun
        for session, place, line in self._connection.execute("SELECT session, place, line FROM game ORDER BY session, place"):
            state.books[Key(session, place)] = self._book(Key(session, place), line)
        asked = "SELECT number, session, place, deal, line, who, text FROM dispute WHERE dropped = 0 ORDER BY number"
        for number, session, place, *others in self._connection.execute(asked):
            key = Key(session, place)
            state.disputes[key] = (*state.disputes.get(key, ()), Dispute(number, key, *others))
        state.last_dispute = self._connection.execute("SELECT coalesce(max(number), 0) FROM dispute").fetchone()[0]
        return state

    def _book(self, key: Key, line: str) -> Book:
        text, entries = [f"{line}\n"], []
        asked = "SELECT line, who, came, withdrawn_at FROM deal WHERE session = ? AND place = ? ORDER BY number"
        for deal, who, came, withdrawn in self._connection.execute(asked, key):
            text.append(deciding.written(deal, withdrawn is not None))
            entries.append(Entry(who, came))
        whole = "".join(text)
        try:
            return Book(key, deciding.names(whole), whole, deciding.next_number(whole), deciding.ending(whole), tuple(entries))
        except ValueError:
            raise Refused(Reason.NOT_NOW, f"What the file has of session {key.session}, table {key.table} is no book.") from None


def _locked(file: Path) -> int:
    """A lock that goes with the process, whatever ends it: two that write one hall would not know of each other."""
    lock = os.open(f"{file}.lock", os.O_CREAT | os.O_RDWR, 0o600)
    try:
        fcntl.flock(lock, fcntl.LOCK_EX | fcntl.LOCK_NB)
    except OSError:
        os.close(lock)
        raise Refused(Reason.NOT_NOW, f"Another process has the hall {file}.") from None
    return lock
