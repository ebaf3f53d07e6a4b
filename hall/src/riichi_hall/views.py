"""What each page is shown, as objects of JSON."""

from __future__ import annotations

from typing import Any

from . import deciding
from .state import Book, Key, State


def deals(book: Book) -> list[dict[str, Any]]:
    """The deals of a book with their answers, and who handed them in. (Where a session begins all tables are shown that there is none.)"""
    if not book.entries:
        return []
    return [
        {"number": it.number, "line": it.line, "withdrawn": it.is_withdrawn, "text": it.text, "who": book.entries[it.number - 1].who}
        for it in deciding.answered(book.text)
    ]


def head(state: State, book: Book) -> dict[str, Any]:
    """What is shown of a game beside its deals."""
    return {
        "session": book.key.session,
        "table": book.key.table,
        "stage": state.sessions[book.key.session].value,
        "game": book.header,
        "names": book.names,
        "next": book.next,
        "ending": book.ending,
        "disputes": [it.members() for it in state.disputes.get(book.key, ())],
    }


def game(state: State, key: Key) -> dict[str, Any]:
    """A game as its table sees it."""
    book = state.books[key]
    return {**head(state, book), "deals": deals(book)}


def row(state: State, book: Book) -> dict[str, Any]:
    """A game as a row of the director's page."""
    return {
        "session": book.key.session,
        "table": book.key.table,
        "names": book.names,
        "deals": book.next - 1,
        "ending": book.ending,
        "over": book.is_over,
        "came": book.came,
        "disputes": len(state.disputes.get(book.key, ())),
    }


def sessions(state: State) -> list[dict[str, Any]]:
    """The sessions, how far each is, and when it began."""
    return [
        {"session": number, "stage": state.sessions[number].value, "begun": state.begun.get(number)} for number in sorted(state.sessions)
    ]


def hall(state: State) -> dict[str, Any]:
    """The hall as the director and the wall see it: the sessions, and the tables of the one that is shown."""
    shown, following = state.shown_session(), state.next_session()
    return {
        "sessions": sessions(state),
        "shown": shown,
        "tables": [row(state, book) for book in state.books_of(shown)] if shown is not None else [],
        "following": following,
        "seats": [{"table": book.key.table, "names": book.names} for book in state.books_of(following)] if following is not None else [],
    }


def played(state: State, with_open: bool) -> str:
    """The text of the games that make the standings: those of closed sessions, and of the open one as if it ended now."""
    open_session = state.open_session() if with_open else None
    texts = []
    for key in sorted(state.books):
        book = state.books[key]
        if state.sessions[key.session].value == "closed":
            texts.append(book.text)
        elif key.session == open_session:
            texts.append(book.text if book.is_over else f"{book.text}end\n")
    return "".join(texts)
