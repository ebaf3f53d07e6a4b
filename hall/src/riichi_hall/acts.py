"""What somebody may do to a hall. Each function takes a draft, changes it or refuses, and gives what is answered."""

from __future__ import annotations

from collections.abc import Iterable
from dataclasses import dataclass
from typing import Any

from . import deciding
from .bounds import Bounds
from .deciding import Judged, Verdict
from .draft import Draft
from .refusals import Reason, Refused
from .state import Book, Dispute, Key, Stage
from .texts import words_of

DIRECTORS_LINES = (["penalty"], ["stands"])
"""The first words of lines that the director alone hands in."""

STATUS = {
    Verdict.TAKEN: 200,
    Verdict.AGAIN: 200,
    Verdict.WITHDRAWN: 200,
    Verdict.GONE_ALREADY: 200,
    Verdict.REFUSED: 422,
    Verdict.NO_DEAL: 404,
    Verdict.NO_TABLE: 404,
    Verdict.ANOTHER: 409,
    Verdict.EARLY: 409,
    Verdict.GONE: 409,
    Verdict.NOT_LAST: 409,
}
"""The status of HTTP for what a message comes to."""


@dataclass(frozen=True)
class Sender:
    """Who hands something in: a name that the device gave itself, and whether it is the director's."""

    who: str
    is_director: bool = False


@dataclass(frozen=True)
class Told:
    """What is answered: a status of HTTP and the members of the object."""

    status: int
    members: dict[str, Any]


def told(judged: Judged, book: Book) -> Told:
    """The answer to a message."""
    members = {
        "verdict": judged.verdict.value,
        "session": book.key.session,
        "table": book.key.table,
        "number": judged.number,
        "text": judged.text,
        "next": judged.next,
        "line": judged.line,
    }
    return Told(STATUS[judged.verdict], members)


def _may(draft: Draft, book: Book, judged: Judged, sender: Sender) -> None:
    """Refuses what would change a book that isn't open to the sender. What a book has is answered at any time."""
    if not judged.verdict.changes:
        return
    stage = draft.stage(book.key.session)
    if stage is Stage.CLOSED and not sender.is_director:
        raise Refused(Reason.CLOSED)
    if stage is Stage.PAIRED:
        raise Refused(Reason.NO_SESSION, "The session hasn't begun.")


def hand_in(draft: Draft, bounds: Bounds, key: Key, number: int, line: str, sender: Sender) -> Told:
    """A line for a number. What differs from the book's line stands in dispute from then on."""
    book = draft.book(key)
    if not sender.is_director and words_of(line)[:1] in DIRECTORS_LINES:
        raise Refused(Reason.NOT_NOW, "Penalties and written states are handed in by the director.")
    judged = deciding.hand_in(book.text, number, line)
    _may(draft, book, judged, sender)
    if judged.verdict is Verdict.TAKEN:
        if number > bounds.deals:
            raise Refused(Reason.TOO_MANY, "The game has more deals than the hall keeps of one.")
        book = draft.add_deal(book, judged, line, sender.who)
    answer = told(judged, book)
    if judged.verdict is Verdict.ANOTHER and draft.stage(key.session) is not Stage.PAIRED:
        answer.members["dispute"] = _dispute(draft, bounds, key, judged, line, sender).number
    return answer


def _dispute(draft: Draft, bounds: Bounds, key: Key, judged: Judged, line: str, sender: Sender) -> Dispute:
    """The dispute about a line: the one that stands, or a new one."""
    stand = draft.disputes_of(key)
    for dispute in stand:
        if (dispute.deal, dispute.line) == (judged.number, line):
            return dispute
    if len(stand) >= bounds.proposals:
        raise Refused(Reason.TOO_MANY, "Too many lines are in dispute at this table.")
    return draft.add_dispute(key, judged.number, line, sender.who, judged.text.rpartition("\n")[2])


def withdraw(draft: Draft, key: Key, number: int, sender: Sender) -> Told:
    """The withdrawal of a deal. What was in dispute about it is so no more."""
    book = draft.book(key)
    judged = deciding.withdraw(book.text, number)
    _may(draft, book, judged, sender)
    if judged.verdict is Verdict.WITHDRAWN:
        book = draft.mark_withdrawn(book, judged, sender.who)
        for dispute in draft.disputes_of(key):
            if dispute.deal == number:
                draft.drop_dispute(dispute)
    return told(judged, book)


def correct(draft: Draft, bounds: Bounds, key: Key, number: int, line: str | None, sender: Sender) -> Told:
    """Puts a former deal right, or takes it out where there is no line: it and all behind it are withdrawn, and all but it handed in
    again, with new numbers. All of that, or where the game refuses one of them, nothing. Nothing is put right below a dispute."""
    book = draft.book(key)
    if any(dispute.deal > number for dispute in draft.disputes_of(key)):
        raise Refused(Reason.NOT_NOW, "A later deal is in dispute: that is settled first.")
    behind = [deal for deal in deciding.answered(book.text) if deal.number >= number and not deal.is_withdrawn]
    if not behind or behind[0].number != number:
        raise Refused(Reason.NO_DEAL)
    for deal in reversed(behind):
        _wanted(withdraw(draft, key, deal.number, sender), Verdict.WITHDRAWN, deal.line)
    last: Told | None = None
    again = [deal.line for deal in behind[1:]]
    for each in [line, *again] if line is not None else again:
        last = hand_in(draft, bounds, key, draft.book(key).next, each, sender)
        _wanted(last, Verdict.TAKEN, each)
    after = draft.book(key)
    return Told(200, {"verdict": "corrected", "session": key.session, "table": key.table, "next": after.next, "ending": after.ending})


def _wanted(answer: Told, verdict: Verdict, line: str) -> None:
    """Refuses all where one part of it isn't taken."""
    if answer.members["verdict"] != verdict.value:
        raise Refused(Reason.GAME, f"{line}: {answer.members['text']}")


def settle(draft: Draft, bounds: Bounds, key: Key, number: int, take: bool, sender: Sender) -> Told:
    """Ends a dispute: the book's line stands, or the other one is taken in its place."""
    dispute = next((it for it in draft.disputes_of(key) if it.number == number), None)
    if dispute is None:
        raise Refused(Reason.NO_DEAL, "This isn't in dispute.")
    answer = Told(200, {"verdict": "settled", "session": key.session, "table": key.table, "next": draft.book(key).next})
    if take:
        live = [deal.number for deal in deciding.answered(draft.book(key).text) if not deal.is_withdrawn]
        if not sender.is_director and live[-1:] != [dispute.deal]:
            raise Refused(Reason.NOT_NOW, "Later deals stand on it: the director can put it right.")
        answer = correct(draft, bounds, key, dispute.deal, dispute.line, sender)
    draft.drop_dispute(dispute)
    return answer


def pair(draft: Draft, session: int, lines: Iterable[tuple[Key, str]]) -> Told:
    """Who sits where in a session that hasn't begun."""
    if session in draft.state.sessions and draft.stage(session) is not Stage.PAIRED:
        raise Refused(Reason.NOT_NOW, "The session has begun.")
    if session > max(draft.state.sessions, default=0) + 1:
        raise Refused(Reason.NOT_NOW, "A session before it is missing.")
    draft.set_stage(session, Stage.PAIRED)
    for key, line in lines:
        if key.session != session:
            raise Refused(Reason.NOT_NOW, f"The games drawn are of session {key.session}.")
        draft.set_game(key, line)
    return Told(200, {"session": session, "stage": Stage.PAIRED.value})


def begin(draft: Draft, session: int) -> Told:
    """The tables may hand in deals of the session."""
    if draft.stage(session) is not Stage.PAIRED:
        raise Refused(Reason.NOT_NOW, "The session has begun before.")
    if any(stage is not Stage.CLOSED for number, stage in draft.state.sessions.items() if number < session):
        raise Refused(Reason.NOT_NOW, "The session before it isn't closed.")
    draft.set_stage(session, Stage.BEGUN)
    return Told(200, {"session": session, "stage": Stage.BEGUN.value})


def _at(words: str, books: list[Book]) -> list[str]:
    """What is so at which tables, where it is so at some."""
    return [f"{words} at tables {', '.join(str(book.key.table) for book in books)}."] if books else []


def close(draft: Draft, bounds: Bounds, session: int, end_games: bool, sender: Sender) -> Told:
    """No deal of the session is taken from a table any more. Games that go on are ended, or hinder it; so do deals in dispute."""
    if draft.stage(session) is not Stage.BEGUN:
        raise Refused(Reason.NOT_NOW, "The session isn't open.")
    books = draft.state.books_of(session)
    going = [book for book in books if not draft.book(book.key).is_over]
    disputed = [book for book in books if draft.disputes_of(book.key)]
    if (going or disputed) and not end_games:
        raise Refused(Reason.NOT_NOW, " ".join([*_at("Games go on", going), *_at("Deals are in dispute", disputed)]))
    for book in going:
        _wanted(hand_in(draft, bounds, book.key, draft.book(book.key).next, "end", sender), Verdict.TAKEN, "end")
    draft.set_stage(session, Stage.CLOSED)
    return Told(200, {"session": session, "stage": Stage.CLOSED.value, "ended": [book.key.table for book in going]})
