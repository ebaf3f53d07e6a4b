"""What is decided is asked of the proved library here, and nowhere else: what a message comes to, and how a game stands."""

from __future__ import annotations

from dataclasses import dataclass

import riichi_desk
from riichi_desk import hall

from .refusals import Reason, Refused
from .texts import lines_of, words_of

WITHDRAWN = "# withdrawn "
"""What stands before the line of a withdrawn deal in the text of a book."""

Judged = hall.Judged
Verdict = hall.Verdict


@dataclass(frozen=True)
class Answered:
    """A deal of a book: its number, its line, whether it is withdrawn, and what the game answers it."""

    number: int
    line: str
    is_withdrawn: bool
    text: str


def begin(line: str) -> str:
    """The text of a book before its first deal."""
    try:
        return hall.begin(line)
    except ValueError as fault:
        raise Refused(Reason.GAME, str(fault)) from None


def hand_in(book: str, number: int, line: str) -> Judged:
    """What a line for a number comes to."""
    return hall.hand_in(book, number, line)


def withdraw(book: str, number: int) -> Judged:
    """What the withdrawal of a deal comes to."""
    return hall.withdraw(book, number)


def written(line: str, is_withdrawn: bool) -> str:
    """The line of a deal as it stands in the text of a book."""
    return f"{WITHDRAWN}{line}\n" if is_withdrawn else f"{line}\n"


def next_number(book: str) -> int:
    """The number that the next deal of a book will have."""
    return hall.Book(book).next


def told(book: str) -> list[str]:
    """All that the game answers, line by line."""
    return lines_of(riichi_desk.game(book))


def names(book: str) -> tuple[str, ...]:
    """The four players, by their first seats."""
    return tuple(words_of(told(book)[0])[1:5])


def ending(book: str) -> tuple[str, ...]:
    """How a game stands, in one line `stands ..`, or how it ended: `over` and what stands behind that."""
    lines = told(book)
    if "over" in lines:
        return tuple(lines[lines.index("over") :])
    return tuple(lines[-1:])


def is_over(book: str) -> bool:
    """Whether the game has ended."""
    return "over" in told(book)


def answered(book: str) -> list[Answered]:
    """The deals of a book with their answers. `end` has none, and neither has a withdrawn deal."""
    answers = iter(told(book)[1:])
    deals = []
    for deal in hall.Book(book).deals:
        has_answer = not deal.is_withdrawn and words_of(deal.line)[:1] != ["end"]
        deals.append(Answered(deal.number, deal.line, deal.is_withdrawn, next(answers) if has_answer else ""))
    return deals
