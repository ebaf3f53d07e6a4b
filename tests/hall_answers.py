"""Rows of the hall by the Python package: what messages to a table's book come to, read off docs/HALL.md and worked by hand."""

from __future__ import annotations

import sys

from riichi_desk import hall

GAME = "game Anna Bo Cyd Dee session=1 at=1"
RON = "ron Bo from Cyd 1.30"
FIRST = "east 1 counters 0 sticks 0 changes 0 +1000 -1000 0 points 30000 31000 29000 30000"
DOUBLE = "east 1 counters 0 sticks 0 changes 0 +2000 -2000 0 points 30000 32000 28000 30000"

# the number, the line or None for a withdrawal, and the verdict, the answer and the next number; each goes on from the book before
ROWS: list[tuple[int, str | None, str, str, int]] = [
    (2, RON, "early", "next 1", 1),
    (0, RON, "no-deal", "next 1", 1),
    (1, "ron Bo from Bo 1.30", "refused", "refused G5", 1),
    (1, RON, "taken", FIRST, 2),
    (1, RON, "again", FIRST, 2),
    (1, "ron B from C 1.30 # again", "again", FIRST, 2),
    (1, "ron Bo from Cyd 2.30", "another", f"{FIRST}\n{DOUBLE}", 2),
    (1, "nothing", "refused", "refused G2", 2),
    (2, "draw ready Anna\ndraw", "refused", "refused G1", 2),
    (2, "draw" + " " * 4081, "refused", "refused G1", 2),
    (2, "penalty Cyd 8000", "taken", "penalty Cyd 8000", 3),
    (1, None, "not-last", "withdraw 2", 3),
    (3, None, "no-deal", "next 3", 3),
    (2, None, "withdrawn", "withdrawn 2", 3),
    (2, None, "gone-already", "withdrawn 2", 3),
    (2, "penalty Cyd 8000", "gone", "withdrawn 2", 3),
    (1, None, "withdrawn", "withdrawn 1", 3),
    (3, "ron Bo from Cyd 2.30", "taken", DOUBLE, 4),
    (4, "end", "taken", "", 5),
    (5, "draw", "refused", "refused G13", 5),
    (4, "end", "again", "", 5),
]
BOOK = f"{GAME}\n# withdrawn {RON}\n# withdrawn penalty Cyd 8000\nron Bo from Cyd 2.30\nend\n"


def main() -> int:
    failed = 0

    def told(name: str, wanted: object, got: object) -> None:
        nonlocal failed
        if wanted != got:
            failed += 1
            print(f"FAILED: {name}: wanted {wanted!r}, got {got!r}")

    book = hall.Book(hall.begin(GAME))
    for number, line, verdict, text, following in ROWS:
        before = book.text
        judged = book.withdraw(number) if line is None else book.hand_in(number, line)
        told(f"{number} {line}", (verdict, text, following), (judged.verdict.value, judged.text, judged.next))
        told(f"the book behind {number} {line}", judged.verdict.changes, book.text != before)
    told("the book", BOOK, book.text)
    told("its deals", [True, True, False, False], [deal.is_withdrawn for deal in book.deals])
    for text in ("", GAME, f"{RON}\n", f"{GAME}\n{RON}", f"{GAME}\nron Bo from Bo 1.30\n", f"{GAME}\n\n"):
        try:
            told(f"{text!r} is no book", None, hall.Book(text).text)
        except hall.NoBook:
            pass
    print(f"{len(ROWS)} messages, {failed} failed")
    return int(failed != 0)


if __name__ == "__main__":
    sys.exit(main())
