"""Answers to many lines, by few calls. Other threads run meanwhile."""

from __future__ import annotations

import ctypes
from collections.abc import Iterable, Iterator
from contextlib import suppress
from typing import Any

from .library import CALLS, ROOM, ROOMS, Line, bytes_of, encoded, raw_bytes_of
from .rules import Profile, rules_of
from .values import Answer, read

_MOST_LINE = 4096


def _pieces(call: Any, text: bytes, rules: int) -> Iterator[memoryview]:
    """What a call for many lines answers, a room at a time: the next piece overwrites it."""
    room, taken, start = ROOMS.room, ctypes.c_size_t(), 0
    at = ctypes.cast(ctypes.c_char_p(text), ctypes.c_void_p).value or 0
    while start < len(text):
        filled = call(rules, at + start, len(text) - start, room, ROOM, ctypes.byref(taken))
        yield memoryview(room)[:filled]
        start += taken.value


def lines(text: Line, rules: Profile = 1) -> bytes:
    """The answers to a whole text of lines, as the command `line` writes them. A line `rules 2` is a line like any other here, and
    refused.

    >>> lines(b"waits 123456789m1134p\\n# a comment\\nwaits 8z\\n")
    b'waits 25p\\nrefused N5 hand at 0\\n'
    """
    return b"".join(map(bytes, _pieces(CALLS.riichi_answer_lines, encoded(text), rules_of(rules))))


def json_lines(text: Line, rules: Profile = 1) -> bytes:
    """The same, each answer as one line of JSON, as `line --json` writes them.

    >>> json_lines(b"waits 123456789m1134p\\n# a comment\\n")
    b'{"answer":"waits","kinds":["2p","5p"]}\\n'
    """
    return b"".join(map(bytes, _pieces(CALLS.riichi_json_lines, encoded(text), rules_of(rules))))


def _item(place: int, line: Line) -> bytes:
    """The bytes of the line at a place in a list. A line feed within it would make two of it, so another byte that is refused stands
    there instead."""
    try:
        return raw_bytes_of(line).replace(b"\n", b"\0")
    except TypeError as error:
        raise TypeError(f"item {place}: {error}") from None
    except UnicodeEncodeError as error:
        raise ValueError(f"item {place}: {error}") from None


def _joined(given: list[Line]) -> bytes:
    """Lines as one text."""
    with suppress(TypeError, UnicodeEncodeError):  # not all of them are texts, or one of no letters
        joined = "\n".join(given)  # type: ignore[arg-type]
        if joined.count("\n") == len(given) - 1:
            return joined.encode("utf-8", "surrogateescape")
    return b"\n".join(_item(place, line) for place, line in enumerate(given))


def _says_nothing(line: Line) -> bool:
    """Whether a line is a comment or blank, so that it has no answer."""
    held = bytes_of(line)
    return len(held) <= _MOST_LINE and (held[:1] == b"#" or not held.strip(b" "))


def _listed(lines: Iterable[Line]) -> list[Line]:
    """The lines as a list. One line alone would be taken for many, one for each of its letters."""
    if isinstance(lines, (str, bytes, bytearray, memoryview)):
        raise TypeError("many lines are wanted, and this is one text: pass a list of lines, or split it by splitlines()")
    return list(lines)


def _many(call: Any, given: list[Line], rules: int) -> list[str | None]:
    """What a call for many lines answers to each; None to a line that says nothing."""
    told: list[str | None] = []
    for piece in _pieces(call, _joined(given), rules):
        told += str(piece, "utf-8").split("\n")
        told.pop()
    if len(told) == len(given):
        return told
    rest = iter(told)
    return [None if _says_nothing(line) else next(rest) for line in given]


def texts(lines: Iterable[Line], rules: Profile = 1) -> list[str | None]:
    """The answer to each of many lines, as `text` has it. The number alone says the profile: a line `rules 2` is refused, here and
    in `jsons` and `answers`. What is no line is a `TypeError` that says which item it is.

    >>> texts(["waits 123456789m1134p", "# a comment", "waits 8z"])
    ['waits 25p', None, 'refused N5 hand at 0']
    >>> texts(["waits 123456789m1134p", 5])
    Traceback (most recent call last):
    TypeError: item 1: a line is a str or bytes, and not int
    """
    return _many(CALLS.riichi_answer_lines, _listed(lines), rules_of(rules))


def jsons(lines: Iterable[Line], rules: Profile = 1) -> list[str | None]:
    """The answer to each of many lines as one line of JSON, as `json` has it.

    >>> jsons(["waits 123456789m1134p", "# a comment"])
    ['{"answer":"waits","kinds":["2p","5p"]}', None]
    """
    return _many(CALLS.riichi_json_lines, _listed(lines), rules_of(rules))


def answers(lines: Iterable[Line], rules: Profile = 1) -> list[Answer | None]:
    """The answer to each of many lines as a value, as `answer` has it. The fields of a value are read when it is first looked at.

    >>> answers(["waits 123456789m1134p", "# a comment"])
    [Waits(kinds=('2p', '5p')), None]
    """
    return [None if told is None else read(told) for told in jsons(lines, rules)]
