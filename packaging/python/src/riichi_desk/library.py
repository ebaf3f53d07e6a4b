"""The calls of the shared library (riichi_desk.h), and what is lent to them: lines, buffers, and a room for each thread."""

from __future__ import annotations

import ctypes
import os
import threading
from pathlib import Path
from typing import Any, Union

Line = Union[str, bytes, bytearray, memoryview]
"""A line: a text, or its bytes. A line feed at its end is no part of it, nor a carriage return before that."""

MOST = 12288
"""No answer takes more bytes."""
ROOM = 1 << 20

_SIZE, _AT, _RULES = ctypes.c_size_t, ctypes.c_void_p, ctypes.c_uint32
_WORD = ctypes.c_uint32
CALLS = ctypes.CDLL(os.environ.get("RIICHI_DESK", str(Path(__file__).with_name("libriichi_desk.so"))))
_ARGUMENTS: dict[str, list[Any]] = {
    "riichi_version": [_AT, _SIZE],
    **dict.fromkeys(("riichi_answer", "riichi_json", "riichi_explain", "riichi_explain_json"), [_RULES, ctypes.c_char_p, _SIZE, _AT, _SIZE]),
    **dict.fromkeys(("riichi_answer_lines", "riichi_json_lines"), [_RULES, _AT, _SIZE, _AT, _SIZE, ctypes.POINTER(_SIZE)]),
    **dict.fromkeys(("riichi_shantens", "riichi_waits_of"), [_AT, _SIZE] * 3),
    "riichi_shapes": [_AT, _SIZE] * 6,
    "riichi_deeper": [_AT, _SIZE] * 6,
    **dict.fromkeys(("riichi_discards", "riichi_calls"), [_AT, _SIZE] * 7),
    "riichi_study": [ctypes.c_char_p, _SIZE, *[_AT, _SIZE] * 4],
    "riichi_wins": [_RULES, *[_AT, _SIZE] * 2],
    "riichi_game_after": [_AT, _AT, _AT, _SIZE, _AT],
    "riichi_game_lines": [_RULES, ctypes.c_char_p, _SIZE, _SIZE, _AT, _SIZE, ctypes.POINTER(_SIZE)],
    "riichi_hall_hand_in": [_RULES, ctypes.c_char_p, _SIZE, ctypes.c_uint64, ctypes.c_char_p, _SIZE, _AT, _SIZE, _AT],
    "riichi_hall_withdraw": [_RULES, ctypes.c_char_p, _SIZE, ctypes.c_uint64, _AT, _SIZE, _AT],
}
_OF_GAMES: dict[str, list[Any]] = {
    "riichi_game_table": [_WORD, _AT],
    "riichi_game_table_fault": [_AT],
    "riichi_game_first": [_AT] * 2,
    "riichi_game_moves": [*[_AT] * 4, _SIZE, _AT],
    "riichi_game_finals": [_AT] * 3,
    "riichi_game_needs": [_AT] * 4,
    "riichi_game_worth": [_AT, _AT, _WORD, _WORD, _AT, _AT],
    "riichi_game_base": [_WORD] * 4,
}
for _name, _types in _ARGUMENTS.items():
    _call = getattr(CALLS, _name)
    _call.argtypes, _call.restype = _types, _SIZE
CALLS.riichi_rules.argtypes, CALLS.riichi_rules.restype = [ctypes.c_char_p, _SIZE, ctypes.POINTER(_SIZE)], _RULES
for _name, _types in _OF_GAMES.items():
    _call = getattr(CALLS, _name)
    _call.argtypes, _call.restype = _types, _WORD


class _Rooms(threading.local):
    """For each thread the room that its calls answer into."""

    def __init__(self) -> None:
        self.room = ctypes.create_string_buffer(ROOM)


ROOMS = _Rooms()


def encoded(text: Line) -> bytes:
    """The bytes of a line or a text, as they are given."""
    if isinstance(text, str):
        return text.encode("utf-8", "surrogateescape")
    try:
        return bytes(memoryview(text))
    except TypeError:
        raise TypeError(f"a line is a str or bytes, and not {type(text).__name__}") from None


def raw_bytes_of(line: Line) -> bytes:
    """The bytes of a line without its line feed."""
    return encoded(line).removesuffix(b"\n")


def bytes_of(line: Line) -> bytes:
    """The bytes of a line, as the command `line` takes it from a text."""
    return raw_bytes_of(line).removesuffix(b"\r")
