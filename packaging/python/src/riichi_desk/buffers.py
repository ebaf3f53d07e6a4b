"""What a call for many hands is lent of a buffer: its bytes, or a copy where they don't lie as the library takes them."""

from __future__ import annotations

import ctypes
import sys
from typing import TYPE_CHECKING, Any

if TYPE_CHECKING:
    from _typeshed import ReadableBuffer as Buffer

NOTHING = b"\0" * 8
"""What is lent where there are no rows: the library takes no null."""

_INTEGERS = "?bBhHiIlLqQnNc"
_NO_BYTE = b"\xff"  # what stands for a number that is no byte: no row may have it
_BIG_ENDIAN = (">", "!")


def lend(given: Buffer | None, width: int, hands: int | None = None, size: int = 1) -> tuple[Any, int]:
    """What a call is given of a buffer with rows of so many bytes, which may be items of this size, and how many rows these are."""
    if given is None:
        return NOTHING, 0
    view = memoryview(given)
    if view.itemsize not in (1, size):
        view = memoryview(_narrowed(view))
    if view.nbytes % width:
        raise ValueError(f"{view.nbytes} bytes are no rows of {width}")
    rows = view.nbytes // width
    if hands is not None and rows != hands:
        raise ValueError(f"{rows} rows beside {hands} hands")
    if rows == 0:
        return NOTHING, 0
    if view.readonly or not view.c_contiguous:
        return given if isinstance(given, bytes) else view.tobytes(), rows
    return ctypes.byref(ctypes.c_char.from_buffer(view)), rows


def _narrowed(view: memoryview) -> bytes:
    """Integers of several bytes as one byte each. One that is no byte is told as a count that no hand has."""
    if view.format.strip("@=<>!") not in tuple(_INTEGERS):
        raise ValueError(f"no integers, but items of the format {view.format!r}")
    size, raw = view.itemsize, view.tobytes()
    is_big = view.format[0] in _BIG_ENDIAN or (view.format[0] not in "<" and sys.byteorder == "big")
    lowest = size - 1 if is_big else 0
    told = raw[lowest::size]
    rest = [raw[place::size] for place in range(size) if place != lowest]
    if all(part.count(0) == len(part) for part in rest):
        return told
    return b"".join(told[at : at + 1] if not any(part[at] for part in rest) else _NO_BYTE for at in range(len(told)))
