"""Answers written as JSON."""

from __future__ import annotations

import json
from dataclasses import fields
from typing import Any

from .values import Accepted, Answer, NoYaku, Refused, Shape, Waits, Won


def written(answer: Answer) -> str:
    """An answer as the line of JSON that the library tells of it.

    >>> written(Waits(("2p", "5p")))
    '{"answer":"waits","kinds":["2p","5p"]}'
    """
    return json.dumps(_members(answer), separators=(",", ":"))


def _members(answer: Answer) -> dict[str, Any]:
    """The members of its object, in their order."""
    told: dict[str, Any]
    if isinstance(answer, Won):
        told = {"answer": "won", **_fields(answer), "payment": dict(answer.payment), "yaku": [_fields(it) for it in answer.yaku]}
    elif isinstance(answer, Waits):
        told = {"answer": "waits", "kinds": answer.kinds}
    elif isinstance(answer, Shape):
        told = {"answer": "shape", "shanten": answer.shanten, **_ways(answer)}
    elif isinstance(answer, Refused):
        told = {"answer": "refused", **_fields(answer)}
    else:
        told = {"answer": "no yaku" if isinstance(answer, NoYaku) else "no win", "rules": answer.rules}
    return {name: it for name, it in told.items() if it is not None or name == "limit"}


def _fields(value: Any) -> dict[str, Any]:
    return {each.name: getattr(value, each.name) for each in fields(value)}


def _ways(shape: Shape) -> dict[str, Any]:
    """What a hand of thirteen tiles accepts, or what one of fourteen does without each discard."""
    if shape.accepts is not None:
        return _kinds(shape.accepts)
    return {"discards": [{"discard": kind, **_kinds(it)} for kind, it in shape.discards.items()]}


def _kinds(accepted: Accepted) -> dict[str, Any]:
    return {"accepts": [{"kind": kind, "live": live} for kind, live in accepted.kinds.items()], "live": accepted.live}
