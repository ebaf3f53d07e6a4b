"""What a request says: whose secret it carries, and the members of its body."""

from __future__ import annotations

import json
from typing import Any

from starlette.requests import Request
from starlette.responses import Response

from .acts import Told
from .hall import DIRECTOR, WALL, Hall, topic
from .keys import HEADER, LENGTH, same
from .refusals import Reason, Refused

NOBODY = "~" * LENGTH
"""Compared where there is no such table, so that this takes as long. No secret has this sign."""

MOST_WHO = 40


def answer(what: Any, status: int = 200) -> Response:
    """An object of JSON as an answer."""
    body = json.dumps(what, separators=(",", ":"), ensure_ascii=False).encode("utf-8")
    return Response(body, status, media_type="application/json")


def told(what: Told) -> Response:
    """The answer to an act."""
    return answer(what.members, what.status)


def _shown(request: Request) -> bytes:
    """The secret that a request carries, in its header and nowhere else."""
    return request.headers.get(HEADER, "").encode("latin-1")


def _admit(hall: Hall, request: Request, who: str, wanted: str | None) -> None:
    """Refuses who hasn't the secret, and who has it and asks too often."""
    is_same = same(_shown(request), wanted if wanted is not None else NOBODY)
    if not is_same or wanted is None:
        raise Refused(Reason.SECRET if hall.strangers.takes_one() else Reason.TOO_OFTEN)
    if not hall.pace(who).takes_one():
        raise Refused(Reason.TOO_OFTEN)


def number_of(request: Request, name: str) -> int:
    """A number of the address, or 0 where that is none."""
    text = str(request.path_params[name])
    return int(text) if len(text) <= 9 and text.isascii() and text.isdecimal() else 0


def as_table(hall: Hall, request: Request) -> int:
    """The table whose secret the request carries: that in the path, or nobody."""
    table = number_of(request, "table")
    _admit(hall, request, topic(table), hall.fixed.tables.get(table))
    return table


def as_director(hall: Hall, request: Request) -> None:
    """Refuses who isn't the director."""
    _admit(hall, request, DIRECTOR, hall.fixed.director)


def as_wall(hall: Hall, request: Request) -> None:
    """Refuses who may not look."""
    _admit(hall, request, WALL, hall.fixed.wall)


async def members(request: Request, **wanted: type | tuple[type, ...]) -> dict[str, Any]:
    """The members of the body's object, each of its type: just these, or a refusal. One that may be left out has None among its types."""
    body = await request.body()
    try:
        given = json.loads(body)
    except (ValueError, RecursionError):
        raise Refused(Reason.NOT_JSON) from None
    if not isinstance(given, dict):
        raise Refused(Reason.NOT_JSON)
    if given.keys() - wanted.keys():
        raise Refused(Reason.MEMBERS)
    for name, types in wanted.items():
        given.setdefault(name, None)
        if not _is_of(given[name], types if isinstance(types, tuple) else (types,)):
            raise Refused(Reason.MEMBERS, f"`{name}` isn't as it is wanted here.")
    return given


def _is_of(value: Any, types: tuple[type, ...]) -> bool:
    """Whether a value has one of the types: a number is a whole one of at most nine digits, and a text is UTF-8."""
    if isinstance(value, bool):
        return bool in types
    if isinstance(value, int):
        return int in types and 0 <= value < 10**9
    if isinstance(value, str):
        return str in types and not any("\ud800" <= sign <= "\udfff" for sign in value)
    return value is None and type(None) in types


def who_of(given: dict[str, Any]) -> str:
    """The name that a device gave itself."""
    who = given["who"]
    if not 1 <= len(who) <= MOST_WHO or not who.isprintable():
        raise Refused(Reason.MEMBERS, "`who` isn't as it is wanted here.")
    return str(who)
