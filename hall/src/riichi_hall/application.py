"""The addresses of a hall, and what is answered where something is refused."""

from __future__ import annotations

import logging

from starlette.applications import Starlette
from starlette.exceptions import HTTPException
from starlette.requests import ClientDisconnect, Request
from starlette.responses import Response
from starlette.routing import Route
from starlette.types import ASGIApp

from .asked import answer
from .director_side import DirectorSide
from .guard import Guard
from .hall import Hall
from .pages import Pages
from .refusals import Reason, Refused
from .table_side import TableSide

LOG = logging.getLogger("riichi_hall")


async def _refused(_: Request, refused: Exception) -> Response:
    """A refusal with its name."""
    assert isinstance(refused, Refused)
    return answer(refused.members(), refused.reason.status)


async def _of_http(_: Request, fault: Exception) -> Response:
    """No such address, or no such method there."""
    assert isinstance(fault, HTTPException)
    reason = Reason.METHOD if fault.status_code == Reason.METHOD.status else Reason.ADDRESS
    return answer(Refused(reason).members(), reason.status)


async def _gone(_: Request, __: Exception) -> Response:
    """The request ended before it was whole: nobody reads this."""
    return answer(Refused(Reason.BROKEN_OFF).members(), Reason.BROKEN_OFF.status)


async def _fault(request: Request, fault: Exception) -> Response:
    """A fault of the hall itself. What is logged has no header and no body."""
    LOG.error("a fault at %s: %s", request.url.path, type(fault).__name__)
    return answer(Refused(Reason.FAULT).members(), Reason.FAULT.status)


def routes(hall: Hall) -> list[Route]:
    """What stands at which address."""
    pages, table, director = Pages(hall), TableSide(hall), DirectorSide(hall)
    asked = [(path, pages.page) for path in ("/", "/table", "/director", "/wall")]
    asked += [
        ("/files/{name}", pages.file),
        ("/api/tables/{table}", table.view),
        ("/api/tables/{table}/events", table.events),
        ("/api/director", director.view),
        ("/api/director/events", director.events),
        ("/api/director/links", director.links),
        ("/api/director/files", director.files),
        ("/api/director/games/{session}/{table}", director.game),
        ("/api/wall", director.wall),
        ("/api/wall/events", director.wall_events),
    ]
    done = [
        ("/api/tables/{table}/deals", table.hand_in),
        ("/api/tables/{table}/looks", table.look_at),
        ("/api/tables/{table}/withdrawals", table.withdraw),
        ("/api/tables/{table}/settled", table.settle),
        ("/api/director/deals", director.hand_in),
        ("/api/director/withdrawals", director.withdraw),
        ("/api/director/corrections", director.correct),
        ("/api/director/settled", director.settle),
        ("/api/director/paired", director.pair),
        ("/api/director/begun", director.begin),
        ("/api/director/closed", director.close),
    ]
    return [Route(path, end, methods=["GET"]) for path, end in asked] + [Route(path, end, methods=["POST"]) for path, end in done]


def application(hall: Hall) -> ASGIApp:
    """The whole of it, guarded."""
    handlers = {Refused: _refused, HTTPException: _of_http, ClientDisconnect: _gone, Exception: _fault}
    app = Starlette(routes=routes(hall), exception_handlers=handlers)
    app.router.redirect_slashes = False
    return Guard(app, hall.bounds)
