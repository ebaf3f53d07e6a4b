"""What stands before every address: bounds of size and time, no foreign origin, no query, and the strict headers of each answer."""

from __future__ import annotations

import asyncio
import json
from urllib.parse import urlsplit

from starlette.types import ASGIApp, Message, Receive, Scope, Send

from .bounds import Bounds
from .refusals import Reason, Refused

POLICY = (
    "default-src 'none'; script-src 'self'; style-src 'self'; connect-src 'self'; img-src 'self'; worker-src 'self'; "
    "base-uri 'none'; form-action 'none'; frame-ancestors 'none'"
)
"""The content security policy of every answer: scripts, styles and requests of this origin alone, and no frame around it."""

HEADERS: list[tuple[bytes, bytes]] = [
    (b"content-security-policy", POLICY.encode("ascii")),
    (b"x-content-type-options", b"nosniff"),
    (b"x-frame-options", b"DENY"),
    (b"referrer-policy", b"no-referrer"),
    (b"cross-origin-opener-policy", b"same-origin"),
    (b"cross-origin-embedder-policy", b"require-corp"),
    (b"cross-origin-resource-policy", b"same-origin"),
    (b"permissions-policy", b"camera=(), microphone=(), geolocation=(), payment=(), usb=()"),
    (b"cache-control", b"no-store"),
]
"""What each answer carries. No answer sets a cookie."""

METHODS = ("GET", "POST")


def _header(scope: Scope, name: bytes) -> bytes | None:
    """The first header of that name."""
    for key, value in scope["headers"]:
        if key == name:
            return bytes(value)
    return None


def _is_foreign(scope: Scope) -> bool:
    """Whether a page of another origin asks, as far as the browser says so."""
    if _header(scope, b"sec-fetch-site") in (b"cross-site", b"same-site"):
        # (a link that is followed from elsewhere opens a page, which is not an address of the interface)
        return str(scope["path"]).startswith("/api/")
    origin = _header(scope, b"origin")
    if origin is None:
        return False
    host = _header(scope, b"host") or b""
    return urlsplit(origin.decode("latin-1")).netloc.encode("latin-1") != host


def _first_fault(scope: Scope, bounds: Bounds) -> Reason | None:
    """Why a request is refused by its head alone."""
    length = _header(scope, b"content-length") or b"0"
    head = sum(len(key) + len(value) for key, value in scope["headers"]) + len(scope["raw_path"])
    faults = [
        (scope["method"] not in METHODS, Reason.METHOD),
        (bool(scope["query_string"]), Reason.QUERY),
        (_is_foreign(scope), Reason.FOREIGN),
        (head > bounds.head, Reason.TOO_LARGE),
        (not length.isdigit(), Reason.LENGTH),
        (length.isdigit() and (len(length) > 9 or int(length) > bounds.body), Reason.TOO_LARGE),
    ]
    return next((reason for is_so, reason in faults if is_so), None)


def _bounded(receive: Receive, bounds: Bounds) -> Receive:
    """The same body, but it ends with a refusal where it is too large or takes too long."""
    taken = 0
    is_whole = False
    deadline = asyncio.get_running_loop().time() + bounds.body_time

    async def next_part() -> Message:
        nonlocal taken, is_whole
        if is_whole:
            return await receive()
        try:
            async with asyncio.timeout_at(deadline):
                message = await receive()
        except TimeoutError:
            raise Refused(Reason.TOO_SLOW) from None
        if message["type"] == "http.request":
            taken += len(message.get("body", b""))
            is_whole = not message.get("more_body", False)
            if taken > bounds.body:
                raise Refused(Reason.TOO_LARGE)
        return message

    return next_part


async def _refuse(send: Send, reason: Reason) -> None:
    """Answers with a refusal, and ends the connection: what is left of the request isn't read."""
    body = json.dumps(Refused(reason).members()).encode("utf-8")
    headers = [(b"content-type", b"application/json"), (b"content-length", b"%d" % len(body)), (b"connection", b"close")]
    await send({"type": "http.response.start", "status": reason.status, "headers": headers})
    await send({"type": "http.response.body", "body": body})


class Guard:
    """The application behind it, bounded."""

    def __init__(self, app: ASGIApp, bounds: Bounds) -> None:
        self._app, self._bounds = app, bounds

    async def __call__(self, scope: Scope, receive: Receive, send: Send) -> None:
        if scope["type"] == "lifespan":
            await self._app(scope, receive, send)
            return
        if scope["type"] != "http":
            return

        async def strict(message: Message) -> None:
            if message["type"] == "http.response.start":
                own = {name for name, _ in message.get("headers", [])}
                message["headers"] = [*message.get("headers", []), *(it for it in HEADERS if it[0] not in own)]
            await send(message)

        fault = _first_fault(scope, self._bounds)
        if fault is not None:
            await _refuse(strict, fault)
            return
        await self._app(scope, _bounded(receive, self._bounds), strict)
