"""Requests of who doesn't belong: each ends in a named refusal, and changes nothing."""

from __future__ import annotations

import asyncio
import json
import random
import string
import time
from collections import Counter
from pathlib import Path
from typing import Any

from hall_kit import Gone, Phone, Served

DEAL = {"session": 1, "number": 1, "line": "draw", "who": "a"}
NAMED = set(
    "no-such-address no-such-method query length too-large too-slow broken-off too-often too-many foreign-origin secret not-json members"
    " no-session no-such-table no-such-deal closed not-now game program".split()
)
"""The names of refusals that somebody from outside may see: a fault of the hall itself is none of them."""

TABLE = ("", "/events", "/deals", "/looks", "/withdrawals", "/settled")
METHODS = ("PUT", "DELETE", "OPTIONS", "TRACE", "FOO")
NOWHERE = ("/api", "/files/", "/files/none.js", "/files/..%2fcommand.py", "//", "/table/", "/%00")
LOOKED = ("", "/events", "/links", "/files", "/games/1/1")
DIRECTOR = (*LOOKED, "/deals", "/withdrawals", "/corrections", "/settled", "/paired", "/begun", "/closed")
WALL = ("", "/events")


def addresses() -> list[tuple[str, bool]]:
    """All addresses that want a secret, and whether something is sent there."""
    of = [("/api/tables/1", TABLE), ("/api/director", DIRECTOR), ("/api/wall", WALL)]
    return [(start + end, end not in LOOKED) for start, ends in of for end in ends]


def raw(hall: Served, first: str, headers: str = "", body: bytes = b"", secret: str = "") -> bytes:
    """A request, written out."""
    shown = f"hall-secret: {secret}\r\n" if secret else ""
    return f"{first} HTTP/1.1\r\nhost: 127.0.0.1:{hall.port}\r\n{shown}{headers}\r\n".encode("latin-1") + body


async def told(hall: Served, given: bytes, seconds: float = 20) -> str:
    """The name of the refusal that these bytes come to; `taken` where they are none, the status where it has no name, `ended` where
    nothing comes back."""
    try:
        reader, writer = await asyncio.open_connection("127.0.0.1", hall.port)
    except OSError:
        return "down"
    try:
        writer.write(given)
        head = await asyncio.wait_for(reader.readuntil(b"\r\n\r\n"), seconds)
        status = head.split(b" ", 2)[1].decode("ascii", "replace")
        is_strict = b"content-security-policy: default-src 'none'" in head and b"set-cookie" not in head and b"\nserver:" not in head
        # (what is no request at all is answered below the hall, by uvicorn)
        if status != "400" and not is_strict:
            return "without the strict headers"
        if status == "200":
            return "taken"
        body = await asyncio.wait_for(reader.read(4096), seconds)
        return str(json.loads(body)["refused"]) if b"application/json" in head else status
    except (OSError, EOFError, ValueError, asyncio.TimeoutError):
        return "ended"
    finally:
        writer.transport.abort()


def posted(hall: Served, path: str, body: bytes, secret: str, more: str = "") -> bytes:
    """Something that is sent to an address."""
    return raw(hall, f"POST {path}", f"content-length: {len(body)}\r\n{more}", body, secret)


def of_secrets(hall: Served) -> list[tuple[str, bytes, str]]:
    """No secret, wrong ones, and right ones at a wrong address."""
    own = hall.tables[1]
    shown = ["", own[:-1], own + "A", own.swapcase(), "x" * 5000, "\xff\xfe", hall.tables[2], hall.wall, hall.director]
    tried = []
    for path, is_sent in addresses():
        right = {"tables": own, "director": hall.director, "wall": hall.wall}[path.split("/")[2]]
        for secret in shown:
            if secret != right:
                body = json.dumps(DEAL).encode()
                given = posted(hall, path, body, secret) if is_sent else raw(hall, f"GET {path}", secret=secret)
                tried.append((f"{path} by {secret[:5]}", given, "secret"))
    return tried + [
        ("a table that isn't there", raw(hall, "GET /api/tables/99", secret=own), "secret"),
        ("no number of a table", raw(hall, f"GET /api/tables/{'9' * 5000}", secret=own), "secret"),
        ("a secret in the address", raw(hall, f"GET /api/tables/1?hall-secret={own}"), "query"),
    ]


def of_form(hall: Served) -> list[tuple[str, bytes, str]]:
    """Heads and bodies that are none."""
    own, path = hall.tables[1], "/api/tables/1/deals"
    good = json.dumps(DEAL).encode()

    def changed(**members: Any) -> bytes:
        return json.dumps({**DEAL, **members}).encode()

    bodies = [
        *((body, "not-json") for body in (b"", b"[]", b"{", b"\xff", b"[" * 30000, b"NaN", b'{"number":' + b"9" * 5000 + b"}")),
        *((changed(number=number), "members") for number in (True, 1.0, -1, 10**12, "1")),
        *((changed(who=who), "members") for who in ("", "a\n", "a" * 41)),
        *((changed(line=line), "members") for line in (None, "\ud800")),
        *((changed(session=session), "no-session") for session in (2, 7)),
        (changed(more=1), "members"),
    ]
    tried = [(f"the body {body[:60]!r}", posted(hall, path, body, own), wanted) for body, wanted in bodies]
    chunk = b"8000\r\n" + b" " * 0x8000 + b"\r\n"
    return tried + [
        ("a large body", posted(hall, path, b" " * 40000, own), "too-large"),
        ("a large body in chunks", raw(hall, f"POST {path}", "transfer-encoding: chunked\r\n", 3 * chunk + b"0\r\n\r\n", own), "too-large"),
        ("a length that is none", raw(hall, f"POST {path}", "content-length: 1x\r\n", good, own), "400"),
        ("a large head", raw(hall, "GET /api/wall", "x: " + "y" * 30000 + "\r\n"), "too-large"),
        ("no request", b"\x16\x03\x01\x02\x00\x01\x00\x01\xfc\x03\x03" + b"\0" * 100 + b"\r\n\r\n", "400"),
        ("an upgrade", raw(hall, "GET /api/wall/events", "connection: upgrade\r\nupgrade: websocket\r\n", secret=hall.wall), "400"),
        ("another origin", posted(hall, path, good, own, "origin: http://elsewhere.example\r\n"), "foreign-origin"),
        ("a page of another site", raw(hall, "GET /api/tables/1", "sec-fetch-site: cross-site\r\n", secret=own), "foreign-origin"),
        *((f"the method {it}", raw(hall, f"{it} /api/tables/1", secret=own), "no-such-method") for it in METHODS),
        ("sent where one looks", posted(hall, "/api/tables/1", good, own), "no-such-method"),
        ("looked where one sends", raw(hall, f"GET {path}", secret=own), "no-such-method"),
        *((it, raw(hall, f"GET {it}"), "no-such-address") for it in NOWHERE),
    ]


async def slow(hall: Served) -> list[tuple[str, str, str]]:
    """A head and a body that never become whole: the hall ends both by itself."""
    part = posted(hall, "/api/tables/1/deals", json.dumps(DEAL).encode(), hall.tables[1])
    got = await asyncio.gather(told(hall, part[:-5]), told(hall, part[:30]), told(hall, b""))
    return [("a body that doesn't come", got[0], "too-slow"), ("half a head", got[1], "ended"), ("nothing at all", got[2], "ended")]


async def crowd(hall: Served) -> str:
    """Very many connections of one address: those beyond its bound are ended at once, and others are answered all the same."""
    ways = [await asyncio.open_connection("127.0.0.1", hall.port, local_addr=("127.0.0.9", 0)) for _ in range(100)]
    await asyncio.sleep(0.5)
    ended = sum(reader.at_eof() or reader.exception() is not None for reader, _ in ways)
    got = await told(hall, raw(hall, "GET /table"))
    for _, writer in ways:
        writer.transport.abort()
    return "all right" if (ended, got) == (36, "taken") else f"{ended} of 100 connections were ended, another was {got}"


async def often(hall: Served) -> str:
    """Very many requests by one secret: some are refused, and another table is answered all the same."""
    one, other = Phone(hall.port, hall.tables[1]), Phone(hall.port, hall.tables[2])
    seen: Counter[int] = Counter()
    for _ in range(400):
        status, _ = await one.ask("/api/tables/1/deals", b"")
        seen[status] += 1
    status, _ = await other.ask("/api/tables/2")
    one.hang_up()
    other.hang_up()
    return "all right" if seen[429] > 100 and status == 200 else f"{dict(seen)}, the other {status}"


def mixed(hall: Served, rng: random.Random) -> bytes:
    """A well-formed request with a secret of elsewhere, or bytes changed at random."""
    path, is_sent = rng.choice(addresses())
    right = {"tables": hall.tables[1], "director": hall.director, "wall": hall.wall}[path.split("/")[2]]
    known = (*hall.tables.values(), hall.director, hall.wall, "".join(rng.choices(string.printable[:62], k=22)))
    secret = rng.choice([it for it in known if it != right])
    body = json.dumps({rng.choice(list(DEAL)): rng.choice((1, None, "x", [], {})) for _ in range(3)}).encode()
    given = bytearray(posted(hall, path, body, secret) if is_sent else raw(hall, f"GET {path}", secret=secret))
    for _ in range(rng.choice((0, 0, 1, 3, 20))):
        given[rng.randrange(len(given))] = rng.randrange(256)
    if rng.random() < 0.1:
        given = bytearray(rng.randbytes(rng.randrange(1, 300)) + b"\r\n\r\n")
    return bytes(given)


async def fuzzed(hall: Served, seconds: float, most: int, seed: int) -> tuple[list[str], Counter[str]]:
    """Requests at random for a time: each is refused by a name, by 400, or its connection is ended."""
    rng, seen, wrong = random.Random(seed), Counter[str](), []
    end = time.monotonic() + seconds

    async def one() -> None:
        while time.monotonic() < end and sum(seen.values()) < most:
            given = mixed(hall, rng)
            got = await told(hall, given, 0.5)
            seen[got] += 1
            # (a change of some bytes may leave a page to look at, which has no secret)
            is_page = got == "taken" and b"/api/" not in given.partition(b"\r\n")[0]
            if got not in NAMED | {"400", "ended"} and not is_page:
                wrong.append(f"{given[:200]!r}: {got}")

    await asyncio.gather(*(one() for _ in range(8)))
    return wrong, seen


async def hostile(room: Path) -> list[str]:
    """All of these, and in the end the book is as it was, and no secret stands in what the hall has said."""
    hall, wrong = Served(room, 8, 2), []
    director = Phone(hall.port, hall.director)
    await director.ask("/api/director/begun", {"session": 1})
    late = asyncio.create_task(slow(hall))
    for name, given, wanted in of_secrets(hall) + of_form(hall):
        got = await told(hall, given)
        if got != wanted:
            wrong.append(f"{name}: {got}, and not {wanted}")
    wrong += [f"{name}: {got}, and not {wanted}" for name, got, wanted in await late if got != wanted]
    wrong += (await fuzzed(hall, 6, 1500, 3))[0]
    wrong += [it for it in (await crowd(hall), await often(hall)) if it != "all right"]
    try:
        _, game = await director.ask("/api/director/games/1/1")
    except Gone:
        director.hang_up()
        _, game = await director.ask("/api/director/games/1/1")
    if game["deals"] or game["disputes"]:
        wrong.append(f"something was changed: {game}")
    said = hall.log()
    if any(secret in said for secret in (*hall.tables.values(), hall.director, hall.wall)) or "Traceback" in said:
        wrong.append(f"the hall has said: {said[-500:]}")
    hall.kill()
    return wrong
