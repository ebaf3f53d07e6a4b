"""The server: uvicorn with bounds on how long a head may take to come and an answer to be read, and an end that ends all streams."""

from __future__ import annotations

import asyncio
import logging
import resource
import socket
from collections.abc import Callable
from typing import Any

import h11
import uvicorn
from uvicorn.protocols.http.h11_impl import H11Protocol

from .application import application
from .bounds import Bounds
from .hall import Hall

OWN = ("127.0.0.1", "::1")
"""The addresses from which a proxy on this machine passes on what all the others send."""

LAST = 5.0
"""Seconds that the answers under way have when the hall closes."""


class Deadline:
    """A moment by which something has to have happened."""

    def __init__(self, loop: asyncio.AbstractEventLoop, seconds: float, late: Callable[[], None]) -> None:
        self._loop, self._seconds, self._late = loop, seconds, late
        self._timer: asyncio.TimerHandle | None = None

    def set(self) -> None:
        """It is waited for from now on, if it wasn't before."""
        if self._timer is None:
            self._timer = self._loop.call_later(self._seconds, self._late)

    def clear(self) -> None:
        """It has happened, or isn't waited for."""
        if self._timer is not None:
            self._timer.cancel()
        self._timer = None


class Bounded(H11Protocol):
    """A connection that is ended where the head of a request doesn't come in time, or nobody reads what is answered."""

    bounds = Bounds()

    def __init__(self, *words: Any, **named: Any) -> None:
        super().__init__(*words, **named)
        self._head = Deadline(self.loop, self.bounds.head_time, self._end)
        self._read = Deadline(self.loop, self.bounds.head_time, self._end)

    def connection_made(self, transport: Any) -> None:
        """The first head has to come in time, and not too many are open from one address."""
        super().connection_made(transport)
        if self._is_crowd():
            self._end()
        else:
            self._head.set()

    def _is_crowd(self) -> bool:
        """Whether one address has more connections than it may."""
        if self.client is None or self.client[0] in OWN:
            return False
        others = [it.client[0] for it in self.connections if it.client is not None]
        return others.count(self.client[0]) > self.bounds.connections_each

    def data_received(self, data: bytes) -> None:
        """A head that is whole ends the wait for it; the first byte of the next one begins another."""
        try:
            super().data_received(data)
        except h11.LocalProtocolError:
            self._end()
            return
        if self.cycle is not None and not self.cycle.response_complete:
            self._head.clear()
        else:
            self._head.set()

    def connection_lost(self, exc: Exception | None) -> None:
        """Nothing is waited for any more."""
        self._head.clear()
        self._read.clear()
        super().connection_lost(exc)

    def pause_writing(self) -> None:
        """What is answered isn't read."""
        super().pause_writing()
        self._read.set()

    def resume_writing(self) -> None:
        """It is read again."""
        super().resume_writing()
        self._read.clear()

    def _end(self) -> None:
        self.transport.abort()


class Server(uvicorn.Server):
    """The server of a hall."""

    def __init__(self, config: uvicorn.Config, hall: Hall) -> None:
        super().__init__(config)
        self._hall = hall

    async def shutdown(self, sockets: list[socket.socket] | None = None) -> None:
        """Ends all streams, and waits some seconds for the answers under way."""
        self._hall.streams.end()
        asyncio.get_running_loop().call_later(LAST, setattr, self, "force_exit", True)
        await super().shutdown(sockets)


def config_of(hall: Hall) -> uvicorn.Config:
    """How uvicorn is asked to serve: no log of addresses, nothing said of the server, the loop and the reader of Python's own."""
    logging.getLogger("uvicorn.error").setLevel(logging.CRITICAL)
    return uvicorn.Config(
        application(hall),
        loop="asyncio",
        http=type("BoundedHere", (Bounded,), {"bounds": hall.bounds}),
        ws="none",
        lifespan="off",
        log_config=None,
        access_log=False,
        proxy_headers=False,
        server_header=False,
        limit_concurrency=hall.bounds.connections,
        timeout_keep_alive=30,
        backlog=512,
    )


def bound_socket(address: str, port: int) -> socket.socket:
    """A socket that listens at an address of this machine."""
    family = socket.AF_INET6 if ":" in address else socket.AF_INET
    # (asyncio sends small answers at once only over sockets that say they are TCP)
    listening = socket.socket(family, socket.SOCK_STREAM, socket.IPPROTO_TCP)
    listening.setsockopt(socket.SOL_SOCKET, socket.SO_REUSEADDR, 1)
    listening.bind((address, port))
    return listening


def raise_files(wanted: int) -> None:
    """Lets this process have as many connections as the bounds say, as far as the system lets it."""
    soft, hard = resource.getrlimit(resource.RLIMIT_NOFILE)
    most = wanted + 64 if hard == resource.RLIM_INFINITY else min(wanted + 64, hard)
    if soft < most:
        resource.setrlimit(resource.RLIMIT_NOFILE, (most, hard))
