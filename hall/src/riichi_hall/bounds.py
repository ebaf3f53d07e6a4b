"""How large, how many and how long: what bounds each request, and how often somebody may ask."""

from __future__ import annotations

import time
from collections.abc import Callable
from dataclasses import dataclass


@dataclass(frozen=True)
class Bounds:
    """The bounds of a hall. Times are seconds, sizes bytes."""

    body: int = 32768
    """The largest body: a line of 4,096 bytes, each of which JSON may write with six."""
    body_time: float = 10.0
    """How long a body may take to come."""
    head: int = 16384
    """The largest head of a request, its headers with it."""
    head_time: float = 10.0
    """How long a head may take to come, and how long a connection may stand before its first request."""
    connections: int = 2048
    """Connections at a time."""
    connections_each: int = 64
    """Connections at a time of one address; of this machine's own, where a proxy is, as many as of all."""
    streams: int = 1024
    """Streams of events at a time."""
    streams_each: int = 16
    """Streams of events at a time by one secret."""
    waiting: int = 4096
    """Messages that wait for the disk at a time."""
    often: float = 20.0
    """Requests a second by one secret, over time."""
    burst: float = 100.0
    """Requests at once by one secret."""
    strangers_often: float = 200.0
    """Requests a second without a secret that is known, of all together; pages are asked for so."""
    strangers_burst: float = 1000.0
    """Such requests at once."""
    proposals: int = 8
    """What may stand beside a deal of one number, in dispute."""
    deals: int = 2000
    """Deals of one game."""


class Pace:
    """How often somebody may ask: `burst` at once, and `often` a second over time."""

    def __init__(self, often: float, burst: float, clock: Callable[[], float] = time.monotonic) -> None:
        self._often, self._burst, self._clock = often, burst, clock
        self._left, self._seen = burst, clock()

    def takes_one(self) -> bool:
        """Whether one request more may come now; it is counted then."""
        now = self._clock()
        self._left = min(self._burst, self._left + (now - self._seen) * self._often)
        self._seen = now
        if self._left < 1:
            return False
        self._left -= 1
        return True
