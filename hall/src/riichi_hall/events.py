"""Streams of events: what changed at a table, to whoever looks at it. A stream that doesn't keep up is ended, and asks anew."""

from __future__ import annotations

import asyncio
import json
from collections import defaultdict
from collections.abc import AsyncIterator
from typing import Any

from .bounds import Bounds
from .refusals import Reason, Refused

KEPT = 64
"""How many events wait for a stream; one that is further behind is ended."""

BEAT = 10.0
"""Seconds after which a stream without events says that it is there."""


def written(name: str, members: dict[str, Any]) -> bytes:
    """An event as it goes over the wire: in ASCII alone, so no sign of a name or a note can be taken for the end of a line."""
    return f"event: {name}\ndata: {json.dumps(members, separators=(',', ':'))}\n\n".encode("ascii")


class Streams:
    """Who listens to what. A topic is a text, as `table 3`. All of it happens in the thread of the event loop."""

    def __init__(self, bounds: Bounds) -> None:
        self._bounds = bounds
        self._of: dict[str, set[asyncio.Queue[bytes | None]]] = defaultdict(set)
        self._count = 0
        self._ended = False

    def tell(self, topic: str, event: bytes) -> None:
        """Sends an event to each stream of the topic."""
        for queue in list(self._of.get(topic, ())):
            try:
                queue.put_nowait(event)
            except asyncio.QueueFull:
                self._end(topic, queue)

    def end(self) -> None:
        """Ends all streams: the hall closes."""
        self._ended = True
        for topic, queues in list(self._of.items()):
            for queue in list(queues):
                self._end(topic, queue)

    def listened(self, *topics: str) -> bool:
        """Whether anybody listens to one of these."""
        return any(self._of.get(topic) for topic in topics)

    def join(self, topic: str) -> asyncio.Queue[bytes | None]:
        """A stream more of this topic, if there is room for it."""
        if self._ended or self._count >= self._bounds.streams or len(self._of[topic]) >= self._bounds.streams_each:
            raise Refused(Reason.TOO_MANY)
        queue: asyncio.Queue[bytes | None] = asyncio.Queue(KEPT)
        self._of[topic].add(queue)
        self._count += 1
        return queue

    def leave(self, topic: str, queue: asyncio.Queue[bytes | None]) -> None:
        """The stream is gone."""
        if queue in self._of[topic]:
            self._of[topic].remove(queue)
            self._count -= 1

    def _end(self, topic: str, queue: asyncio.Queue[bytes | None]) -> None:
        """Ends a stream: nothing that waits for it is sent."""
        self.leave(topic, queue)
        while not queue.empty():
            queue.get_nowait()
        queue.put_nowait(None)

    async def parts(self, topic: str, queue: asyncio.Queue[bytes | None]) -> AsyncIterator[bytes]:
        """What is sent over the wire, until the stream ends."""
        try:
            yield b"retry: 1000\n\n"
            while True:
                try:
                    async with asyncio.timeout(BEAT):
                        event = await queue.get()
                except TimeoutError:
                    event = b": here\n\n"
                if event is None:
                    return
                yield event
        finally:
            self.leave(topic, queue)
