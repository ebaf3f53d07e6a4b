"""A hall that is open: its file, the thread that changes it, and who looks at it."""

from __future__ import annotations

import asyncio
import gc
import time
from typing import Any

from . import views
from .bounds import Bounds, Pace
from .events import Streams, written
from .program import Program
from .refusals import Refused
from .state import Key, State
from .store import Store
from .writer import Act, News, Writer

TOGETHER = 0.5
"""Seconds for which changes at the tables are gathered before the director and the wall are told."""

RANKED = 3.0
"""Seconds between two standings, at least."""


def topic(table: int) -> str:
    """What the phones of a table listen to."""
    return f"table {table}"


DIRECTOR, WALL = "director", "wall"


class Hall:
    """The hall of a file. Made and used in the event loop's thread."""

    def __init__(self, store: Store, program: Program, bounds: Bounds, url: str) -> None:
        self.bounds, self.program, self.url = bounds, program, url.rstrip("/")
        self.fixed = store.fixed()
        self.streams = Streams(bounds)
        self.strangers = Pace(bounds.strangers_often, bounds.strangers_burst)
        self._paces = {each: Pace(bounds.often, bounds.burst) for each in (DIRECTOR, WALL, *map(topic, self.fixed.tables))}
        self._writer = Writer(store, store.state(), bounds.waiting, self._seen)
        self._changed: set[int] = set()
        self._with_sessions = False
        self._ranking, self._hinting = asyncio.Lock(), asyncio.Semaphore(2)
        self._ranked: dict[str, Any] = {"players": [], "provisional": False, "fault": None}
        self._ranked_state: State | None = None
        self._ranked_at = 0.0
        self._telling: asyncio.Task[None] | None = None
        self._showing: asyncio.Task[None] | None = None
        self._unshown: set[int] = set()

    def open(self) -> None:
        """Begins to take requests."""
        _set_aside()
        self._writer.start()
        self._telling = asyncio.create_task(self._tell())

    def close(self) -> None:
        """Ends all streams, and the thread behind what waits for it."""
        self.streams.end()
        for task in (self._telling, self._showing):
            if task is not None:
                task.cancel()
        self._writer.stop()

    @property
    def state(self) -> State:
        """What lies on the disk."""
        return self._writer.state

    def pace(self, who: str) -> Pace:
        """How often the holder of a secret may ask."""
        return self._paces[who]

    async def done(self, act: Act) -> Any:
        """The answer to a request, once what it changes is on the disk."""
        return await self._writer.done(act)

    def _seen(self, state: State, news: News) -> None:
        """Tells the phones at once what changed at their table, and notes it for the director and the wall. Where sessions changed each
        table is shown its game, with all that changed there until then."""
        shown = state.shown_session()
        for key, changed in news.deals.items():
            self._changed.add(key.table)
            if key.session == shown and not news.with_sessions and key.table not in self._unshown:
                event = {**views.head(state, state.books[key]), "deals": [changed[number] for number in sorted(changed)]}
                self.streams.tell(topic(key.table), written("changed", event))
        if news.with_sessions:
            if state.open_session() is None:
                _set_aside()
            self._with_sessions = True
            self._unshown.update(self.fixed.tables)
            if self._showing is None or self._showing.done():
                self._showing = asyncio.create_task(self._show())

    async def _show(self) -> None:
        """Shows the phones of table after table the game there. What others ask meanwhile is answered between two of them."""
        while self._unshown:
            table, state = self._unshown.pop(), self.state
            shown = state.shown_session()
            if shown is not None and Key(shown, table) in state.books:
                self.streams.tell(topic(table), written("view", views.game(state, Key(shown, table))))
            await asyncio.sleep(0)

    async def _tell(self) -> None:
        """Tells the director and the wall, some moments after a change, what changed, and the standings."""
        while True:
            await asyncio.sleep(TOGETHER)
            if self._changed or self._with_sessions:
                self._tell_rows()
            if self.state is not self._ranked_state and self.streams.listened(DIRECTOR, WALL):
                if time.monotonic() - self._ranked_at > RANKED:
                    event = written("standings", await self.standings())
                    self.streams.tell(DIRECTOR, event)
                    self.streams.tell(WALL, event)

    def _tell_rows(self) -> None:
        state, tables, with_sessions = self.state, self._changed, self._with_sessions
        self._changed, self._with_sessions = set(), False
        shown = state.shown_session()
        if with_sessions or shown is None:
            event = written("view", views.hall(state))
        else:
            rows = [views.row(state, book) for book in state.books_of(shown) if book.key.table in tables]
            event = written("tables", {"tables": rows})
        self.streams.tell(DIRECTOR, event)
        self.streams.tell(WALL, event)

    async def hints(self, book: str, line: str) -> list[str]:
        """Why a line is refused behind a book, in words; nothing where too many ask that at once."""
        if self._hinting.locked():
            return []
        async with self._hinting:
            try:
                return await asyncio.to_thread(self.program.hints, book, line)
            except Refused:
                return []

    async def standings(self) -> dict[str, Any]:
        """The standings, with the open session as if it ended now; reckoned anew where something changed since."""
        async with self._ranking:
            state = self.state
            if state is self._ranked_state:
                return self._ranked
            provisional = state.open_session() is not None
            fault, players = None, []
            games = await asyncio.to_thread(views.played, state, True)
            if games:
                try:
                    players = await asyncio.to_thread(self.program.standings, games)
                except Refused as refused:
                    fault = refused.members()["words"]
            self._ranked = {"players": players, "provisional": provisional, "fault": fault}
            self._ranked_state, self._ranked_at = state, time.monotonic()
            return self._ranked


def _set_aside() -> None:
    """Sets all objects aside that stay, so that no look for cycles goes through them while deals are handed in: of a large hall it takes
    so long that all phones would wait for it. Called where the hall opens, and where its sessions changed and none is open."""
    gc.unfreeze()
    gc.collect()
    gc.freeze()
