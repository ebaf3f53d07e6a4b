"""What the director asks, and who may only look."""

from __future__ import annotations

import asyncio
from typing import Any

from starlette.requests import Request
from starlette.responses import Response, StreamingResponse

from . import acts, links, views
from .acts import Sender, Told
from .asked import answer, as_director, as_wall, members, number_of, told
from .draft import Draft
from .events import written
from .files import games_of, texts
from .hall import DIRECTOR, WALL, Hall
from .refusals import Reason, Refused
from .state import Key
from .texts import words_of

SENDER = Sender("director", is_director=True)

NONE: type = type(None)


class DirectorSide:
    """Each address below `/api/director`, and those below `/api/wall`."""

    def __init__(self, hall: Hall) -> None:
        self._hall = hall

    async def _view(self) -> dict[str, Any]:
        return {**views.hall(self._hall.state), "standings": await self._hall.standings()}

    async def view(self, request: Request) -> Response:
        """The hall, for the director."""
        as_director(self._hall, request)
        return answer(await self._view())

    async def wall(self, request: Request) -> Response:
        """The hall, for who may only look."""
        as_wall(self._hall, request)
        return answer(await self._view())

    async def events(self, request: Request) -> Response:
        """The hall, and from then on what changes."""
        as_director(self._hall, request)
        return await self._stream(request, DIRECTOR)

    async def wall_events(self, request: Request) -> Response:
        """The same for who may only look."""
        as_wall(self._hall, request)
        return await self._stream(request, WALL)

    async def _stream(self, request: Request, topic: str) -> Response:
        await request.body()
        queue = self._hall.streams.join(topic)
        queue.put_nowait(written("view", views.hall(self._hall.state)))
        queue.put_nowait(written("standings", await self._hall.standings()))
        return StreamingResponse(self._hall.streams.parts(topic, queue), media_type="text/event-stream")

    async def links(self, request: Request) -> Response:
        """The links of the tables and of the wall, with their QR codes."""
        as_director(self._hall, request)
        url, fixed = self._hall.url, self._hall.fixed
        of_tables = {table: links.of_table(url, fixed, table) for table in sorted(fixed.tables)}
        tables = [{"table": table, "link": link, "squares": links.squares(link)} for table, link in of_tables.items()]
        wall = links.of_wall(url, fixed)
        return answer({"tables": tables, "wall": {"link": wall, "squares": links.squares(wall)}})

    async def game(self, request: Request) -> Response:
        """A game of any session."""
        as_director(self._hall, request)
        key = Key(number_of(request, "session"), number_of(request, "table"))
        if key not in self._hall.state.books:
            raise Refused(Reason.NO_TABLE)
        return answer(views.game(self._hall.state, key))

    async def files(self, request: Request) -> Response:
        """The games as files: their names and their texts."""
        as_director(self._hall, request)
        return answer(texts(self._hall.state))

    async def hand_in(self, request: Request) -> Response:
        """A line of the director: a penalty, a written state, or a deal. Without a number it has the next one."""
        as_director(self._hall, request)
        given = await members(request, session=int, table=int, number=(int, NONE), line=str)
        key = Key(given["session"], given["table"])

        def act(draft: Draft) -> Told:
            number = given["number"] if given["number"] is not None else draft.book(key).next
            return acts.hand_in(draft, self._hall.bounds, key, number, given["line"], SENDER)

        return told(await self._hall.done(act))

    async def withdraw(self, request: Request) -> Response:
        """The withdrawal of the last deal of a game."""
        as_director(self._hall, request)
        given = await members(request, session=int, table=int, number=int)
        key = Key(given["session"], given["table"])
        return told(await self._hall.done(lambda draft: acts.withdraw(draft, key, given["number"], SENDER)))

    async def correct(self, request: Request) -> Response:
        """A former deal put right, or without a line taken out."""
        as_director(self._hall, request)
        given = await members(request, session=int, table=int, number=int, line=(str, NONE))
        key = Key(given["session"], given["table"])

        def act(draft: Draft) -> Told:
            return acts.correct(draft, self._hall.bounds, key, given["number"], given["line"], SENDER)

        return told(await self._hall.done(act))

    async def settle(self, request: Request) -> Response:
        """What two phones entered differently: which of the two it is."""
        as_director(self._hall, request)
        given = await members(request, session=int, table=int, dispute=int, take=bool)
        key = Key(given["session"], given["table"])

        def act(draft: Draft) -> Told:
            return acts.settle(draft, self._hall.bounds, key, given["dispute"], given["take"], SENDER)

        return told(await self._hall.done(act))

    async def pair(self, request: Request) -> Response:
        """Who sits where in a session that hasn't begun: drawn, or by the standings so far."""
        as_director(self._hall, request)
        given = await members(request, session=int, by_standings=bool, seed=(int, NONE))
        state, fixed, program = self._hall.state, self._hall.fixed, self._hall.program
        session = given["session"]
        if given["by_standings"]:
            lines = await asyncio.to_thread(program.by_standings, fixed.names, views.played(state, False), fixed.words)
        else:
            drawn = await asyncio.to_thread(program.drawn, fixed.names, session, given["seed"] or 1, fixed.words)
            lines = [line for line in drawn if f"session={session}" in words_of(line)]
        games = games_of(lines)
        return told(await self._hall.done(lambda draft: acts.pair(draft, session, games)))

    async def begin(self, request: Request) -> Response:
        """A session begins: its tables may hand in."""
        as_director(self._hall, request)
        given = await members(request, session=int)
        return told(await self._hall.done(lambda draft: acts.begin(draft, given["session"])))

    async def close(self, request: Request) -> Response:
        """A session is closed: its tables don't hand in any more."""
        as_director(self._hall, request)
        given = await members(request, session=int, end_games=bool)

        def act(draft: Draft) -> Told:
            return acts.close(draft, self._hall.bounds, given["session"], given["end_games"], SENDER)

        return told(await self._hall.done(act))
