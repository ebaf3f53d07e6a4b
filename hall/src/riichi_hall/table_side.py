"""What the phones of a table ask."""

from __future__ import annotations

import asyncio
from functools import partial

from starlette.requests import Request
from starlette.responses import Response, StreamingResponse

from . import acts, deciding, views
from .asked import answer, as_table, members, told, who_of
from .draft import Draft
from .events import written
from .hall import Hall, topic
from .refusals import Reason, Refused
from .state import Key


class TableSide:
    """Each address below `/api/tables/N`."""

    def __init__(self, hall: Hall) -> None:
        self._hall = hall

    def _key(self, table: int) -> Key:
        """The game that the table shows."""
        session = self._hall.state.shown_session()
        if session is None or Key(session, table) not in self._hall.state.books:
            raise Refused(Reason.NO_SESSION)
        return Key(session, table)

    async def view(self, request: Request) -> Response:
        """The game that the table plays."""
        table = as_table(self._hall, request)
        return answer(views.game(self._hall.state, self._key(table)))

    async def events(self, request: Request) -> Response:
        """The game, and from then on what changes."""
        table = as_table(self._hall, request)
        await request.body()
        key = self._key(table)
        queue = self._hall.streams.join(topic(table))
        queue.put_nowait(written("view", views.game(self._hall.state, key)))
        return StreamingResponse(self._hall.streams.parts(topic(table), queue), media_type="text/event-stream")

    async def hand_in(self, request: Request) -> Response:
        """A deal with the number that it will have."""
        table = as_table(self._hall, request)
        given = await members(request, session=int, number=int, line=str, who=str)
        sender, key = acts.Sender(who_of(given)), Key(given["session"], table)

        def act(draft: Draft) -> acts.Told:
            return acts.hand_in(draft, self._hall.bounds, key, given["number"], given["line"], sender)

        return told(await self._hall.done(act))

    async def withdraw(self, request: Request) -> Response:
        """The withdrawal of the last deal."""
        table = as_table(self._hall, request)
        given = await members(request, session=int, number=int, who=str)
        sender, key = acts.Sender(who_of(given)), Key(given["session"], table)
        return told(await self._hall.done(partial(_withdrawn, key=key, number=given["number"], sender=sender)))

    async def settle(self, request: Request) -> Response:
        """What two phones entered differently: which of the two it is."""
        table = as_table(self._hall, request)
        given = await members(request, session=int, dispute=int, take=bool, who=str)
        sender, key = acts.Sender(who_of(given)), Key(given["session"], table)

        def act(draft: Draft) -> acts.Told:
            return acts.settle(draft, self._hall.bounds, key, given["dispute"], given["take"], sender)

        return told(await self._hall.done(act))

    async def look_at(self, request: Request) -> Response:
        """What a line would come to, and where it is refused why. Nothing is kept."""
        table = as_table(self._hall, request)
        given = await members(request, session=int, number=int, line=str)
        book = Draft(self._hall.state).book(Key(given["session"], table))
        judged = await asyncio.to_thread(deciding.hand_in, book.text, given["number"], given["line"])
        what = acts.told(judged, book)
        if judged.verdict is deciding.Verdict.REFUSED and given["number"] == book.next and given["line"].isprintable():
            what.members["hints"] = await self._hall.hints(book.text, given["line"])
        return answer(what.members)


def _withdrawn(draft: Draft, key: Key, number: int, sender: acts.Sender) -> acts.Told:
    return acts.withdraw(draft, key, number, sender)
