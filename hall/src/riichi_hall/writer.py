"""The one thread that changes a hall. What has come since the last commit is decided and goes to the disk together, by one commit;
only then each is answered, and only then anybody sees what changed."""

from __future__ import annotations

import asyncio
import queue
import sqlite3
import threading
from collections.abc import Callable
from dataclasses import dataclass, field
from typing import Any

from .draft import Draft
from .refusals import Reason, Refused
from .state import Key, State
from .store import Statement, Store

MOST = 128
"""How many requests one commit takes at the most."""

Act = Callable[[Draft], Any]


@dataclass
class News:
    """What a commit changed: of each game the deals, and whether sessions changed."""

    deals: dict[Key, dict[int, dict[str, Any]]] = field(default_factory=dict)
    with_sessions: bool = False

    def add(self, draft: Draft) -> None:
        """What a draft changed too."""
        for key in draft.books.keys() | draft.disputes.keys():
            self.deals.setdefault(key, {}).update(draft.news.get(key, {}))
        self.with_sessions = self.with_sessions or bool(draft.sessions)

    @property
    def are_there(self) -> bool:
        """Whether anything changed."""
        return bool(self.deals) or self.with_sessions


Seen = Callable[[State, News], None]
"""Told in the event loop's thread behind each commit."""


@dataclass
class Job:
    """A request that waits: what is to be done, and the future of its answer."""

    act: Act
    future: asyncio.Future[Any]


class Writer(threading.Thread):
    """Takes jobs in the order in which they come."""

    def __init__(self, store: Store, state: State, waiting: int, seen: Seen) -> None:
        super().__init__(name="writer", daemon=True)
        self.state = state
        self._store, self._seen = store, seen
        self._jobs: queue.Queue[Job | None] = queue.Queue(waiting)
        self._loop = asyncio.get_running_loop()

    async def done(self, act: Act) -> Any:
        """The answer to a request, once what it changes is on the disk."""
        job = Job(act, self._loop.create_future())
        try:
            self._jobs.put_nowait(job)
        except queue.Full:
            raise Refused(Reason.TOO_MANY) from None
        return await job.future

    def stop(self) -> None:
        """Ends the thread behind the jobs that wait."""
        self._jobs.put(None)
        self.join()

    def run(self) -> None:
        """Batch by batch."""
        while True:
            first = self._jobs.get()
            if first is None:
                return
            batch, is_last = self._batch(first)
            self._take(batch)
            if is_last:
                return

    def _batch(self, first: Job) -> tuple[list[Job], bool]:
        """The jobs that wait, as many as one commit takes, and whether the end was among them."""
        batch = [first]
        while len(batch) < MOST:
            try:
                job = self._jobs.get_nowait()
            except queue.Empty:
                break
            if job is None:
                return batch, True
            batch.append(job)
        return batch, False

    def _take(self, batch: list[Job]) -> None:
        """Decides a batch, brings it to the disk, and answers."""
        state, rows, answers = self.state.copy(), [], []
        news = News()
        for job in batch:
            draft = Draft(state)
            answer = _answer(job.act, draft)
            answers.append(answer)
            if not isinstance(answer, BaseException):
                draft.put_into(state)
                rows.append(draft.statements)
                news.add(draft)
        if not self._kept([it for it in rows if it]):
            answers = [it if isinstance(it, BaseException) else Refused(Reason.NOT_KEPT) for it in answers]
            state, news = self.state, News()
        self.state = state
        self._loop.call_soon_threadsafe(self._tell, batch, answers, state, news)

    def _kept(self, rows: list[list[Statement]]) -> bool:
        """Whether the rows are on the disk now."""
        try:
            if rows:
                self._store.keep(rows)
            return True
        except sqlite3.Error:
            return False

    def _tell(self, batch: list[Job], answers: list[Any], state: State, news: News) -> None:
        """In the event loop's thread: answers to those who still wait, and what changed to all who look."""
        for job, answer in zip(batch, answers):
            if job.future.done():
                continue
            if isinstance(answer, BaseException):
                job.future.set_exception(answer)
            else:
                job.future.set_result(answer)
        if news.are_there:
            self._seen(state, news)


def _answer(act: Act, draft: Draft) -> Any:
    """What an act gives, or what it raises."""
    try:
        return act(draft)
    except Exception as fault:  # pylint: disable=broad-except
        return fault
