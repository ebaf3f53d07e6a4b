"""Two phones of a table that hand in deals in turn, of which a third is doubled, delayed or cut; and what has to come of it."""

from __future__ import annotations

import asyncio
import contextlib
import random
import time
from collections import Counter
from dataclasses import dataclass, field
from typing import Any

from hall_kit import Gone, Phone, Served, live_lines, program_answers

VALUES = ("1.30", "1.40", "2.30", "2.40", "3.30", "3.40", "mangan")
MOST_COUNTERS = 80


def line_for(rng: random.Random, names: list[str], ending: str, moves: bool) -> str:
    """A deal that may be, in the state that the game stands in: one behind which the dealer stays, or another player deals."""
    words = ending.split(" ")
    dealer, counters = names[int(words[2]) - 1], int(words[4])
    others = [name for name in names if name != dealer]
    rng.shuffle(others)
    value = rng.choice(VALUES)
    riichi = f" riichi {others[1]}" if rng.random() < 0.2 else ""
    if moves or counters > MOST_COUNTERS:
        wins = (f"ron {others[0]} from {dealer} {value}{riichi}", f"tsumo {others[0]} {value}{riichi}")
        return rng.choice((f"draw ready {others[1]}{riichi}", *wins))
    stays = (f"tsumo {dealer} {value}{riichi}", f"ron {dealer} from {others[0]} {value}{riichi}")
    return rng.choice((*stays, f"draw ready {dealer},{others[1]}{riichi}", f"chombo {others[0]}", f"abort{riichi}"))


@dataclass
class Record:
    """What was answered, of each game by number: the line and its text; how long it took; and what went wrong."""

    answered: dict[tuple[int, int], dict[int, tuple[str, str]]] = field(default_factory=dict)
    seconds: list[float] = field(default_factory=list)
    came: dict[tuple[int, int, int], float] = field(default_factory=dict)
    kinds: Counter[str] = field(default_factory=Counter)
    wrong: list[str] = field(default_factory=list)

    def take(self, key: tuple[int, int], number: int, line: str, told: dict[str, Any]) -> None:
        """An answer to a deal: the same as any before it."""
        known = self.answered.setdefault(key, {})
        now = (line, told.get("text", ""))
        if told.get("verdict") not in ("taken", "again") or known.setdefault(number, now) != now:
            self.wrong.append(f"{key} {number} {line}: {told}, and {known.get(number)}")


class Seat:
    """One phone at a table, and the stream that it listens to."""

    def __init__(self, hall: Served, table: int, side: int, record: Record, rng: random.Random) -> None:
        self.table, self.side, self.record, self.rng = table, side, record, rng
        self.phone = Phone(hall.port, hall.tables[table], f"phone {side}")
        self.view: dict[str, Any] = {}
        self.lines: dict[tuple[int, int], float] = {}
        self.moved = asyncio.Condition()
        self.path = f"/api/tables/{table}"

    async def listen(self) -> None:
        """Keeps what is seen of the game, over as many streams as it takes."""
        while True:
            with contextlib.suppress(Gone):
                async for name, told in self.phone.events(f"{self.path}/events"):
                    if name in ("view", "changed"):
                        await self._see(told)
            await asyncio.sleep(0.05)

    async def _see(self, told: dict[str, Any]) -> None:
        now = time.monotonic()
        async with self.moved:
            self.view = {**told, "deals": None}
            for deal in told["deals"]:
                self.lines.setdefault((told["session"], deal["number"]), now)
            self.moved.notify_all()

    async def until(self, session: int, number: int) -> bool:
        """Waits until the next deal has this number; whether the game goes on."""

        def is_next() -> bool:
            return bool(self.view.get("session") == session and self.view["stage"] == "begun" and self.view["next"] >= number)

        async with self.moved:
            await self.moved.wait_for(is_next)
            return bool(self.view["ending"][0] != "over")

    async def hand_in(self, session: int, number: int, line: str, mischief: float) -> None:
        """Hands a deal in until it is answered: by a third of all doubled, delayed or cut on the way."""
        body = {"session": session, "number": number, "line": line, "who": self.phone.who}
        chance = self.rng.random()
        kind = ("doubled", "delayed", "cut")[int(3 * chance / mischief)] if chance < mischief else "plain"
        self.record.kinds[kind] += 1
        while True:
            try:
                told = await self._sent(kind, body)
                break
            except Gone:
                kind = "plain"
                self.record.kinds["again"] += 1
                await asyncio.sleep(0.02 + 0.05 * self.rng.random())
        self.record.take((session, self.table), number, line, told)

    async def _sent(self, kind: str, body: dict[str, Any]) -> dict[str, Any]:
        path = f"{self.path}/deals"
        if kind == "cut":
            await self.phone.cut(path, body, self.rng.uniform(0.3, 1.3))
        if kind == "delayed":
            return await self._delayed(path, body)
        told = await self._timed(path, body)
        if kind == "doubled":
            again = await self._timed(path, body)
            if (again["text"], again["verdict"]) != (told["text"], "again"):
                self.record.wrong.append(f"doubled: {told}, {again}")
        return told

    async def _timed(self, path: str, body: dict[str, Any]) -> dict[str, Any]:
        start = time.monotonic()
        _, told = await self.phone.ask(path, body)
        self.record.seconds.append(time.monotonic() - start)
        return told

    async def _delayed(self, path: str, body: dict[str, Any]) -> dict[str, Any]:
        """The same deal, of which a part comes later."""
        given = self.phone.written(path, body)
        part = self.rng.randrange(1, len(given))
        _, writer = await self.phone._connected()  # pylint: disable=protected-access
        with contextlib.suppress(OSError):
            writer.write(given[:part])
            await writer.drain()
        await asyncio.sleep(self.rng.uniform(0.02, 0.3))
        start = time.monotonic()
        _, told = await self.phone.sent(given[part:])
        self.record.seconds.append(time.monotonic() - start)
        return told


@dataclass
class Pace:
    """How a game is played: how many deals, how many seconds between two of one phone, how many of them pass the deal on, and how many
    seconds after the other tables it begins."""

    deals: int
    seconds: float = 0.0
    moving: int = 6
    mischief: float = 1 / 3
    late: float = 0.0


async def play(seats: tuple[Seat, Seat], session: int, pace: Pace) -> None:
    """A game: the two phones hand in deals in turn."""
    start = time.monotonic() + pace.late

    async def side(seat: Seat) -> None:
        for number in range(1 + seat.side, pace.deals + 1, 2):
            await asyncio.sleep(max(0.0, start + (number - 1) * pace.seconds / 2 - time.monotonic()))
            if not await seat.until(session, number):
                return
            view = seat.view
            if view["next"] != number:
                continue
            line = line_for(seat.rng, view["names"], view["ending"][0], number % pace.moving == 0)
            await seat.hand_in(session, number, line, pace.mischief)
            seat.record.came[session, seat.table, number] = time.monotonic()

    await asyncio.gather(*map(side, seats))


def latest(record: Record, seats: tuple[Seat, Seat]) -> float:
    """How long it took at most until the other phone of a table saw a deal, from its answer on, in seconds."""
    waits = [0.0]
    for (session, table, number), came in record.came.items():
        other = seats[number % 2]
        if table == other.table:
            waits.append(other.lines.get((session, number), came + 1000) - came)
    return max(waits)


def compared(hall: Served, record: Record) -> list[str]:
    """What differs between what was answered and the export, answered by the program."""
    wrong = list(record.wrong)
    folder = hall.exported()
    files = {file.name: file for file in folder.glob("**/*.game")}
    for (session, table), answered in record.answered.items():
        text = files[f"session-{session:02}-table-{table:03}.game"].read_text("utf-8")
        lines = [line for line in live_lines(text) if line != "end"]
        wanted = [answered[number][0] for number in sorted(answered)]
        if lines != wanted or sorted(answered) != list(range(1, len(answered) + 1)):
            wrong.append(f"session {session}, table {table}: {len(lines)} deals are there, {len(wanted)} were answered")
        elif program_answers(text) != [answered[number][1] for number in sorted(answered)]:
            wrong.append(f"session {session}, table {table}: an answer is another than the program's")
    return wrong
