"""tests/hall_rows.py ROW FOLDER: a row of tests/hall.sh, in a folder that isn't there yet. It prints `all right`, or what is wrong.
It wants RIICHI_DESK_PROGRAM, and riichi_desk and riichi_hall on the path of Python. All of it is on the loopback address, and ends by
itself."""

from __future__ import annotations

import asyncio
import contextlib
import json
import os
import random
import subprocess
import sys
import time
from collections.abc import AsyncIterator, Callable, Coroutine
from functools import partial
from pathlib import Path
from typing import Any

from hall_hostile import hostile
from hall_kit import PYTHON, Gone, Phone, Served
from hall_play import Pace, Record, Seat, compared, latest, play

Row = Callable[[Path], Coroutine[Any, Any, list[str]]]


@contextlib.asynccontextmanager
async def listening(hall: Served, tables: list[int], record: Record, seed: int) -> AsyncIterator[list[tuple[Seat, Seat]]]:
    """Two phones for each of these tables, with their streams."""
    rng = random.Random(seed)

    def seat(table: int, side: int) -> Seat:
        return Seat(hall, table, side, record, random.Random(rng.random()))

    pairs = [(seat(table, 0), seat(table, 1)) for table in tables]
    tasks = [asyncio.create_task(seat.listen()) for pair in pairs for seat in pair]
    try:
        yield pairs
    finally:
        for task in tasks:
            task.cancel()
        await asyncio.gather(*tasks, return_exceptions=True)


async def director(hall: Served, what: str, **body: Any) -> dict[str, Any]:
    """What the director asks."""
    phone = Phone(hall.port, hall.director)
    try:
        return (await phone.ask(f"/api/director{what}", body or None))[1]
    finally:
        phone.hang_up()


async def evening(room: Path) -> list[str]:
    """Two sessions of four tables, a third of the messages doubled, delayed or cut; the ranking is the program's over the export."""
    hall, record, wrong = Served(room, 16, 2), Record(), []
    async with listening(hall, list(hall.tables), record, 1) as pairs:
        for session in (1, 2):
            if session == 2:
                await director(hall, "/paired", session=2, by_standings=True, seed=None)
            await director(hall, "/begun", session=session)
            await asyncio.gather(*(play(pair, session, Pace(16)) for pair in pairs))
            refused = await director(hall, "/closed", session=session, end_games=False)
            if refused.get("refused") != "not-now":
                wrong.append(f"closed while games go on: {refused}")
            await director(hall, "/closed", session=session, end_games=True)
        await asyncio.sleep(0.2)
        wrong += [f"a deal was seen after {latest(record, pair):.1f} s" for pair in pairs if latest(record, pair) > 2]
    wrong += compared(hall, record)
    view = await director(hall, "")
    if not all(time.time() - 60 < it["begun"] < time.time() for it in view["sessions"]):
        wrong.append(f"sessions that began at another time: {view['sessions']}")
    told = view["standings"]["players"]
    names = sorted(map(str, hall.exported().glob("*.game")))
    asked = subprocess.run([os.environ["RIICHI_DESK_PROGRAM"], "standings", "--json", *names], capture_output=True, text=True, check=True)
    if [json.loads(line) for line in asked.stdout.split("\n")[:-1]] != told or len(told) != 16:
        wrong.append("the standings are others than the program's over the export")
    again = room / "again.db"
    folder = hall.exported()
    subprocess.run([*PYTHON, "import", str(folder), "--hall", str(again)], check=True, capture_output=True)
    subprocess.run([*PYTHON, "export", str(room / "again"), "--hall", str(again)], check=True, capture_output=True)
    if subprocess.run(["diff", "-r", str(folder), str(room / "again")], check=False, capture_output=True).returncode:
        wrong.append("what is exported, imported and exported again differs")
    if hall.stop() not in (0, -15):
        wrong.append("it doesn't end well")
    return wrong


def in_dispute(seat: Seat) -> bool:
    """Whether a phone is shown a deal in dispute."""
    return bool(seat.view["disputes"])


async def differing(room: Path) -> list[str]:
    """What two phones enter differently is shown to both; withdrawn numbers stay so; the director puts a deal right."""
    hall, record, wrong = Served(room, 4, 1), Record(), []
    names = (await director(hall, "/games/1/1"))["names"]
    await director(hall, "/begun", session=1)
    async with listening(hall, [1], record, 1) as ((one, two),):

        async def said(seat: Seat, what: str, verdict: str, **body: Any) -> dict[str, Any]:
            _, told = await seat.phone.ask(f"{seat.path}/{what}", {"session": 1, "who": seat.phone.who, **body})
            if told.get("verdict", told.get("refused")) != verdict:
                wrong.append(f"{what} {body}: {told}, and not {verdict}")
            return told

        await one.until(1, 1)
        await two.until(1, 1)
        first, other = f"ron {names[1]} from {names[2]} 1.30", f"ron {names[1]} from {names[2]} 2.30"
        told = await said(one, "deals", "taken", number=1, line=first)
        told = await said(two, "deals", "another", number=1, line=other)
        if told["line"] != first or len(told["text"].split("\n")) != 2:
            wrong.append(f"not both are told: {told}")
        for seat in (one, two):
            async with seat.moved:
                await asyncio.wait_for(seat.moved.wait_for(partial(in_dispute, seat)), 2)
            if [it["line"] for it in seat.view["disputes"]] != [other]:
                wrong.append(f"not shown to {seat.phone.who}: {seat.view}")
        refused = await director(hall, "/closed", session=1, end_games=False)
        if "Deals are in dispute at tables 1." not in refused.get("words", ""):
            wrong.append(f"closed over a dispute: {refused}")
        hall.kill()
        hall.start()
        one.phone.hang_up()
        two.phone.hang_up()
        # (the answer of the first time, also behind the end of the process)
        await said(two, "deals", "another", number=1, line=other)
        await said(one, "settled", "corrected", dispute=told["dispute"], take=True)
        await said(two, "deals", "gone", number=1, line=first)
        await said(two, "deals", "again", number=2, line=other)
        await said(two, "deals", "early", number=4, line="draw")
        await said(two, "deals", "refused", number=3, line=f"ron {names[1]} from {names[1]} 1.30")
        await said(two, "deals", "not-now", number=3, line=f"penalty {names[1]} 1000")
        await said(two, "deals", "taken", number=3, line="draw")
        await said(one, "deals", "another", number=3, line=f"draw ready {names[0]}")
        refused = await director(hall, "/corrections", session=1, table=1, number=2, line=first)
        if refused.get("refused") != "not-now":
            wrong.append(f"corrected below a dispute: {refused}")
        await said(two, "withdrawals", "not-last", number=2)
        await said(two, "withdrawals", "withdrawn", number=3)
        await said(one, "withdrawals", "gone-already", number=3)
        if (await director(hall, "/games/1/1"))["disputes"]:
            wrong.append("a withdrawn deal is in dispute")
    await director(hall, "/deals", session=1, table=1, number=None, line=f"penalty {names[0]} 2000")
    corrected = await director(hall, "/corrections", session=1, table=1, number=2, line=f"tsumo {names[3]} 2.30")
    text = next(hall.exported().glob("open/*.game")).read_text("utf-8").split("\n")[1:-1]
    penalty = f"penalty {names[0]} 2000"
    wanted = [f"# withdrawn {it}" for it in (first, other, "draw", penalty)] + [f"tsumo {names[3]} 2.30", penalty]
    if corrected["verdict"] != "corrected" or text != wanted:
        wrong.append(f"corrected: {corrected}, {text}")
    hall.kill()
    return wrong


async def killed(room: Path, count: int = 8, tables: int = 4, seconds: float = 0.1, seed: int = 5) -> list[str]:
    """Killed at random moments by a signal that can't be caught, and started again: nothing that was answered is lost."""
    rng = random.Random(seed)
    hall, record = Served(room, 4 * tables, 1), Record()
    await director(hall, "/begun", session=1)
    async with listening(hall, list(hall.tables), record, seed) as pairs:
        games = asyncio.gather(*(play(pair, 1, Pace(10**4, seconds, 10**6)) for pair in pairs))
        for _ in range(count):
            await asyncio.sleep(rng.uniform(0.05, 0.6))
            await asyncio.to_thread(hall.kill)
            await asyncio.to_thread(hall.start)
        await asyncio.sleep(0.5)
        games.cancel()
        with contextlib.suppress(asyncio.CancelledError):
            await games
        hall.kill()
        wrong = lost(hall, record)
    answered = sum(map(len, record.answered.values()))
    if answered < 5 * count:
        wrong.append(f"only {answered} deals were answered")
    return wrong


def lost(hall: Served, record: Record) -> list[str]:
    """Deals that were answered and aren't in the export as they were; what was kept and not answered yet may stand behind them."""
    wrong = list(record.wrong)
    for file in hall.exported().glob("**/*.game"):
        session, table = (int(part) for part in file.stem.split("-")[1::2])
        lines = file.read_text("utf-8").split("\n")[1:-1]
        for number, (line, _) in record.answered.get((session, table), {}).items():
            if lines[number - 1 : number] != [line]:
                wrong.append(f"lost: session {session}, table {table}, deal {number}: {line}")
    return wrong


ROWS: dict[str, Row] = {"evening": evening, "differing": differing, "killed": killed, "hostile": hostile}


def main(name: str, room: str) -> int:
    """Runs a row."""
    start = time.monotonic()
    try:
        wrong = asyncio.run(asyncio.wait_for(ROWS[name](Path(room)), 120))
    except Gone as gone:
        wrong = [f"no answer: {gone}"]
    print("; ".join(wrong[:5]) or "all right")
    print(f"{name}: {time.monotonic() - start:.1f} s", file=sys.stderr)
    return 1 if wrong else 0


if __name__ == "__main__":
    sys.exit(main(*sys.argv[1:3]))
