"""For the rows of a hall: a hall that a process of its own serves on the loopback address, and phones that ask it."""

from __future__ import annotations

import asyncio
import json
import os
import random
import signal
import socket
import subprocess
import sys
import time
from collections.abc import AsyncIterator
from pathlib import Path
from typing import Any

PYTHON = [sys.executable, "-B", "-m", "riichi_hall"]
PATIENCE = 30.0
MOST_DRAWN = 400
"""The program draws the sessions of so many players at the most."""


def free_port() -> int:
    """A port of the loopback address that nobody has."""
    with socket.socket() as it:
        it.bind(("127.0.0.1", 0))
        return int(it.getsockname()[1])


class Served:
    """A hall and its process, which can be killed and started again."""

    def __init__(self, room: Path, players: int, sessions: int, words: str = "") -> None:
        room.mkdir(parents=True, exist_ok=True)
        self.room, self.port = room, free_port()
        self.file = room / "evening.db"
        if players > MOST_DRAWN:
            self._import(players, sessions)
        names = [f"Player{number}" for number in range(1, players + 1)]
        # (signs that Unicode counts among spaces and ends of lines, and the desk doesn't)
        names[:3] = ["Zoë", "麻\u3000雀", "Li\u2028Na"]
        (room / "players.txt").write_bytes("".join(f"{name}\n" for name in names).encode("utf-8"))
        self.given = ["--players", str(room / "players.txt"), "--sessions", str(sessions), "--words", words]
        self.process: subprocess.Popen[bytes] | None = None
        self.start()
        links = json.loads(self.command("links"))
        self.director = links["director"].partition("#")[2]
        self.wall = links["wall"].partition("#")[2]
        self.tables = {int(table): link.rpartition(".")[2] for table, link in links["tables"].items()}

    def _import(self, players: int, sessions: int) -> None:
        """A hall of more players than the program draws: all sit as they sat first."""
        drawn = self.room / "drawn"
        (drawn / "open").mkdir(parents=True)
        names = [f"Player{number}" for number in range(1, players + 1)]
        for session in range(1, sessions + 1):
            lines = [f"game {' '.join(names[4 * at - 4 : 4 * at])} session={session} at={at}\n" for at in range(1, players // 4 + 1)]
            (drawn / "open" / f"session-{session}.game").write_text("".join(lines), "utf-8")
        self.command("import", str(drawn))

    def start(self) -> None:
        """Starts the process, and waits until it listens."""
        with open(self.room / "log", "ab") as log:
            words = [*PYTHON, "serve", str(self.file), *self.given, "--port", str(self.port)]
            self.process = subprocess.Popen(words, stdout=log, stderr=log)
        end = time.monotonic() + PATIENCE
        while True:
            try:
                socket.create_connection(("127.0.0.1", self.port), timeout=1).close()
                return
            except OSError:
                if time.monotonic() > end or self.process.poll() is not None:
                    raise RuntimeError(f"the hall doesn't start: {(self.room / 'log').read_text()[-2000:]}") from None
                time.sleep(0.02)

    def kill(self) -> None:
        """Ends it by a signal that can't be caught."""
        assert self.process is not None
        self.process.send_signal(signal.SIGKILL)
        self.process.wait()

    def stop(self) -> int:
        """Ends it as a user does, and gives its status."""
        assert self.process is not None
        self.process.send_signal(signal.SIGTERM)
        return self.process.wait(PATIENCE)

    def memory(self) -> int:
        """The most memory that the process had, in KiB."""
        assert self.process is not None
        status = Path(f"/proc/{self.process.pid}/status").read_text("ascii")
        return int(next(line.split()[1] for line in status.splitlines() if line.startswith("VmHWM")))

    def log(self) -> str:
        """What the process has said."""
        return (self.room / "log").read_text("utf-8")

    def command(self, *words: str) -> str:
        """What another command of the hall prints."""
        done = subprocess.run([*PYTHON, *words, "--hall", str(self.file)], capture_output=True, text=True, check=False)
        if done.returncode:
            raise RuntimeError(f"{words}: {done.returncode} {done.stderr}")
        return done.stdout

    def exported(self) -> Path:
        """The folder of a new export."""
        folder = self.room / f"export-{time.monotonic_ns()}"
        self.command("export", str(folder))
        return folder


class Gone(Exception):
    """The hall didn't answer: the connection ended."""


class Phone:
    """Asks a hall over one connection, as long as that holds."""

    def __init__(self, port: int, secret: str, who: str = "phone") -> None:
        self.port, self.secret, self.who = port, secret, who
        self._ways: tuple[asyncio.StreamReader, asyncio.StreamWriter] | None = None

    async def _connected(self) -> tuple[asyncio.StreamReader, asyncio.StreamWriter]:
        if self._ways is None:
            try:
                self._ways = await asyncio.open_connection("127.0.0.1", self.port, limit=1 << 22)
            except OSError as fault:
                raise Gone(str(fault)) from None
        return self._ways

    def hang_up(self) -> None:
        """Ends the connection at once."""
        if self._ways is not None:
            self._ways[1].transport.abort()
            self._ways = None

    def head(self, method: str, path: str, length: int | None) -> bytes:
        """The head of a request."""
        more = "" if length is None else f"content-length: {length}\r\ncontent-type: application/json\r\n"
        return f"{method} {path} HTTP/1.1\r\nhost: 127.0.0.1:{self.port}\r\nhall-secret: {self.secret}\r\n{more}\r\n".encode("ascii")

    def written(self, path: str, body: Any) -> bytes:
        """A request as it goes over the wire."""
        if body is None:
            return self.head("GET", path, None)
        whole = body if isinstance(body, bytes) else json.dumps(body).encode("utf-8")
        return self.head("POST", path, len(whole)) + whole

    async def ask(self, path: str, body: Any = None) -> tuple[int, dict[str, Any]]:
        """The status and the object that come back."""
        return await self.sent(self.written(path, body))

    async def sent(self, given: bytes) -> tuple[int, dict[str, Any]]:
        """The same of bytes that are a request."""
        reader, writer = await self._connected()
        try:
            writer.write(given)
            await writer.drain()
            return await asyncio.wait_for(_answer(reader), PATIENCE)
        except (OSError, EOFError, asyncio.TimeoutError, ValueError) as fault:
            self.hang_up()
            raise Gone(type(fault).__name__) from None

    async def cut(self, path: str, body: Any, share: float) -> None:
        """Sends that much of a request, and hangs up: nobody hears the answer."""
        given = self.written(path, body)
        _, writer = await self._connected()
        try:
            writer.write(given[: max(1, int(len(given) * share))])
            await writer.drain()
            if share >= 1:
                await asyncio.sleep(random.choice((0, 0.001, 0.01)))
        except OSError:
            pass
        self.hang_up()

    async def events(self, path: str) -> AsyncIterator[tuple[str, dict[str, Any]]]:
        """What a stream tells, over a connection of its own, until it ends."""
        try:
            reader, writer = await asyncio.open_connection("127.0.0.1", self.port, limit=1 << 22)
        except OSError as fault:
            raise Gone(str(fault)) from None
        try:
            writer.write(self.written(path, None))
            status = (await reader.readuntil(b"\r\n\r\n")).split(b" ", 2)[1]
            if status != b"200":
                raise Gone(status.decode("ascii"))
            name = ""
            async for line in reader:
                if line.startswith(b"event: "):
                    name = line[7:].strip().decode("ascii")
                elif line.startswith(b"data: "):
                    yield name, json.loads(line[6:])
        except (OSError, EOFError) as fault:
            raise Gone(type(fault).__name__) from None
        finally:
            writer.transport.abort()


async def _answer(reader: asyncio.StreamReader) -> tuple[int, dict[str, Any]]:
    """An answer of known length."""
    head = await reader.readuntil(b"\r\n\r\n")
    first, *fields = head.decode("latin-1").split("\r\n")
    length = next(int(field.split(":")[1]) for field in fields if field.lower().startswith("content-length"))
    return int(first.split(" ")[1]), json.loads(await reader.readexactly(length))


def program_answers(text: str) -> list[str]:
    """What the program answers to a text of games, without what it tells behind a game's last line."""
    program = os.environ["RIICHI_DESK_PROGRAM"]
    done = subprocess.run([program, "game", "-"], input=text.encode(), capture_output=True, check=False)
    lines = done.stdout.decode().split("\n")[:-1]
    return [line for line in lines if not line.startswith(("game ", "stands ", "over", "left ", "final "))]


def live_lines(text: str) -> list[str]:
    """The deals of a book that aren't withdrawn."""
    return [line for line in text.split("\n")[1:-1] if not line.startswith("#")]
