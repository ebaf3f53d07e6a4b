"""What is asked of the program `riichi_desk`: who sits where, the standings, and why a line is refused."""

from __future__ import annotations

import itertools
import json
import os
import shutil
import subprocess
import tempfile
from collections.abc import Sequence
from dataclasses import dataclass
from pathlib import Path
from typing import Any

from .refusals import Reason, Refused
from .texts import lines_of

SECONDS = 60
"""How long the program may take: it looks for seats that keep people apart for some seconds."""


def found(named: str | None) -> str:
    """The program: as it is named, or by RIICHI_DESK_PROGRAM, or on the path."""
    program = named or os.environ.get("RIICHI_DESK_PROGRAM") or shutil.which("riichi_desk")
    if program is None or shutil.which(program) is None:
        raise Refused(Reason.PROGRAM, "The program riichi_desk isn't on the path; --program says where it is.")
    return program


@dataclass(frozen=True)
class Program:
    """The program of the desk at a path. Each call starts it once, with no shell, and waits for its end."""

    path: str

    def _run(self, words: Sequence[str], given: str = "", wanted: Sequence[int] = (0,)) -> str:
        try:
            done = subprocess.run(
                [self.path, *words], input=given.encode("utf-8"), capture_output=True, timeout=SECONDS, check=False
            )
        except (OSError, subprocess.TimeoutExpired) as fault:
            raise Refused(Reason.PROGRAM, f"The program riichi_desk doesn't answer: {type(fault).__name__}.") from None
        if done.returncode not in wanted:
            said = lines_of(done.stderr.decode("utf-8", "replace").strip())
            raise Refused(Reason.PROGRAM, said[0][:400] if said else f"riichi_desk ended with {done.returncode}.")
        return done.stdout.decode("utf-8")

    def drawn(self, names: str, sessions: int, seed: int, words: str) -> list[str]:
        """The lines `game` of so many sessions, drawn."""
        with tempfile.TemporaryDirectory() as room:
            file = Path(room, "names")
            file.write_text(names, encoding="utf-8")
            given = ["seats", str(file), str(sessions), "--seed", str(seed), *(["--words", words] if words else [])]
            return _games(self._run(given))

    def by_standings(self, names: str, games: str, words: str) -> list[str]:
        """The lines `game` of the session behind those of the games, by their standings."""
        with tempfile.TemporaryDirectory() as room:
            file, played = Path(room, "names"), Path(room, "played")
            file.write_text(names, encoding="utf-8")
            played.write_text(games, encoding="utf-8")
            given = ["seats", str(file), "1", *(["--words", words] if words else []), "--standings", str(played)]
            return _games(self._run(given))

    def standings(self, games: str) -> list[dict[str, Any]]:
        """The players of the games by place, as `standings --json` names their members."""
        return [json.loads(line) for line in lines_of(self._run(["standings", "--json", "-"], games))]

    def hints(self, book: str, line: str) -> list[str]:
        """Why the last line is refused behind the book, in words, and what to write instead."""
        told = lines_of(self._run(["game", "--explain", "-"], f"{book}{line}\n", wanted=(0, 1)))
        refused = next((place for place, each in enumerate(told) if each.startswith("refused ")), len(told))
        return [each.strip() for each in itertools.takewhile(lambda each: each.startswith("  "), told[refused + 1 :])]


def _games(told: str) -> list[str]:
    """The lines `game` of what `seats` wrote, without its notes."""
    return [line for line in lines_of(told) if line.startswith("game ")]
