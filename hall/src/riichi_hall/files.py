"""A hall as files: each game is one that `riichi_desk game` and `standings` read."""

from __future__ import annotations

from collections.abc import Iterable
from pathlib import Path

from . import acts, deciding
from .acts import Sender
from .bounds import Bounds
from .draft import Draft
from .refusals import Reason, Refused
from .state import Key, Stage, State
from .store import Store
from .texts import lines_of, words_of

OPEN = "open"
"""The folder of games whose session isn't closed: `standings` would refuse them."""

NAMES = "players.txt"
"""The file of the players' names, beside the games."""

SENDER = Sender("import", is_director=True)


def word_of(line: str, name: str) -> int:
    """The number behind a word of a line `game`, as `session=3`; 0 where it has none."""
    for word in words_of(line):
        before, _, behind = word.partition("=")
        if before == name and behind.isdecimal() and len(behind) <= 9:
            return int(behind)
    return 0


def games_of(lines: Iterable[str]) -> list[tuple[Key, str]]:
    """The lines `game` with the session and the table that each says."""
    games = [(Key(word_of(line, "session"), word_of(line, "at")), line) for line in lines]
    for key, line in games:
        if 0 in key:
            raise Refused(Reason.GAME, f"The line says no session or table: {line}")
    if len({key for key, _ in games}) != len(games):
        raise Refused(Reason.GAME, "A table has two games in one session.")
    return games


def texts(state: State) -> dict[str, str]:
    """The files by their names below a folder."""
    files = {}
    for key in sorted(state.books):
        is_closed = state.sessions[key.session] is Stage.CLOSED
        name = f"session-{key.session:02}-table-{key.table:03}.game"
        files[name if is_closed else f"{OPEN}/{name}"] = state.books[key].text
    return files


def write(state: State, names: str, folder: Path) -> int:
    """Writes the games and the names of the players into a folder that has no files yet, and says how many games."""
    if folder.exists() and any(folder.iterdir()):
        raise Refused(Reason.NOT_NOW, f"The folder {folder} isn't empty.")
    (folder / OPEN).mkdir(parents=True, exist_ok=True)
    (folder / NAMES).write_text(names, encoding="utf-8")
    files = texts(state)
    for name, text in files.items():
        (folder / name).write_text(text, encoding="utf-8")
    return len(files)


def _games_in(file: Path) -> list[list[str]]:
    """The games of a file: of each its line `game`, and its lines behind that, withdrawn ones too."""
    games: list[list[str]] = []
    for line in lines_of(file.read_bytes().decode("utf-8")):
        words = words_of(line)
        if words[:1] == ["game"]:
            games.append([line])
        elif words or line.startswith(deciding.WITHDRAWN):
            if not games:
                raise Refused(Reason.GAME, f"{file}: no game has begun")
            games[-1].append(line)
    return games


def read(folder: Path) -> dict[Key, tuple[bool, list[str]]]:
    """The games of a folder that an export wrote: whether the session is closed, and the lines."""
    games: dict[Key, tuple[bool, list[str]]] = {}
    for file in sorted(folder.glob("**/*.game")):
        for lines in _games_in(file):
            ((key, _),) = games_of(lines[:1])
            if key in games:
                raise Refused(Reason.GAME, f"{file}: the table has had a game in that session")
            games[key] = (file.parent.name != OPEN, lines)
    if not games:
        raise Refused(Reason.NOT_NOW, f"There is no game in the folder {folder}.")
    return games


def names_in(folder: Path, games: dict[Key, tuple[bool, list[str]]]) -> str:
    """The players, a name on each line: as the folder says, or else those of the games."""
    file = folder / NAMES
    if file.is_file():
        return file.read_text(encoding="utf-8")
    names = dict.fromkeys(name for key in sorted(games) for name in deciding.names(deciding.begin(games[key][1][0])))
    return "".join(f"{name}\n" for name in names)


def words_in(games: dict[Key, tuple[bool, list[str]]]) -> str:
    """The words of the rules in the first game, for sessions that are paired later."""
    words = words_of(games[min(games)][1][0])
    return " ".join(word for word in words if "=" in word and not word.startswith(("session=", "at=")))


def take(store: Store, bounds: Bounds, games: dict[Key, tuple[bool, list[str]]]) -> None:
    """Hands in all lines of the games to a hall that was just made of their lines `game`, and begins and closes their sessions:
    those of closed sessions are closed, and of the others the first is open where a deal of it was handed in."""
    draft = Draft(store.state())
    closed = {key.session for key, (is_closed, _) in games.items() if is_closed}
    begun = {key.session for key, (_, lines) in games.items() if len(lines) > 1}
    for session in sorted(closed | begun):
        draft.set_stage(session, Stage.BEGUN)
    for key, (_, lines) in games.items():
        for number, line in enumerate(lines[1:], 1):
            _take_line(draft, bounds, key, number, line)
    for session in sorted(closed):
        draft.set_stage(session, Stage.CLOSED)
    store.keep([draft.statements])


def _take_line(draft: Draft, bounds: Bounds, key: Key, number: int, line: str) -> None:
    """Hands a line in, and withdraws it where it is withdrawn."""
    is_withdrawn = line.startswith(deciding.WITHDRAWN)
    answer = acts.hand_in(draft, bounds, key, number, line.removeprefix(deciding.WITHDRAWN), SENDER)
    if answer.members["verdict"] != "taken":
        raise Refused(Reason.GAME, f"session {key.session}, table {key.table}: {line}: {answer.members['text']}")
    if is_withdrawn:
        acts.withdraw(draft, key, number, SENDER)
