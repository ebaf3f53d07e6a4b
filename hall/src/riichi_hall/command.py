"""The command `riichi-hall`."""

from __future__ import annotations

import argparse
import asyncio
import ipaddress
import json
import sqlite3
import sys
from pathlib import Path

from . import files, links
from .bounds import Bounds
from .hall import Hall
from .listening import Server, bound_socket, config_of, raise_files
from .program import Program, found
from .refusals import Reason, Refused
from .store import Store

DEFAULT = "evening.db"


def parser() -> argparse.ArgumentParser:
    """The words of the command."""
    top = argparse.ArgumentParser(prog="riichi-hall", description="A hall of tables that hand in their deals by phone.")
    commands = top.add_subparsers(dest="command", required=True)
    served = commands.add_parser("serve", help="open a hall; a file that isn't there is made, with its sessions drawn")
    served.add_argument("hall", type=Path, help="the file of the hall, as evening.db")
    served.add_argument("--players", type=Path, help="of a new hall: a file with a name on each line, four for each table")
    served.add_argument("--sessions", type=int, default=1, help="of a new hall: how many sessions are drawn (1)")
    served.add_argument("--words", default="", help='of a new hall: words of the rules of a table, as "table=league"')
    served.add_argument("--seed", type=int, default=1, help="of a new hall: another number draws other games (1)")
    local = ipaddress.ip_address("127.0.0.1")
    served.add_argument("--listen", type=ipaddress.ip_address, default=local, help="the address of this machine to listen at (127.0.0.1)")
    served.add_argument("--port", type=int, default=8080, help="the port (8080)")
    served.add_argument("--url", help="how phones reach the hall, as https://hall.example; what the links begin with")
    served.add_argument("--program", help="the program riichi_desk; else RIICHI_DESK_PROGRAM, or the one on the path")
    exported = commands.add_parser("export", help="write the games as files into a folder")
    exported.add_argument("folder", type=Path)
    taken = commands.add_parser("import", help="make a hall of the files of such a folder")
    taken.add_argument("folder", type=Path)
    shown = commands.add_parser("links", help="print the links of a hall, secrets and all")
    for each in (exported, taken, shown):
        each.add_argument("--hall", type=Path, default=Path(DEFAULT), help=f"the file of the hall ({DEFAULT})")
    shown.add_argument("--url", default="http://127.0.0.1:8080", help="what the links begin with")
    return top


def main(words: list[str] | None = None) -> int:
    """Runs the command, and gives its exit status: 2 where it is refused, 3 where a file can't be read or written."""
    given = parser().parse_args(words)
    does = {"serve": serve, "export": export, "import": take, "links": show_links}
    try:
        return does[given.command](given)
    except Refused as refused:
        print(f"riichi-hall: {refused.members()['words']}", file=sys.stderr)
        return 2
    except (OSError, UnicodeDecodeError, sqlite3.Error) as fault:
        print(f"riichi-hall: {fault}", file=sys.stderr)
        return 3


def make(given: argparse.Namespace, store: Store, program: Program) -> None:
    """Makes a new hall: its sessions are drawn by the program."""
    names = given.players.read_text(encoding="utf-8")
    store.make(names, given.words, files.games_of(program.drawn(names, given.sessions, given.seed, given.words)))


def serve(given: argparse.Namespace) -> int:
    """`serve`: until it is interrupted."""
    program = Program(found(given.program))
    if given.players is None and not given.hall.exists():
        raise Refused(Reason.NOT_NOW, f"There is no hall {given.hall}; --players makes a new one.")
    store = Store(given.hall)
    try:
        if given.players is not None and store.is_empty():
            make(given, store, program)
        raise_files(Bounds.connections)
        asyncio.run(_serve(given, store, program))
    except KeyboardInterrupt:
        pass
    finally:
        store.close()
    return 0


async def _serve(given: argparse.Namespace, store: Store, program: Program) -> None:
    listening = bound_socket(str(given.listen), given.port)
    port = listening.getsockname()[1]
    host = f"[{given.listen}]" if given.listen.version == 6 else str(given.listen)
    hall = Hall(store, program, Bounds(), given.url or f"http://{host}:{port}")
    hall.open()
    try:
        print(f"riichi-hall: {len(hall.fixed.tables)} tables, at http://{host}:{port}", flush=True)
        if not given.listen.is_loopback:
            print("riichi-hall: others reach this address: without TLS they can read the secrets (SECURITY.md)", flush=True)
        if sys.stdout.isatty():
            print(f"director: {links.of_director(hall.url, hall.fixed)}", flush=True)
        else:
            print("director: `riichi-hall links` prints the links (never into a log)", flush=True)
        await Server(config_of(hall), hall).serve(sockets=[listening])
    finally:
        hall.close()


def export(given: argparse.Namespace) -> int:
    """`export`: also of a hall that is open."""
    store = Store(given.hall, alone=False)
    try:
        count = files.write(store.state(), store.fixed().names, given.folder)
    finally:
        store.close()
    print(f"riichi-hall: {count} games in {given.folder}")
    return 0


def take(given: argparse.Namespace) -> int:
    """`import`: makes a hall, which has secrets of its own."""
    games = files.read(given.folder)
    if given.hall.exists():
        raise Refused(Reason.NOT_NOW, f"The hall {given.hall} is there already.")
    store = Store(given.hall)
    is_whole = False
    try:
        store.make(files.names_in(given.folder, games), files.words_in(games), [(key, lines[0]) for key, (_, lines) in games.items()])
        files.take(store, Bounds(), games)
        is_whole = True
    finally:
        store.close()
        if not is_whole:
            given.hall.unlink()
    print(f"riichi-hall: {len(games)} games from {given.folder}")
    return 0


def show_links(given: argparse.Namespace) -> int:
    """`links`: as an object of JSON, for whoever may read the file of the hall."""
    store = Store(given.hall, alone=False)
    try:
        fixed = store.fixed()
    finally:
        store.close()
    url = given.url.rstrip("/")
    tables = {str(table): links.of_table(url, fixed, table) for table in sorted(fixed.tables)}
    print(json.dumps({"director": links.of_director(url, fixed), "wall": links.of_wall(url, fixed), "tables": tables}, indent=1))
    return 0
