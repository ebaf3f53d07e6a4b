"""Whether the names of docs/PROOFS.md are in the sources: calls, clauses, definitions and wrong bodies of its table."""

from __future__ import annotations

import re
from collections.abc import Callable
from pathlib import Path

CRATE = r"\b(?:riichi|desk)_\w+"


def cells(line: str) -> list[str]:
    return [it.strip() for it in line.strip().strip("|").split(" | ")]


def ticked(text: str) -> list[str]:
    return re.findall(r"`([^`]+)`", text)


class Crate:
    """The sources of a crate."""

    def __init__(self, folder: Path) -> None:
        self.folder = folder
        self.files = [it.read_text() for it in sorted(folder.glob("src/**/*.rt"))]

    def heads(self, path: list[str]) -> list[str]:
        """The heads of the functions of this name: of a type, a trait or a module, where one is named before it."""
        *owner, name = path
        found = []
        for text in self.files:
            for start in re.finditer(rf"^( *)(?:pub(?:\([a-z]+\))? )?(?:extern \"C\" )?fn {name}\b", text, re.M):
                before = re.findall(r"^(?:impl\b|pub(?:\(crate\))? trait)[^\n{]*", text[: start.start()], re.M)
                within = before[-1] if before and start[1] else ""
                if not owner or owner[-1][0].islower() or re.search(rf"\b{owner[-1]}\b", within):
                    head = text[start.start() :].split(f"\n{start[1]}{{\n", 1)[0]
                    found.append(re.split(r";\n\}|\n\n    (?:ghost|///)", head, maxsplit=1)[0])
        return found

    def has_type(self, name: str) -> bool:
        return any(re.search(rf"\b(?:struct|enum|trait|type) {name}\b", it) for it in self.files)

    def has_ghost(self, name: str) -> bool:
        return any(re.search(rf"\bghost {name}\b", it) for it in self.files)

    def defines(self, file: str, name: str) -> bool:
        path = self.folder / "specs" / f"{file}.antt"
        form = rf"^(?:(?:abbrev|unfoldable|opaque|pub|data|record) )+{name}\b"
        return path.is_file() and re.search(form, path.read_text(), re.M) is not None

    def names(self, name: str) -> bool:
        """Whether a public name is in the sources: of its own, or given again."""
        form = rf"\b(?:fn|struct|enum|trait|type|const|mod) {name}\b|pub use [^;]*\b{name}\b"
        return any(re.search(form, it) for it in self.files)

    def wrong_bodies(self) -> set[str]:
        """Those that the gate tries, and those of tests/wrong-bodies."""
        return {it.stem for folder in ("must-fail", "wrong-bodies") for it in (self.folder / folder).glob("*.edit")}


def turns(crate: Crate, edit: Path) -> bool:
    """Whether each text that a wrong body turns stands in its file once, where those before it are turned."""
    text = old = ""
    for word, line in re.findall(r"^(file|old|new): ?(.*)$", edit.read_text(), re.M):
        if word == "file":
            text = (crate.folder / line).read_text()
        elif word == "old" and text.count(line) != 1:
            return False
        old, text = (line, text) if word == "old" else ("", text.replace(old, line) if old else text)
    return True


def calls_of(crates: dict[str, Crate], cell: str) -> list[tuple[str, list[str]]]:
    """The crate and the path of each call: a name without a crate is of that before it."""
    crate, found = "", []
    for name in ticked(cell):
        first, *rest = name.split("::")
        if first in crates:
            crate = first
        path = rest if first in crates else [first, *rest]
        if path:
            found.append((crate, path))
    return found


def lacking_clauses(crates: dict[str, Crate], calls: list[tuple[str, list[str]]], cell: str) -> list[str]:
    """The calls that aren't there, and the clauses that they don't have."""
    lacking, groups = [], [ticked(it) for it in cell.split(";")]
    functions = [(crate, path) for crate, path in calls if path[-1][0].islower()]
    types = [path[-1] for _, path in calls if path[-1][0].isupper()]
    lacking += [name for name in types if not any(it.has_type(name) for it in crates.values())]
    if len(groups) not in (1, len(functions)) and functions:
        return [*lacking, f"{len(groups)} groups of clauses for {len(functions)} calls"]
    for at, (crate, path) in enumerate(functions):
        heads = crates[crate].heads(path) if crate in crates else []
        for clause in groups[0] if len(groups) == 1 else groups[at]:
            form = r"ensures \{" if clause == "ensures" else rf"ensures {clause} \{{"
            if not any(re.search(form, it) for it in heads):
                lacking.append(f"{crate}::{'::'.join(path)}: {clause}")
    if not functions:
        lacking += [it for it in groups[0] if not any(crates[crate].has_ghost(it) for crate, _ in calls)]
    return lacking


def lacking_definitions(crates: dict[str, Crate], cell: str) -> list[str]:
    lacking = []
    for part in cell.split("; "):
        found = re.search(r"\(\[\w+\]\(\.\./crates/(\w+)/specs/(\w+)\.antt\)\)", part)
        if found:
            lacking += [it for it in ticked(part) if not crates[found[1]].defines(found[2], it)]
        elif "specs" in part:
            lacking.append(part)
    return lacking


def test_paths(top: Path, pages: list[Path], told: Callable[[str, object, object], None]) -> None:
    """Files of crates, and names of crates, that any page speaks of."""
    crates = {it.name: Crate(it) for it in (top / "crates").iterdir() if (it / "src").is_dir()}
    for page in pages:
        text = (top / page).read_text()
        paths = re.findall(rf"({CRATE}/(?:src|specs|proofs|must-fail|wrong-bodies)/[\w/.-]+\.\w+)", text)
        names = re.findall(rf"({CRATE})::((?:\w+::)*\w+)", text)
        bad = [it for it in paths if not (top / "crates" / it).is_file()]
        # (the package for Rust has the name of the program's crate)
        ours = [it for it in names if it[0] in crates and (it[0] != "riichi_desk" or page.parts[:2] != ("packaging", "rust"))]
        bad += [f"{crate}::{name}" for crate, name in ours if not crates[crate].names(name.split("::")[-1])]
        told(f"the files and names of crates in {page}", [], bad)


def test_names(top: Path, told: Callable[[str, object, object], None]) -> None:
    crates = {it.name: Crate(it) for it in (top / "crates").iterdir() if (it / "src").is_dir()}
    text = (top / "docs/PROOFS.md").read_text()
    told("docs/PROOFS.md has at most 200 lines", True, len(text.splitlines()) <= 200)
    all_bodies = {(name, it) for name, crate in crates.items() for it in crate.wrong_bodies()}
    forgotten = set(all_bodies)
    for line in text.splitlines():
        row = cells(line)
        if len(row) != 5 or row[0].startswith(("**", "---", "Promise")):
            continue
        calls = calls_of(crates, row[1])
        told(f"calls and clauses of '{row[0][:60]}'", [], lacking_clauses(crates, calls, row[2]))
        told(f"definitions of '{row[0][:60]}'", [], lacking_definitions(crates, row[3]))
        named = set(re.findall(CRATE, row[1])) & set(crates)
        bodies = {it: [crate for crate in named if (crate, it) in all_bodies] for it in ticked(row[4])}
        told(f"wrong bodies of '{row[0][:60]}'", [], [it for it, found in bodies.items() if not found])
        forgotten -= {(crate, it) for it, found in bodies.items() for crate in found}
    told("wrong bodies that docs/PROOFS.md forgets", [], sorted(forgotten))
    edits = [(crate, it) for crate in crates.values() for it in sorted(crate.folder.glob("*/*.edit"))]
    told("wrong bodies that turn nothing", [], [str(it) for crate, it in edits if not turns(crate, it)])
