#!/usr/bin/env python3
"""tests/game_answers.py: keeps the games of docs/GAME.md and the worked deals of tests/ledger-rows.txt by the Python package, and
compares the answers with those that stand there. Ends with how many, and `no difference`.
"""

from __future__ import annotations

import re
import sys
from dataclasses import replace
from itertools import takewhile
from pathlib import Path

import riichi_desk
from riichi_desk import Abort, Chombo, Draw, End, Fault, Game, HandRefused, HanFu, Liable, LimitHand, OutcomeRefused, Penalty, Ron
from riichi_desk import RulesRefused, Stands, State, TableRules, Tsumo, Win, Yakuman, table

TOP = Path(__file__).resolve().parent.parent
LIMITS = {it.name.lower(): it for it in LimitHand}
# the codes of refused lines; a name or a number that can't be is refused before there is an outcome
CODES = {
    **dict.fromkeys((Fault.DISCARDER_WINS, Fault.WINNER_LIABLE), "G5"),
    **dict.fromkeys((Fault.NO_SUCH_WORTH, Fault.LIABLE_LIMITS), "G6"),
    **dict.fromkeys((Fault.LIABLE_OFF, Fault.NAGASHI_OFF), "G8"),
    **{Fault.BET_OF_TOO_FEW: "G9", Fault.NOT_READY: "G10", Fault.GAME_OVER: "G13"},
    **dict.fromkeys((Fault.STANDS_SUM, Fault.STANDS_ROUND), "G11"),
    **dict.fromkeys((Fault.OVER_COUNTERS, Fault.OVER_STICKS), "G12"),
}


def counts_of(text: str) -> list[int]:
    """The counts of tiles, as `234m99s` has them."""
    counts = [0] * 34
    for digits, suit in re.findall(r"(\d+)([mpsz])", text):
        for digit in digits:
            counts["mpsz".index(suit) * 9 + int(digit) - 1] += 1
    return counts


def hand_of(words: list[str]) -> Win:
    """A hand, as its words have it."""
    keys = dict(it.split("=") for it in words[1:])
    melds = [it.split(":") for it in keys["open"].split(",")] if "open" in keys else []
    indicators = [1 + kind for kind, count in enumerate(counts_of(keys.get("dora", ""))) for _ in range(count)]
    hand = Win(concealed=tuple(counts_of(words[0])), winning=counts_of(keys["on"]).index(1), riichi=int(keys.get("riichi", 0)))
    hand.dora[: len(indicators)] = indicators
    sorts = {"chi": riichi_desk.chi, "pon": riichi_desk.pon, "kan": riichi_desk.kan, "ankan": riichi_desk.ankan}
    for place, (sort, tiles) in enumerate(melds):
        hand.melds[place] = sorts[sort](next(kind for kind, count in enumerate(counts_of(tiles)) if count))
    return hand


class Kept:
    """A game by its lines."""

    def __init__(self, names: list[str], rules: TableRules) -> None:
        self.names, self.game, self.is_refused = names, Game(rules), False
        # whether the last accepted line can be taken back
        self.has_last = False

    def player(self, name: str) -> int:
        found = [it for it in self.names if it == name] or [it for it in self.names if it.startswith(name)]
        if len(found) != 1:
            raise LookupError(name)
        return self.names.index(found[0])

    def players(self, words: list[str], key: str) -> tuple[int, ...]:
        return tuple(map(self.player, words[words.index(key) + 1].split(","))) if key in words else ()

    def value(self, words: list[str], riichi: bool):
        """What a player wins, with who is liable for it."""
        if "liable" not in words:
            return self.plain_value(words, riichi)
        place = words.index("liable")
        name, _, number = words[place + 1].partition(":")
        value = self.plain_value(words[:place], riichi)
        # (dragons are one limit, and winds as many as the rules have for them)
        winds = isinstance(value, Win) and any(27 <= (byte - 1) % 64 < 31 for byte in value.melds if byte)
        rules = self.game.rules.rules
        is_double = winds and isinstance(rules, riichi_desk.Rules) and rules.double_yakuman
        return Liable(value, self.player(name), int(number or 1 + is_double))

    def plain_value(self, words: list[str], riichi: bool):
        name, _, number = words[0].partition(":")
        if name == "yakuman":
            return Yakuman(int(number or 1))
        if name in LIMITS:
            return LIMITS[name]
        if re.fullmatch(r"\d+\.\d+", name):
            return HanFu(*map(int, name.split(".")))
        hand = hand_of(words)
        hand.riichi = hand.riichi or riichi
        return hand

    def outcome(self, line: str) -> object:
        words = line.split()
        riichi = self.players(words, "riichi")
        words = words[: words.index("riichi")] if "riichi" in words else words
        if words[0] in ("ron", "tsumo"):
            parts = " ".join(words[1:]).replace(" and ", "\n").splitlines()
            discarder = words[3] if words[0] == "ron" else None
            wins = []
            for place, part in enumerate(parts):
                name, *value = part.split()
                value = value[2:] if place == 0 and discarder else value
                winner = self.player(name)
                wins.append((winner, self.value(value, winner in riichi)))
            return Ron(self.player(discarder), tuple(wins), riichi) if discarder else Tsumo(*wins[0], riichi)
        if words[0] == "draw":
            return Draw(self.players(words, "ready"), self.players(words, "nagashi"), riichi)
        if words[0] in ("chombo", "penalty"):
            player = self.player(words[1])
            return Chombo(player) if words[0] == "chombo" else Penalty(player, int(words[2]))
        if words[0] == "stands":
            return Stands(state_of(line))
        return {"abort": Abort(riichi), "end": End()}[words[0]]

    def answer(self, line: str) -> list[str]:
        """What a line is answered."""
        before = self.game.state
        try:
            outcome = self.outcome(line)
            self.game.add(outcome)
        except LookupError:
            return ["refused G5"]
        except OutcomeRefused as refused:
            return [f"refused {CODES[refused.fault]}"]
        except HandRefused as refused:
            return [f"refused G7 {refused.answer}"]
        self.adds_up()
        self.has_last = True
        if isinstance(outcome, End):
            return []
        if isinstance(outcome, Penalty):
            return [f"penalty {self.names[outcome.player]} {outcome.points}"]
        changes = " ".join(f"{it:+}" if it else "0" for it in self.game.changes)
        return [f"{table_of(before)} changes {changes} points {' '.join(map(str, self.game.state.points))}"]

    def undo(self) -> list[str]:
        """Takes the refused lines back, or the last accepted one, once."""
        if not self.is_refused:
            if not self.has_last:
                return ["refused G4"]
            self.game.undo()
            self.has_last = False
        self.is_refused = False
        return [self.stands()]

    def stands(self) -> str:
        return f"stands {table_of(self.game.state)} points {' '.join(map(str, self.game.state.points))}"

    def adds_up(self) -> None:
        """The moves are the changes; and taken back and made again, the outcome leaves the same."""
        game, given = self.game, [0] * 4
        for move in game.moves:
            for player, sign in (move.giver, -1), (move.taker, 1):
                if player is not None:
                    given[player] += sign * move.points
        assert isinstance(game.outcomes[-1], Stands) or tuple(given) == game.changes, game.outcomes[-1]
        after = (game.state, game.is_over, game.penalties, game.changes, game.moves)
        game.add(game.undo())
        assert after == (game.state, game.is_over, game.penalties, game.changes, game.moves)

    def end(self) -> list[str]:
        """What is answered behind the last line."""
        if self.is_refused or not self.game.is_over:
            return [self.stands()]
        told = ["over", *([f"left {self.game.state.sticks}"] if self.game.state.sticks else [])]
        finals = sorted(enumerate(self.game.final()), key=lambda it: (it[1].place, it[0]))
        for player, it in finals:
            bonus, total = (f"{points / 1000:+.1f}" if points else "0.0" for points in (it.bonus, it.total))
            told.append(f"final {it.place} {self.names[player]} points {it.points} bonus {bonus} penalty {it.penalty} total {total}")
        return told


def table_of(state: State) -> str:
    return f"{state.round} {state.dealer + 1} counters {state.counters} sticks {state.sticks}"


def state_of(line: str) -> State:
    found = re.search(r"(\w+) (\d) counters (\d+) sticks (\d+) points ((?:-?\d+ ?){4})", line)
    dealer, counters, sticks = (int(found[it]) for it in (2, 3, 4))
    return State(tuple(map(int, found[5].split())), found[1], dealer - 1, counters, sticks)


def rules_of(words: list[str]) -> TableRules:
    pairs = dict(it.split("=") for it in words)
    rules = table(pairs.pop("table", "club"))
    for word, value in pairs.items():
        if word in ("session", "at"):
            continue
        word = {"return": "returns"}.get(word, word)
        if word == "rules":
            changed: object = {"1": 1, "2": 2}.get(value) or riichi_desk.Rules(**rule_words(value))
        elif word == "uma":
            changed = tuple(1000 * int(it) for it in value.split(","))
        elif word == "extra" and value == "off":
            changed = None
        elif value in ("on", "off"):
            changed = value == "on"
        else:
            changed = int(value) if value.isdigit() else value
        rules = replace(rules, **{word: changed})
    return rules


def rule_words(text: str) -> dict[str, bool]:
    """The rules of a house, as `1+red-fives`."""
    rules = {"red_fives": text[0] == "2", "raised": text[0] == "2"}
    for sign, word in re.findall(r"([+-])((?:(?!-ura|-ippatsu|-open)[a-z-])+|\w+)", text[1:]):
        rules[{"raise": "raised"}.get(word, word.replace("-", "_"))] = sign == "+"
    return rules


def try_text(lines: list[str]) -> int:
    """A text of games, with the answers below each line."""
    kept: Kept | None = None
    tried = 0
    for place, line in enumerate(lines):
        wanted = [it[3:] for it in takewhile(lambda it: it.startswith("=> "), lines[place + 1 :])]
        line = line.partition("#")[0].strip()
        if not line or line.startswith("=> "):
            continue
        if line.startswith("game"):
            names = [it for it in line.split()[1:] if "=" not in it] or ["1", "2", "3", "4"]
            if len(names) != 4:
                kept = None
                continue
            kept = Kept(names, rules_of([it for it in line.split() if "=" in it]))
            got = [f"game {' '.join(names)} start {kept.game.rules.start}"]
        elif kept is None:
            continue
        else:
            got = kept.undo() if line == "undo" else ["refused G14"] if kept.is_refused else kept.answer(line)
            kept.is_refused |= got[:1] != [] and got[0].startswith("refused")
        if len(wanted) > len(got):
            got += kept.end()
        if got != wanted:
            sys.exit(f"{line}: wanted {wanted}, got {got}")
        tried += 1
    return tried


def try_row(lines: list[str]) -> int:
    """A worked deal of tests/ledger-rows.txt."""
    keys = {line.split(" ")[0]: line.partition(" ")[2] for line in lines}
    kept = Kept(["Anna", "Bo", "Cyd", "Dee"], rules_of(keys.get("rules", "").split()))
    kept.game.add(Stands(state_of(keys["before"])))
    if "need" in keys:
        return try_need(kept, keys, lines)
    got = kept.answer(keys["line"])
    if "refused" in keys:
        wanted = [f"refused {keys['refused']}"]
    else:
        points = " ".join(map(str, kept.game.state.points))
        wanted = [f"{table_of(state_of(keys['before']))} changes {keys['changes']} points {points}"]
        is_over = keys["after"] == "over"
        wanted += [it for it in lines if re.match(r"left|final", it)] if is_over else []
        got += kept.end()[1:] if is_over else []
        if not is_over and kept.game.state != state_of(keys["after"]):
            sys.exit(f"{keys['row']}: {kept.game.state}")
    if "refused" in keys:
        got = [" ".join(it.split(" ")[:2]) for it in got]
    if got != wanted:
        sys.exit(f"{keys['row']}: wanted {wanted}, got {got}")
    return 1


def try_need(kept: Kept, keys: dict[str, str], lines: list[str]) -> int:
    """What a player needs: for each way the points to be ahead alone, and by ties."""
    name, place = (keys["need"].split() + ["1"])[:2]
    needs = kept.game.need(kept.player(name), int(place))

    def shown(paid: riichi_desk.Paid | None) -> str:
        counters = kept.game.state.counters
        if paid is None:
            return "none"
        if paid.discarder:
            return str(paid.discarder - 300 * counters)
        other, dealer = paid.other - 100 * counters, paid.dealer - 100 * counters
        return f"{other}/{dealer}" if paid.dealer else str(other)

    for line in lines[[it.split(" ")[0] for it in lines].index("need") + 1 :]:
        way, strictly, with_tie = line.replace("from ", "").split()[:3]
        need = needs.by_tsumo if way == "tsumo" else needs.off[kept.player(way)]
        if [shown(need.strictly), shown(need.with_tie)] != [strictly, with_tie]:
            sys.exit(f"{keys['row']}: {line}: {need}")
    return 1


def main() -> None:
    blocks = re.findall(r"^```\n(.*?)^```$", (TOP / "docs/GAME.md").read_text(), re.M | re.S)
    tried = sum(try_text(block.splitlines()) for block in blocks if "=> " in block)
    rows = [it for it in (TOP / "tests/ledger-rows.txt").read_text().split("\n\n")]
    rows = [[line for line in row.splitlines() if line and not line.startswith("#")] for row in rows]
    tried += sum(try_row(row) for row in rows if row and row[0].startswith("row "))
    for wrong in replace(table("club"), start=50), replace(table("club"), uma=(1000, 0, 0, 0)), replace(table("club"), ties="both"):
        try:
            Game(wrong)
        except RulesRefused:
            continue
        sys.exit(f"{wrong} is not refused")
    print(f"{tried} lines and deals, no difference")


if __name__ == "__main__":
    main()
