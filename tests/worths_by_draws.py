#!/usr/bin/env python3
"""tests/worths_by_draws.py PROGRAM [HANDS [SEED]]: what `study worth` answers, beside the definition: the sum over every ordered draw, with
every best discard and each thrown tile seen, by the program's own answers to shapes and wins. Hands are few turns from ready, and many tiles
are seen, so that the draws are few. Ends with 1 where one differs.
"""

import math
import random
import re
import subprocess
import sys
from fractions import Fraction

KINDS = [f"{rank}{suit}" for suit in "mps" for rank in range(1, 10)] + [f"{rank}z" for rank in range(1, 8)]


class Desk:
    """A program that answers a line at once."""

    def __init__(self, program, *words):
        self.process = subprocess.Popen([program, *words], stdin=subprocess.PIPE, stdout=subprocess.PIPE, text=True, bufsize=1)
        self.known = {}

    def ask(self, line):
        if line not in self.known:
            self.process.stdin.write(line + "\n")
            self.process.stdin.flush()
            self.known[line] = self.process.stdout.readline().rstrip("\n")
        return self.known[line]


def text_of(counts):
    return "".join(
        digits + suit
        for suit in "mpsz"
        if (digits := "".join(kind[0] * count for kind, count in zip(KINDS, counts) if kind[1] == suit))
    )


def changed(counts, kind, by):
    return counts[:kind] + (counts[kind] + by,) + counts[kind + 1 :]


class Game:
    def __init__(self, lines, wins, stakes):
        self.lines, self.wins, self.stakes = lines, wins, stakes

    def shape(self, hand):
        """Shanten; of fourteen tiles the best discards too. What is seen makes no difference to either."""
        told = self.lines.ask(f"shape {text_of(hand)}")
        return int(re.match(r"shanten (-?\d+)", told)[1]), [KINDS.index(it) for it in re.findall(r"discard (\S+)", told)]

    def prize(self, hand, kind):
        told = self.wins.ask(f"win {text_of(hand)} on={KINDS[kind]} by=tsumo riichi=1 {self.stakes}")
        found = re.search(r"gain (\d+)", told)
        return int(found[1]) if found else 0

    def total(self, hand, seen, turns):
        """All points that all ordered draws of so many tiles bring."""
        if turns == 0:
            return 0
        live = [4 - held - elsewhere for held, elsewhere in zip(hand, seen)]
        near, _ = self.shape(hand)
        total = 0
        for kind, copies in enumerate(live):
            if copies > 0:
                total += copies * self.behind(hand, seen, turns, kind, sum(live), near)
        return total

    def behind(self, hand, seen, turns, kind, unseen, near):
        drawn = changed(hand, kind, 1)
        shanten, discards = self.shape(drawn)
        if shanten < 0:
            return self.prize(hand, kind) * math.perm(unseen - 1, turns - 1)
        if shanten < near:
            return max(self.total(changed(drawn, it, -1), changed(seen, it, 1), turns - 1) for it in discards)
        return self.total(hand, changed(seen, kind, 1), turns - 1)


def dealt(chance, lines):
    """Thirteen tiles that are ready or one-shanten, and so many seen ones that seven to ten tiles are left."""
    while True:
        wall = [kind for kind in range(34) for _ in range(4)]
        suit = chance.randrange(3)
        chance.shuffle(wall)
        wall.sort(key=lambda kind: kind // 9 != suit and chance.random() < 0.8)
        hand = tuple(wall[:13].count(kind) for kind in range(34))
        told = lines.ask(f"shape {text_of(hand)}")
        if int(re.match(r"shanten (-?\d+)", told)[1]) <= 1:
            accepted = [KINDS.index(it) for it in re.findall(r"(\d[mpsz]):\d", told)]
            rest = wall[13:]
            rest.sort(key=lambda kind: kind not in accepted)
            kept = rest[: chance.randrange(4, 8)] + rest[-3:]
            seen = tuple(4 - hand[kind] - kept.count(kind) for kind in range(34))
            return hand, seen


class Question:
    """A question of a worth, of thirteen tiles or of one more, and what the definition answers."""

    def __init__(self, chance, lines, wins, has_more):
        hand, seen = dealt(chance, lines)
        self.turns = chance.choice([1, 2, 3])
        elsewhere = [kind for kind in range(34) if seen[kind] > 0]
        dora = [chance.choice(elsewhere)] if elsewhere and chance.random() < 0.5 else []
        stakes = f"seat={chance.choice('ESWN')} round={chance.choice('ES')}" + "".join(f" dora={KINDS[it]}" for it in dora)
        self.hand, self.seen, self.game = hand, seen, Game(lines, wins, stakes)
        if has_more:
            live = [kind for kind in range(34) if hand[kind] + seen[kind] < 4]
            self.hand = changed(hand, chance.choice(live), 1)
        others = changed(seen, dora[0], -1) if dora else seen
        self.line = f"worth {text_of(self.hand)} turns={self.turns} {stakes}" + (f" seen={text_of(others)}" if sum(others) else "")

    def share(self, hand, seen):
        unseen = 136 - sum(hand) - sum(seen)
        return Fraction(self.game.total(hand, seen, self.turns), math.perm(unseen, self.turns))

    def wanted(self):
        """For each best discard, or for the hand as it is."""
        if sum(self.hand) == 13:
            return {"": self.share(self.hand, self.seen)}
        _, discards = self.game.shape(self.hand)
        return {KINDS[it]: self.share(changed(self.hand, it, -1), changed(self.seen, it, 1)) for it in discards}


def worths_of(told):
    found = re.findall(r"(?:discard (\S+) )?worth (\d+)\+(\d+)/(\d+)", told)
    return {kind: int(points) + Fraction(int(part), int(whole)) for kind, points, part, whole in found}


def main(program, hands="200", seed="1"):
    chance = random.Random(int(seed))
    lines, wins, study = Desk(program, "line"), Desk(program, "line"), Desk(program, "study")
    wrong = 0
    for number in range(int(hands)):
        question = Question(chance, lines, wins, number % 2 == 0)
        told = study.ask(question.line)
        if worths_of(told) != question.wanted():
            wrong += 1
            print(f"{question.line}: {told}")
    print(f"{hands} hands, {wrong} wrong")
    return 1 if wrong else 0


if __name__ == "__main__":
    sys.exit(main(*sys.argv[1:]))
