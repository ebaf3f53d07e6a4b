"""The ledger of a game of four, deal by deal.

A `Game` has the rules of a table and the outcomes so far; what is proved of its states, moves, final points and needs stands in
docs/PROOFS.md.
"""

from __future__ import annotations

import ctypes
from collections.abc import Iterable
from typing import Optional

from .game_rows import NOTHING, ChangesRow, FinalRow, MoveRow, NeedRow, NeedsRow, OutcomeRow, PaidRow, ProgressRow, QuestionRow
from .game_rows import StateRow, WorthRow
from .game_values import (
    Abort,
    Chombo,
    Draw,
    End,
    Fault,
    Final,
    HandRefused,
    HanFu,
    Liable,
    LimitHand,
    Move,
    Need,
    Needs,
    Outcome,
    OutcomeRefused,
    Paid,
    Penalty,
    Points,
    Ron,
    Stands,
    State,
    TableRules,
    Tsumo,
    Value,
    Why,
    Yakuman,
)
from .library import CALLS
from .scores import NO_WIN, NO_YAKU, WON
from .tables import points_of, table_row, within
from .values import Won
from .words import Limit

_ROUNDS = ("east", "south", "west", "north")
_WHY: tuple[Why, ...] = ("ron", "tsumo", "liable", "other half", "counters", "ready", "nagashi", "chombo", "bet", "sticks", "own bet")
_FU = (20, 25, *range(30, 150, 10))
_RON, _TSUMO = 0, 1
_MOST_MOVES = 40
_LIMITS: dict[int, Limit] = {2000: "mangan", 3000: "haneman", 4000: "baiman", 6000: "sanbaiman", 8000: "yakuman"}
_YAKUMAN = 8000
_NO_BASE = 65535  # base points that no hand has: so such a win is refused in its turn


def _player(number: int) -> int:
    return within(number, 3, "a player")


def _flag(flags: ctypes.Array[ctypes.c_uint8], players: Iterable[int]) -> None:
    for player in players:
        flags[_player(player)] = 1


def _state_of(row: StateRow) -> State:
    return State(points_of(row.points), _ROUNDS[row.round], row.dealer, row.counters, row.sticks)  # type: ignore[arg-type]


def _write_state(row: StateRow, state: State) -> None:
    for player, points in enumerate(state.points):
        row.points[player] = points if abs(points) < 1 << 31 else within(points, (1 << 31) - 1, "a number of points")
    row.round, row.dealer = _ROUNDS.index(state.round), _player(state.dealer)
    row.counters, row.sticks = (within(it, 255, "a number of counters or sticks") for it in (state.counters, state.sticks))


class Game:
    """A game: its rules, and the outcomes so far.

    >>> game = Game()
    >>> game.add(Ron(discarder=2, wins=((1, HanFu(1, 30)),)))
    >>> game.changes, game.state.dealer
    ((0, 1000, -1000, 0), 1)
    >>> game.add(Draw(ready=(0,), riichi=(1,)))
    Traceback (most recent call last):
    riichi_desk.game_values.OutcomeRefused: refused: not ready
    >>> game.state.points
    (30000, 31000, 29000, 30000)
    """

    def __init__(self, rules: Optional[TableRules] = None) -> None:
        self.rules = TableRules() if rules is None else rules
        self._table = table_row(self.rules)
        first = ProgressRow()
        CALLS.riichi_game_first(ctypes.byref(self._table), ctypes.byref(first))
        self._progress = [first]
        self._rows: list[OutcomeRow] = []
        self._outcomes: list[Outcome] = []

    def add(self, outcome: Outcome) -> None:
        """Goes on by an outcome. One that can't be raises `OutcomeRefused` or `HandRefused`, and the game is as it was."""
        row = self._row(outcome)
        after = ProgressRow.from_buffer_copy(self._last)
        fault = ctypes.c_uint32()
        CALLS.riichi_game_after(ctypes.byref(self._table), ctypes.byref(after), ctypes.byref(row), 1, ctypes.byref(fault))
        if fault.value:
            raise OutcomeRefused(Fault(fault.value))
        self._progress.append(after)
        self._rows.append(row)
        self._outcomes.append(outcome)

    def undo(self) -> Outcome:
        """Takes the last outcome back, and returns it. A game without any raises `IndexError`."""
        if not self._outcomes:
            raise IndexError("the game has no outcome")
        self._progress.pop()
        self._rows.pop()
        return self._outcomes.pop()

    @property
    def _last(self) -> ProgressRow:
        return self._progress[-1]

    @property
    def outcomes(self) -> tuple[Outcome, ...]:
        """The outcomes so far."""
        return tuple(self._outcomes)

    @property
    def state(self) -> State:
        """What the table shows."""
        return _state_of(self._last.state)

    @property
    def is_over(self) -> bool:
        return bool(self._last.over)

    @property
    def penalties(self) -> Points:
        """The points off the final points of each player, those for dead hands with them."""
        return points_of(self._last.penalties)

    @property
    def changes(self) -> Points:
        """What the last outcome changed of the points of each player, counted from before the bets."""
        if not self._outcomes:
            return 0, 0, 0, 0
        before, after = (it.state.points for it in self._progress[-2:])
        return points_of(now - then for now, then in zip(after, before))

    @property
    def moves(self) -> tuple[Move, ...]:
        """Who paid whom by the last outcome, and why. They add up to the changes; a written state moves nothing."""
        if not self._outcomes:
            return ()
        rows, changes = (MoveRow * _MOST_MOVES)(), ChangesRow()
        before, row = ctypes.byref(self._progress[-2]), ctypes.byref(self._rows[-1])
        CALLS.riichi_game_moves(ctypes.byref(self._table), before, row, rows, _MOST_MOVES, ctypes.byref(changes))
        return tuple(_move_of(it) for it in rows[: changes.moves])

    def final(self) -> tuple[Final, ...]:
        """What each player has where the game ends here, by the first seats."""
        rows = (FinalRow * 4)()
        CALLS.riichi_game_finals(ctypes.byref(self._table), ctypes.byref(self._last), rows)
        return tuple(Final(it.place, it.points, it.bonus, it.penalty, it.total) for it in rows)

    def need(self, player: int, place: int = 1, riichi: Iterable[int] = ()) -> Needs:
        """The least wins of the next deal that bring a player to a place or a better one, who wins alone and with nobody liable;
        `riichi` bet in it. Of a game that is over it raises `OutcomeRefused`."""
        if not 1 <= place <= 4:
            raise ValueError(f"a place is 1 to 4, and not {place}")
        question, row = QuestionRow(player=_player(player), place=place), NeedsRow()
        _flag(question.riichi, riichi)
        fault = CALLS.riichi_game_needs(ctypes.byref(self._table), ctypes.byref(self._last), ctypes.byref(question), ctypes.byref(row))
        if fault:
            raise OutcomeRefused(Fault(fault))
        off = (None if other == player else self._need(row.off[other], _RON) for other in range(4))
        return Needs(tuple(off), self._need(row.by_tsumo, _TSUMO))

    def _need(self, row: NeedRow, by: int) -> Need:
        return Need(self._paid(row.strictly, by), self._paid(row.with_tie, by))

    def _paid(self, row: PaidRow, by: int) -> Optional[Paid]:
        if row.base == 0:
            return None
        hands = (HanFu(han, fu) for han in range(1, 5) for fu in _FU if self._base(by, han, fu) == row.base)
        return Paid(row.base, row.discarder, row.dealer, row.other, tuple(hands), _LIMITS.get(row.base))

    def _base(self, by: int, han: int, fu: int) -> int:
        told: int = CALLS.riichi_game_base(self._table.rules, by, han, fu)
        return told

    def _row(self, outcome: Outcome) -> OutcomeRow:
        """The row of an outcome in the game as it stands."""
        row = OutcomeRow()
        _flag(row.riichi, getattr(outcome, "riichi", ()))
        if isinstance(outcome, Ron):
            row.kind, row.player = 0, _player(outcome.discarder)
            for winner, value in outcome.wins:
                if row.wins[_player(winner)].kind:
                    raise ValueError(f"{winner} wins twice")
                self._write_worth(row.wins[winner], winner, _RON, value)
        elif isinstance(outcome, Tsumo):
            row.kind, row.player = 1, _player(outcome.winner)
            self._write_worth(row.wins[outcome.winner], outcome.winner, _TSUMO, outcome.value)
        elif isinstance(outcome, Draw):
            row.kind = 2
            _flag(row.ready, outcome.ready)
            _flag(row.nagashi, outcome.nagashi)
        elif isinstance(outcome, Abort):
            row.kind = 3
        elif isinstance(outcome, Chombo):
            row.kind, row.player = 4, _player(outcome.player)
        elif isinstance(outcome, Penalty):
            row.kind, row.player, row.points = 5, _player(outcome.player), within(outcome.points, NOTHING, "a penalty")
        elif isinstance(outcome, Stands):
            row.kind = 6
            _write_state(row.state, outcome.state)
        elif isinstance(outcome, End):
            row.kind = 7
        else:
            raise TypeError(f"no outcome: {outcome!r}")
        return row

    def _write_worth(self, row: WorthRow, winner: int, by: int, value: Value) -> None:
        """Puts what a player wins into its row."""
        if isinstance(value, Liable):
            self._write_worth(row, winner, by, value.value)
            row.liable, row.liable_limits = 1 + _player(value.player), within(value.limits, 255, "a number of limits")
        elif isinstance(value, Yakuman):
            row.kind, row.limits = 2, within(value.limits, 255, "a number of limits")
        elif isinstance(value, HanFu):
            han, fu = (within(it, 255, "a number of han or fu") for it in (value.han, value.fu))
            row.kind, row.base = 1, self._base(by, han, fu) or _NO_BASE
        elif isinstance(value, LimitHand):
            row.kind, row.base = 1, value.value
        elif isinstance(value, Won) and value.yakuman:
            row.kind, row.limits = 2, value.base // _YAKUMAN
        elif isinstance(value, (Won, Paid)):
            row.kind, row.base = 1, value.base
        else:
            self._write_hand(row, winner, by, value)

    def _write_hand(self, row: WorthRow, winner: int, by: int, hand: object) -> None:
        table, last = ctypes.byref(self._table), ctypes.byref(self._last)
        told = CALLS.riichi_game_worth(table, last, winner, by, ctypes.byref(hand), ctypes.byref(row))  # type: ignore[arg-type]
        if told != WON:
            raise HandRefused({NO_YAKU: "no yaku", NO_WIN: "no win"}.get(told, f"H{told}"))


def _move_of(row: MoveRow) -> Move:
    giver, taker = (None if it == 4 else it for it in (row.giver, row.taker))
    return Move(giver, taker, row.points, row.sticks, _WHY[row.why])
