//! The ledger of a game of four players: who pays whom after each deal and why, who deals next, when the game is over, the final points,
//! and what a player needs. GAME.md of the repository has the rules.
use crate::arrays::{NO_WIN, NO_YAKU, WON};
use crate::{calls, Rules};
use crate::game_rows::*;
pub use crate::game_values::*;

/// A game: its rules, and the outcomes so far.
///
/// ```
/// use riichi_desk::game::{Fault, Game, Outcome, Player, Refused, TableRules, Value};
/// let mut game = Game::new(TableRules::default()).unwrap();
/// let wins = vec![(Player::Second, Value::HanFu { han: 1, fu: 30 })];
/// game.add(Outcome::Ron { from: Player::Third, wins, riichi: vec![] }).unwrap();
/// assert_eq!(game.changes(), [0, 1000, -1000, 0]);
/// let unready = Outcome::Draw { ready: vec![], nagashi: vec![], riichi: vec![Player::First] };
/// assert_eq!(game.add(unready), Err(Refused::Outcome(Fault::NotReady)));
/// assert_eq!(game.state().points, [30000, 31000, 29000, 30000]);
/// ```
#[derive(Clone, Debug)]
pub struct Game {
    rules: TableRules,
    table: TableRow,
    first: ProgressRow,
    steps: Vec<Step>,
}

/// An outcome, its row, and how far the game has come by it.
#[derive(Clone, Debug)]
struct Step {
    outcome: Outcome,
    row: OutcomeRow,
    after: ProgressRow,
}

impl TableRules {
    /// The rules of a club.
    pub fn club() -> TableRules {
        TableRules::named(1)
    }

    /// The rules of a league.
    pub fn league() -> TableRules {
        TableRules::named(2)
    }

    /// The rules of play online.
    pub fn online() -> TableRules {
        TableRules::named(3)
    }

    fn named(name: u32) -> TableRules {
        let mut row = TableRow::default();
        // SAFETY: references are valid and not null, and a `&mut` overlaps nothing; all structs lie as C has them. So below.
        unsafe { calls::riichi_game_table(name, &mut row) };
        TableRules {
            rules: Rules::One,
            start: row.start,
            returns: row.returns,
            uma: row.uma,
            ties: [Ties::Share, Ties::Seat][usize::from(row.ties)],
            ron: [SeveralWinners::All, SeveralWinners::Nearest, SeveralWinners::Two][usize::from(row.ron)],
            counters: [CountersTo::Nearest, CountersTo::Each][usize::from(row.counters)],
            sticks: [SticksTo::Nearest, SticksTo::Own][usize::from(row.sticks)],
            liable: row.liable != 0,
            nagashi: row.nagashi != 0,
            renchan: [Renchan::Ready, Renchan::Win][usize::from(row.renchan)],
            length: [Length::South, Length::East][usize::from(row.length)],
            extra: Some(row.extra).filter(|points| *points != NOTHING),
            bust: row.bust != 0,
            stop: row.stop != 0,
            left: [LeftSticks::First, LeftSticks::Lost][usize::from(row.left)],
            chombo: match row.chombo {
                NOTHING => ChomboCost::Mangan,
                points => ChomboCost::Points(points),
            },
        }
    }

    fn row(&self) -> TableRow {
        TableRow {
            rules: self.rules.number(),
            start: self.start,
            returns: self.returns,
            extra: self.extra.unwrap_or(NOTHING),
            chombo: match self.chombo {
                ChomboCost::Points(points) => points,
                ChomboCost::Mangan => NOTHING,
            },
            uma: self.uma,
            ties: self.ties as u8,
            ron: self.ron as u8,
            counters: self.counters as u8,
            sticks: self.sticks as u8,
            liable: self.liable.into(),
            nagashi: self.nagashi.into(),
            renchan: self.renchan as u8,
            length: self.length as u8,
            bust: self.bust.into(),
            stop: self.stop.into(),
            left: self.left as u8,
            zero: 0,
        }
    }
}

impl Game {
    /// A game before its first deal.
    pub fn new(rules: TableRules) -> Result<Game, RulesFault> {
        let (table, mut first) = (rules.row(), ProgressRow::default());
        match unsafe { calls::riichi_game_table_fault(&table) } {
            0 => {}
            1 => return Err(RulesFault::Points),
            2 => return Err(RulesFault::Start),
            3 => return Err(RulesFault::Return),
            4 => return Err(RulesFault::UmaStep),
            5 => return Err(RulesFault::UmaOrder),
            _ => return Err(RulesFault::UmaSum),
        }
        unsafe { calls::riichi_game_first(&table, &mut first) };
        Ok(Game { rules, table, first, steps: Vec::new() })
    }

    /// Goes on by an outcome. Where it is refused the game is as it was.
    pub fn add(&mut self, outcome: Outcome) -> Result<(), Refused> {
        let row = self.row(&outcome)?;
        let (mut after, mut fault) = (*self.last(), 0);
        unsafe { calls::riichi_game_after(&self.table, &mut after, &row, 1, &mut fault) };
        accepted(fault)?;
        self.steps.push(Step { outcome, row, after });
        Ok(())
    }

    /// Takes the last outcome back.
    pub fn undo(&mut self) -> Option<Outcome> {
        self.steps.pop().map(|step| step.outcome)
    }

    pub fn rules(&self) -> &TableRules {
        &self.rules
    }

    /// The outcomes so far.
    pub fn outcomes(&self) -> impl Iterator<Item = &Outcome> {
        self.steps.iter().map(|step| &step.outcome)
    }

    fn last(&self) -> &ProgressRow {
        self.steps.last().map_or(&self.first, |step| &step.after)
    }

    /// How far the game had come before the last outcome.
    fn before_last(&self) -> &ProgressRow {
        self.steps.iter().rev().nth(1).map_or(&self.first, |step| &step.after)
    }

    /// What the table shows.
    pub fn state(&self) -> State {
        let StateRow { points, round, dealer, counters, sticks } = self.last().state;
        let round = [Round::East, Round::South, Round::West, Round::North][usize::from(round)];
        State { points, round, dealer: Player::ALL[usize::from(dealer)], counters, sticks }
    }

    pub fn is_over(&self) -> bool {
        self.last().over != 0
    }

    /// The points off the final points of each player, those for dead hands with them.
    pub fn penalties(&self) -> ByPlayer<u32> {
        self.last().penalties
    }

    /// What the last outcome changed of the points of each player, counted from before the bets.
    pub fn changes(&self) -> ByPlayer<i64> {
        let (before, after) = (self.before_last().state.points, self.last().state.points);
        [0, 1, 2, 3].map(|player| i64::from(after[player]) - i64::from(before[player]))
    }

    /// Who paid whom by the last outcome, and why. They add up to the changes; a written state moves nothing.
    pub fn moves(&self) -> Vec<Move> {
        let step = match self.steps.last() {
            Some(step) => step,
            None => return Vec::new(),
        };
        let (mut rows, mut changes) = ([MoveRow::default(); MOST_MOVES], ChangesRow::default());
        unsafe {
            calls::riichi_game_moves(&self.table, self.before_last(), &step.row, rows.as_mut_ptr(), rows.len(), &mut changes);
        }
        rows[..changes.moves as usize].iter().map(Move::of).collect()
    }

    /// What each player has where the game ends here.
    pub fn finals(&self) -> ByPlayer<Final> {
        let mut row = FinalsRow::default();
        unsafe { calls::riichi_game_finals(&self.table, self.last(), &mut row) };
        row.players.map(|it| Final {
            place: it.place as u8,
            points: it.points,
            bonus: it.bonus,
            penalty: it.penalty,
            total: it.total,
        })
    }

    /// The least wins of the next deal that bring a player to a place or a better one, who wins alone and with nobody liable; `riichi`
    /// bet in it.
    pub fn need(&self, player: Player, place: u8, riichi: &[Player]) -> Result<Needs, Refused> {
        let question = QuestionRow { player: player as u8, place, riichi: flags(riichi) };
        let mut row = NeedsRow::default();
        match unsafe { calls::riichi_game_needs(&self.table, self.last(), &question, &mut row) } {
            203 => return Err(Refused::Place),
            fault => accepted(fault)?,
        }
        let off = Player::ALL.map(|other| (other != player).then(|| Need::of(&row.off[other as usize])));
        Ok(Needs { off, by_tsumo: Need::of(&row.by_tsumo) })
    }

    /// The row of an outcome in the game as it stands.
    fn row(&self, outcome: &Outcome) -> Result<OutcomeRow, Refused> {
        let mut row = OutcomeRow::default();
        match outcome {
            Outcome::Ron { from, wins, riichi } => {
                row.player = *from as u16;
                row.riichi = flags(riichi);
                for (winner, value) in wins {
                    let place = &mut row.wins[*winner as usize];
                    if place.kind != 0 {
                        return Err(Refused::Twice(*winner));
                    }
                    *place = self.worth(*winner, 0, value)?;
                }
            }
            Outcome::Tsumo { winner, value, riichi } => {
                (row.kind, row.player, row.riichi) = (1, *winner as u16, flags(riichi));
                row.wins[*winner as usize] = self.worth(*winner, 1, value)?;
            }
            Outcome::Draw { ready, nagashi, riichi } => {
                (row.kind, row.ready, row.nagashi, row.riichi) = (2, flags(ready), flags(nagashi), flags(riichi));
            }
            Outcome::Abort { riichi } => (row.kind, row.riichi) = (3, flags(riichi)),
            Outcome::Chombo(player) => (row.kind, row.player) = (4, *player as u16),
            Outcome::Penalty(player, points) => (row.kind, row.player, row.points) = (5, *player as u16, *points),
            Outcome::Stands(state) => (row.kind, row.state) = (6, state.row()),
            Outcome::End => row.kind = 7,
        }
        Ok(row)
    }

    fn worth(&self, winner: Player, by: u32, value: &Value) -> Result<WorthRow, Refused> {
        let counted = |base| WorthRow { base, kind: 1, ..WorthRow::default() };
        let yakuman = |limits| WorthRow { limits, kind: 2, ..WorthRow::default() };
        Ok(match value {
            Value::HanFu { han, fu } => {
                let base = unsafe { calls::riichi_game_base(self.table.rules, by, (*han).into(), (*fu).into()) };
                // (base points that no hand has are refused in their turn)
                counted(if base == 0 { u16::MAX } else { base as u16 })
            }
            Value::Mangan => counted(2000),
            Value::Haneman => counted(3000),
            Value::Baiman => counted(4000),
            Value::Sanbaiman => counted(6000),
            Value::Yakuman { limits } => yakuman(*limits),
            Value::Liable { value, player, limits } => {
                WorthRow { liable: 1 + *player as u8, liable_limits: *limits, ..self.worth(winner, by, value)? }
            }
            Value::Hand(hand) => {
                let mut worth = WorthRow::default();
                let told = unsafe {
                    calls::riichi_game_worth(&self.table, self.last(), winner as u32, by, hand, &mut worth)
                } as u8;
                match told {
                    WON => worth,
                    NO_YAKU => return Err(Refused::NoYaku),
                    NO_WIN => return Err(Refused::NoWin),
                    number => return Err(Refused::Hand(number)),
                }
            }
        })
    }
}

/// Whether there is no fault of this number.
fn accepted(fault: u32) -> Result<(), Refused> {
    match fault {
        0 => Ok(()),
        number => Err(Refused::Outcome(Fault::ALL[number as usize - 1])),
    }
}

fn flags(players: &[Player]) -> [u8; 4] {
    Player::ALL.map(|player| players.contains(&player).into())
}

impl State {
    fn row(&self) -> StateRow {
        let State { points, round, dealer, counters, sticks } = *self;
        StateRow { points, round: round as u8, dealer: dealer as u8, counters, sticks }
    }
}

impl Move {
    fn of(row: &MoveRow) -> Move {
        let player = |number: u8| Player::ALL.get(usize::from(number)).copied();
        let why = Reason::ALL[usize::from(row.why)];
        Move { from: player(row.from), to: player(row.to), points: row.points, sticks: row.sticks, why }
    }
}

impl Need {
    fn of(row: &NeedRow) -> Need {
        Need { strictly: Paid::of(&row.strictly), with_tie: Paid::of(&row.with_tie) }
    }
}

impl Paid {
    fn of(row: &PaidRow) -> Option<Paid> {
        let PaidRow { base, discarder, dealer, other } = *row;
        (base != 0).then_some(Paid { base, discarder, dealer, other })
    }
}
