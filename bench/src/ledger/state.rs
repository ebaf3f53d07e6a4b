//! The state of a game, its outcomes, and what comes after each.
use super::rules::{Chombo, Renchan, Rules};
use super::settle::{self, Paid};

pub const ROUNDS: [&str; 4] = ["east", "south", "west", "north"];

/// So many counters lie on the table at most, and so many sticks.
pub const MOST: i64 = 99;

pub type Four = [i64; 4];
/// Some of the players.
pub type Some4 = [bool; 4];

#[derive(Clone, Copy, PartialEq, Eq, Debug)]
pub struct State {
    pub points: Four,
    /// From 0, east.
    pub round: usize,
    pub dealer: usize,
    pub counters: i64,
    pub sticks: i64,
}

impl State {
    pub fn first(rules: &Rules) -> State {
        State { points: [rules.start; 4], round: 0, dealer: 0, counters: 0, sticks: 0 }
    }

    /// Whether points and sticks are those that the game began with.
    pub fn adds_up(&self, rules: &Rules) -> bool {
        self.points.iter().sum::<i64>() + 1000 * self.sticks == rules.whole()
    }

    /// The seat of a player, counted from the dealer.
    pub fn seat(&self, player: usize) -> usize {
        (player + 4 - self.dealer) % 4
    }
}

/// What a hand is worth: its base points, and how many limits of yakuman they are.
#[derive(Clone, Copy, PartialEq, Eq, Debug)]
pub struct Worth {
    pub base: i64,
    pub limits: i64,
}

/// Who is responsible for so many limits of a hand.
#[derive(Clone, Copy, PartialEq, Eq, Debug)]
pub struct Liable {
    pub player: usize,
    pub limits: i64,
}

#[derive(Clone, Copy, PartialEq, Eq, Debug)]
pub struct Win {
    pub winner: usize,
    pub worth: Worth,
    pub liable: Option<Liable>,
}

#[derive(Clone, PartialEq, Eq, Debug)]
pub enum Outcome {
    Ron { discarder: usize, wins: Vec<Win> },
    Tsumo(Win),
    Draw { ready: Some4, nagashi: Option<Some4> },
    Abort,
}

/// A deal: its outcome, and who bet.
#[derive(Clone, PartialEq, Eq, Debug)]
pub struct Deal {
    pub outcome: Outcome,
    pub bets: Some4,
}

/// What of a deal says who deals next.
#[derive(Clone, Copy, PartialEq, Eq, Debug)]
pub enum Kind {
    DealerWins,
    OtherWins,
    Draw { is_dealer_ready: bool },
    Abort,
}

/// Why a game is over.
#[derive(Clone, Copy, PartialEq, Eq, Debug)]
pub enum End {
    Bust,
    Extra,
    Last,
    Stop,
    Said,
}

/// The state after a deal, and whether the game is over by it. None where counters or sticks would be too many.
pub fn after(rules: &Rules, before: &State, deal: &Deal) -> Option<(State, Option<End>)> {
    let Paid { points, sticks, kind } = settle::paid(rules, before, deal);
    let stays = match kind {
        Kind::DealerWins | Kind::Abort => true,
        Kind::OtherWins => false,
        Kind::Draw { is_dealer_ready } => is_dealer_ready && rules.renchan == Renchan::Ready,
    };
    let counters = if kind == Kind::OtherWins { 0 } else { before.counters + 1 };
    if counters > MOST || sticks > MOST {
        return None;
    }
    let behind = !stays && before.dealer == 3;
    let after = State {
        points,
        round: before.round + usize::from(behind),
        dealer: if stays { before.dealer } else { (before.dealer + 1) % 4 },
        counters,
        sticks,
    };
    assert!(after.adds_up(rules) || !before.adds_up(rules), "no points come or go");
    let is_stopped = stays && kind != Kind::Abort && stops(rules, before, &points);
    let end = of_points(rules, before.round, &points).or_else(|| behind_round(rules, before.round, &points).filter(|_| behind));
    Some((after, end.or(is_stopped.then_some(End::Stop))))
}

fn some_have(points: &Four, wanted: i64) -> bool {
    points.iter().any(|&points| points >= wanted)
}

/// The ends that are looked for after each deal and after a dead hand.
fn of_points(rules: &Rules, round: usize, points: &Four) -> Option<End> {
    if rules.bust && points.iter().any(|&points| points < 0) {
        return Some(End::Bust);
    }
    let is_enough = rules.extra.is_some_and(|wanted| some_have(points, wanted));
    (round > rules.last && is_enough).then_some(End::Extra)
}

/// The end of a game behind the fourth dealer of a round.
fn behind_round(rules: &Rules, round: usize, points: &Four) -> Option<End> {
    let goes_on = round == rules.last && rules.extra.is_some_and(|wanted| !some_have(points, wanted));
    (round >= rules.last && !goes_on).then_some(End::Last)
}

/// Whether the fourth player, who stays, is ahead of all and may stop.
fn stops(rules: &Rules, before: &State, points: &Four) -> bool {
    let is_ahead = points[..3].iter().all(|&other| other < points[3]);
    let is_enough = before.round > rules.last || rules.extra.is_none_or(|wanted| points[3] >= wanted);
    rules.stop && before.dealer == 3 && before.round >= rules.last && is_ahead && is_enough
}

/// What a dead hand changes: the points of the table, and those that are taken at the end.
pub fn dead_hand(rules: &Rules, before: &State, player: usize) -> (State, i64, Option<End>) {
    let mut after = *before;
    let penalty = match rules.chombo {
        Chombo::Points(points) => points,
        Chombo::Mangan => {
            settle::pay_mangan(&mut after.points, before.dealer, player, -1);
            0
        }
    };
    assert!(after.adds_up(rules), "no points come or go");
    (after, penalty, of_points(rules, before.round, &after.points))
}
