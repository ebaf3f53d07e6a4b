//! Draws counted by the definition: every kind that may be drawn, every best discard, and what is thrown is seen.
use super::{all_draws, Goal};
use crate::deeper::distance::Known;
use crate::deeper::hand::Hand;
use crate::tiles::Counts;
use std::collections::HashMap;

/// Which plays are looked at.
#[derive(Clone, Copy, PartialEq, Eq)]
pub enum Plays {
    /// What brings the hand nearer is kept.
    Keeping,
    /// It may be thrown too.
    Any,
}

pub fn unseen(hand: &Hand) -> u128 {
    (0..34).map(|kind| u128::from(hand.live(kind))).sum()
}

/// The hand after a tile was drawn and thrown at once.
fn passed(hand: &Hand, kind: usize) -> Hand {
    let mut after = *hand;
    after.seen[kind] += 1;
    after
}

/// Some plays towards a goal, with the distances and best discards that were asked before, and what was counted of tiles, seen tiles
/// and turns.
pub struct Game<'a> {
    plays: Plays,
    goal: Goal,
    known: &'a mut Known,
    distances: HashMap<Counts, u8>,
    discards: HashMap<Counts, Vec<usize>>,
    counted: HashMap<(Counts, Counts, usize), u128>,
}

impl Game<'_> {
    pub fn new(plays: Plays, goal: Goal, known: &mut Known) -> Game<'_> {
        Game { plays, goal, known, distances: HashMap::new(), discards: HashMap::new(), counted: HashMap::new() }
    }

    fn distance(&mut self, hand: &Hand) -> u8 {
        *self.distances.entry(hand.tiles).or_insert_with(|| hand.distance(self.known))
    }

    fn best(&mut self, drawn: &Hand) -> Vec<usize> {
        self.discards.entry(drawn.tiles).or_insert_with(|| drawn.best(self.known)).clone()
    }

    fn is_there(&mut self, hand: &Hand) -> bool {
        self.distance(hand) <= self.goal as u8
    }

    /// Of all ordered draws, how many bring thirteen tiles to the goal by the best of these plays.
    pub fn draws(&mut self, hand: &Hand, turns: usize) -> u128 {
        let state = (hand.tiles, hand.seen, turns);
        if let Some(&known) = self.counted.get(&state) {
            return known;
        }
        let draws = match (self.is_there(hand), turns) {
            (true, _) => all_draws(unseen(hand), turns),
            (false, 0) => 0,
            (false, _) => (0..34).map(|kind| u128::from(hand.live(kind)) * self.behind(hand, kind, turns - 1)).sum(),
        };
        self.counted.insert(state, draws);
        draws
    }

    /// Of the draws behind one of a kind.
    fn behind(&mut self, hand: &Hand, kind: usize, turns: usize) -> u128 {
        if hand.live(kind) == 0 {
            return 0;
        }
        let drawn = hand.with(kind);
        if self.is_there(&drawn) {
            return all_draws(unseen(hand) - 1, turns);
        }
        let is_nearer = self.distance(&drawn) < self.distance(hand);
        let may_throw = !is_nearer || self.plays == Plays::Any;
        let thrown = if may_throw { self.draws(&passed(hand, kind), turns) } else { 0 };
        let best = if is_nearer { self.best(&drawn) } else { Vec::new() };
        best.into_iter().map(|kind| self.draws(&drawn.without(kind), turns)).max().unwrap_or(0).max(thrown)
    }
}
