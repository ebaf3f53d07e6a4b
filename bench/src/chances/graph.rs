//! Draws counted from the hand and the turns that are left, each hand once. What was thrown on the way isn't looked at.
use super::{all_draws, Goal};
use crate::deeper::distance::Known;
use crate::deeper::hand::Hand;
use crate::tiles::Counts;
use std::collections::HashMap;

/// Thirteen tiles that may be come to: how many live tiles they accept, and of each its live copies and what it leads to.
struct Node {
    lack: u8,
    live: u128,
    draws: Vec<(u128, Vec<usize>)>,
}

/// The hands that a first one may come to, with its melds and what it sees. What a hand leads to stands before it.
pub struct Graph {
    places: HashMap<Counts, usize>,
    nodes: Vec<Node>,
}

impl Graph {
    pub fn new() -> Graph {
        Graph { places: HashMap::new(), nodes: Vec::new() }
    }

    /// The place of thirteen tiles.
    pub fn place(&mut self, hand: &Hand, known: &mut Known) -> usize {
        if let Some(&place) = self.places.get(&hand.tiles) {
            return place;
        }
        let lack = hand.distance(known);
        let accepted = hand.accepted(known);
        let live = accepted.iter().map(|&(_, live)| u128::from(live)).sum();
        let mut draws = Vec::new();
        for (kind, copies) in accepted.into_iter().filter(|_| lack > 1) {
            let drawn = hand.with(kind);
            let rests = drawn.best(known).into_iter().map(|thrown| {
                let mut rest = drawn;
                rest.tiles[thrown] -= 1;
                self.place(&rest, known)
            });
            draws.push((u128::from(copies), rests.collect()));
        }
        self.nodes.push(Node { lack, live, draws });
        self.places.insert(hand.tiles, self.nodes.len() - 1);
        self.nodes.len() - 1
    }

    /// For so many turns at the place of each hand and each number of turns that may be left the draws that reach the goal, where so
    /// many tiles are unseen at first. `may_throw`: as a bound of the plays that may throw what brings nearer.
    pub fn rows(&self, goal: Goal, unseen: u128, turns: usize, may_throw: bool) -> Vec<Vec<u128>> {
        let mut rows: Vec<Vec<u128>> = Vec::new();
        for node in &self.nodes {
            let mut row = vec![u128::from(node.lack <= goal as u8)];
            for left in 0..turns {
                let before = unseen.saturating_sub((turns - left - 1) as u128);
                row.push(match node.lack <= goal as u8 {
                    true => all_draws(before, left + 1),
                    false => node.next(goal, before, left, &rows, row[left], may_throw),
                });
            }
            rows.push(row);
        }
        rows
    }
}

impl Node {
    /// The number with one turn more than these.
    fn next(&self, goal: Goal, unseen: u128, left: usize, rows: &[Vec<u128>], own: u128, may_throw: bool) -> u128 {
        let all = all_draws(unseen.saturating_sub(1), left);
        let least = if may_throw { own } else { 0 };
        let behind = |rests: &Vec<usize>| rests.iter().map(|&rest| rows[rest][left]).max().unwrap_or(0).max(least);
        let begun = match self.lack == goal as u8 + 1 {
            true => self.live * all.max(least),
            false => self.draws.iter().map(|(live, rests)| live * behind(rests)).sum(),
        };
        unseen.saturating_sub(self.live) * own + begun
    }
}
