//! A hand with its melds and the tiles that are seen elsewhere, and what is said of it, each by its definition.
use super::distance::Known;
use crate::tiles::{Counts, Meld, Melds};

#[derive(Clone, Copy, Debug)]
pub struct Hand {
    pub tiles: Counts,
    pub melds: Melds,
    pub seen: Counts,
}

impl Hand {
    /// How many copies of a kind are in neither hand nor melds, and not seen elsewhere.
    pub fn live(&self, kind: usize) -> u8 {
        let mut held = self.tiles;
        self.melds.add_to(&mut held);
        4u8.saturating_sub(held[kind] + self.seen[kind])
    }

    pub fn distance(&self, known: &mut Known) -> u8 {
        known.distance(&self.tiles, &self.melds)
    }

    pub fn with(&self, kind: usize) -> Hand {
        let mut hand = *self;
        hand.tiles[kind] += 1;
        hand
    }

    /// After a discard, which is then seen.
    pub fn without(&self, kind: usize) -> Hand {
        let mut hand = *self;
        hand.tiles[kind] -= 1;
        hand.seen[kind] += 1;
        hand
    }

    /// The kinds that bring the hand nearer, with their live copies.
    pub fn accepted(&self, known: &mut Known) -> Vec<(usize, u8)> {
        let before = self.distance(known);
        let mut kinds = Vec::new();
        for kind in 0..34 {
            if self.live(kind) > 0 && self.with(kind).distance(known) < before {
                kinds.push((kind, self.live(kind)));
            }
        }
        kinds
    }

    pub fn live_in_all(&self, known: &mut Known) -> u32 {
        self.accepted(known).iter().map(|&(_, live)| u32::from(live)).sum()
    }

    /// The discards of fourteen tiles after which the hand lacks least.
    pub fn best(&self, known: &mut Known) -> Vec<usize> {
        let held: Vec<usize> = (0..34).filter(|&kind| self.tiles[kind] > 0).collect();
        let lacks: Vec<u8> = held.iter().map(|&kind| self.without(kind).distance(known)).collect();
        let least = lacks.iter().min().copied().unwrap_or(0);
        held.into_iter().zip(lacks).filter(|&(_, lack)| lack == least).map(|(kind, _)| kind).collect()
    }

    /// The most live copies that a best discard leaves.
    fn best_left(&self, known: &mut Known) -> u32 {
        let best = self.best(known);
        best.into_iter().map(|kind| self.without(kind).live_in_all(known)).max().unwrap_or(0)
    }

    /// Second and good, of thirteen tiles that aren't ready.
    pub fn deeper(&self, known: &mut Known) -> Option<(u32, u32)> {
        if self.distance(known) < 2 {
            return None;
        }
        let (mut second, mut good) = (0, 0);
        for (kind, live) in self.accepted(known) {
            let left = self.with(kind).best_left(known);
            second += u32::from(live) * left;
            good += if left >= 5 { u32::from(live) } else { 0 };
        }
        Some((second, good))
    }

    /// The hand after the tile is called for a meld, where it has the other tiles.
    pub fn called(&self, tile: usize, meld: Meld) -> Option<Hand> {
        let mut hand = self.with(tile);
        let mut taken = [0; 34];
        Melds { items: [meld; 4], count: 1 }.add_to(&mut taken);
        for kind in 0..34 {
            hand.tiles[kind] = hand.tiles[kind].checked_sub(taken[kind])?;
        }
        hand.melds.items[hand.melds.count] = meld;
        hand.melds.count += 1;
        Some(hand)
    }
}
