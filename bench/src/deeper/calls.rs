//! The calls of a thrown tile that bring a hand nearer.
use super::distance::Known;
use super::hand::Hand;
use crate::tiles::Meld;

/// A call, with each kind that may be thrown after it and leaves the hand nearer, and what the hand then accepts.
pub struct Call {
    pub meld: Meld,
    pub discards: Vec<(usize, Vec<(usize, u8)>)>,
}

/// Each meld that has the tile: runs, where it comes from the left, and the triplet.
fn melds_with(tile: usize, from_left: bool) -> Vec<Meld> {
    let mut melds = Vec::new();
    for low in 0..27 {
        if from_left && low % 9 < 7 && low <= tile && tile <= low + 2 {
            melds.push(Meld::Chi(low as u8));
        }
    }
    melds.push(Meld::Pon(tile as u8));
    melds
}

pub fn calls(hand: &Hand, tile: usize, from_left: bool, known: &mut Known) -> Vec<Call> {
    let before = hand.distance(known);
    let mut calls = Vec::new();
    for meld in melds_with(tile, from_left) {
        let Some(after) = hand.called(tile, meld) else {
            continue;
        };
        let mut discards = Vec::new();
        for kind in (0..34).filter(|&kind| after.tiles[kind] > 0) {
            let rest = after.without(kind);
            if rest.distance(known) < before {
                discards.push((kind, rest.accepted(known)));
            }
        }
        let live = |kinds: &Vec<(usize, u8)>| kinds.iter().map(|&(_, live)| u32::from(live)).sum::<u32>();
        discards.sort_by_key(|(kind, kinds)| (u32::MAX - live(kinds), *kind));
        if !discards.is_empty() {
            calls.push(Call { meld, discards });
        }
    }
    calls
}

/// The hand after an open kong of the tile, where it holds the other three, before a tile is drawn for it.
pub fn kong(hand: &Hand, tile: usize) -> Option<(Meld, Hand)> {
    let meld = Meld::Kan(tile as u8);
    Some((meld, hand.called(tile, meld)?))
}
