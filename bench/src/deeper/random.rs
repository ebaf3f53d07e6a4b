//! Random lines of a study, from a fixed seed.
use super::distance::Known;
use super::hand::Hand;
use super::text::write_meld;
use crate::input::Dice;
use crate::tiles::{write_counts, write_kind, Meld, Melds};
use std::io::Write;

/// A kind of which a copy is left.
pub fn draw(dice: &mut Dice, hand: &Hand) -> usize {
    loop {
        let kind = dice.below(34);
        if dice.below(4) < hand.live(kind) as usize {
            return kind;
        }
    }
}

/// Up to three melds, seen tiles, and as many drawn tiles as make up the size; then some draws that bring it nearer.
pub fn random_hand(dice: &mut Dice, known: &mut Known, size: usize) -> Hand {
    let mut hand = Hand { tiles: [0; 34], melds: Melds::none(), seen: [0; 34] };
    for _ in 0..dice.below(8).saturating_sub(4) {
        let kind = dice.below(34) as u8;
        let meld = match dice.below(6) {
            0 => Meld::Kan(kind),
            1 => Meld::Ankan(kind),
            2 | 3 => Meld::Pon(kind),
            _ if kind < 27 && kind % 9 < 7 => Meld::Chi(kind),
            _ => continue,
        };
        let mut counts = [0; 34];
        hand.melds.add_to(&mut counts);
        Melds { items: [meld; 4], count: 1 }.add_to(&mut counts);
        if counts.iter().all(|&held| held <= 4) {
            hand.melds.items[hand.melds.count] = meld;
            hand.melds.count += 1;
        }
    }
    for _ in 0..[0, 0, 10, 40][dice.below(4)] {
        let kind = draw(dice, &hand);
        hand.seen[kind] += 1;
    }
    for _ in 0..size - 3 * hand.melds.count {
        let kind = draw(dice, &hand);
        hand.tiles[kind] += 1;
    }
    for _ in 0..dice.below(6) {
        approach(dice, known, &mut hand);
    }
    hand
}

/// Takes a random tile away, and puts one there that brings the hand nearer, where there is one.
pub fn approach(dice: &mut Dice, known: &mut Known, hand: &mut Hand) {
    let held: Vec<usize> = (0..34).filter(|&kind| hand.tiles[kind] > 0).collect();
    let thrown = held[dice.below(held.len())];
    let mut less = *hand;
    less.tiles[thrown] -= 1;
    if less.distance(known) > hand.distance(known) {
        return;
    }
    let kinds = less.accepted(known);
    if !kinds.is_empty() {
        less.tiles[kinds[dice.below(kinds.len())].0] += 1;
        *hand = less;
    }
}

/// A kind of which a copy is left: half of them such as the hand accepts, and some such as it holds twice or more.
pub fn random_tile(dice: &mut Dice, known: &mut Known, hand: &Hand) -> usize {
    let kinds: Vec<usize> = match dice.below(4) {
        0 => Vec::new(),
        1 => (0..34).filter(|&kind| hand.tiles[kind] >= 2 && hand.live(kind) > 0).collect(),
        _ => hand.accepted(known).into_iter().map(|(kind, _)| kind).collect(),
    };
    if kinds.is_empty() {
        draw(dice, hand)
    } else {
        kinds[dice.below(kinds.len())]
    }
}

pub fn write_keys(out: &mut Vec<u8>, hand: &Hand) {
    for (place, &meld) in hand.melds.iter().enumerate() {
        out.extend_from_slice(if place == 0 { b" open=" } else { b"," });
        write_meld(out, meld);
    }
    if hand.seen.iter().any(|&held| held > 0) {
        out.extend_from_slice(b" seen=");
        write_counts(out, &hand.seen);
    }
}

/// Random lines, every other one of calls.
pub fn write_lines(count: usize, seed: u64) -> std::io::Result<()> {
    let (mut dice, mut known, mut out) = (Dice::new(seed * 2 + 1), Known::default(), Vec::new());
    for number in 0..count {
        let is_call = number % 2 == 1;
        let size = if is_call || dice.below(4) > 0 { 13 } else { 14 };
        let hand = random_hand(&mut dice, &mut known, size);
        out.extend_from_slice(if is_call { b"calls " } else { b"shape " });
        write_counts(&mut out, &hand.tiles);
        if is_call {
            let tile = random_tile(&mut dice, &mut known, &hand);
            out.extend_from_slice(b" tile=");
            write_kind(&mut out, tile);
            out.extend_from_slice([&b" from=left"[..], b" from=left", b" from=across", b" from=right"][dice.below(4)]);
        }
        write_keys(&mut out, &hand);
        if !is_call {
            out.extend_from_slice([&b""[..], b" order=live", b" order=second", b" order=good"][dice.below(4)]);
        }
        out.push(b'\n');
    }
    std::io::stdout().write_all(&out)
}
