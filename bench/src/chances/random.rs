//! Random hands of which chances are asked, from a fixed seed.
use crate::deeper::distance::Known;
use crate::deeper::hand::Hand;
use crate::deeper::random::{approach, draw, random_hand, write_keys};
use crate::input::Dice;
use crate::tiles::{write_counts, Melds};
use std::io::Write;

pub fn write_line(out: &mut Vec<u8>, hand: &Hand) {
    out.extend_from_slice(b"shape ");
    write_counts(out, &hand.tiles);
    write_keys(out, hand);
    out.push(b'\n');
}

fn unseen(hand: &Hand) -> usize {
    (0..34).map(|kind| hand.live(kind) as usize).sum()
}

/// All tiles are seen but so many, most of which bring the hand nearer.
fn small(dice: &mut Dice, known: &mut Known, size: usize, left: usize) -> Hand {
    let mut hand = random_hand(dice, known, size);
    let accepted: Vec<usize> = hand.accepted(known).into_iter().map(|(kind, _)| kind).collect();
    for _ in 0..10_000 {
        if unseen(&hand) <= left {
            break;
        }
        let kind = draw(dice, &hand);
        if !accepted.contains(&kind) || dice.below(20) == 0 {
            hand.seen[kind] += 1;
        }
    }
    hand
}

/// Games with seven or eight unseen tiles, where every draw can be tried.
pub fn write_small(count: usize, seed: u64) -> std::io::Result<()> {
    let (mut dice, mut known, mut out) = (Dice::new(seed * 2 + 1), Known::default(), Vec::new());
    for number in 0..count {
        let size = if number % 4 == 3 { 14 } else { 13 };
        let left = 7 + dice.below(2);
        write_line(&mut out, &small(&mut dice, &mut known, size, left));
    }
    std::io::stdout().write_all(&out)
}

/// A hand as it is dealt.
fn dealt(dice: &mut Dice, size: usize) -> Hand {
    let mut hand = Hand { tiles: [0; 34], melds: Melds::none(), seen: [0; 34] };
    for _ in 0..size {
        let kind = draw(dice, &hand);
        hand.tiles[kind] += 1;
    }
    hand
}

/// A hand that is dealt, and brought nearer until it lacks so many tiles.
pub fn played(dice: &mut Dice, known: &mut Known, size: usize, lack: u8) -> Hand {
    loop {
        let mut hand = dealt(dice, size);
        for _ in 0..20 {
            if hand.distance(known) > lack {
                approach(dice, known, &mut hand);
            }
        }
        if hand.distance(known) == lack {
            return hand;
        }
    }
}

/// Hands that are dealt and lack no more tiles than this.
pub fn write_dealt(count: usize, seed: u64, size: usize, most: u8) -> std::io::Result<()> {
    let (mut dice, mut known, mut out) = (Dice::new(seed * 2 + 1), Known::default(), Vec::new());
    let mut written = 0;
    while written < count {
        let hand = dealt(&mut dice, size);
        if hand.distance(&mut known) <= most {
            write_line(&mut out, &hand);
            written += 1;
        }
    }
    std::io::stdout().write_all(&out)
}
