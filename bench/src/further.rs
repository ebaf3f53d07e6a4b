//! Second, good and calls of random hands, by their definitions in plain Rust beside the proved ones of the static library.
//!
//! `further COUNT [SEED]` makes so many hands of thirteen tiles, with melds and seen tiles among them, and for each a tile that
//! another player throws. It ends with status 1 at the first difference. `./test` builds it over the archive.
#![allow(dead_code, unused_imports)]
mod deeper;
mod house;
mod input;
mod kinds;
mod pen;
mod tiles;

use deeper::calls::calls;
use deeper::distance::Known;
use deeper::hand::Hand;
use deeper::random::{random_hand, random_tile};
use input::Dice;
use tiles::{Counts, Meld};

/// So many hands are one call.
const PIECE: usize = 500;

extern "C" {
    fn riichi_deeper(
        counts: *const Counts,
        counts_len: usize,
        melds: *const [u8; 4],
        melds_len: usize,
        seen: *const Counts,
        seen_len: usize,
        shanten: *mut i8,
        shanten_len: usize,
        second: *mut u16,
        second_len: usize,
        good: *mut u8,
        good_len: usize,
    ) -> usize;
    fn riichi_calls(
        counts: *const Counts,
        counts_len: usize,
        melds: *const [u8; 4],
        melds_len: usize,
        seen: *const Counts,
        seen_len: usize,
        thrown: *const [u8; 2],
        thrown_len: usize,
        called: *mut [u8; 4],
        called_len: usize,
        kinds: *mut [u64; 4],
        kinds_len: usize,
        live: *mut [[u8; 34]; 4],
        live_len: usize,
    ) -> usize;
}

/// A hand, and a tile that is thrown: its kind, and 0 to 2 for the player before, across and behind.
struct Question {
    hand: Hand,
    thrown: [u8; 2],
}

/// What is told of a question: shanten, second and good; and of each call its meld and, for each best discard, the live copies.
#[derive(PartialEq, Debug)]
struct Told {
    outlook: (i8, u16, u8),
    calls: Vec<(u8, Vec<(usize, u8)>)>,
}

fn byte_of(meld: Meld) -> u8 {
    match meld {
        Meld::Chi(low) => 1 + low,
        Meld::Pon(kind) => 65 + kind,
        Meld::Kan(kind) => 129 + kind,
        Meld::Ankan(kind) => 193 + kind,
    }
}

fn melds_of(hand: &Hand) -> [u8; 4] {
    let mut melds = [0; 4];
    for (place, &meld) in hand.melds.iter().enumerate() {
        melds[place] = byte_of(meld);
    }
    melds
}

fn by_definition(question: &Question, known: &mut Known) -> Told {
    let Question { hand, thrown } = question;
    let (second, good) = hand.deeper(known).unwrap_or((0, 0));
    let found = calls(hand, thrown[0] as usize, thrown[1] == 0, known);
    let live = |kinds: &Vec<(usize, u8)>| kinds.iter().map(|&(_, live)| live).sum::<u8>();
    let mut calls: Vec<_> = found
        .iter()
        .map(|call| {
            let mut discards: Vec<_> = call.discards.iter().map(|(kind, kinds)| (*kind, live(kinds))).collect();
            discards.sort();
            (byte_of(call.meld), discards)
        })
        .collect();
    calls.sort();
    Told { outlook: (hand.distance(known) as i8 - 1, second as u16, good as u8), calls }
}

/// What the library tells of all questions.
fn by_library(questions: &[Question]) -> Vec<Told> {
    let rows = questions.len();
    let counts: Vec<_> = questions.iter().map(|it| it.hand.tiles).collect();
    let melds: Vec<_> = questions.iter().map(|it| melds_of(&it.hand)).collect();
    let seen: Vec<_> = questions.iter().map(|it| it.hand.seen).collect();
    let thrown: Vec<_> = questions.iter().map(|it| it.thrown).collect();
    let (mut shanten, mut second, mut good) = (vec![0; rows], vec![0; rows], vec![0; rows]);
    let (mut called, mut kinds, mut live) = (vec![[0; 4]; rows], vec![[0; 4]; rows], vec![[[0; 34]; 4]; rows]);
    let hands = (counts.as_ptr(), melds.as_ptr(), seen.as_ptr());
    // SAFETY: each pointer is that of a vector with so many rows, and nothing else has the columns.
    let done = unsafe {
        let (counts, melds, seen) = hands;
        let (least, steps, copies) = (shanten.as_mut_ptr(), second.as_mut_ptr(), good.as_mut_ptr());
        let first = riichi_deeper(counts, rows, melds, rows, seen, rows, least, rows, steps, rows, copies, rows);
        let (tiles, told, best, copies) = (thrown.as_ptr(), called.as_mut_ptr(), kinds.as_mut_ptr(), live.as_mut_ptr());
        let next = riichi_calls(counts, rows, melds, rows, seen, rows, tiles, rows, told, rows, best, rows, copies, rows);
        (first, next)
    };
    assert_eq!(done, (rows, rows));
    (0..rows).map(|row| Told { outlook: (shanten[row], second[row], good[row]), calls: called_in(called[row], kinds[row], &live[row]) }).collect()
}

fn called_in(melds: [u8; 4], kinds: [u64; 4], live: &[[u8; 34]; 4]) -> Vec<(u8, Vec<(usize, u8)>)> {
    let discards = |claim: usize| (0..34).filter(move |kind| kinds[claim] >> kind & 1 == 1).map(move |kind| (kind, live[claim][kind]));
    let mut calls: Vec<_> = (0..4).filter(|&claim| melds[claim] != 0).map(|claim| (melds[claim], discards(claim).collect())).collect();
    calls.sort();
    calls
}

fn main() {
    let words: Vec<u64> = std::env::args().skip(1).map(|word| word.parse().expect("a number")).collect();
    let (count, seed) = (words.first().copied().unwrap_or(1000), words.get(1).copied().unwrap_or(1));
    let (mut dice, mut known) = (Dice::new(seed.wrapping_mul(0x9e37_79b9_7f4a_7c15) | 1), Known::default());
    let (mut hands, mut far, mut called) = (0, 0, 0);
    while hands < count {
        let questions: Vec<_> = (0..PIECE.min((count - hands) as usize))
            .map(|_| {
                let hand = random_hand(&mut dice, &mut known, 13);
                let tile = random_tile(&mut dice, &mut known, &hand);
                Question { hand, thrown: [tile as u8, dice.below(4).saturating_sub(1) as u8] }
            })
            .collect();
        for (question, proved) in questions.iter().zip(by_library(&questions)) {
            let plain = by_definition(question, &mut known);
            if plain != proved {
                println!("differs\n  hand   {:?}\n  thrown {:?}\n  plain  {plain:?}\n  proved {proved:?}", question.hand, question.thrown);
                std::process::exit(1);
            }
            far += u64::from(plain.outlook.0 > 0);
            called += plain.calls.len() as u64;
        }
        hands += questions.len() as u64;
    }
    println!("{hands} hands, {far} not ready, {called} calls: no difference");
}
