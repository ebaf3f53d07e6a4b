//! Waits: at most two suits can take the tile, by their tiles modulo three, and of a suit one kind in three.
use crate::kinds::{at_least, Each, ALL, ORPHANS};
use crate::pen::Pen;
use crate::suit::Suit;
use crate::tiles::{Counts, Melds};

/// The ranks that make sets of the suit.
fn waits_for_sets(suit: &Suit, sum: u64) -> u64 {
    let full = suit.tiles >> 2;
    let places = Each(suit.places(6 - sum) & !full).filter(|&place| suit.with(place).is_sets());
    places.fold(0, |all, place| all | 1 << (place / 4))
}

/// The ranks that make sets and a pair of the suit.
fn waits_for_pair(suit: &Suit, sum: u64) -> u64 {
    let singles = Each(suit.places(sum) & suit.ones()).filter(|&place| suit.without(1, place).is_sets());
    let waits = singles.fold(0, |all, place| all | 1 << (place / 4));
    Each(suit.twos()).fold(waits, |all, place| {
        all | waits_for_sets(&suit.without(2, place), (sum + place as u64 / 4) % 3)
    })
}

/// The kinds that complete sets and a pair.
fn standard_waits(concealed: &Counts) -> u64 {
    let suits = [0, 1, 2, 3].map(|suit| Suit::of(concealed, suit));
    let sums = suits.map(|suit| suit.sums());
    let with_rest = |rest: u64| (0..4).filter(move |&suit| sums[suit].0 == rest);
    let are_sets = |mut skipped: [usize; 2]| {
        skipped.sort_unstable();
        (0..4).all(|suit| skipped.contains(&suit) || suits[suit].is_sets())
    };
    let (mut ones, mut twos) = (with_rest(1), with_rest(2));
    match (ones.next(), ones.next(), twos.next(), twos.next(), twos.next()) {
        (Some(suit), None, None, None, None) if are_sets([suit, suit]) => waits_for_pair(&suits[suit], sums[suit].1) << (9 * suit),
        (None, None, Some(one), Some(two), None) if are_sets([one, two]) => {
            let taken = |taker: usize, other: usize| {
                let waits = waits_for_sets(&suits[taker], sums[taker].1);
                if waits != 0 && suits[other].is_sets_and_pair(sums[other].1) { waits << (9 * taker) } else { 0 }
            };
            taken(one, two) | taken(two, one)
        }
        _ => 0,
    }
}

/// The kinds that complete seven pairs or the orphans.
fn special_waits(counts: &Counts) -> u64 {
    let [one, two, three] = [1, 2, 3].map(|number| at_least(counts, number));
    let pairs = if (two & !three).count_ones() == 6 { one & !two } else { 0 };
    let (held, has_two) = (one & ORPHANS, two & ORPHANS != 0);
    let orphans = match held.count_ones() + u32::from(has_two) {
        13 if has_two => ORPHANS & !held,
        13 => ORPHANS,
        _ => 0,
    };
    pairs | orphans
}

pub fn write_waits(out: &mut Vec<u8>, concealed: &Counts, melds: &Melds) {
    let mut held = *concealed;
    melds.add_to(&mut held);
    let special = if melds.count == 0 { special_waits(concealed) } else { 0 };
    let waits = (special | standard_waits(concealed)) & !at_least(&held, 4) & ALL;
    let mut pen = Pen::new(out, 64);
    pen.word(u64::from_le_bytes(*b"waits   "), 6);
    if waits == 0 {
        return pen.byte(b'-');
    }
    for (suit, letter) in [b'm', b'p', b's', b'z'].into_iter().enumerate() {
        let ranks = waits >> (9 * suit) & 511;
        if ranks != 0 {
            Each(ranks).for_each(|rank| pen.byte(b'1' + rank as u8));
            pen.byte(letter);
        }
    }
}
