//! Random lines of each sort, from a fixed seed.
use crate::tiles::{write_counts, write_kind, Counts};

pub struct Dice(u64);

impl Dice {
    pub fn new(seed: u64) -> Dice {
        Dice(seed)
    }

    pub fn below(&mut self, number: usize) -> usize {
        self.0 ^= self.0 << 13;
        self.0 ^= self.0 >> 7;
        self.0 ^= self.0 << 17;
        (self.0 >> 11) as usize % number
    }
}

/// A complete hand of four sets and a pair, not too scattered.
fn complete(dice: &mut Dice) -> Counts {
    loop {
        let mut counts = [0u8; 34];
        for _ in 0..4 {
            let kind = dice.below(34);
            if kind < 27 && kind % 9 < 7 && dice.below(4) > 0 {
                (kind..kind + 3).for_each(|kind| counts[kind] += 1);
            } else {
                counts[kind] += 3;
            }
        }
        counts[dice.below(34)] += 2;
        if counts.iter().all(|&held| held <= 4) {
            return counts;
        }
    }
}

/// Tiles drawn from a wall, as a player holds them after a few draws.
fn drawn(dice: &mut Dice, size: usize, changes: usize) -> Counts {
    let mut counts = complete(dice);
    let mut total = 14;
    let mut left = changes;
    while total > size || left > 0 {
        let kind = dice.below(34);
        if counts[kind] > 0 && total > size {
            counts[kind] -= 1;
            total -= 1;
        }
        let kind = dice.below(34);
        if left > 0 && total < 14 && counts[kind] < 4 {
            counts[kind] += 1;
            total += 1;
            left -= 1;
        }
        if left > 0 && total == 14 {
            total -= 1;
            let kind = (0..34).find(|&kind| counts[kind] > 0 && dice.below(3) == 0);
            match kind {
                Some(kind) => counts[kind] -= 1,
                None => total += 1,
            }
        }
    }
    counts
}

fn winning(dice: &mut Dice, counts: &Counts) -> usize {
    loop {
        let kind = dice.below(34);
        if counts[kind] > 0 {
            return kind;
        }
    }
}

fn win_line(dice: &mut Dice, out: &mut Vec<u8>) {
    let mut counts = complete(dice);
    let on = winning(dice, &counts);
    counts[on] -= 1;
    out.extend_from_slice(b"win ");
    write_counts(out, &counts);
    out.extend_from_slice(b" on=");
    write_kind(out, on);
    out.extend_from_slice(if dice.below(2) == 0 { b" by=ron" } else { b" by=tsumo" });
    out.extend_from_slice(b" seat=");
    out.push(b"ESWN"[dice.below(4)]);
    out.extend_from_slice(b" round=");
    out.push(b"ES"[dice.below(2)]);
    if dice.below(2) == 0 {
        out.extend_from_slice(b" riichi=1");
    }
}

/// The sorts of lines; `mixed` has the four others, which one by chance.
pub const SORTS: [&str; 5] = ["win", "waits", "shape13", "shape14", "mixed"];

fn hand_line(dice: &mut Dice, out: &mut Vec<u8>, word: &[u8], size: usize, changes: usize) {
    out.extend_from_slice(word);
    write_counts(out, &drawn(dice, size, changes));
}

/// So many lines of a sort.
pub fn lines(sort: &str, count: usize) -> Vec<u8> {
    let mut dice = Dice::new(88172645463325252);
    let mut out = Vec::new();
    for _ in 0..count {
        let sort = if sort == "mixed" { SORTS[dice.below(4)] } else { sort };
        match sort {
            "win" => win_line(&mut dice, &mut out),
            "waits" => hand_line(&mut dice, &mut out, b"waits ", 13, 0),
            "shape13" => hand_line(&mut dice, &mut out, b"shape ", 13, 4),
            _ => hand_line(&mut dice, &mut out, b"shape ", 14, 4),
        }
        out.push(b'\n');
    }
    out
}
