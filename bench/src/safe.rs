//! Furiten and safe tiles, from the rules alone: lines `safe HAND [open=..] [seen=..] [own=..] [thrown=..] [since=..]`.
use crate::deeper::distance::Known;
use crate::deeper::hand::Hand;
use crate::deeper::random::{draw, random_hand, write_keys};
use crate::input::Dice;
use crate::tiles::{read_meld, read_tiles, write_counts, write_kind, Counts, Melds};
use std::io::{Read, Write};

/// A hand, and what was thrown by its player, by the threatening player, and by all since that player's riichi.
struct Asked {
    hand: Hand,
    own: Counts,
    thrown: Counts,
    since: Counts,
}

impl Asked {
    fn read(words: &[&str]) -> Option<Asked> {
        let hand = Hand { tiles: read_tiles(words.first()?.as_bytes()).ok()?.counts, melds: Melds::none(), seen: [0; 34] };
        let mut asked = Asked { hand, own: [0; 34], thrown: [0; 34], since: [0; 34] };
        for word in &words[1..] {
            let (key, value) = word.split_once('=')?;
            if key == "open" {
                for text in value.split(',') {
                    asked.hand.melds.items[asked.hand.melds.count] = read_meld(text.as_bytes())?.0;
                    asked.hand.melds.count += 1;
                }
                continue;
            }
            let counts = match key {
                "seen" => &mut asked.hand.seen,
                "own" => &mut asked.own,
                "thrown" => &mut asked.thrown,
                "since" => &mut asked.since,
                _ => return None,
            };
            *counts = read_tiles(value.as_bytes()).ok()?.counts;
        }
        Some(asked)
    }

    /// A player is furiten on what it has thrown, and after its riichi on all that it let pass.
    fn is_passed(&self, kind: usize) -> bool {
        self.thrown[kind] > 0 || self.since[kind] > 0
    }

    /// No copy of the kind is left that another player could hold.
    fn are_all_seen(&self, kind: usize) -> bool {
        self.hand.live(kind) == self.own[kind] + self.thrown[kind] + self.since[kind]
    }

    /// Each run of three that has the kind at an end, without it: the two tiles that wait, where they wait for a kind at their other
    /// side too; the lower two first.
    fn neighbours(kind: usize) -> Vec<([usize; 2], usize)> {
        let rank = kind % 9;
        let mut found = Vec::new();
        if kind < 27 && rank >= 3 {
            found.push(([kind - 2, kind - 1], kind - 3));
        }
        if kind < 27 && rank <= 5 {
            found.push(([kind + 1, kind + 2], kind + 3));
        }
        found
    }

    fn state(&self, held: [usize; 2], other: usize) -> &'static str {
        if self.is_passed(other) {
            "suji"
        } else if held.iter().any(|&kind| self.are_all_seen(kind)) {
            "wall"
        } else {
            "open"
        }
    }

    /// The kinds that complete thirteen tiles, of which the hand itself hasn't all four copies.
    fn waits(&self, known: &mut Known) -> Vec<usize> {
        let mut held = self.hand.tiles;
        self.hand.melds.add_to(&mut held);
        (0..34).filter(|&kind| held[kind] < 4 && self.hand.with(kind).distance(known) == 0).collect()
    }

    fn write_furiten(&self, out: &mut Vec<u8>, known: &mut Known) {
        let waits = self.waits(known);
        if waits.is_empty() {
            return;
        }
        out.extend_from_slice(b" furiten");
        write_kinds(out, waits.into_iter().filter(|&kind| self.own[kind] > 0).collect());
    }

    fn answer(&self, out: &mut Vec<u8>, known: &mut Known) {
        let held = |kind: &usize| self.hand.tiles[*kind] > 0;
        out.extend_from_slice(b"safe");
        write_kinds(out, (0..34).filter(held).filter(|&kind| self.is_passed(kind)).collect());
        for kind in (0..34).filter(held).filter(|&kind| !self.is_passed(kind)) {
            let waits = Asked::neighbours(kind);
            if waits.is_empty() {
                continue;
            }
            out.extend_from_slice(b" discard ");
            write_kind(out, kind);
            for ([low, high], other) in waits {
                let state = self.state([low, high], other);
                out.extend_from_slice(format!(" {}{}{}:{state}", low % 9 + 1, high % 9 + 1, ["m", "p", "s"][low / 9]).as_bytes());
            }
        }
        if self.hand.tiles.iter().sum::<u8>() as usize + 3 * self.hand.melds.count == 13 {
            self.write_furiten(out, known);
        }
    }
}

fn write_kinds(out: &mut Vec<u8>, kinds: Vec<usize>) {
    if kinds.is_empty() {
        out.extend_from_slice(b" none");
    }
    for kind in kinds {
        out.push(b' ');
        write_kind(out, kind);
    }
}

/// Answers the lines of standard input.
pub fn answer() -> std::io::Result<()> {
    let mut text = String::new();
    std::io::stdin().read_to_string(&mut text)?;
    let (mut out, mut known) = (Vec::new(), Known::default());
    for line in text.lines() {
        let words: Vec<&str> = line.split(' ').collect();
        match (words[0], Asked::read(&words[1..])) {
            ("safe", Some(asked)) => asked.answer(&mut out, &mut known),
            _ => out.extend_from_slice(b"?"),
        }
        out.push(b'\n');
    }
    std::io::stdout().write_all(&out)
}

/// Random lines: hands with melds and seen tiles, and up to 24 thrown tiles; some of what a hand waits for is among its own.
pub fn write_lines(count: usize, seed: u64) -> std::io::Result<()> {
    let (mut dice, mut known, mut out) = (Dice::new(seed * 2 + 1), Known::default(), Vec::new());
    for _ in 0..count {
        let size = if dice.below(4) > 0 { 13 } else { 14 };
        let hand = random_hand(&mut dice, &mut known, size);
        // all that is seen, so that no kind has a fifth copy
        let mut all = hand;
        let mut lists = [[0; 34]; 3];
        for list in &mut lists {
            for _ in 0..[0, 2, 8, 16][dice.below(4)] {
                let kind = draw(&mut dice, &all);
                all.seen[kind] += 1;
                list[kind] += 1;
            }
        }
        let asked = Asked { hand, own: lists[0], thrown: lists[1], since: lists[2] };
        for kind in if size == 13 { asked.waits(&mut known) } else { Vec::new() } {
            if all.live(kind) > 0 && dice.below(3) == 0 {
                all.seen[kind] += 1;
                lists[0][kind] += 1;
            }
        }
        out.extend_from_slice(b"safe ");
        write_counts(&mut out, &hand.tiles);
        write_keys(&mut out, &hand);
        for (name, list) in ["own", "thrown", "since"].iter().zip(&lists) {
            if list.iter().any(|&tiles| tiles > 0) {
                out.extend_from_slice(format!(" {name}=").as_bytes());
                write_counts(&mut out, list);
            }
        }
        out.push(b'\n');
    }
    std::io::stdout().write_all(&out)
}
