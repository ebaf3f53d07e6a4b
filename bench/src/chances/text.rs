//! The draws by which hands are ready, and by which they win, for each number of turns, as lines of numbers.
use super::game::{unseen, Game, Plays};
use super::graph::Graph;
use super::{all_draws, Goal};
use crate::deeper::distance::Known;
use crate::deeper::hand::Hand;
use crate::deeper::read_hand;
use crate::tiles::write_kind;
use std::io::{Read, Write};

/// How the draws are counted.
#[derive(Clone, Copy)]
struct Counting {
    turns: usize,
    by_definition: bool,
}

/// What is counted: what is reached, and the most that any of the plays reaches that may throw what brings nearer. By hands alone that
/// is a bound, which is no greater than all draws.
const ROWS: [(&str, Goal, Plays); 4] = [
    ("ready", Goal::Ready, Plays::Keeping),
    ("win", Goal::Win, Plays::Keeping),
    ("ready at most", Goal::Ready, Plays::Any),
    ("win at most", Goal::Win, Plays::Any),
];

impl Counting {
    /// The draws of thirteen tiles for each number of turns, for each row.
    fn rows(self, hand: &Hand, known: &mut Known) -> Vec<Vec<u128>> {
        let turns = 0..=self.turns;
        if self.by_definition {
            let row = |(_, goal, plays)| {
                let mut game = Game::new(plays, goal, known);
                turns.clone().map(|turns| game.draws(hand, turns)).collect()
            };
            return ROWS.map(row).into();
        }
        let mut graph = Graph::new();
        let place = graph.place(hand, known);
        let row = |(_, goal, plays)| {
            let number = |turns| graph.rows(goal, unseen(hand), turns, plays == Plays::Any)[place][turns];
            turns.clone().map(|turns| number(turns).min(all_draws(unseen(hand), turns))).collect()
        };
        ROWS.map(row).into()
    }

    fn write(self, out: &mut Vec<u8>, hand: &Hand, known: &mut Known) {
        for ((name, _, _), row) in ROWS.iter().zip(self.rows(hand, known)) {
            write_row(out, name, &row);
        }
        let all: Vec<u128> = (0..=self.turns).map(|turns| all_draws(unseen(hand), turns)).collect();
        write_row(out, "all", &all);
    }
}

fn write_row(out: &mut Vec<u8>, name: &str, numbers: &[u128]) {
    out.extend_from_slice(name.as_bytes());
    for number in numbers {
        out.extend_from_slice(format!(" {number}").as_bytes());
    }
    out.push(b'\n');
}

/// The best discards of fourteen tiles, those with the most live tiles first.
fn discards(hand: &Hand, known: &mut Known) -> Vec<usize> {
    let mut discards = hand.best(known);
    discards.sort_by_key(|&kind| std::cmp::Reverse(hand.without(kind).live_in_all(known)));
    discards
}

/// Answers the lines of standard input.
pub fn answer(turns: usize, by_definition: bool) -> std::io::Result<()> {
    let mut text = String::new();
    std::io::stdin().read_to_string(&mut text)?;
    let (mut out, mut known) = (Vec::new(), Known::default());
    let counting = Counting { turns, by_definition };
    for line in text.lines() {
        out.extend_from_slice(format!("{line}\n").as_bytes());
        let Some(hand) = read_hand(line) else {
            continue;
        };
        if hand.tiles.iter().sum::<u8>() as usize + 3 * hand.melds.count == 13 {
            counting.write(&mut out, &hand, &mut known);
            continue;
        }
        for kind in discards(&hand, &mut known) {
            out.extend_from_slice(b"discard ");
            write_kind(&mut out, kind);
            out.push(b'\n');
            counting.write(&mut out, &hand.without(kind), &mut known);
        }
    }
    std::io::stdout().write_all(&out)
}
