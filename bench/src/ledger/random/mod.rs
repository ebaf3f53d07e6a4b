//! Random texts of games, from a seed: rules of all tables, outcomes of every kind, and lines with every fault.
mod hands;
mod lines;
mod tables;
mod tournament;

use super::game::{Desk, Game};
use crate::input::Dice;
use lines::Maker;
pub use tournament::tournament;

fn one_in(dice: &mut Dice, number: usize) -> bool {
    dice.below(number) == 0
}

fn chosen<'a>(dice: &mut Dice, all: &[&'a str]) -> &'a str {
    all[dice.below(all.len())]
}

/// Lines that are none of a game.
const STRAY: [&str; 8] = ["win 234m567m345p67s99s on=5s by=ron seat=S round=E", "rules 2", "Ron 1 from 2 1.30", "hello", "games", "final 1", "over", "left 2"];

/// A text, and the desk that answers it.
struct Text<'a> {
    dice: &'a mut Dice,
    desk: Desk,
    out: Vec<u8>,
    end: &'static [u8],
}

impl Text<'_> {
    fn one_in(&mut self, number: usize) -> bool {
        one_in(self.dice, number)
    }

    fn push(&mut self, line: &[u8]) {
        self.desk.line(line);
        self.out.extend_from_slice(line);
        self.out.extend_from_slice(self.end);
    }

    /// A line with a note, more spaces, or as it is.
    fn push_text(&mut self, line: &str) {
        let line = match self.dice.below(40) {
            0 => format!("{line} # a note, riichi Anna"),
            1 => format!("  {}  ", line.replace(' ', "  ")),
            2 => format!("{line} #"),
            3 if self.dice.below(2) == 0 => format!("{line}{}", " ".repeat(4096 - line.len().min(4096))),
            _ => line.into(),
        };
        self.push(line.as_bytes());
        if self.one_in(30) {
            let blank = chosen(self.dice, &["", " ", "# a note", "   # one", "#"]);
            self.push(blank.as_bytes());
        }
    }

    /// A line that can't be read.
    fn push_unread(&mut self, line: &str) {
        let mut bytes = line.as_bytes().to_vec();
        let at = self.dice.below(bytes.len() + 1);
        match self.dice.below(5) {
            0 => bytes.insert(at, b'\t'),
            1 => bytes.insert(at, 0xff),
            2 => bytes.insert(at, 0x7f),
            3 => bytes.extend(b" # ".iter().chain(&[0x01])),
            _ => bytes.resize(4097, b' '),
        }
        self.push(&bytes);
    }

    /// A line of the game that goes on, or of the one that was.
    fn line(&mut self, game: &Game) -> String {
        let mut maker = Maker { dice: self.dice, game };
        let line = maker.line();
        if one_in(maker.dice, 60) { maker.spoilt(&line) } else { line }
    }

    fn push_line(&mut self, game: &Game) {
        let line = self.line(game);
        if self.one_in(250) {
            self.push_unread(&line);
        } else if self.one_in(250) {
            let stray = chosen(self.dice, &STRAY);
            self.push_text(stray);
        } else {
            self.push_text(&line);
        }
    }

    fn stands(&mut self, game: &Game) {
        let line = Maker { dice: self.dice, game }.stands();
        self.push_text(&line);
    }

    /// A game: deals until it is over or refused, and a few lines behind that.
    fn game(&mut self) {
        let line = tables::game(self.dice);
        self.push_text(&line);
        let Some(begun) = self.desk.game().cloned() else {
            if self.one_in(2) {
                self.push_text("ron 1 from 2 1.30");
            }
            return;
        };
        let mut game = begun;
        if self.one_in(2) {
            self.stands(&game);
            if self.one_in(8) {
                self.push_text("end");
            }
        }
        for _ in 0..3 + self.dice.below(24) {
            match self.desk.game() {
                Some(now) if !now.is_over => game = now.clone(),
                None if one_in(self.dice, 3) => {
                    self.push_text("undo");
                    continue;
                }
                _ => break,
            }
            self.push_line(&game);
        }
        if self.desk.game().is_some_and(|game| !game.is_over) && self.one_in(3) {
            self.push_text("end");
        }
        self.behind(&game);
    }

    /// Lines behind the last one of a game, or of one that has a refused line.
    fn behind(&mut self, game: &Game) {
        let is_refused = self.desk.game().is_none();
        if is_refused && self.one_in(2) || self.one_in(5) {
            for _ in 0..1 + self.dice.below(3) {
                let line = match self.dice.below(9) {
                    0..=2 => "penalty 1 1000".into(),
                    3 => "undo".into(),
                    _ => self.line(game),
                };
                self.push_text(&line);
            }
        }
    }
}

/// A text of some games.
pub fn text(dice: &mut Dice) -> Vec<u8> {
    let end: &[u8] = if one_in(dice, 8) { b"\r\n" } else { b"\n" };
    let mut text = Text { dice, desk: Desk::new(), out: Vec::new(), end };
    if text.one_in(25) {
        let stray = chosen(text.dice, &STRAY);
        text.push_text(stray);
    }
    for _ in 0..1 + text.dice.below(3) {
        text.game();
    }
    let mut out = text.out;
    if one_in(dice, 12) {
        out.truncate(out.len() - end.len());
    }
    out
}
