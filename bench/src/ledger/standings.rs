//! The standings of a tournament, in plain Rust: docs/GAME.md has its rules.
use super::ends::finals;
use super::game::{lines_of, thousands, Desk, Game};
use super::words::words_of;
use std::collections::BTreeMap;
use std::fmt::Write;

/// What a player has of a game.
struct Result {
    session: usize,
    place: usize,
    points: i64,
}

/// What each player has, by name.
#[derive(Default)]
pub struct Hall {
    players: BTreeMap<String, Vec<Result>>,
}

/// What parts players with equal totals.
#[derive(Clone, Copy)]
pub enum Parts {
    Nothing,
    Firsts,
    Best,
}

/// The session that the words of a line `game` say.
fn session_in(words: &[&str]) -> Option<usize> {
    words.iter().find_map(|word| word.strip_prefix("session=")).and_then(|number| number.parse().ok())
}

impl Hall {
    /// Takes the games of a text; each has to be over.
    pub fn take(&mut self, text: &[u8]) {
        let mut desk = Desk::new();
        let mut session = None;
        for line in lines_of(text) {
            let read = std::str::from_utf8(line).unwrap_or("");
            let words = words_of(read);
            if words.first() == Some(&"game") {
                self.take_game(desk.game(), session);
                session = session_in(&words);
            }
            desk.line(line);
        }
        self.take_game(desk.game(), session);
    }

    fn take_game(&mut self, game: Option<&Game>, session: Option<usize>) {
        let Some(game) = game else {
            return;
        };
        assert!(game.is_over, "a game isn't over");
        let ends = finals(&game.rules, &game.state, &game.penalties);
        for player in 0..4 {
            let results = self.players.entry(game.names[player].clone()).or_default();
            let session = session.unwrap_or(results.len() + 1);
            results.push(Result { session, place: ends.places[player], points: ends.totals[player] });
        }
    }

    /// A line a player.
    pub fn text(&self, parts: Parts) -> String {
        let key = |results: &Vec<Result>| {
            let total: i64 = results.iter().map(|one| one.points).sum();
            let more = match parts {
                Parts::Nothing => 0,
                Parts::Firsts => results.iter().filter(|one| one.place == 1).count() as i64,
                Parts::Best => results.iter().map(|one| one.points).max().unwrap_or(0),
            };
            (total, more)
        };
        let sessions = || self.players.values().flatten().map(|one| one.session);
        let (first, last) = (sessions().min().unwrap_or(1), sessions().max().unwrap_or(0));
        let place = |own: &Vec<Result>| 1 + self.players.values().filter(|other| key(other) > key(own)).count();
        let mut rows: Vec<(usize, &String, &Vec<Result>)> = self.players.iter().map(|(name, own)| (place(own), name, own)).collect();
        rows.sort_by_key(|(place, name, _)| (*place, *name));
        let mut out = String::new();
        for (place, name, own) in rows {
            write!(out, "place {place} {name} total {} games {} sessions", thousands(key(own).0), own.len()).expect("texts grow");
            for session in first..=last {
                let points = own.iter().find(|one| one.session == session).map(|one| thousands(one.points));
                write!(out, " {}", points.as_deref().unwrap_or("-")).expect("texts grow");
            }
            out.push('\n');
        }
        out
    }
}
