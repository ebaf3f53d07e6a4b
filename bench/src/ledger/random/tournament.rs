//! A tournament by chance: players who are seated anew for each session, and games that are played to their ends.
use super::lines::Maker;
use crate::input::Dice;
use crate::ledger::game::Game;
use crate::ledger::judge::judge;
use crate::ledger::rules::read_game;
use crate::ledger::words::{read_words, words_of};

/// A game has so many lines at most; then time is over.
const MOST_LINES: usize = 40;

/// Rules of a whole tournament.
const RULES: [&str; 5] = ["", "table=league", "table=online", "left=lost chombo=mangan uma=30,10,-10,-30", "ties=seat start=25000 nagashi=on"];

/// A game with these names, session and table, as its lines.
fn game(dice: &mut Dice, names: &[String], rules: &str, session: usize, table: usize) -> Vec<String> {
    let first = format!("game {} {rules} session={session} at={table}", names.join(" "));
    let words = words_of(&first);
    let (names, rules) = read_game(&words[1..]).expect("a game begins");
    let mut game = Game::new(names, rules);
    let mut lines = vec![first.clone()];
    while !game.is_over && lines.len() < MOST_LINES {
        let line = Maker { dice, game: &game }.line();
        let words = words_of(&line);
        if words == ["undo"] {
            continue;
        }
        let Some(read) = words.split_first().and_then(|(first, rest)| read_words(first, rest)) else {
            continue;
        };
        if let Ok(step) = judge(&game, &read) {
            game.apply(&step);
            lines.push(line);
        }
    }
    if !game.is_over {
        lines.push("end".into());
    }
    lines
}

/// The texts of the sessions of a tournament, each with all of its games.
pub fn tournament(dice: &mut Dice, players: usize, sessions: usize) -> Vec<String> {
    let mut names: Vec<String> = (1..=players).map(|number| format!("P{number:03}")).collect();
    let rules = RULES[dice.below(RULES.len())];
    let mut texts = Vec::new();
    for session in 1..=sessions {
        for at in (1..names.len()).rev() {
            names.swap(at, dice.below(at + 1));
        }
        let games = names.chunks_exact(4).enumerate();
        let lines: Vec<String> = games.flat_map(|(table, names)| game(dice, names, rules, session, table + 1)).collect();
        texts.push(lines.join("\n") + "\n");
    }
    texts
}
