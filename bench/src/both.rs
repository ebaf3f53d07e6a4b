//! Two ledgers of a game beside each other: plain Rust's, and the proved one of the static library.
//!
//! `both COUNT [SEED]` makes so many random texts of games. Each entry that plain Rust reads from them is given to both, and must be
//! accepted or refused by both for the same reason; then state, changes, final points and what a player needs must be the same. It
//! prints how many games and entries that were, and ends with status 1 at the first difference. `./test` builds it over the archive.
#![allow(dead_code, unused_imports)]
mod answer;
mod house;
mod input;
mod kinds;
mod ledger;
mod library;
mod line;
mod pen;
mod rows;
mod score;
mod shape;
mod suit;
mod tiles;
mod waits;

use input::Dice;
use ledger::game::{lines_of, Desk, Game};
use ledger::judge::{entry_of, step_of};
use ledger::need::Need;
use ledger::rules::Rules;
use ledger::words::{read_words, words_of, FIRST};
use library::Library;

/// What both were asked so far.
#[derive(Default)]
struct Asked {
    games: u64,
    accepted: u64,
    refused: u64,
    needs: u64,
}

/// Ends the program where the two differ.
fn same<T: PartialEq + std::fmt::Debug>(what: &str, plain: T, proved: T, game: &Game, line: &str) {
    if plain != proved {
        println!("{what} differs\n  line   {line}\n  game   {game:?}\n  plain  {plain:?}\n  proved {proved:?}");
        std::process::exit(1);
    }
}

/// Asks both of a line of a game, where it says an entry.
fn ask(asked: &mut Asked, dice: &mut Dice, game: &Game, line: &str) {
    let library = Library::new(game);
    let words = words_of(line);
    let Some((first, rest)) = words.split_first().filter(|(first, _)| FIRST.contains(first)) else {
        return;
    };
    let Some(read) = read_words(first, rest) else {
        return;
    };
    let Ok(entry) = entry_of(game, &read) else {
        return;
    };
    let step = step_of(game, &entry);
    let told = library.after(&entry);
    same("acceptance", step.as_ref().err().map(|fault| fault.code), told.as_ref().err().copied(), game, line);
    let (Ok(step), Ok(told)) = (step, told) else {
        asked.refused += 1;
        return;
    };
    asked.accepted += 1;
    let mut after = game.clone();
    after.apply(&step);
    same("the state", (after.state, after.penalties, after.is_over), told.progress(), game, line);
    same("the changes", ledger::judge::changes(&game.state.points, &after.state.points), library.changes(&entry), game, line);
    let finals = ledger::ends::finals(&after.rules, &after.state, &after.penalties);
    same("the end", (finals.points, finals.places, finals.bonuses, finals.totals), told.finals(), game, line);
    if dice.below(8) == 0 && !after.is_over {
        asked.needs += 1;
        ask_need(dice, &told, &after, line);
    }
}

fn ask_need(dice: &mut Dice, library: &Library, game: &Game, line: &str) {
    let (player, place) = (dice.below(4), 1 + dice.below(4));
    let bets = [0, 1, 2, 3].map(|other| other != player && dice.below(6) == 0);
    let need = Need { game, player, place, bets };
    let least = |discarder: Option<usize>| [true, false].map(|is_strict| need.least_base(discarder, is_strict));
    let ways = [0, 1, 2, 3].map(|other| if other == player { [None; 2] } else { least(Some(other)) });
    let told = library.needs(player, place, bets);
    same("what is needed", (ways, least(None)), told, game, line);
}

fn main() {
    let words: Vec<u64> = std::env::args().skip(1).map(|word| word.parse().expect("a number")).collect();
    let (count, seed) = (words.first().copied().unwrap_or(1000), words.get(1).copied().unwrap_or(1));
    library::same_tables(&[Rules::CLUB, Rules::LEAGUE, Rules::ONLINE]);
    let mut dice = Dice::new(seed.wrapping_mul(0x9e37_79b9_7f4a_7c15) | 1);
    let mut asked = Asked::default();
    while asked.games < count {
        let text = ledger::random::text(&mut dice);
        let mut desk = Desk::new();
        for line in lines_of(&text) {
            asked.games += u64::from(line.starts_with(b"game"));
            if let (Some(game), Ok(line)) = (desk.game(), std::str::from_utf8(line)) {
                ask(&mut asked, &mut dice, game, line);
            }
            desk.line(line);
        }
    }
    let Asked { games, accepted, refused, needs } = asked;
    println!("{games} games, {accepted} entries, {refused} refused, {needs} needs: no difference");
}
