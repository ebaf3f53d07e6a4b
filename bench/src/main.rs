//! The program beside plain Rust: the same lines, in one run, as ratios.
//!
//! `bench PROGRAM [LINES]` times both; `bench answer < FILE` writes the answers of plain Rust alone;
//! `bench best TIMED` times the best score alone (`time_best` makes the program TIMED), and `bench shapes TIMED [HANDS]`
//! shapes and shanten alone (`time_shapes` makes it);
//! `bench pool PROGRAM [LINES]` times `score` beside `line`;
//! `bench study < FILE` answers questions of shapes and calls, each by its definition, and `bench studies [COUNT [SEED]]` writes
//! random ones; `bench safe < FILE` answers lines of furiten and safe tiles, and `bench safes [COUNT [SEED]]` writes random ones;
//! `bench chances TURNS [definition] < FILE` counts the draws by which the hands of `shape` lines are ready and win, `bench chance-games
//! [COUNT [SEED]]` writes small games for it, and `bench chance-hands [COUNT [SEED [TILES [LACK]]]]` hands as they are dealt; `bench chance-times
//! TIMED [HANDS]` times the program that `time_chances` makes;
//! `bench ledger < FILE` answers a text of games, `bench need NAME [PLACE [NAMES]] < FILE` says what a player needs, and
//! `bench games [COUNT [SEED [FOLDER]]]` writes random texts of games;
//! `bench seats < FILE` checks the games of a tournament's sessions, as `seats` writes them, and what their notes claim;
//! `bench standings [firsts|best] FILE..` prints the standings of a tournament, and
//! `bench tournament PLAYERS SESSIONS SEED FOLDER` writes the games of a random one.
mod answer;
mod best;
mod chances;
mod clock;
mod deeper;
mod house;
mod input;
mod kinds;
mod ledger;
mod line;
mod lines;
mod pen;
mod pool;
mod rows;
mod safe;
mod score;
mod seats;
mod shape;
mod shapes;
mod suit;
mod tiles;
mod waits;

use house::House;
use std::io::{Read, Write};

fn main() -> std::io::Result<()> {
    let words: Vec<String> = std::env::args().collect();
    match words.get(1).map(String::as_str) {
        Some("answer") => {
            let mut text = Vec::new();
            std::io::stdin().read_to_end(&mut text)?;
            let named = words.get(2).map_or(Some(House::ONE), |word| House::named(word));
            let Some(house) = named else {
                eprintln!("bench: no such rules: {}", words[2]);
                std::process::exit(2)
            };
            std::io::stdout().write_all(&answer::answers(house, &text))
        }
        Some("best") => {
            if !best::measure(&words[2])? {
                std::process::exit(1);
            }
            Ok(())
        }
        Some("shapes") => shapes::table(&words[2], words.get(3).and_then(|word| word.parse().ok()).unwrap_or(20_000)),
        Some("pool") => pool::measure(&words[2], words.get(3).and_then(|word| word.parse().ok()).unwrap_or(1_000_000)),
        Some("games") => {
            let number = |at: usize, or| words.get(at).and_then(|word| word.parse().ok()).unwrap_or(or);
            ledger::write_texts(number(2, 1000), number(3, 1) as u64, words.get(4).map(String::as_str))
        }
        Some("study") => deeper::answer(),
        Some("studies") => {
            let number = |at: usize, or| words.get(at).and_then(|word| word.parse().ok()).unwrap_or(or);
            deeper::write_lines(number(2, 1000), number(3, 1) as u64)
        }
        Some("safe") => safe::answer(),
        Some("safes") => {
            let number = |at: usize, or| words.get(at).and_then(|word| word.parse().ok()).unwrap_or(or);
            safe::write_lines(number(2, 1000), number(3, 1) as u64)
        }
        Some("chances") => {
            let turns = words.get(2).and_then(|word| word.parse().ok()).unwrap_or(17);
            chances::answer(turns, words.get(3).map(String::as_str) == Some("definition"))
        }
        Some("chance-times") => chances::measure(&words[2], words.get(3).and_then(|word| word.parse().ok()).unwrap_or(100)),
        Some("chance-games") => {
            let number = |at: usize, or| words.get(at).and_then(|word| word.parse().ok()).unwrap_or(or);
            chances::write_small(number(2, 1000), number(3, 1) as u64)
        }
        Some("chance-hands") => {
            let number = |at: usize, or| words.get(at).and_then(|word| word.parse().ok()).unwrap_or(or);
            chances::write_dealt(number(2, 1000), number(3, 1) as u64, number(4, 13), number(5, 4) as u8)
        }
        Some("standings") => ledger::answer_standings(&words[2..]),
        Some("tournament") => {
            let number = |at: usize| words.get(at).and_then(|word| word.parse().ok()).unwrap_or(4);
            ledger::write_tournament(number(2), number(3), number(4) as u64, words.get(5).map_or(".", String::as_str))
        }
        Some("ledger") => ledger::answer(words.get(2).map(String::as_str) == Some("--coverage")),
        Some("need") => {
            let place = words.get(3).and_then(|word| word.parse().ok()).unwrap_or(1);
            ledger::answer_need(&words[2], place, words.get(4).map_or("", String::as_str))
        }
        Some("seats") => seats::check(),
        Some("lines") => std::io::stdout().write_all(&input::lines(&words[2], words[3].parse().unwrap_or(1000))),
        Some(program) => {
            let count = words.get(2).and_then(|word| word.parse().ok()).unwrap_or(100_000);
            if !lines::table(program, count)? {
                std::process::exit(1);
            }
            Ok(())
        }
        None => {
            eprintln!("usage: bench PROGRAM [LINES] | bench best TIMED | bench shapes TIMED [HANDS] | bench pool PROGRAM [LINES] | bench answer [RULES] < FILE | bench study < FILE | bench studies [COUNT [SEED]] | bench safe < FILE | bench safes [COUNT [SEED]] | bench chances TURNS [definition] < FILE | bench chance-times TIMED [HANDS] | bench chance-games [COUNT [SEED]] | bench chance-hands [COUNT [SEED [TILES [LACK]]]] | bench games [COUNT [SEED [FOLDER]]] | bench ledger [--coverage] < FILE | bench standings [firsts|best] FILE.. | bench tournament PLAYERS SESSIONS SEED FOLDER | bench need NAME [PLACE [NAMES]] < FILE | bench seats < FILE | bench lines win|waits|shape13|shape14|mixed COUNT");
            std::process::exit(2)
        }
    }
}
