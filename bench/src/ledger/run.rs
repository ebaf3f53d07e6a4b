//! The commands of the ledger.
use super::coverage::Tally;
use super::game::answers;
use super::need::needs;
use super::random::{text, tournament};
use super::standings::{Hall, Parts};
use crate::input::Dice;
use std::io::{Read, Result, Write};
use std::path::Path;

fn input() -> Result<Vec<u8>> {
    let mut text = Vec::new();
    std::io::stdin().read_to_end(&mut text)?;
    Ok(text)
}

fn print_tally(tally: &Tally) {
    tally.0.iter().for_each(|(name, count)| println!("{count:8} {name}"));
}

/// Answers the text of games on standard input, or counts what it has.
pub fn answer(is_counted: bool) -> Result<()> {
    let (out, tally) = answers(&input()?);
    if is_counted {
        print_tally(&tally);
        return Ok(());
    }
    std::io::stdout().write_all(out.as_bytes())
}

/// Says what a player needs for a place, with the bets of others.
pub fn answer_need(name: &str, place: usize, riichi: &str) -> Result<()> {
    let bettors: Vec<&str> = riichi.split(',').filter(|name| !name.is_empty()).collect();
    let told = needs(&input()?, name, place, &bettors);
    std::io::stdout().write_all(told.as_deref().unwrap_or("none: no game, no such player, or no such place\n").as_bytes())
}

/// Writes so many random texts: as files of a folder, or one after the other.
pub fn write_texts(count: usize, seed: u64, folder: Option<&str>) -> Result<()> {
    let mut dice = Dice::new(seed.wrapping_mul(0x9e37_79b9_7f4a_7c15) | 1);
    for number in 0..count {
        let mut text = text(&mut dice);
        match folder {
            Some(folder) => std::fs::write(Path::new(folder).join(format!("{number}.game")), text)?,
            None => {
                if !text.ends_with(b"\n") {
                    text.push(b'\n');
                }
                std::io::stdout().write_all(&text)?;
            }
        }
    }
    Ok(())
}

/// Prints the standings of a tournament by the games of files; before them `firsts` or `best` may say what parts equal totals.
pub fn answer_standings(words: &[String]) -> Result<()> {
    let (parts, files) = match words.first().map(String::as_str) {
        Some("firsts") => (Parts::Firsts, &words[1..]),
        Some("best") => (Parts::Best, &words[1..]),
        Some("") => (Parts::Nothing, &words[1..]),
        _ => (Parts::Nothing, words),
    };
    let mut hall = Hall::default();
    for file in files {
        hall.take(&std::fs::read(file)?);
    }
    std::io::stdout().write_all(hall.text(parts).as_bytes())
}

/// Writes a random tournament into a folder: a file for each session.
pub fn write_tournament(players: usize, sessions: usize, seed: u64, folder: &str) -> Result<()> {
    let mut dice = Dice::new(seed.wrapping_mul(0x9e37_79b9_7f4a_7c15) | 1);
    for (at, text) in tournament(&mut dice, players, sessions).iter().enumerate() {
        std::fs::write(Path::new(folder).join(format!("session-{}.game", at + 1)), text)?;
    }
    Ok(())
}
