//! The ledger of a game, in plain Rust: docs/GAME.md has its rules.
mod coverage;
pub mod ends;
pub mod game;
pub mod judge;
pub mod need;
pub mod random;
pub mod rules;
mod run;
mod settle;
pub mod standings;
pub mod state;
#[cfg(test)]
mod tests;
pub mod words;

pub use run::{answer, answer_need, answer_standings, write_texts, write_tournament};
