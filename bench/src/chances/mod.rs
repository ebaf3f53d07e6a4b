//! Chances by turn, twice: by the definition alone, over every draw and discard (`game`), and by each hand that may be come to
//! once (`graph`). Neither asks the other, and both have the distance by every choice of blocks.
mod game;
mod graph;
mod random;
mod text;
mod times;

pub use random::{write_dealt, write_small};
pub use text::answer;
pub use times::measure;

/// What a hand is to reach: how many tiles it may lack then.
#[derive(Clone, Copy, PartialEq, Eq, Hash)]
pub enum Goal {
    Ready = 1,
    Win = 0,
}

/// How many ordered draws of so many tiles there are out of some.
pub fn all_draws(unseen: u128, turns: usize) -> u128 {
    (0..turns as u128).map(|gone| unseen.saturating_sub(gone)).product()
}
