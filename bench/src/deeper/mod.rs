//! Second, good and calls, each by its definition alone: every kind, every discard, every call, and the distance by every
//! choice of blocks. It asks nothing of `shape.rs`.
pub mod calls;
pub mod distance;
pub mod hand;
pub mod random;
mod text;

pub use random::write_lines;
pub use text::{answer, read_hand};
