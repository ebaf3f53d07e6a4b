//! A suit in one word.
use crate::kinds::Each;
use crate::tiles::Counts;

/// The tiles of a suit, four bits a rank: the place of a rank is the first of them.
#[derive(Clone, Copy)]
pub struct Suit {
    pub tiles: u64,
    pub has_runs: bool,
}

/// A bit that no count of a rank has: set where a rank had too few.
const TOO_FEW: u64 = 0x8888_8888_8888_8888;
/// The first bit of each rank.
const FIRSTS: u64 = 0x1_1111_1111;
/// Ranks 0, 3 and 6.
const THIRDS: u64 = 0xf00f00f;

/// A number modulo three, up to four.
#[inline(always)]
fn modulo_three(number: u64) -> u64 {
    0b01_00_10_01_00 >> (2 * number) & 3
}

impl Suit {
    pub fn of(counts: &Counts, suit: usize) -> Suit {
        let first = if suit < 3 { 9 * suit } else { 26 };
        let bytes = counts[first..].first_chunk().expect("eight counts begin here");
        let mut tiles = u64::from_le_bytes(*bytes) >> if suit < 3 { 0 } else { 8 };
        tiles = (tiles | tiles >> 4) & 0x00ff_00ff_00ff_00ff;
        tiles = (tiles | tiles >> 8) & 0x0000_ffff_0000_ffff;
        tiles = (tiles | tiles >> 16) & 0xffff_ffff;
        let ninth = if suit < 3 { counts[9 * suit + 8] } else { 0 };
        Suit { tiles: tiles | u64::from(ninth) << 32, has_runs: suit < 3 }
    }

    /// How many tiles, and the sum of their ranks, modulo three.
    pub fn sums(&self) -> (u64, u64) {
        let third = |from: u64| {
            let tiles = self.tiles >> from & THIRDS;
            (tiles + (tiles >> 12) + (tiles >> 24)) & 15
        };
        let (zero, one, two) = (third(0), third(4), third(8));
        ((zero + one + two) % 3, (one + 2 * two) % 3)
    }

    /// With one tile more at a place.
    pub fn with(&self, place: usize) -> Suit {
        Suit { tiles: self.tiles + (1 << place), ..*self }
    }

    pub fn without(&self, number: u64, place: usize) -> Suit {
        Suit { tiles: self.tiles - (number << place), ..*self }
    }

    /// The places of all ranks of which there are two tiles or more.
    pub fn twos(&self) -> u64 {
        (self.tiles >> 1 | self.tiles >> 2) & FIRSTS
    }

    /// The places of all ranks of which there is a tile.
    pub fn ones(&self) -> u64 {
        self.twos() | self.tiles & FIRSTS
    }

    /// All tiles are sets: the lowest rank is triplets, and the rest of it are runs.
    #[inline(always)]
    pub fn is_sets(&self) -> bool {
        let mut tiles = self.tiles;
        if !self.has_runs {
            return (tiles ^ tiles >> 1) & 0x1111_1111 == 0 && tiles & 0x4444_4444 == 0;
        }
        while tiles != 0 {
            let at = tiles.trailing_zeros() & !3;
            let held = tiles >> at & 7;
            tiles = tiles.wrapping_sub((held + modulo_three(held) * 0x110) << at);
            if tiles & TOO_FEW != 0 {
                return false;
            }
        }
        true
    }

    /// The places of the ranks that are so much modulo three in a suit with runs, and of all ranks of honours.
    pub fn places(&self, modulo: u64) -> u64 {
        if self.has_runs { 0x1_001_001 << (4 * (modulo % 3)) } else { 0x111_1111 }
    }

    /// All tiles are sets and a pair.
    pub fn is_sets_and_pair(&self, sum: u64) -> bool {
        Each(self.places(2 * sum) & self.twos()).any(|place| self.without(2, place).is_sets())
    }
}
