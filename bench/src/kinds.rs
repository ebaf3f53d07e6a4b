//! Sets of kinds, a bit each.
use crate::tiles::Counts;
use std::arch::x86_64::*;

pub const ALL: u64 = (1 << 34) - 1;
/// Terminals and honours.
pub const ORPHANS: u64 = 0x7f << 27 | 0x101 << 18 | 0x101 << 9 | 0x101;

/// The kinds of which there are at least so many.
#[inline(always)]
pub fn at_least(counts: &Counts, number: u8) -> u64 {
    let bits = |from: usize| unsafe {
        // SAFETY: sixteen counts begin at `from`, which is at most 18; every x86-64 has SSE2.
        let held = _mm_loadu_si128(counts.as_ptr().add(from).cast());
        u64::from(_mm_movemask_epi8(_mm_cmpgt_epi8(held, _mm_set1_epi8(number as i8 - 1))) as u32)
    };
    bits(0) | bits(16) << 16 | bits(18) << 18
}

/// Each kind of a set, in order.
pub struct Each(pub u64);

impl Iterator for Each {
    type Item = usize;

    #[inline(always)]
    fn next(&mut self) -> Option<usize> {
        if self.0 == 0 {
            return None;
        }
        let kind = self.0.trailing_zeros() as usize;
        self.0 &= self.0 - 1;
        Some(kind)
    }
}
