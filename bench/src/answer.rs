//! The answers of a text, line by line.
use crate::house::House;
use crate::line::{read_line, Job, LineFault};
use crate::rows::Kept;
use crate::score::{best, write_answer};
use crate::shape::write_shape;
use crate::tiles::write_number;
use crate::waits::write_waits;
use std::arch::x86_64::*;

fn profile_of(line: &[u8]) -> Option<House> {
    let mut words = line.split(|&byte| byte == b' ').filter(|word| !word.is_empty());
    match (words.next(), words.next(), words.next()) {
        (Some(b"rules"), Some(b"1"), None) => Some(House::ONE),
        (Some(b"rules"), Some(b"2"), None) => Some(House::TWO),
        _ => None,
    }
}

pub fn write_fault(out: &mut Vec<u8>, fault: LineFault) {
    match fault {
        LineFault::Coded(code) => {
            out.extend_from_slice(b"refused H");
            write_number(out, code.into());
        }
        LineFault::Notation(name, fault) => {
            out.extend_from_slice(b"refused N");
            write_number(out, fault.code.into());
            out.push(b' ');
            out.extend_from_slice(name.as_bytes());
            out.extend_from_slice(b" at ");
            write_number(out, fault.place as u32);
        }
    }
}

fn answer_line(out: &mut Vec<u8>, kept: &mut Kept, house: House, line: &[u8], is_plain: bool) {
    match read_line(house, line, is_plain) {
        Ok(None) => return,
        Ok(Some(Job::Win(win))) => write_answer(out, &win, &best(&win)),
        Ok(Some(Job::Waits(counts, melds))) => write_waits(out, &counts, &melds),
        Ok(Some(Job::Shape(counts, melds, seen))) => write_shape(out, kept, &counts, &melds, &seen),
        Err(fault) => write_fault(out, fault),
    }
    out.push(b'\n');
}

/// Where the first line of a text ends, and whether all its bytes are printable.
fn first_line(text: &[u8]) -> (usize, bool) {
    let (mut at, mut is_plain) = (0, true);
    while let Some(bytes) = text[at..].first_chunk::<16>() {
        let (ends, others) = ends_of(bytes);
        if ends != 0 {
            let end = ends.trailing_zeros();
            return (at + end as usize, is_plain && others & ((1 << end) - 1) == 0);
        }
        is_plain &= others == 0;
        at += 16;
    }
    let end = text[at..].iter().position(|&byte| byte == b'\n').map_or(text.len(), |more| at + more);
    (end, is_plain && text[at..end].iter().all(|byte| (0x20..=0x7e).contains(byte)))
}

/// A bit for each line feed, and for each byte that is not printable.
#[inline(always)]
fn ends_of(bytes: &[u8; 16]) -> (u32, u32) {
    unsafe {
        // SAFETY: there are sixteen bytes; every x86-64 has SSE2.
        let bytes = _mm_loadu_si128(bytes.as_ptr().cast());
        let low = _mm_cmpgt_epi8(bytes, _mm_set1_epi8(0x1f));
        let high = _mm_cmpgt_epi8(_mm_set1_epi8(0x7f), bytes);
        let ends = _mm_movemask_epi8(_mm_cmpeq_epi8(bytes, _mm_set1_epi8(0x0a)));
        (ends as u32, _mm_movemask_epi8(_mm_and_si128(low, high)) as u32 ^ 0xffff)
    }
}

/// The answers of a whole text, by these rules where its first line sets none.
pub fn answers(given: House, text: &[u8]) -> Vec<u8> {
    let mut out = Vec::with_capacity(text.len() + text.len() / 2);
    let mut kept = Kept::new();
    let (mut house, mut rest) = (given, text);
    while !rest.is_empty() {
        let (end, is_plain) = first_line(rest);
        let line = &rest[..end];
        let is_first = rest.len() == text.len();
        rest = rest.get(end + 1..).unwrap_or(&[]);
        let line = if is_plain { line } else { line.strip_suffix(b"\r").unwrap_or(line) };
        if is_first && line.len() <= 4096 {
            if let Some(told) = profile_of(line) {
                house = told;
                continue;
            }
        }
        answer_line(&mut out, &mut kept, house, line, is_plain);
    }
    out
}
