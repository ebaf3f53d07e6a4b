//! Answers the lines of standard input, each under the first profile, and with the word `explain` says why:
//!
//!     rustc -O --edition 2021 -L . -l static=riichi_desk_c examples/rust/answer.rs -o answer
//!     ./answer < FILE
//!     ./answer explain < FILE
//!
//! in the folder of a release; in that of the sources, -L bin.
use std::io::{self, BufRead, Write};

extern "C" {
    fn riichi_answer(rules: u32, line: *const u8, line_len: usize, room: *mut u8, room_len: usize) -> usize;
    fn riichi_explain(rules: u32, line: *const u8, line_len: usize, room: *mut u8, room_len: usize) -> usize;
}

const MOST_ANSWER: usize = 3072;

/// The answer to one line under a profile, 1 or 2, in the room; `None` where the line is a comment or blank.
fn answer<'r>(rules: u32, line: &[u8], room: &'r mut [u8; MOST_ANSWER]) -> Option<&'r [u8]> {
    // The pointers are those of slices, so they are valid for their lengths and not null, and a `&mut` overlaps nothing.
    let needed = unsafe { riichi_answer(rules, line.as_ptr(), line.len(), room.as_mut_ptr(), room.len()) };
    (needed > 0).then(|| &room[..needed])
}

/// The lines that say why one line is answered as it is, each with its line feed; none for waits.
fn explanation<'r>(rules: u32, line: &[u8], room: &'r mut [u8; MOST_ANSWER]) -> &'r [u8] {
    // As above.
    let needed = unsafe { riichi_explain(rules, line.as_ptr(), line.len(), room.as_mut_ptr(), room.len()) };
    &room[..needed]
}

fn main() -> io::Result<()> {
    let explains = std::env::args().nth(1).as_deref() == Some("explain");
    let mut room = [0; MOST_ANSWER];
    let mut out = io::BufWriter::new(io::stdout().lock());
    for line in io::stdin().lock().split(b'\n') {
        let line = line?;
        let line = line.strip_suffix(b"\r").unwrap_or(&line);
        if let Some(text) = answer(1, line, &mut room) {
            out.write_all(text)?;
            out.write_all(b"\n")?;
        }
        if explains {
            out.write_all(explanation(1, line, &mut room))?;
        }
    }
    out.flush()
}
