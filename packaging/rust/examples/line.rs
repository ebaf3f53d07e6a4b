//! Answers the lines of standard input, each under the first profile, as the command `line` does: one call a line, and with the word
//! `text` all by one call. With the word `game` they are a text of games.
use riichi_desk::{answer_lines, game, Room, Rules};
use std::io::{self, BufRead, Read, Write};

fn main() -> io::Result<()> {
    let mut out = io::BufWriter::new(io::stdout().lock());
    let whole = match std::env::args().nth(1).as_deref() {
        Some("text") => Some(answer_lines as fn(Vec<u8>, Rules) -> String),
        Some("game") => Some(game as fn(Vec<u8>, Rules) -> String),
        _ => None,
    };
    if let Some(answers) = whole {
        let mut text = Vec::new();
        io::stdin().read_to_end(&mut text)?;
        out.write_all(answers(text, Rules::One).as_bytes())?;
        return out.flush();
    }
    let mut room = Room::new();
    for line in io::stdin().lock().split(b'\n') {
        let line = line?;
        let line = line.strip_suffix(b"\r").unwrap_or(&line);
        if let Some(text) = room.answer(line, Rules::One) {
            writeln!(out, "{text}")?;
        }
    }
    out.flush()
}
