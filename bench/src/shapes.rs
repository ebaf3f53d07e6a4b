//! Shapes and shanten alone, without reading and writing, by the number of places that the memo of rows has: the
//! program of `shapes/`.
use crate::{clock, input};
use std::io::Write;
use std::process::{Command, Stdio};
use std::time::Duration;

const TURNS: usize = 5;

/// Where rows come from: 0 makes each anew, `frame` is the memo in the frame.
const SOURCES: [&str; 9] = ["0", "frame", "512", "1024", "4096", "8192", "16384", "32768", "65536"];

fn run(timed: &str, head: &str, hands: &[u8]) -> std::io::Result<Duration> {
    let begun = clock::child_time();
    let mut child = Command::new(timed).stdin(Stdio::piped()).stdout(Stdio::null()).spawn()?;
    let mut pipe = child.stdin.take().expect("a pipe was asked for");
    pipe.write_all(head.as_bytes())?;
    pipe.write_all(hands)?;
    drop(pipe);
    assert!(child.wait()?.success(), "the timed program ends well");
    Ok(clock::child_time() - begun)
}

/// The time of a hand: what rounds over all hands take beyond none.
fn time_of(timed: &str, what: &str, source: &str, hands: &[u8], count: usize, rounds: usize) -> std::io::Result<f64> {
    let (mut none, mut all) = (Duration::MAX, Duration::MAX);
    for _ in 0..TURNS {
        none = none.min(run(timed, &format!("{what}\n{source}\n0\n"), hands)?);
        all = all.min(run(timed, &format!("{what}\n{source}\n{rounds}\n"), hands)?);
    }
    Ok(all.saturating_sub(none).as_nanos() as f64 / (count * rounds) as f64)
}

/// Prints the table: nanoseconds a hand, 500 hands over and over, and each of so many hands once.
pub fn table(timed: &str, count: usize) -> std::io::Result<()> {
    println!("| Rows from | What | 13 tiles, over and over | 13 tiles, each once | 14 tiles, over and over | 14 tiles, each once |\n|---|---|---|---|---|---|");
    for what in ["shanten", "shape"] {
        for source in SOURCES {
            let mut cells = Vec::new();
            for sort in ["shape13", "shape14"] {
                cells.push(time_of(timed, what, source, &input::lines(sort, 500), 500, 20)?);
                cells.push(time_of(timed, what, source, &input::lines(sort, count), count, 1)?);
            }
            println!("| {source} | {what} | {:.0} | {:.0} | {:.0} | {:.0} |", cells[0], cells[1], cells[2], cells[3]);
        }
    }
    Ok(())
}
