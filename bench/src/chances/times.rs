//! How long chances take, beside plain Rust: all best discards of fourteen tiles, both goals and each number of turns up to 17.
use super::game::unseen;
use super::graph::Graph;
use super::random::{played, write_line};
use super::Goal;
use crate::clock;
use crate::deeper::distance::Known;
use crate::deeper::hand::Hand;
use crate::input::Dice;
use std::hint::black_box;
use std::io::Write;
use std::process::{Command, Stdio};
use std::time::{Duration, Instant};

const TURNS: usize = 17;

/// How many times the program answers each hand, so that its start doesn't count.
const ROUNDS: usize = 8;

/// The processor time of the program over so many times a line.
fn run(timed: &str, line: &[u8], rounds: usize) -> std::io::Result<Duration> {
    let begun = clock::child_time();
    let mut child = Command::new(timed).stdin(Stdio::piped()).stdout(Stdio::null()).spawn()?;
    let mut pipe = child.stdin.take().expect("a pipe was asked for");
    pipe.write_all(format!("{TURNS}\n").as_bytes())?;
    pipe.write_all(&line.repeat(rounds))?;
    drop(pipe);
    assert!(child.wait()?.success(), "the timed program ends well");
    Ok(clock::child_time() - begun)
}

/// Milliseconds that the program takes for a hand.
fn theirs(timed: &str, hand: &Hand) -> std::io::Result<f64> {
    let mut line = Vec::new();
    write_line(&mut line, hand);
    let none = run(timed, &line, 0)?;
    Ok(run(timed, &line, ROUNDS)?.saturating_sub(none).as_secs_f64() * 1000.0 / ROUNDS as f64)
}

/// The same in plain Rust, which has one graph for all discards too.
fn ours(hand: &Hand) -> f64 {
    let begun = Instant::now();
    let (mut known, mut graph) = (Known::default(), Graph::new());
    for kind in hand.best(&mut known) {
        let mut rest = *hand;
        rest.tiles[kind] -= 1;
        graph.place(&rest, &mut known);
    }
    for goal in [Goal::Ready, Goal::Win] {
        for turns in 0..=TURNS {
            black_box(graph.rows(goal, unseen(hand), turns, false));
        }
    }
    begun.elapsed().as_secs_f64() * 1000.0
}

fn told(name: &str, times: &mut [f64]) {
    times.sort_by(f64::total_cmp);
    let at = |part: usize| times[(times.len() * part / 100).min(times.len() - 1)];
    println!("  {name}: median {:.2} ms, nine of ten {:.2}, worst {:.2}", at(50), at(90), at(100));
}

/// Prints the times of so many hands of each shanten from one to three.
pub fn measure(timed: &str, count: usize) -> std::io::Result<()> {
    let (mut dice, mut known) = (Dice::new(20_261), Known::default());
    for lack in 2..=4 {
        let hands: Vec<Hand> = (0..count).map(|_| played(&mut dice, &mut known, 14, lack)).collect();
        println!("shanten {}, {count} hands of fourteen tiles", lack - 1);
        let mut times = hands.iter().map(|hand| theirs(timed, hand)).collect::<std::io::Result<Vec<f64>>>()?;
        told("the library", &mut times);
        told("plain Rust", &mut hands.iter().map(ours).collect::<Vec<f64>>());
    }
    Ok(())
}
