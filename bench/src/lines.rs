//! The program's `line` beside plain Rust: the same lines, each once or few of them over and over, in one run.
use crate::house::House;
use crate::{answer, clock, input};
use std::io::{Read, Write};
use std::process::{Command, Stdio};
use std::time::Duration;

/// So many turns are run of each side, one after the other; the least time of each counts.
const TURNS: usize = 5;

/// So many lines are asked over and over.
const FEW: usize = 500;

/// What the program writes on some input, and the processor time that it takes.
fn run(program: &str, input: &[u8]) -> std::io::Result<(Vec<u8>, Duration)> {
    let begun = clock::child_time();
    let mut child = Command::new(program).arg("line").stdin(Stdio::piped()).stdout(Stdio::piped()).spawn()?;
    let mut pipe = child.stdin.take().expect("a pipe was asked for");
    let text = input.to_vec();
    let writer = std::thread::spawn(move || pipe.write_all(&text));
    let mut output = Vec::new();
    child.stdout.take().expect("a pipe was asked for").read_to_end(&mut output)?;
    writer.join().expect("the writer ends")?;
    child.wait()?;
    Ok((output, clock::child_time() - begun))
}

/// Prints a row of the table; whether all answers were the same.
fn measure(program: &str, name: &str, input: &[u8], count: usize) -> std::io::Result<bool> {
    let (mut theirs, mut ours) = (Duration::MAX, Duration::MAX);
    let mut are_same = true;
    for _ in 0..TURNS {
        let (output, time) = run(program, input)?;
        theirs = theirs.min(time);
        let begun = clock::own_time();
        let wanted = answer::answers(House::ONE, input);
        ours = ours.min(clock::own_time() - begun);
        are_same &= output == wanted;
    }
    let each = |time: Duration| time.as_nanos() as f64 / count as f64;
    let told = if are_same { "" } else { " DIFFERENT BYTES" };
    println!("| {name} | {:.0} | {:.0} | {:.2} |{told}", each(theirs), each(ours), each(theirs) / each(ours));
    Ok(are_same)
}

/// Prints the table of all sorts of lines; whether all answers were the same.
pub fn table(program: &str, count: usize) -> std::io::Result<bool> {
    answer::answers(House::ONE, b"shape 123456789m1134p\n"); // plain Rust makes its tables
    println!("| Lines | Program, ns a line | Plain Rust, ns a line | Ratio |\n|---|---|---|---|");
    let mut are_same = true;
    for sort in input::SORTS {
        let few = input::lines(sort, FEW);
        are_same &= measure(program, &format!("{sort}, over and over"), &few.repeat(count / FEW), count / FEW * FEW)?;
        are_same &= measure(program, &format!("{sort}, each once"), &input::lines(sort, count), count)?;
    }
    Ok(are_same)
}
