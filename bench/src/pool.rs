//! The pool of workers beside one thread: `score` over one file and over eight, with more and more workers, and `line` on
//! the same lines.
use crate::input;
use std::fs::{create_dir_all, remove_dir_all, write, File};
use std::io::{Error, Result};
use std::path::{Path, PathBuf};
use std::process::{Command, Stdio};
use std::time::{Duration, Instant};

/// How many runs of each row, of which the least time counts.
const RUNS: usize = 3;

/// How many files the second half of the rows has.
const FILES: usize = 8;

const WORKERS: [&str; 4] = ["1", "2", "4", "16"];

/// What a process took: its time, and the most memory that it had at once, in bytes.
#[derive(Clone, Copy)]
struct Cost {
    time: Duration,
    memory: u64,
}

/// As the C library has it on Linux: two times of two words each, and then the peak of the memory in KiB.
#[repr(C)]
struct Usage {
    times: [i64; 4],
    peak: i64,
    rest: [i64; 13],
}

extern "C" {
    fn wait4(process: i32, status: *mut i32, options: i32, usage: *mut Usage) -> i32;
}

/// Runs a command to its end; a status other than 0 is an error.
fn run(command: &mut Command) -> Result<Cost> {
    let begun = Instant::now();
    let child = command.stdout(Stdio::null()).spawn()?;
    let mut usage = Usage { times: [0; 4], peak: 0, rest: [0; 13] };
    let mut status = 0;
    // SAFETY: both pointers are to values of this function, and `Usage` is laid out as the C library has it.
    let ended = unsafe { wait4(child.id() as i32, &mut status, 0, &mut usage) };
    if ended < 0 || status != 0 {
        return Err(Error::other(format!("the program ended with {status}")));
    }
    Ok(Cost { time: begun.elapsed(), memory: usage.peak as u64 * 1024 })
}

/// Writes the lines as one file and as so many files of whole lines.
fn write_files(folder: &Path, lines: &[u8]) -> Result<(PathBuf, Vec<PathBuf>)> {
    let whole = folder.join("whole");
    write(&whole, lines)?;
    let mut parts = Vec::new();
    let mut rest = lines;
    for number in 0..FILES {
        let about = rest.len() / (FILES - number);
        let end = rest[about..].iter().position(|&byte| byte == b'\n').map_or(rest.len(), |place| about + place + 1);
        let part = folder.join(number.to_string());
        write(&part, &rest[..end])?;
        rest = &rest[end..];
        parts.push(part);
    }
    Ok((whole, parts))
}

fn least(costs: &[Cost]) -> Cost {
    let mut least = costs[0];
    for cost in costs {
        least.time = least.time.min(cost.time);
        least.memory = least.memory.max(cost.memory);
    }
    least
}

fn print(name: &str, cost: Cost, count: usize, alone: Duration) {
    let gain = alone.as_secs_f64() / cost.time.as_secs_f64();
    println!("{name:24} {:6.2} s, {gain:4.2} times as fast as line, {:4} bytes a line at most", cost.time.as_secs_f64(), cost.memory / count as u64);
}

fn measure_in(folder: &Path, program: &str, count: usize) -> Result<()> {
    let (whole, parts) = write_files(folder, &input::lines("mixed", count))?;
    let mut alone = Vec::new();
    let mut rows: Vec<(String, Vec<Cost>)> = Vec::new();
    for turn in 0..RUNS {
        alone.push(run(Command::new(program).arg("line").stdin(File::open(&whole)?))?);
        let sets = [("one file", std::slice::from_ref(&whole)), ("eight files", &parts[..])];
        let cases = sets.iter().flat_map(|set| WORKERS.iter().map(move |workers| (set.0, set.1, *workers)));
        for (place, (name, files, workers)) in cases.enumerate() {
            if turn == 0 {
                rows.push((format!("{name}, {workers} workers"), Vec::new()));
            }
            rows[place].1.push(run(Command::new(program).args(["score", "--workers", workers]).args(files))?);
        }
    }
    let line = least(&alone);
    print("line", line, count, line.time);
    rows.iter().for_each(|(name, costs)| print(name, least(costs), count, line.time));
    Ok(())
}

/// Times `line` and `score` over so many mixed lines, in turn, from files in a folder that is taken away again.
pub fn measure(program: &str, count: usize) -> Result<()> {
    let folder = std::env::temp_dir().join(format!("bench-{}", std::process::id()));
    create_dir_all(&folder)?;
    let done = measure_in(&folder, program, count);
    remove_dir_all(&folder)?;
    done
}
