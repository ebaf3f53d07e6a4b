//! `best` alone, beside the program of `best/`: the same wins, scored many times by both.
use crate::house::House;
use crate::line::{read_line, Job, Win};
use crate::score::{best, Answer};
use std::hint::black_box;
use std::io::Write;
use std::process::{Command, Stdio};
use std::time::{Duration, Instant};

/// A sort of hands, and wins of that sort.
const SORTS: [(&str, &[&str]); 4] = [
    (
        "ordinary concealed hands",
        &[
            "win 234m567m345p67s99s on=5s by=tsumo seat=S round=E riichi=1 dora=3m ura=7p",
            "win 123456789m22s34p on=2p by=ron seat=S round=E",
            "win 222m444p666s33m88s on=8s by=ron seat=S round=E",
            "win 234m567m34p99s111z on=2p by=tsumo seat=S round=E riichi=1",
        ],
    ),
    (
        "ordinary open hands",
        &[
            "win 567m345p67s88s open=chi:234m on=5s by=ron seat=S round=E",
            "win 11223m789p99s open=pon:111z on=3m by=ron seat=S round=E",
            "win 234m34p99s open=ankan:1111z,pon:555z on=2p by=tsumo seat=S round=E flags=rinshan dora=1p",
            "win 2345m open=chi:123p,chi:456p,chi:789p on=5m by=ron seat=W round=E",
        ],
    ),
    (
        "two or three readings",
        &[
            "win 111222333p78m99s on=9m by=ron seat=S round=E",
            "win 112233m556677p9s on=9s by=ron seat=S round=E",
            "win 223344m556677m8m on=8m by=ron seat=S round=E riichi=1 dora=1m",
            "win 99978m444p567s22s on=9m by=ron seat=S round=E riichi=1",
        ],
    ),
    ("eight readings", &["win 6667777888899m on=9m by=ron seat=S round=E"]),
];

fn win_of(line: &str) -> Win {
    match read_line(House::ONE, line.as_bytes(), false) {
        Ok(Some(Job::Win(win))) => win,
        _ => panic!("no win: {line}"),
    }
}

/// How long the program takes for so many rounds, and the sum that it prints.
fn run(program: &str, wins: &[&str], rounds: u64) -> std::io::Result<(Duration, u64)> {
    let begun = Instant::now();
    let mut child = Command::new(program).stdin(Stdio::piped()).stdout(Stdio::piped()).spawn()?;
    let mut pipe = child.stdin.take().expect("a pipe was asked for");
    write!(pipe, "{rounds}\n{}\n", wins.join("\n"))?;
    drop(pipe);
    let said = child.wait_with_output()?;
    let sum = String::from_utf8_lossy(&said.stdout).trim().parse().expect("the program prints a sum");
    Ok((begun.elapsed(), sum))
}

fn total_of(wins: &[Win], rounds: u64) -> u64 {
    let mut total = 0;
    for _ in 0..rounds {
        for win in wins {
            if let Answer::Won(score) = best(black_box(win)) {
                total += u64::from(score.base);
            }
        }
    }
    total
}

/// Prints the times of each sort; whether all sums were equal.
pub fn measure(program: &str) -> std::io::Result<bool> {
    let mut are_same = true;
    for (name, lines) in SORTS {
        let wins: Vec<Win> = lines.iter().map(|line| win_of(line)).collect();
        let rounds = 400_000 / lines.len() as u64;
        let (mut theirs, mut ours) = (Duration::MAX, Duration::MAX);
        for _ in 0..3 {
            let (start, _) = run(program, lines, 0)?;
            let (whole, sum) = run(program, lines, rounds)?;
            theirs = theirs.min(whole.saturating_sub(start));
            let begun = Instant::now();
            let wanted = total_of(&wins, rounds);
            ours = ours.min(begun.elapsed());
            are_same &= sum == wanted;
        }
        let each = |time: Duration| time.as_nanos() as f64 / (rounds * lines.len() as u64) as f64;
        println!("{name}: {:.0} ns a win, plain Rust {:.0} ns, ratio {:.2}, {}", each(theirs), each(ours), each(theirs) / each(ours), if are_same { "same sums" } else { "DIFFERENT SUMS" });
    }
    Ok(are_same)
}
