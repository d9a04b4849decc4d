//! usage: bench count RUNS [--quick]   makes that many runs of each case, between marks for the profiler
//!        bench time ROUNDS [--quick]  times each case in each round
//! Writes a line for each case: table, row, contestant, calls a run, bytes a run, and the runs made or the
//! nanoseconds of one.

use std::env;
use std::process::ExitCode;
use std::time::Instant;

use bench::cases::{self, Case};
use bench::measured::{case_begins, case_ends};

/// A sample takes at least so many nanoseconds, far above what reading the clock takes.
const SAMPLE: u128 = 300_000;

fn write_line(case: &Case, figure: f64) {
    let Case {
        table,
        row,
        contestant,
        calls,
        bytes,
        ..
    } = case;
    println!("{table}\t{row}\t{contestant}\t{calls}\t{bytes}\t{figure}");
}

fn count(cases: &mut [Case], runs: u64) {
    for case in cases {
        // Once before, for what only a first run does.
        (case.run)(1);
        case_begins();
        (case.run)(runs);
        case_ends();
        write_line(case, runs as f64);
    }
}

fn nanoseconds(case: &mut Case, runs: u64) -> u128 {
    let begin = Instant::now();
    (case.run)(runs);
    begin.elapsed().as_nanos()
}

/// How many runs make a sample.
fn sample_runs(case: &mut Case) -> u64 {
    let mut runs = 1;
    while nanoseconds(case, runs) < SAMPLE {
        runs *= 2;
    }
    runs
}

/// Each round times every case once, the contestants of a row one after the other, so that a slow moment of the
/// machine falls on all of them; the best of each counts.
fn time(cases: &mut [Case], rounds: u64) {
    let runs: Vec<u64> = cases.iter_mut().map(sample_runs).collect();
    let mut best = vec![f64::INFINITY; cases.len()];
    for _ in 0..rounds {
        for ((case, &runs), best) in cases.iter_mut().zip(&runs).zip(&mut best) {
            *best = best.min(nanoseconds(case, runs) as f64 / runs as f64);
        }
    }
    for (case, best) in cases.iter().zip(best) {
        write_line(case, best);
    }
}

fn main() -> ExitCode {
    let words: Vec<String> = env::args().skip(1).collect();
    let words: Vec<&str> = words.iter().map(String::as_str).collect();
    let (what, number, quick) = match words[..] {
        [what, number] => (what, number, false),
        [what, number, "--quick"] => (what, number, true),
        _ => ("", "", false),
    };
    let mut cases = cases::all(quick);
    match (what, number.parse()) {
        ("count", Ok(runs)) => count(&mut cases, runs),
        ("time", Ok(rounds)) => time(&mut cases, rounds),
        _ => {
            eprintln!("usage: bench count RUNS [--quick] | bench time ROUNDS [--quick]");
            return ExitCode::from(2);
        }
    }
    ExitCode::SUCCESS
}
