//! The driver: compares the library with the model, and says what came up.

use std::env;
use std::io::{self, BufWriter, Write};
use std::process::ExitCode;
use std::time::Instant;

use fuzz::crash;
use fuzz::driver::{run, Options};
use fuzz::huge;
use fuzz::library::Linked;
use fuzz::record::Recorder;
use fuzz::tally::Tally;

/// With so many calls, pieces of packets of every size have come up.
const ALL_SIZES: u64 = 3_000_000;

const USAGE: &str = "usage: fuzz [--calls N] [--seed S] [--sequence K] [--heap] [--record]
  --calls N     so many calls, up to the end of a sequence (default 1000000)
  --seed S      the seed of all sequences (default 1)
  --sequence K  sequence K alone, with its calls printed
  --heap        every buffer an allocation of its own length, for valgrind
  --record      writes the calls to standard output, for fuzz/replay.c";

fn main() -> ExitCode {
    let Some((options, record)) = options(env::args().skip(1)) else {
        eprintln!("{USAGE}");
        return ExitCode::from(2);
    };
    crash::install();
    let begin = Instant::now();
    // The addresses need no memory, but valgrind would set some aside.
    if !options.heap && options.sequence.is_none() {
        match huge::check(&Linked) {
            Ok(calls) => eprintln!("equal: {calls} calls with lengths over 2^32"),
            Err(said) => {
                eprintln!("fuzz: a difference: {said}");
                return ExitCode::FAILURE;
            }
        }
    }
    let mut recorder = record.then(|| Recorder::new(BufWriter::new(io::stdout().lock())));
    let result = run(Linked, &options, &mut recorder);
    match result {
        Ok(tally) => {
            recorder.map(|recorder| recorder.finish(tally.calls));
            report(&options, &tally, begin.elapsed().as_secs_f64())
        }
        Err(failure) => {
            eprintln!("fuzz: a difference: {failure}");
            ExitCode::FAILURE
        }
    }
}

/// The options of a command line, and whether to record; none if it has others.
fn options(mut words: impl Iterator<Item = String>) -> Option<(Options, bool)> {
    let mut options = Options {
        seed: 1,
        calls: 1_000_000,
        sequence: None,
        heap: false,
        print: false,
    };
    let mut record = false;
    while let Some(word) = words.next() {
        match word.as_str() {
            "--calls" => options.calls = words.next()?.parse().ok()?,
            "--seed" => options.seed = words.next()?.parse().ok()?,
            "--sequence" => options.sequence = Some(words.next()?.parse().ok()?),
            "--heap" => options.heap = true,
            "--record" => record = true,
            _ => return None,
        }
    }
    // What is recorded takes standard output.
    options.print = options.sequence.is_some() && !record;
    Some((options, record))
}

/// Prints the counts; a case that can come up and did not is a failure.
fn report(options: &Options, tally: &Tally, seconds: f64) -> ExitCode {
    let (calls, sequences) = (tally.calls, tally.sequences);
    let mut said = io::stderr().lock();
    let line = format!(
        "equal: {calls} calls in {sequences} sequences, seed {}, {seconds:.1} s",
        options.seed
    );
    if options.sequence.is_some() {
        let _ = writeln!(said, "{line}");
        return ExitCode::SUCCESS;
    }
    let _ = write!(said, "{}", tally.table());
    let mut faults = tally.faults();
    let left_out = tally.sizes_left_out();
    if options.calls >= ALL_SIZES && left_out > 0 {
        faults.push(format!("never came up: pieces of {left_out} packet sizes"));
    }
    for fault in &faults {
        let _ = writeln!(said, "fuzz: {fault}");
    }
    let _ = writeln!(said, "{line}");
    match faults.is_empty() {
        true => ExitCode::SUCCESS,
        false => ExitCode::FAILURE,
    }
}
