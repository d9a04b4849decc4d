//! Feeds a trace in lock step: a record is sent only when the line of the one before has come. That finds a program
//! that keeps lines back until more arrives, and one that needs a record to come in one read.

use crate::program;
use crate::trace::Trace;
use std::io::{self, BufRead, BufReader, ErrorKind, Read, Write};
use std::process::Command;
use std::sync::mpsc::{self, Receiver, RecvTimeoutError, Sender};
use std::thread;
use std::time::Duration;
use testkit::Random;

/// How long a line is waited for. It comes within a millisecond, or never.
const PATIENCE: Duration = Duration::from_secs(10);

/// How long the second part of a record is held back, so that a read usually sees the first part alone.
const PAUSE: Duration = Duration::from_micros(100);

/// A trace and how it is to be fed.
pub struct Steps<'a> {
    /// The sound records, each in two parts, of which the second may be empty.
    records: Vec<(&'a [u8], &'a [u8])>,
    /// A damaged record and what follows it, or nothing.
    rest: &'a [u8],
    /// Whether the listing must end although the input goes on.
    stays_open: bool,
}

impl<'a> Steps<'a> {
    /// Cuts about half of the records in two, at any place.
    pub fn draw(trace: &'a Trace, random: &mut Random) -> Steps<'a> {
        let mut rest = &trace.bytes[..];
        let mut records = Vec::with_capacity(trace.records);
        for _ in 0..trace.records {
            let (record, others) = rest.split_at(2 + usize::from(rest[1]));
            let first = match random.chance(500) {
                true => random.within(1, record.len() - 1),
                false => record.len(),
            };
            records.push(record.split_at(first));
            rest = others;
        }
        Steps {
            records,
            rest,
            stays_open: trace.damage.is_some() && !trace.is_cut(),
        }
    }

    /// How many records are sent one by one.
    pub fn records(&self) -> usize {
        self.records.len()
    }

    /// How many of them are sent in two parts.
    pub fn in_two_parts(&self) -> usize {
        let cut = |record: &&(&[u8], &[u8])| !record.1.is_empty();
        self.records.iter().filter(cut).count()
    }

    /// Whether the listing must end although the input goes on.
    pub fn stays_open(&self) -> bool {
        self.stays_open
    }
}

/// Runs the program in lock step and gives all that it wrote.
pub fn run(command: &mut Command, steps: &Steps) -> Result<Vec<u8>, String> {
    run_with(PATIENCE, command, steps)
}

fn run_with(patience: Duration, command: &mut Command, steps: &Steps) -> Result<Vec<u8>, String> {
    let (line, lines) = mpsc::channel();
    let lines = Lines { lines, patience };
    program::run(
        command,
        move |input| feed(input, steps, &lines),
        move |output| take(output, &line),
    )
}

/// Takes the output and tells the feeder of each line. The feeder learns of the end when `line` is dropped.
fn take(output: impl Read, line: &Sender<()>) -> Result<Vec<u8>, String> {
    let mut output = BufReader::new(output);
    let mut bytes = Vec::new();
    loop {
        match output.read_until(b'\n', &mut bytes) {
            Ok(0) => return Ok(bytes),
            // A feeder that is done waits for no line.
            Ok(_) => drop(line.send(())),
            Err(error) => return Err(error.to_string()),
        }
    }
}

fn feed(input: &mut impl Write, steps: &Steps, lines: &Lines) -> io::Result<()> {
    lines.wait_for("no header")?;
    for (place, (first, second)) in steps.records.iter().enumerate() {
        input.write_all(first)?;
        if !second.is_empty() {
            thread::sleep(PAUSE);
            input.write_all(second)?;
        }
        lines.wait_for(&format!("no line for record {}", place + 1))?;
    }
    input.write_all(steps.rest)?;
    if steps.stays_open {
        lines.wait_for_end()?;
    }
    Ok(())
}

/// The lines that the program writes, as the feeder sees them.
struct Lines {
    lines: Receiver<()>,
    patience: Duration,
}

impl Lines {
    /// Waits for a line. An output that ends early is left to whoever compares it.
    fn wait_for(&self, missing: &str) -> io::Result<()> {
        match self.lines.recv_timeout(self.patience) {
            Ok(()) => Ok(()),
            Err(RecvTimeoutError::Disconnected) => Err(ErrorKind::BrokenPipe.into()),
            Err(RecvTimeoutError::Timeout) => Err(io::Error::new(ErrorKind::TimedOut, missing)),
        }
    }

    fn wait_for_end(&self) -> io::Result<()> {
        loop {
            match self.wait_for("no end after a damaged record") {
                Err(error) if error.kind() == ErrorKind::BrokenPipe => return Ok(()),
                other => other?,
            }
        }
    }
}

#[cfg(test)]
mod tests {
    use super::*;

    fn by_shell(script: &str, steps: &Steps) -> Result<Vec<u8>, String> {
        run(Command::new("sh").args(["-c", script]), steps)
    }

    /// Where something is missing, a test waits for it in vain.
    fn missing(script: &str, steps: &Steps) -> String {
        let patience = Duration::from_secs(1);
        let command = &mut Command::new("sh");
        run_with(patience, command.args(["-c", script]), steps).expect_err("something is missing")
    }

    fn steps(stays_open: bool) -> Steps<'static> {
        Steps {
            records: vec![(b"a\n", b""), (b"b", b"b\n"), (b"c", b"\n")],
            rest: b"stop\n",
            stays_open,
        }
    }

    #[test]
    fn feeds_a_program_that_answers_each_record() {
        let script = "echo head; while read -r word; do echo $word; done";
        let found = by_shell(script, &steps(false));
        assert_eq!(found, Ok(b"head\na\nbb\nc\nstop\n".to_vec()));
    }

    #[test]
    fn finds_lines_kept_back() {
        assert_eq!(missing("cat", &steps(false)), "sh: no header");
        let script = "echo head; read -r a; echo a; read -r b; read -r c";
        let found = missing(script, &steps(false));
        assert_eq!(found, "sh: no line for record 2");
    }

    #[test]
    fn finds_a_program_that_reads_on_after_damage() {
        let script = "echo head; while [ \"$a\" != stop ]; do read -r a; echo $a; done";
        let found = by_shell(script, &steps(true));
        assert_eq!(found, Ok(b"head\na\nbb\nc\nstop\n".to_vec()));
        let script = "echo head; while read -r a; do echo $a; done";
        let found = missing(script, &steps(true));
        assert_eq!(found, "sh: no end after a damaged record");
    }

    #[test]
    fn an_early_end_is_no_error_of_the_feeder() {
        let found = by_shell("echo head", &steps(true));
        assert_eq!(found, Ok(b"head\n".to_vec()));
    }

    #[test]
    fn the_parts_make_up_the_trace() {
        let mut cut = 0;
        for number in 0..100 {
            let trace = Trace::generate(8, number);
            let steps = Steps::draw(&trace, &mut Random::new(number));
            let parts = steps.records.iter().flat_map(|&(a, b)| [a, b]);
            let joined: Vec<u8> = parts.chain([steps.rest]).flatten().copied().collect();
            assert_eq!(joined, trace.bytes);
            assert_eq!(steps.rest.is_empty(), trace.damage.is_none());
            assert_eq!(steps.records(), trace.records);
            cut += steps.in_two_parts();
        }
        assert!(cut > 0);
    }
}
