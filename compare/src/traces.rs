//! Compares the listings of generated traces.

use crate::observe;
use crate::program::{self, drip, take_all};
use crate::step::{self, Steps};
use crate::tally::Tally;
use crate::trace::{Trace, DAMAGES, DENSE};
use std::fs;
use std::io::{self, Read, Write};
use std::path::Path;
use std::process::Command;
use testkit::damage::CORRUPTIONS;
use testkit::traffic::DISTURBANCES;
use testkit::Random;

const EMPTY: &str = "input: empty";
const SMALL_PARTS: &str = "input: written in small parts";
const LOCK_STEP: &str = "input: in lock step";
const LOCK_STEP_RECORDS: &str = "input: in lock step, records";
const LOCK_STEP_CUT: &str = "input: in lock step, records in two parts";
const LOCK_STEP_OPEN: &str = "input: in lock step, left open after a damaged record";

/// One trace in so many is listed by the third program too, which takes long to start.
const ALSO_EVERY: u64 = 100;

/// The programs that are compared with the second one.
pub struct Programs<'a> {
    pub listing: &'a Path,
    /// A third program, as a command with its arguments.
    pub also: Option<&'a str>,
}

/// Runs the programs on that many traces and compares what they write.
pub fn compare(
    programs: &Programs,
    count: u64,
    seed: u64,
    keep: Option<&Path>,
) -> Result<(), String> {
    let mut tally = Tally::requiring(names(programs));
    let mut records = 0;
    for number in 0..count {
        let trace = Trace::generate(seed, number);
        compare_one(programs, &trace, &mut tally, seed, number).map_err(|difference| {
            let kept = keep.map_or(String::new(), |file| keep_trace(file, &trace.bytes));
            format!("seed {seed}, trace {number}: {difference}{kept}")
        })?;
        count_known(&trace, &mut tally);
        records += trace.records;
    }
    tally.print();
    tally.check()?;
    println!("equal: {count} traces, {records} records");
    Ok(())
}

fn names(programs: &Programs) -> Vec<String> {
    let mut names = observe::names();
    names.extend(DISTURBANCES.map(|name| format!("made: {name}")));
    names.extend(CORRUPTIONS.map(|name| format!("made: {name}")));
    names.push(format!("made: {DENSE}"));
    names.extend((0..14).map(|length| format!("made: image of {length} bytes")));
    names.extend(DAMAGES.map(|name| format!("damage: {name}")));
    let inputs = [
        EMPTY,
        SMALL_PARTS,
        LOCK_STEP,
        LOCK_STEP_RECORDS,
        LOCK_STEP_CUT,
        LOCK_STEP_OPEN,
    ];
    names.extend(inputs.map(str::to_string));
    names.extend(programs.also.map(also_row));
    names
}

fn also_row(also: &str) -> String {
    format!("listed by {also} too")
}

fn compare_one(
    programs: &Programs,
    trace: &Trace,
    tally: &mut Tally,
    seed: u64,
    number: u64,
) -> Result<(), String> {
    let way = Way::draw(trace, &mut Random::of_item(!seed, number));
    let second = list(programs, &trace.bytes, &way)?;
    if let Some(also) = programs.also.filter(|_| number.is_multiple_of(ALSO_EVERY)) {
        list_also(also, &trace.bytes, &second)?;
        tally.count(&also_row(also));
    }
    count_way(&way, tally);
    let text = String::from_utf8(second).map_err(|_| "the listings are no text")?;
    let records = observe::observe(&text, &trace.over_8, tally);
    if records != Some(trace.records) {
        return Err(format!(
            "both listings say {records:?}, but the trace has {} records",
            trace.records
        ));
    }
    Ok(())
}

/// Has a trace listed by the program and the second one, and gives the listing if they write the same.
pub fn list(programs: &Programs, trace: &[u8], way: &Way) -> Result<Vec<u8>, String> {
    let first = by_program(&mut Command::new(programs.listing), trace, way)?;
    let second = by_second(trace, way)?;
    check_equal(("program", &first), ("second", &second))?;
    Ok(second)
}

/// Has a trace listed by a third program, too.
pub fn list_also(also: &str, trace: &[u8], second: &[u8]) -> Result<(), String> {
    let third = by_program(&mut split(also), trace, &Way::AtOnce)?;
    check_equal((also, &third), ("second", second))
}

/// A command from its words.
fn split(words: &str) -> Command {
    let mut words = words.split_whitespace();
    let mut command = Command::new(words.next().unwrap_or_default());
    command.args(words);
    command
}

/// How a trace is handed to a program.
pub enum Way<'a> {
    AtOnce,
    /// In parts of that size.
    Parts(usize),
    LockStep(Steps<'a>),
}

impl<'a> Way<'a> {
    /// Only short traces are handed over slowly, because it takes time.
    fn draw(trace: &'a Trace, random: &mut Random) -> Way<'a> {
        if trace.bytes.len() >= 4000 {
            return Way::AtOnce;
        }
        match random.below(100) {
            0..=14 => Way::Parts(random.pick(&[1, 1, 2, 3, 7, 16])),
            15..=19 => Way::LockStep(Steps::draw(trace, random)),
            _ => Way::AtOnce,
        }
    }
}

fn by_program(command: &mut Command, bytes: &[u8], way: &Way) -> Result<Vec<u8>, String> {
    match *way {
        Way::AtOnce => program::run(command, |input| input.write_all(bytes), take_all),
        Way::Parts(size) => program::run(command, |input| drip(input, bytes, size), take_all),
        Way::LockStep(ref steps) => step::run(command, steps),
    }
}

/// A reader that never gives more than a small part.
struct Parts<'a> {
    bytes: &'a [u8],
    part: usize,
}

impl Read for Parts<'_> {
    fn read(&mut self, buffer: &mut [u8]) -> io::Result<usize> {
        let size = buffer.len().min(self.part);
        self.bytes.read(&mut buffer[..size])
    }
}

fn by_second(trace: &[u8], way: &Way) -> Result<Vec<u8>, String> {
    let part = match *way {
        Way::Parts(size) => size,
        _ => usize::MAX,
    };
    let input = Parts { bytes: trace, part };
    let mut output = Vec::new();
    second::listing(input, &mut output).map_err(|error| format!("second::listing: {error}"))?;
    Ok(output)
}

/// Refuses two listings that differ, each with the name of its program, and shows the first line that does.
fn check_equal(first: (&str, &[u8]), second: (&str, &[u8])) -> Result<(), String> {
    if first.1 == second.1 {
        return Ok(());
    }
    let show = |name: &str, line: Option<&[u8]>| match line {
        Some(line) => format!("  {name}: {:?}", String::from_utf8_lossy(line)),
        None => format!("  {name}: nothing"),
    };
    let mut ours = first.1.split(|&byte| byte == b'\n');
    let mut theirs = second.1.split(|&byte| byte == b'\n');
    let mut number = 0;
    loop {
        number += 1;
        let (a, b) = (ours.next(), theirs.next());
        if a != b {
            let (a, b) = (show(first.0, a), show(second.0, b));
            return Err(format!("line {number}\n{a}\n{b}"));
        }
    }
}

fn count_way(way: &Way, tally: &mut Tally) {
    match way {
        Way::AtOnce => {}
        Way::Parts(_) => tally.count(SMALL_PARTS),
        Way::LockStep(steps) => {
            tally.count(LOCK_STEP);
            tally.count_times(LOCK_STEP_RECORDS, steps.records() as u64);
            tally.count_times(LOCK_STEP_CUT, steps.in_two_parts() as u64);
            tally.count_times(LOCK_STEP_OPEN, u64::from(steps.stays_open()));
        }
    }
}

/// Writes a trace that was found to differ to a file, and says so.
fn keep_trace(file: &Path, bytes: &[u8]) -> String {
    match fs::write(file, bytes) {
        Ok(()) => format!("\n  the trace is in {}", file.display()),
        Err(error) => format!("\n  the trace can't be written: {error}"),
    }
}

/// Counts what only the generator knows.
fn count_known(trace: &Trace, tally: &mut Tally) {
    for note in &trace.notes {
        tally.count(&format!("made: {note}"));
    }
    for (length, &times) in trace.lengths.iter().enumerate() {
        tally.count_times(&format!("made: image of {length} bytes"), times);
    }
    if let Some(damage) = trace.damage {
        tally.count(&format!("damage: {damage}"));
    }
    if trace.bytes.is_empty() {
        tally.count(EMPTY);
    }
}

#[cfg(test)]
mod tests {
    use super::*;

    #[test]
    fn finds_the_first_difference() {
        let compare = |a: &[u8], b: &[u8]| check_equal(("one", a), ("other", b));
        assert_eq!(compare(b"a\nb\n", b"a\nb\n"), Ok(()));
        let found = compare(b"a\nb\n", b"a\nc\n");
        assert_eq!(found, Err("line 2\n  one: \"b\"\n  other: \"c\"".into()));
        let found = compare(b"a\n", b"a");
        assert_eq!(found, Err("line 2\n  one: \"\"\n  other: nothing".into()));
    }

    #[test]
    fn splits_a_command_into_words() {
        let command = split("python3 second/listing.py");
        assert_eq!(command.get_program(), "python3");
        assert!(command.get_args().eq(["second/listing.py"]));
    }
}
