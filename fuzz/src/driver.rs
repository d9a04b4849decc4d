//! A run: one sequence after the other, until there were enough calls.

use std::fmt;
use std::io::Write;

use crate::bench::{Bench, Difference, Parts};
use crate::call::Call;
use crate::crash;
use crate::library::Library;
use crate::memory::Layout;
use crate::record::Recorder;
use crate::sequence::{Sequence, Step};
use crate::tally::{Before, Tally};

/// What is run.
#[derive(Clone, Debug)]
pub struct Options {
    pub seed: u64,
    /// At least so many calls, up to the end of a sequence.
    pub calls: u64,
    /// That sequence alone.
    pub sequence: Option<u64>,
    /// Every buffer an allocation of its own.
    pub heap: bool,
    /// Prints each call before it is made.
    pub print: bool,
}

/// The call at which library and model differ.
#[derive(Debug)]
pub struct Failure {
    pub place: Place,
    pub difference: Difference,
}

/// A call, where it stands, and the parts before it.
#[derive(Clone, Debug)]
pub struct Place {
    pub seed: u64,
    pub sequence: u64,
    /// Counted in the sequence, from 1.
    pub number: u64,
    pub call: Option<Call>,
    pub parts: Parts,
}

impl fmt::Display for Place {
    fn fmt(&self, f: &mut fmt::Formatter) -> fmt::Result {
        let (seed, sequence, number) = (self.seed, self.sequence, self.number);
        writeln!(f, "seed {seed}, sequence {sequence}, call {number}")?;
        match &self.call {
            Some(call) => writeln!(f, "{call}")?,
            None => writeln!(f, "at the end of the sequence")?,
        }
        write!(f, "before it:\n{}", self.parts)
    }
}

impl fmt::Display for Failure {
    fn fmt(&self, f: &mut fmt::Formatter) -> fmt::Result {
        write!(f, "{}\n{}", self.difference, self.place)
    }
}

/// Runs the sequences and counts, or answers the first difference.
pub fn run<L: Library, W: Write>(
    library: L,
    options: &Options,
    recorder: &mut Option<Recorder<W>>,
) -> Result<Tally, Box<Failure>> {
    // Comparing 32 KiB at each call is cheap but for valgrind.
    let store_every = if options.heap { 64 } else { 1 };
    let mut bench = Bench::new(library, store_every, recorder.is_some());
    let mut tally = Tally::new();
    let mut number = options.sequence.unwrap_or(0);
    loop {
        run_sequence(&mut bench, options, number, &mut tally, recorder)?;
        tally.sequences += 1;
        number += 1;
        if options.sequence.is_some() || tally.calls >= options.calls {
            return Ok(tally);
        }
    }
}

fn run_sequence<L: Library, W: Write>(
    bench: &mut Bench<L>,
    options: &Options,
    number: u64,
    tally: &mut Tally,
    recorder: &mut Option<Recorder<W>>,
) -> Result<(), Box<Failure>> {
    let mut sequence = Sequence::new(options.seed, number);
    bench.begin(match options.heap {
        true => Layout::Heap,
        false => sequence.layout(),
    });
    let mut place = Place {
        seed: options.seed,
        sequence: number,
        number: 0,
        call: None,
        parts: Parts::default(),
    };
    while let Some(step) = sequence.next(bench.parts()) {
        match step {
            Step::Set(part, bytes, note) => {
                bench.set(part, &bytes);
                note.into_iter().for_each(|note| tally.note(note));
                recorder.iter_mut().for_each(|to| to.set(part, &bytes));
            }
            Step::Call(call) => {
                place.number += 1;
                place.call = Some(call);
                make(bench, options, &mut place, tally, recorder)?;
            }
        }
    }
    place.call = None;
    let store = &bench.parts().store;
    recorder.iter_mut().for_each(|to| to.end(store));
    bench
        .compare_store()
        .map_err(|difference| Box::new(Failure { place, difference }))
}

/// Makes the call of a place, counts it and records it.
fn make<L: Library, W: Write>(
    bench: &mut Bench<L>,
    options: &Options,
    place: &mut Place,
    tally: &mut Tally,
    recorder: &mut Option<Recorder<W>>,
) -> Result<(), Box<Failure>> {
    // Of the parts only those that are printed are kept.
    let now = bench.parts();
    place.parts.station.clone_from(&now.station);
    place.parts.master.clone_from(&now.master);
    place.parts.watch.clone_from(&now.watch);
    let place = &*place;
    let Some(call) = &place.call else {
        return Ok(());
    };
    let before = Before::of(&place.parts);
    if options.print {
        println!("{}: {call}", place.number);
    }
    let made = crash::during(place, || bench.make(call));
    match made {
        Ok(outcome) => {
            tally.count(call, &before, outcome.answer);
            let record = &outcome.record;
            recorder.iter_mut().for_each(|to| to.call(record));
            Ok(())
        }
        Err(difference) => {
            let place = place.clone();
            Err(Box::new(Failure { place, difference }))
        }
    }
}
