//! A sequence of calls: which ones, on what, in which order.

use std::collections::VecDeque;

use second::interface::{MASTER_SIZE, WATCH_SIZE};
use second::station::STORE_SIZE;
use testkit::Random;

use crate::bench::Parts;
use crate::call::{Call, Part};
use crate::master_calls::{self, MasterCalls};
use crate::memory::Layout;
use crate::plain_calls;
use crate::station_calls::StationCalls;
use crate::tally::Note;
use crate::watch_calls;

/// What is done next.
#[derive(Clone, Debug, PartialEq, Eq)]
pub enum Step {
    /// A part gets other bytes; the note says what they are.
    Set(Part, Vec<u8>, Option<Note>),
    Call(Call),
}

/// Steps that stand in line.
pub type Steps = VecDeque<Step>;

/// How many calls in a thousand are made on what; the rest are of splitting.
#[derive(Clone, Copy, Debug)]
struct Weights {
    station: usize,
    master: usize,
    watch: usize,
    filters: usize,
}

const WEIGHTS: [Weights; 6] = [
    Weights {
        station: 900,
        master: 40,
        watch: 20,
        filters: 20,
    },
    Weights {
        station: 900,
        master: 40,
        watch: 20,
        filters: 20,
    },
    Weights {
        station: 1000,
        master: 0,
        watch: 0,
        filters: 0,
    },
    Weights {
        station: 50,
        master: 800,
        watch: 100,
        filters: 20,
    },
    Weights {
        station: 50,
        master: 50,
        watch: 100,
        filters: 200,
    },
    Weights {
        station: 300,
        master: 200,
        watch: 150,
        filters: 150,
    },
];

/// The calls of one sequence, made up as it goes, from its random numbers and from the parts as they are.
pub struct Sequence {
    random: Random,
    number: u64,
    weights: Weights,
    station: StationCalls,
    master: MasterCalls,
    steps: Steps,
    /// Calls still to be made.
    left: usize,
}

impl Sequence {
    /// The sequence of that number under the seed.
    pub fn new(seed: u64, number: u64) -> Sequence {
        let mut random = Random::of_item(seed, number);
        // Some are long, so that the longest packets come whole.
        let left = match random.below(20) {
            0 => random.within(600, 2500),
            _ => random.within(10, 400),
        };
        let weights = match left > 400 {
            true => WEIGHTS[2],
            false => random.pick(&WEIGHTS),
        };
        let mut steps = Steps::new();
        let mut set = |part, size| {
            let bytes = random.bytes(size);
            steps.push_back(Step::Set(part, bytes, None));
        };
        set(Part::Store, STORE_SIZE);
        set(Part::Master, MASTER_SIZE);
        set(Part::Watch, WATCH_SIZE);
        steps.push_back(Step::Call(master_calls::new()));
        steps.push_back(Step::Call(watch_calls::new(&mut random)));
        let piece = plain_calls::own_piece(number, &mut random);
        steps.push_back(Step::Call(piece));
        let station = StationCalls::new(left > 400, &mut random, &mut steps);
        Sequence {
            number,
            weights,
            station,
            master: MasterCalls::new(&mut random),
            steps,
            left,
            random,
        }
    }

    /// How the buffers of this sequence lie.
    pub fn layout(&self) -> Layout {
        match self.number % 4 {
            0 => Layout::AtEnd,
            1 => Layout::AtStart,
            _ => Layout::Guarded,
        }
    }

    /// The next step, or none at the end.
    pub fn next(&mut self, parts: &Parts) -> Option<Step> {
        if self.left == 0 {
            return None;
        }
        while self.steps.is_empty() {
            self.make_up(parts);
        }
        let step = self.steps.pop_front();
        if matches!(step, Some(Step::Call(_))) {
            self.left -= 1;
        }
        step
    }

    /// Puts at least one step in line.
    fn make_up(&mut self, parts: &Parts) {
        let (random, steps) = (&mut self.random, &mut self.steps);
        let weights = self.weights;
        let mut place = random.below(1000);
        for (weight, part) in [
            (weights.station, 0),
            (weights.master, 1),
            (weights.watch, 2),
        ] {
            if place < weight {
                return match part {
                    0 => self.station.make_up(&parts.station, random, steps),
                    1 => self.master.make_up(&parts.master, random, steps),
                    _ => watch_calls::make_up(&parts.watch, random, steps),
                };
            }
            place -= weight;
        }
        let call = match place < weights.filters {
            true => plain_calls::filtering(random),
            false => plain_calls::splitting(self.number, random),
        };
        steps.push_back(Step::Call(call));
    }
}

#[cfg(test)]
mod tests {
    use super::*;
    use crate::library::FUNCTIONS;

    /// The steps of a sequence on parts that never change.
    fn steps(seed: u64, number: u64) -> Vec<Step> {
        let parts = Parts::default();
        let mut sequence = Sequence::new(seed, number);
        std::iter::from_fn(|| sequence.next(&parts)).collect()
    }

    #[test]
    fn a_seed_and_a_number_fix_a_sequence() {
        assert_eq!(steps(1, 0), steps(1, 0));
        assert_ne!(steps(1, 0), steps(1, 1));
        assert_ne!(steps(1, 0), steps(2, 0));
    }

    #[test]
    fn every_function_is_called() {
        let mut called = vec![false; FUNCTIONS.len()];
        for number in 0..50 {
            for step in steps(3, number) {
                if let Step::Call(call) = step {
                    called[call.function() as usize] = true;
                }
            }
        }
        assert!(called.iter().all(|called| *called), "{called:?}");
    }
}
