//! Calls on a watch.

use second::interface::{watch_bytes, watch_of};
use testkit::keys::NO_BUSES;
use testkit::Random;

use crate::call::{Call, Part, WATCH};
use crate::mutate::{mutate, sound_watch, unsound_watch};
use crate::sequence::{Step, Steps};
use crate::tally::{List, Note};

/// Puts the next steps in line.
pub fn make_up(watch: &[u8], random: &mut Random, steps: &mut Steps) {
    if random.chance(60) {
        return put_in_place(watch, random, steps);
    }
    steps.push_back(Step::Call(any_call(watch, random)));
}

pub fn new(random: &mut Random) -> Call {
    Call::watch_new {
        watch: WATCH,
        now: random.next_u64() as u32,
    }
}

fn any_call(watch: &[u8], random: &mut Random) -> Call {
    let now = any_time(watch, random);
    match random.below(100) {
        0..=4 => Call::watch_new { watch: WATCH, now },
        5..=44 => Call::watch_heard {
            watch: WATCH,
            bus: match random.chance(80) {
                true => random.pick(&NO_BUSES),
                false => random.below(2) as u8,
            },
            now,
        },
        _ => Call::watch_check { watch: WATCH, now },
    }
}

/// A time, mostly one at which a silence is about long enough.
fn any_time(watch: &[u8], random: &mut Random) -> u32 {
    let last = |bus: usize| watch_of(watch).map_or(0, |watch| watch.last[bus]);
    let since: u32 = match random.below(10) {
        0..=2 => random.within(15_990, 16_010) as u32,
        3 => random.pick(&[15_999, 16_000]),
        4..=6 => random.below(16_000) as u32,
        7 => random.below(40_000) as u32,
        // Behind the last time: a long silence but for the last 16,000 values.
        8 => 0_u32.wrapping_sub(random.pick(&[1, 15_999, 16_000, 16_001, 1 << 31])),
        _ => random.next_u64() as u32,
    };
    last(random.below(2)).wrapping_add(since)
}

/// Other bytes in the watch's place for some calls: sound ones to go on with, or others.
fn put_in_place(watch: &[u8], random: &mut Random, steps: &mut Steps) {
    if random.chance(300) {
        let bytes = watch_bytes(&sound_watch(random)).to_vec();
        let note = Note(List::SoundWatch, 0);
        return steps.push_back(Step::Set(Part::Watch, bytes, Some(note)));
    }
    let (bytes, note) = match random.chance(300) {
        true => (unsound_watch(random), Note(List::UnsoundWatch, 0)),
        false => {
            let mut bytes = watch.to_vec();
            let way = mutate(&mut bytes, random);
            (bytes, Note(List::MutatedWatch, way))
        }
    };
    let sound = watch_of(&bytes).is_some();
    steps.push_back(Step::Set(Part::Watch, bytes, Some(note)));
    for _ in 0..random.within(1, 3) {
        let call = match random.chance(150) {
            true => new(random),
            false => any_call(watch, random),
        };
        steps.push_back(Step::Call(call));
    }
    if !sound || random.chance(500) {
        steps.push_back(Step::Set(Part::Watch, watch.to_vec(), None));
    }
}
