//! Traffic from fixed seeds, good and broken, against the second program.
#![cfg(feature = "alloc")]

mod common;

use common::{key_of, refusal_of, second_format};
use second::key::Key;
use second::station::{Station as Model, SLOT_COUNT, STORE_SIZE};
use second::stream::Answer;
use siljuvatt::{Bus, Format, Refusal, Reply, Station, Store};
use std::collections::BTreeMap;
use testkit::keys::different_keys;
use testkit::traffic::{Noise, Sizes, Traffic};
use testkit::Random;

const SCRIPTS: u64 = 60;
const STEPS: usize = 1200;

/// The longest image that damage makes.
const LONGEST: usize = 20;

/// How many boards there are, what they send, and how many of a thousand frames are damaged; as many again are
/// disturbed in other ways. A board alone makes packets that pass the limit; twenty are more than there are slots.
const RUNS: [(usize, Sizes, usize); 4] = [
    (1, Sizes::TooLong, 0),
    (3, Sizes::Mixed, 24),
    (12, Sizes::Short, 12),
    (20, Sizes::Short, 12),
];

/// What the model answers to a frame, in the crate's types.
fn reply_of(answer: Answer) -> Result<Reply, Refusal> {
    match answer {
        Answer::Packet { length, broke } => Ok(Reply::Packet { length, broke }),
        Answer::Kept { broke } => Ok(Reply::Kept { broke }),
        Answer::Filtered => Ok(Reply::Filtered),
        Answer::Refused(refusal) => Err(refusal_of(refusal)),
    }
}

/// The model and the station, which are asked the same.
struct Pair {
    model: Model,
    model_store: Vec<u8>,
    station: Station,
    store: Store,
}

impl Pair {
    fn new(format: Format) -> Pair {
        Pair {
            model: Model::new(second_format(format)),
            model_store: vec![0; STORE_SIZE],
            station: Station::new(format),
            store: Store::new(),
        }
    }

    fn open(&mut self, key: &Key) -> String {
        let answer = self.station.open(key_of(key));
        let (model, expected) = self.model.open(*key);
        self.model = model;
        assert_eq!(answer, expected.map_err(refusal_of), "{key:?}");
        format!("open {:?}", answer.map(drop))
    }

    fn close(&mut self, slot: usize) -> String {
        let answer = self.station.close(slot);
        let (model, expected) = self.model.close(slot);
        self.model = model;
        assert_eq!(answer, expected.map(drop).map_err(refusal_of), "{slot}");
        format!("close {answer:?}")
    }

    fn read(&self, slot: usize) -> String {
        let answer = self.station.read(&self.store, slot);
        let length = self.model.read_length(slot, &self.model_store);
        let part = self.model.read_part(slot, &self.model_store);
        assert_eq!(answer, length.map(|_| part).map_err(refusal_of), "{slot}");
        assert_eq!(answer.map(<[u8]>::len), length.map_err(refusal_of));
        format!("read {:?}", answer.map(drop))
    }

    fn receive(&mut self, bus: u8, image: &[u8]) -> String {
        let on = Bus::of_number(bus).expect("boards send on A or B");
        let answer = self.station.receive(&mut self.store, on, image);
        let (model, expected) = self.model.receive(bus, image, &mut self.model_store);
        self.model = model;
        assert_eq!(answer, reply_of(expected), "{image:02X?}");
        assert!(
            self.store[..] == self.model_store[..],
            "{image:02X?} is stored otherwise"
        );
        match answer {
            Ok(Reply::Packet { broke, .. }) => format!("packet, broke {broke}"),
            Ok(Reply::Kept { broke }) => format!("kept, broke {broke}"),
            Ok(Reply::Filtered) => "filtered".into(),
            Ok(other) => panic!("{other:?} is no answer of the model"),
            Err(refusal) => refusal.name().into(),
        }
    }
}

/// A pair, the boards whose frames it hears, and what was answered how often.
struct Script<'t> {
    pair: Pair,
    keys: Vec<Key>,
    traffic: Traffic,
    random: Random,
    tally: &'t mut BTreeMap<String, usize>,
}

impl Script<'_> {
    fn new(format: Format, number: u64, tally: &mut BTreeMap<String, usize>) -> Script<'_> {
        let mut random = Random::of_item(1, number);
        let (count, sizes, damaged) = RUNS[number as usize % RUNS.len()];
        let keys = different_keys(second_format(format), count, &mut random);
        let noise = Noise {
            corrupt: damaged,
            ..Noise::even(damaged / 6)
        };
        let own = Random::of_item(2, number);
        let traffic = Traffic::new(&keys, sizes, noise, LONGEST, own);
        Script {
            pair: Pair::new(format),
            keys,
            traffic,
            random,
            tally,
        }
    }

    fn run(mut self) {
        for key in self.keys.iter().take(SLOT_COUNT) {
            self.pair.open(key);
        }
        for _ in 0..STEPS {
            let answer = self.call();
            self.count(&answer);
        }
        for slot in 0..SLOT_COUNT {
            self.pair.read(slot);
        }
    }

    /// One call, as it comes; answers what was answered, in words.
    fn call(&mut self) -> String {
        match self.random.below(160) {
            0..=3 => self.pair.open(&self.random.pick(&self.keys)),
            4 => self.pair.close(self.random.below(SLOT_COUNT + 1)),
            5..=12 => self.pair.read(self.random.below(SLOT_COUNT + 1)),
            _ => {
                self.traffic.give_up_lost(&self.pair.model);
                let arrival = self.traffic.next_frame();
                if let Some(note) = arrival.note {
                    self.count(note);
                }
                self.pair.receive(arrival.bus, &arrival.image)
            }
        }
    }

    fn count(&mut self, what: &str) {
        *self.tally.entry(what.into()).or_default() += 1;
    }
}

/// Runs the scripts and says what was answered how often.
fn compare(format: Format) -> BTreeMap<String, usize> {
    let mut tally = BTreeMap::new();
    for number in 0..SCRIPTS {
        Script::new(format, number, &mut tally).run();
    }
    tally
}

/// Each answer must have come about, or the comparison says less than it seems to.
fn check_tally(tally: &BTreeMap<String, usize>, answers: &str) {
    for answer in answers.split("; ") {
        assert!(tally.contains_key(answer), "never {answer}: {tally:#?}");
    }
}

const ANSWERS: &str =
    "filtered; kept, broke false; kept, broke true; packet, broke false; packet, broke true; \
    LENGTH; REMOTE; COUNT; SURPLUS; PIECE; ORPHAN; STEP; open Ok(()); open Err(Taken); open Err(Full); \
    close Ok(()); close Err(Closed); read Ok(()); read Err(Closed); read Err(NoPacket)";

const DAMAGE: &str = "frame lost before this one; length wrong; bits flipped; random bytes";

#[test]
fn extended_traffic_is_received_as_document_01_says() {
    let tally = compare(Format::Extended);
    check_tally(&tally, ANSWERS);
    check_tally(&tally, DAMAGE);
    check_tally(&tally, "FORM; LONG");
}

#[test]
fn standard_traffic_is_received_as_document_01_says() {
    let tally = compare(Format::Standard);
    check_tally(&tally, ANSWERS);
    check_tally(&tally, DAMAGE);
    assert!(!tally.contains_key("FORM") && !tally.contains_key("LONG"));
}
