//! Calls on a station: frames received, among all the others.

use second::format::Format;
use second::interface::{station_bytes, station_of, STATION_SIZE};
use second::key::Key;
use second::station::{Slot, Station, STORE_SIZE};
use second::stream::State;
use testkit::damage::LONGEST;
use testkit::keys::{self, any_fields, different_keys, field_bytes, number, NO_BUSES};
use testkit::traffic::{Noise, Sizes, Traffic};
use testkit::{Random, FORMATS};

use crate::call::{Bytes, Call, Part, Place, STATION, STORE};
use crate::mutate::{mutate, sound_station, unsound_station, STATION_WAYS};
use crate::sequence::{Step, Steps};
use crate::tally::{List, Note};

/// What a sequence does with its station.
pub struct StationCalls {
    format: Format,
    /// The keys of the traffic, of which up to sixteen are open.
    keys: Vec<Key>,
    traffic: Traffic,
    /// In a thousand: how often bytes are put in the station's place, and calls that receive nothing.
    sets: usize,
    others: usize,
}

impl StationCalls {
    /// Begins with a new station and its first streams. A long sequence is one of long packets.
    pub fn new(long: bool, random: &mut Random, steps: &mut Steps) -> StationCalls {
        let format = random.pick(&FORMATS);
        let (streams, sizes, noise) = match long {
            // Little breaks the longest packets.
            true => (
                random.within(2, 3),
                random.pick(&[Sizes::Large, Sizes::NearLimit, Sizes::TooLong]),
                random.pick(&[0, 1]),
            ),
            false => (
                random.within(2, 20),
                random.pick(&[Sizes::Single, Sizes::Short, Sizes::Short, Sizes::Mixed]),
                random.pick(&[0, 10, 30, 60, 130]),
            ),
        };
        let keys = different_keys(format, streams, random);
        let own = Random::new(random.next_u64());
        let station = StationCalls {
            format,
            traffic: Traffic::new(&keys, sizes, Noise::even(noise), LONGEST, own),
            keys,
            sets: if long { 1 } else { random.pick(&[0, 20, 80]) },
            others: random.pick(&[20, 150, 300]),
        };
        let bytes = random.bytes(STATION_SIZE);
        steps.push_back(Step::Set(Part::Station, bytes, None));
        station.push_new(random, steps);
        station
    }

    /// A new station with most of the keys open: a stream now and then stays closed, so that its frames are filtered.
    fn push_new(&self, random: &mut Random, steps: &mut Steps) {
        steps.push_back(Step::Call(new(number(self.format))));
        for key in &self.keys {
            if random.chance(950) {
                steps.push_back(Step::Call(open(key)));
            }
        }
    }

    /// Puts the next steps in line.
    pub fn make_up(&mut self, station: &[u8], random: &mut Random, steps: &mut Steps) {
        if random.chance(self.sets) {
            return self.put_in_place(station, random, steps);
        }
        if random.chance(3) {
            return self.push_new(random, steps);
        }
        let station = station_of(station);
        let call = match random.chance(self.others) {
            true => self.other_call(station.as_ref(), random),
            false => {
                if let Some(station) = &station {
                    self.traffic.give_up_lost(station);
                }
                self.receive(random)
            }
        };
        steps.push_back(Step::Call(call));
    }

    fn receive(&mut self, random: &mut Random) -> Call {
        let arrival = self.traffic.next_frame();
        let bus = match random.chance(5) {
            true => random.pick(&NO_BUSES),
            false => arrival.bus,
        };
        Call::receive {
            station: STATION,
            store: any_store(random),
            bus,
            image: Bytes::Own(arrival.image),
        }
    }

    fn other_call(&self, station: Option<&Station>, random: &mut Random) -> Call {
        match random.below(100) {
            0..=44 => {
                let store = any_store(random);
                match station.and_then(done_slot) {
                    Some(slot) if random.chance(500) => read(store, slot),
                    _ => read(store, any_slot(random)),
                }
            }
            45..=74 => open(&random.pick(&self.keys)),
            75..=82 => self.bad_open(random),
            83..=97 => close(any_slot(random)),
            _ => new(random.pick(&[2, 3, 128, 255])),
        }
    }

    /// A key with its bus, a field or the number of fields out of range.
    fn bad_open(&self, random: &mut Random) -> Call {
        let key = random.pick(&self.keys);
        let (mut bus, mut fields) = (key.bus, field_bytes(&key.fields));
        match random.chance(300) {
            true => bus = random.pick(&NO_BUSES),
            false => fields = bad_fields(self.format, random),
        }
        open_bytes(bus, fields)
    }

    /// Other bytes in the station's place for some calls: sound ones to go on with, or others.
    fn put_in_place(&mut self, station: &[u8], random: &mut Random, steps: &mut Steps) {
        if random.chance(250) {
            let sound = sound_station(self.format, &self.keys, random);
            self.traffic.follow(&sound);
            let bytes = station_bytes(&sound).to_vec();
            steps.push_back(Step::Set(
                Part::Station,
                bytes,
                Some(Note(List::SoundStation, 0)),
            ));
            let slot = done_slot(&sound);
            return steps.extend(slot.map(|slot| Step::Call(read(STORE, slot))));
        }
        let (bytes, note) = match random.chance(400) {
            true => {
                let way = random.below(STATION_WAYS.len());
                let bytes = unsound_station(self.format, &self.keys, way, random);
                (bytes, Note(List::UnsoundStation, way))
            }
            false => {
                let mut bytes = station.to_vec();
                let way = mutate(&mut bytes, random);
                (bytes, Note(List::MutatedStation, way))
            }
        };
        let sound = station_of(&bytes).filter(Station::is_sound);
        steps.push_back(Step::Set(Part::Station, bytes, Some(note)));
        for _ in 0..random.within(1, 3) {
            let call = self.any_call(random);
            steps.push_back(Step::Call(call));
        }
        match sound {
            // A station that is still sound is gone on with half of the time.
            Some(station) if random.chance(500) && station.format == self.format => {
                self.traffic.follow(&station)
            }
            _ => steps.push_back(Step::Set(Part::Station, station.to_vec(), None)),
        }
    }

    /// Any of the calls, each about as often.
    fn any_call(&mut self, random: &mut Random) -> Call {
        match random.below(10) {
            0..=2 => self.receive(random),
            3 | 4 => new(random.pick(&[0, 1, 2])),
            5 => read(any_store(random), any_slot(random)),
            6 => close(any_slot(random)),
            7 => self.bad_open(random),
            _ => open(&random.pick(&self.keys)),
        }
    }
}

/// A slot that has a packet, the longest of all.
fn done_slot(station: &Station) -> Option<usize> {
    let length = |slot: &Slot| match slot {
        Slot::Open {
            state: State::Done(length),
            ..
        } => Some(*length),
        _ => None,
    };
    let slots = station.slots.iter().enumerate();
    let done = slots.filter_map(|(i, slot)| Some((length(slot)?, i)));
    done.max().map(|(_, i)| i)
}

fn new(format: u8) -> Call {
    Call::station_new {
        station: STATION,
        format,
    }
}

fn open(key: &Key) -> Call {
    open_bytes(key.bus, field_bytes(&key.fields))
}

fn open_bytes(bus: u8, fields: Vec<u8>) -> Call {
    Call::open {
        station: STATION,
        bus,
        fields: Bytes::Own(fields),
    }
}

fn close(slot: usize) -> Call {
    Call::close {
        station: STATION,
        slot,
    }
}

fn read(store: Bytes, slot: usize) -> Call {
    Call::read {
        station: STATION,
        store,
        slot,
        start: Place,
    }
}

/// Mostly the station's own; else one of another length, among them such as 8 or 16 bits cannot tell from it.
fn any_store(random: &mut Random) -> Bytes {
    if !random.chance(8) {
        return STORE;
    }
    let length = match random.below(10) {
        0 => 0,
        1 => 1,
        2 | 3 => STORE_SIZE - 1,
        4 | 5 => STORE_SIZE + 1,
        6 => STORE_SIZE + 2048,
        7 => STORE_SIZE + 65_536,
        _ => random.below(STORE_SIZE),
    };
    Bytes::Own(vec![0xB7; length])
}

/// Mostly one of the sixteen; else one that is none, among them such as 8, 16 or 32 bits cannot tell from one.
fn any_slot(random: &mut Random) -> usize {
    let slot = random.below(16);
    match random.below(100) {
        0..=89 => slot,
        90 | 91 => 16,
        92 => 17,
        93 => slot + 256,
        94 => slot + 65_536,
        95 => slot + (1 << 32),
        96 => slot + (1 << 63),
        97 => usize::MAX,
        98 => usize::MAX - slot,
        _ => random.next_u64() as usize,
    }
}

/// Fields of which one is out of range, or of which there are more or fewer.
pub fn bad_fields(format: Format, random: &mut Random) -> Vec<u8> {
    if random.chance(600) {
        return field_bytes(&keys::bad_fields(format, random));
    }
    let mut bytes = field_bytes(&any_fields(format, random));
    let right = bytes.len();
    let length = match random.below(6) {
        0 => 0,
        1 => right - 1,
        2 => right + 1,
        // As many as the other format has.
        3 => 8 - right,
        4 if random.chance(100) => right + 65_536,
        4 => right + 256,
        _ => random.pick(&[1, 7, 8, 9]),
    };
    bytes.resize(length, 0);
    bytes
}

#[cfg(test)]
mod tests {
    use super::*;
    use second::interface::fields_of;

    #[test]
    fn bad_fields_are_refused() {
        let mut random = Random::new(6);
        for format in FORMATS {
            for _ in 0..2000 {
                let bytes = bad_fields(format, &mut random);
                let fields = fields_of(format, &bytes);
                assert!(!fields.is_ok_and(|fields| fields.in_range()), "{bytes:?}");
            }
        }
    }

    #[test]
    fn other_stores_have_another_length() {
        let mut random = Random::new(6);
        let mut others = 0;
        for _ in 0..100_000 {
            if let Bytes::Own(store) = any_store(&mut random) {
                assert_ne!(store.len(), STORE_SIZE);
                others += 1;
            }
        }
        assert!((500..1500).contains(&others), "{others}");
    }
}
