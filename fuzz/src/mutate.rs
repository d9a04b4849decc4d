//! States that are sound, and states made of them that mostly are not.

use second::format::Format;
use second::interface::{master_bytes, station_bytes, watch_bytes, MASTER_SIZE, STATION_SIZE};
use second::key::Key;
use second::master::{Exchange, Kind, Master};
use second::station::{Slot, Station, SLOT_COUNT};
use second::stream::State;
use second::watch::Watch;
use testkit::Random;

/// The numbers of a record, as the header gives them.
const STANDARD_MARK: u32 = 16_384;
const IDLE: u32 = 65_536;
const COLLECTING: u32 = 131_072;
const DONE: u32 = 196_608;

/// The ways in which a state is changed; those of the lists below always make it unsound.
pub const WAYS: [&str; 5] = [
    "a bit",
    "a byte",
    "two bytes",
    "random bytes",
    "another length",
];

/// A record of a station made one that no station writes.
pub const STATION_WAYS: [&str; 12] = [
    "closed slot with a key",
    "closed slot with bytes held",
    "idle slot with bytes held",
    "state over 3",
    "collecting with a wrong h",
    "done with h over the limit",
    "bit of no field in a key",
    "mark of standard wrong",
    "key open twice",
    "format over 1",
    "other format with an open slot",
    "another layout",
];

/// A master made one that none writes.
pub const MASTER_WAYS: [&str; 7] = [
    "bus over 1",
    "kind over 3",
    "no exchange but a node",
    "no exchange but sends",
    "node over 63",
    "sends out of range",
    "another layout",
];

/// A watch made one that none writes: any two times are sound.
pub const WATCH_WAYS: [&str; 1] = ["another layout"];

/// A sound station with some of the keys open, in any state and any slot.
pub fn sound_station(format: Format, keys: &[Key], random: &mut Random) -> Station {
    let mut station = Station::new(format);
    let open = random.within(0, keys.len().min(SLOT_COUNT));
    for key in &keys[..open] {
        let mut slot = random.below(SLOT_COUNT);
        while station.slots[slot] != Slot::Closed {
            slot = (slot + 1) % SLOT_COUNT;
        }
        let state = sound_state(format, random);
        station.slots[slot] = Slot::Open { key: *key, state };
    }
    station
}

/// A sound state, often near a limit.
fn sound_state(format: Format, random: &mut Random) -> State {
    let size = format.piece_size();
    let most = format.collecting_limit() / size;
    match random.below(4) {
        0 => State::Idle,
        1 => State::Collecting(size * random.within(1, most)),
        2 => State::Collecting(size * random.pick(&[1, 2, 63, 64, 65, most - 1, most, most])),
        _ => State::Done(match random.chance(300) {
            true => random.pick(&[0, 1, 8, format.packet_limit()]),
            false => random.within(0, format.packet_limit()),
        }),
    }
}

/// A sound master, often in an exchange.
pub fn sound_master(random: &mut Random) -> Master {
    let mut master = Master::new();
    let bits = random.next_u64();
    for (i, bus) in master.chosen.iter_mut().enumerate() {
        *bus = (bits >> i & 1) as u8;
    }
    if random.chance(700) {
        let kind = random.pick(&[Kind::Poll, Kind::DataBlock, Kind::Command]);
        let node = random.below(64) as u8;
        let sends = random.within(1, usize::from(kind.total_sends())) as u8;
        master.exchange = Some(Exchange { kind, node, sends });
    }
    master
}

/// Changes bytes in one of the general ways and says in which.
pub fn mutate(bytes: &mut Vec<u8>, random: &mut Random) -> usize {
    let way = if bytes.is_empty() { 4 } else { random.below(5) };
    match way {
        0 => {
            let place = random.below(bytes.len() * 8);
            bytes[place / 8] ^= 1 << (place % 8);
        }
        1 | 2 => {
            for _ in 0..way {
                let place = random.below(bytes.len());
                bytes[place] = small_or_any(random);
            }
        }
        3 => *bytes = random.bytes(bytes.len()),
        _ => change_length(bytes, random),
    }
    way
}

fn small_or_any(random: &mut Random) -> u8 {
    match random.chance(500) {
        true => random.below(8) as u8,
        false => random.byte(),
    }
}

/// A length that a number of 8 or 16 bits takes for the right one is among them.
fn change_length(bytes: &mut Vec<u8>, random: &mut Random) {
    let right = bytes.len();
    let length = match random.below(8) {
        0 => 0,
        1 => right.saturating_sub(1),
        2 => right + 1,
        3 => right + 256,
        4 if random.chance(100) => right + 65_536,
        _ => random.below(right + 70),
    };
    bytes.resize(length, 0);
}

/// A station that no calls hand back, made unsound in the way of that number. It takes at least two keys.
pub fn unsound_station(format: Format, keys: &[Key], way: usize, random: &mut Random) -> Vec<u8> {
    let mut station = sound_station(format, &keys[1..], random);
    // One slot is open and one closed for certain; both are places for what is wrong.
    let open = random.below(SLOT_COUNT);
    let closed = (open + random.within(1, SLOT_COUNT - 1)) % SLOT_COUNT;
    let (key, state) = (keys[0], State::Idle);
    station.slots[open] = Slot::Open { key, state };
    station.slots[closed] = Slot::Closed;
    let mut bytes = station_bytes(&station).to_vec();
    match way {
        9 => bytes[STATION_SIZE - 2] = random.within(2, 255) as u8,
        10 => bytes[STATION_SIZE - 2] ^= 1,
        11 => change_layout(&mut bytes, random),
        _ => {
            let place = if matches!(way, 0 | 1 | 8) {
                closed
            } else {
                open
            };
            let (key, state) = wrong_record(format, key_number(&bytes, open), way, random);
            bytes[8 * place..8 * place + 4].copy_from_slice(&key.to_le_bytes());
            bytes[8 * place + 4..8 * place + 8].copy_from_slice(&state.to_le_bytes());
        }
    }
    bytes
}

/// Gives the last byte another value, mostly one next to its own.
fn change_layout(bytes: &mut [u8], random: &mut Random) {
    let last = bytes.len() - 1;
    let difference = random.within(1, 255) as u8;
    bytes[last] ^= random.pick(&[1, 3, 255, difference]);
}

/// The two numbers of a record that is wrong in the way of that number; the key's is that of an open slot.
fn wrong_record(format: Format, key: u32, way: usize, random: &mut Random) -> (u32, u32) {
    let size = format.piece_size();
    let any_held = random.within(1, 65_535) as u32;
    match way {
        0 => (random.next_u64() as u32 | 1, 0),
        1 => (0, any_held),
        2 => (key, IDLE + any_held),
        3 => {
            let held = (size * random.within(1, 255)) as u32;
            // Some are such as two or eight bits take for a sound one.
            let any = random.within(4, 65_535) as u32;
            let state = random.pick(&[4, 5, 6, 7, 0x102, 0x103, 0x8002, any]);
            (key, state * 65_536 + held)
        }
        4 => (key, COLLECTING + wrong_collecting(format, random)),
        5 => (key, DONE + over_limit(format, random)),
        6 => (key | unused_bit(format, random), IDLE),
        7 => (key ^ STANDARD_MARK, IDLE),
        // In a second slot.
        _ => (key, IDLE),
    }
}

/// The key's number of a slot.
fn key_number(bytes: &[u8], slot: usize) -> u32 {
    let record = &bytes[8 * slot..8 * slot + 4];
    u32::from_le_bytes(record.try_into().expect("four bytes"))
}

/// An h with which no stream is done, often next to the limit or that of the other format.
fn over_limit(format: Format, random: &mut Random) -> u32 {
    let limit = format.packet_limit();
    let any = random.within(limit + 1, 65_535);
    random.pick(&[limit + 1, limit + 256, 2049, any]) as u32
}

/// An h with which no stream collects.
fn wrong_collecting(format: Format, random: &mut Random) -> u32 {
    let size = format.piece_size();
    let limit = format.collecting_limit();
    match random.below(4) {
        0 => 0,
        1 => (limit + size) as u32,
        2 => random.within(limit + 1, 65_535) as u32,
        // Between two multiples.
        _ => (size * random.below(limit / size) + random.within(1, size - 1)) as u32,
    }
}

/// A bit of the key's number that no field of the format uses, but for the mark.
fn unused_bit(format: Format, random: &mut Random) -> u32 {
    let used: u32 = match format {
        Format::Extended => 0x3F03_3FFF,
        Format::Standard => 0x0001_3F83,
    };
    loop {
        let bit = 1 << random.below(32);
        if bit & (used | STANDARD_MARK) == 0 {
            return bit;
        }
    }
}

/// A master that no calls hand back, made unsound in the way of that number.
pub fn unsound_master(way: usize, random: &mut Random) -> Vec<u8> {
    let mut master = sound_master(random);
    if matches!(way, 2 | 3) {
        master.exchange = None;
    }
    let mut bytes = master_bytes(&master).to_vec();
    let [kind, node, sends] = [MASTER_SIZE - 4, MASTER_SIZE - 3, MASTER_SIZE - 2];
    match way {
        0 => bytes[random.below(64)] = random.within(2, 255) as u8,
        1 => bytes[kind] = random.within(4, 255) as u8,
        2 => bytes[node] = random.within(1, 255) as u8,
        3 => bytes[sends] = random.within(1, 255) as u8,
        4 => {
            bytes[kind..=sends].copy_from_slice(&[random.within(1, 3) as u8, 0, 1]);
            bytes[node] = random.within(64, 255) as u8;
        }
        5 => {
            let number = random.within(1, 3) as u8;
            let over = Kind::of_number(number).map_or(0, Kind::total_sends) + 1;
            bytes[kind..=sends].copy_from_slice(&[number, 0, 0]);
            bytes[sends] = random.pick(&[0, over, 255]);
        }
        _ => change_layout(&mut bytes, random),
    }
    bytes
}

/// Any watch.
pub fn sound_watch(random: &mut Random) -> Watch {
    let times = random.next_u64();
    Watch {
        last: [times as u32, (times >> 32) as u32],
    }
}

/// A watch that no calls hand back.
pub fn unsound_watch(random: &mut Random) -> Vec<u8> {
    let mut bytes = watch_bytes(&sound_watch(random)).to_vec();
    change_layout(&mut bytes, random);
    bytes
}

#[cfg(test)]
mod tests {
    use super::*;
    use second::interface::{master_of, station_of, watch_of, WATCH_SIZE};
    use testkit::keys::{different_keys, FORMATS};

    fn is_sound_station(bytes: &[u8]) -> bool {
        station_of(bytes).is_some_and(|station| station.is_sound())
    }

    fn is_sound_master(bytes: &[u8]) -> bool {
        master_of(bytes).is_some_and(|master| master.is_sound())
    }

    #[test]
    fn sound_ones_are_sound() {
        let mut random = Random::new(1);
        for format in FORMATS {
            for count in 1..20 {
                let keys = different_keys(format, count, &mut random);
                let station = sound_station(format, &keys, &mut random);
                assert!(is_sound_station(&station_bytes(&station)));
            }
        }
        for _ in 0..1000 {
            assert!(is_sound_master(&master_bytes(&sound_master(&mut random))));
        }
    }

    #[test]
    fn unsound_ones_are_not() {
        let mut random = Random::new(2);
        for format in FORMATS {
            for (way, name) in STATION_WAYS.iter().enumerate() {
                for _ in 0..300 {
                    let keys = different_keys(format, 8, &mut random);
                    let bytes = unsound_station(format, &keys, way, &mut random);
                    assert_eq!(bytes.len(), STATION_SIZE);
                    assert!(!is_sound_station(&bytes), "{name}");
                }
            }
        }
        for (way, name) in MASTER_WAYS.iter().enumerate() {
            for _ in 0..300 {
                let bytes = unsound_master(way, &mut random);
                assert_eq!(bytes.len(), MASTER_SIZE);
                assert!(!is_sound_master(&bytes), "{name}");
            }
        }
        for _ in 0..300 {
            let bytes = unsound_watch(&mut random);
            assert_eq!(bytes.len(), WATCH_SIZE);
            assert!(watch_of(&bytes).is_none());
        }
    }

    #[test]
    fn mutations_leave_some_sound_and_some_not() {
        let mut random = Random::new(3);
        let keys = different_keys(Format::Extended, 8, &mut random);
        let mut sound = 0;
        for _ in 0..1000 {
            let station = sound_station(Format::Extended, &keys, &mut random);
            let mut bytes = station_bytes(&station).to_vec();
            mutate(&mut bytes, &mut random);
            sound += usize::from(is_sound_station(&bytes));
        }
        assert!((20..800).contains(&sound), "{sound}");
    }
}
