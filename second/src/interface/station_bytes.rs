//! A station as bytes: sixteen records of two numbers, then the format and the
//! number of this layout.

use crate::format::Format;
use crate::key::{Fields, Key};
use crate::station::{Slot, Station, SLOT_COUNT};
use crate::stream::State;

use super::format_of;

/// The bytes of a record.
const RECORD_SIZE: usize = 8;

/// The place of the format, behind the records.
const FORMAT_AT: usize = SLOT_COUNT * RECORD_SIZE;

/// The bytes of a station.
pub const STATION_SIZE: usize = FORMAT_AT + 2;

/// The number of their layout.
pub const STATION_LAYOUT: u8 = 1;

/// Set in the key's number of every standard key.
const STANDARD_MARK: u32 = 16_384;

/// The state's number has its kind above the sixteen bits of h.
const IDLE: u32 = 1;
const COLLECTING: u32 = 2;
const DONE: u32 = 3;

/// The bytes of a station whose fields and bytes held are in range.
pub fn station_bytes(station: &Station) -> [u8; STATION_SIZE] {
    let mut bytes = [0; STATION_SIZE];
    for (record, slot) in bytes.chunks_exact_mut(RECORD_SIZE).zip(&station.slots) {
        let (key, state) = slot_numbers(slot);
        record[..4].copy_from_slice(&key.to_le_bytes());
        record[4..].copy_from_slice(&state.to_le_bytes());
    }
    let format = match station.format {
        Format::Extended => 0,
        Format::Standard => 1,
    };
    bytes[FORMAT_AT..].copy_from_slice(&[format, STATION_LAYOUT]);
    bytes
}

/// The station of bytes; none where no station has them. It may be unsound.
pub fn station_of(bytes: &[u8]) -> Option<Station> {
    if bytes.len() != STATION_SIZE || bytes[STATION_SIZE - 1] != STATION_LAYOUT {
        return None;
    }
    let format = format_of(bytes[FORMAT_AT])?;
    let mut station = Station::new(format);
    for (slot, record) in station
        .slots
        .iter_mut()
        .zip(bytes.chunks_exact(RECORD_SIZE))
    {
        let (key, state) = record.split_at(RECORD_SIZE / 2);
        *slot = slot_of(format, number(key), number(state))?;
    }
    Some(station)
}

fn number(bytes: &[u8]) -> u32 {
    let low_first = bytes.iter().rev();
    low_first.fold(0, |number, &byte| number << 8 | u32::from(byte))
}

/// The two numbers of a slot's record.
fn slot_numbers(slot: &Slot) -> (u32, u32) {
    match slot {
        Slot::Closed => (0, 0),
        Slot::Open { key, state } => (key_number(key), state_number(*state)),
    }
}

/// The slot of a record; none where no slot has these numbers, as where a bit
/// is set that no field uses.
fn slot_of(format: Format, key: u32, state: u32) -> Option<Slot> {
    if (key, state) == (0, 0) {
        return Some(Slot::Closed);
    }
    let slot = Slot::Open {
        key: key_of(format, key),
        state: state_of(state)?,
    };
    (slot_numbers(&slot) == (key, state)).then_some(slot)
}

fn key_number(key: &Key) -> u32 {
    let fields = match key.fields {
        Fields::Extended {
            priority,
            source,
            group,
            destination,
            function,
        } => {
            u32::from(priority)
                + 4 * u32::from(function)
                + 256 * u32::from(source)
                + 65_536 * u32::from(group)
                + 16_777_216 * u32::from(destination)
        }
        Fields::Standard {
            priority,
            address,
            side,
        } => {
            u32::from(priority)
                + STANDARD_MARK
                + 256 * u32::from(address)
                + 65_536 * u32::from(side)
        }
    };
    fields + 128 * u32::from(key.bus)
}

/// The key of a number, by the bits of its fields; all others are left out.
fn key_of(format: Format, number: u32) -> Key {
    let field = |below: u32, count: u32| (number / below % count) as u8;
    let fields = match format {
        Format::Extended => Fields::Extended {
            priority: field(1, 4),
            source: field(256, 64),
            group: field(65_536, 4),
            destination: field(16_777_216, 64),
            function: field(4, 32),
        },
        Format::Standard => Fields::Standard {
            priority: field(1, 4),
            address: field(256, 64),
            side: field(65_536, 2),
        },
    };
    Key {
        bus: field(128, 2),
        fields,
    }
}

fn state_number(state: State) -> u32 {
    let (kind, held) = match state {
        State::Idle => (IDLE, 0),
        State::Collecting(held) => (COLLECTING, held),
        State::Done(held) => (DONE, held),
    };
    kind * 65_536 + held as u32
}

fn state_of(number: u32) -> Option<State> {
    let held = (number % 65_536) as usize;
    match number / 65_536 {
        IDLE => Some(State::Idle),
        COLLECTING => Some(State::Collecting(held)),
        DONE => Some(State::Done(held)),
        _ => None,
    }
}

#[cfg(test)]
mod tests {
    use super::*;

    fn extended(bus: u8, fields: [u8; 5]) -> Key {
        let [priority, source, group, destination, function] = fields;
        Key {
            bus,
            fields: Fields::Extended {
                priority,
                source,
                group,
                destination,
                function,
            },
        }
    }

    fn standard(bus: u8, fields: [u8; 3]) -> Key {
        let [priority, address, side] = fields;
        Key {
            bus,
            fields: Fields::Standard {
                priority,
                address,
                side,
            },
        }
    }

    #[test]
    fn key_numbers() {
        for (key, number) in [
            (extended(0, [0; 5]), 0),
            (extended(1, [0; 5]), 128),
            (extended(0, [3, 63, 3, 63, 31]), 0x3F03_3F7F),
            (extended(1, [1, 5, 2, 9, 2]), 0x0902_0589),
            (standard(0, [0; 3]), 0x4000),
            (standard(1, [3, 63, 1]), 0x0001_7F83),
        ] {
            assert_eq!(key_number(&key), number, "{key:?}");
            assert_eq!(key_of(key.fields.format(), number), key);
        }
    }

    #[test]
    fn records_lie_low_byte_first_then_format_and_layout() {
        let mut station = Station::new(Format::Standard);
        station.slots[2] = Slot::Open {
            key: standard(1, [2, 22, 1]),
            state: State::Done(0x0123),
        };
        let bytes = station_bytes(&station);
        assert_eq!(bytes[16..24], [0x82, 0x56, 1, 0, 0x23, 0x01, 3, 0]);
        assert_eq!(bytes[128..], [1, 1]);
        let rest = |i: &usize| !(16..24).contains(i);
        assert!((0..128).filter(rest).all(|i| bytes[i] == 0));
        assert_eq!(station_of(&bytes), Some(station));
    }

    #[test]
    fn every_state_is_read_as_written() {
        for state in [State::Idle, State::Collecting(2048), State::Done(0)] {
            let mut station = Station::new(Format::Extended);
            station.slots[15] = Slot::Open {
                key: extended(1, [3, 63, 3, 63, 31]),
                state,
            };
            assert_eq!(station_of(&station_bytes(&station)), Some(station));
        }
    }

    #[test]
    fn numbers_that_no_slot_has() {
        let idle = IDLE * 65_536;
        for (format, key, state) in [
            (Format::Extended, 1, 0),              // closed with a key
            (Format::Extended, 0, 1),              // closed with bytes held
            (Format::Extended, 0, idle + 8),       // idle with bytes held
            (Format::Extended, 0, 4 * 65_536),     // a fourth state
            (Format::Extended, 0, 1 << 24),        // above the states
            (Format::Extended, 0x4000, idle),      // marked as standard
            (Format::Extended, 0x8000, idle),      // above the source
            (Format::Extended, 0x0004_0000, idle), // above the group
            (Format::Extended, 0x4000_0000, idle), // above the destination
            (Format::Standard, 0, idle),           // not marked
            (Format::Standard, 0x4004, idle),      // above the priority
            (Format::Standard, 0xC000, idle),      // above the mark
            (Format::Standard, 0x0002_4000, idle), // above the side
            (Format::Standard, 0x0100_4000, idle), // the highest byte
        ] {
            assert_eq!(slot_of(format, key, state), None, "{key:08X} {state:08X}");
        }
    }

    #[test]
    fn only_130_bytes_with_a_format_and_this_layout_are_a_station() {
        let mut bytes = station_bytes(&Station::new(Format::Extended)).to_vec();
        assert!(station_of(&bytes).is_some());
        assert!(station_of(&bytes[..129]).is_none());
        for (format, layout) in [(2, 1), (0, 0), (1, 0), (0, 2), (0, 255)] {
            bytes[128..].copy_from_slice(&[format, layout]);
            assert!(station_of(&bytes).is_none());
        }
        bytes[128..].copy_from_slice(&[1, 1]);
        assert!(station_of(&bytes).is_some());
        bytes.push(1);
        assert!(station_of(&bytes).is_none());
        assert!(station_of(&[]).is_none());
    }
}
