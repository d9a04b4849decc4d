//! The plain station over lent bytes, laid out as include/siljuvatt.h fixes them: read from the bytes, worked on, and
//! the records written back. Also the answers as the library's numbers.

#![forbid(unsafe_code)]

use second::interface::{refused, FILTERED, KEPT, PACKET};
pub use second::interface::{STATION_LAYOUT, STATION_SIZE};

use crate::plain::{Fields, Format, Key, Progress, Refusal, Reply, Station, Stream, SLOTS};

fn key_number(key: Key) -> u32 {
    let bus = u32::from(key.bus);
    match key.fields {
        Fields::Extended {
            priority,
            source,
            group,
            destination,
            function,
        } => {
            u32::from_le_bytes([priority, source, group, destination])
                | u32::from(function) << 2
                | bus << 7
        }
        Fields::Standard {
            priority,
            address,
            side,
        } => u32::from_le_bytes([priority, address, side, 0]) | 16_384 | bus << 7,
    }
}

fn key_of(format: Format, number: u32) -> Key {
    let [low, second, third, fourth] = number.to_le_bytes();
    let priority = low & 3;
    let fields = match format {
        Format::Extended => Fields::Extended {
            priority,
            source: second,
            group: third,
            destination: fourth,
            function: low >> 2 & 31,
        },
        Format::Standard => Fields::Standard {
            priority,
            address: second & 63,
            side: third,
        },
    };
    Key {
        bus: low >> 7,
        fields,
    }
}

fn progress_number(progress: Progress) -> u32 {
    match progress {
        Progress::Idle => 65_536,
        Progress::Collecting(h) => 131_072 + h as u32,
        Progress::Done(h) => 196_608 + h as u32,
    }
}

fn progress_of(number: u32) -> Option<Progress> {
    let h = (number & 0xFFFF) as usize;
    match number >> 16 {
        1 if h == 0 => Some(Progress::Idle),
        2 => Some(Progress::Collecting(h)),
        3 => Some(Progress::Done(h)),
        _ => None,
    }
}

fn word(bytes: &[u8]) -> u32 {
    u32::from_le_bytes([bytes[0], bytes[1], bytes[2], bytes[3]])
}

fn slot_of(format: Format, record: &[u8]) -> Result<Option<Stream>, Refusal> {
    let (key, progress) = (word(&record[..4]), word(&record[4..]));
    if key == 0 && progress == 0 {
        return Ok(None);
    }
    let stream = Stream {
        key: key_of(format, key),
        progress: progress_of(progress).ok_or(Refusal::State)?,
    };
    // Bits that no field has would be lost.
    if key_number(stream.key) != key {
        return Err(Refusal::State);
    }
    Ok(Some(stream))
}

/// The station in the bytes; it need not be sound.
pub fn station_of(bytes: &[u8]) -> Result<Station, Refusal> {
    if bytes.len() != STATION_SIZE {
        return Err(Refusal::State);
    }
    let format = match bytes[8 * SLOTS..] {
        [0, STATION_LAYOUT] => Format::Extended,
        [1, STATION_LAYOUT] => Format::Standard,
        _ => return Err(Refusal::State),
    };
    let mut station = Station::new(format);
    for (slot, record) in station.slots.iter_mut().zip(bytes.chunks_exact(8)) {
        *slot = slot_of(format, record)?;
    }
    Ok(station)
}

pub fn put_station(station: &Station, bytes: &mut [u8]) {
    for (slot, record) in station.slots.iter().zip(bytes.chunks_exact_mut(8)) {
        let (key, progress) = match slot {
            Some(stream) => (key_number(stream.key), progress_number(stream.progress)),
            None => (0, 0),
        };
        record[..4].copy_from_slice(&key.to_le_bytes());
        record[4..].copy_from_slice(&progress.to_le_bytes());
    }
    bytes[8 * SLOTS..].copy_from_slice(&[station.format as u8, STATION_LAYOUT]);
}

pub fn receive(
    bytes: &mut [u8],
    store: &mut [u8],
    bus: u8,
    image: &[u8],
) -> Result<Reply, Refusal> {
    let mut station = station_of(bytes)?;
    let reply = station.receive(store, bus, image);
    put_station(&station, bytes);
    reply
}

/// The fields as the library takes them.
pub fn fields_bytes(fields: Fields) -> Vec<u8> {
    match fields {
        Fields::Extended {
            priority,
            source,
            group,
            destination,
            function,
        } => {
            vec![priority, source, group, destination, function]
        }
        Fields::Standard {
            priority,
            address,
            side,
        } => vec![priority, address, side],
    }
}

/// The library's number for a slot, a count or a length.
pub fn number_word(answer: Result<usize, Refusal>) -> u32 {
    answer.map_or_else(refused, |number| number as u32)
}

/// The library's number for an answer to a frame.
pub fn reply_word(answer: Result<Reply, Refusal>) -> u32 {
    let broken = |broke| u32::from(broke) << 24;
    match answer {
        Ok(Reply::Packet { length, broke }) => PACKET << 16 | length as u32 | broken(broke),
        Ok(Reply::Kept { broke }) => KEPT << 16 | broken(broke),
        Ok(Reply::Filtered) => FILTERED << 16,
        Err(refusal) => refused(refusal),
    }
}
