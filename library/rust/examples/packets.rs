//! Prints the packets of each stream in a trace of extended frames, as hex. Keys are opened as they are first seen.
//!
//! usage: cargo run --example packets TRACE
//!
//! A record of the trace is a two-byte big-endian length of what follows, version byte 1, bus byte 0 (A) or 1 (B), and
//! the image.

use siljuvatt::{Bus, Fields, Format, Key, Refusal, Reply, Station, Store};
use std::collections::HashMap;
use std::error::Error;
use std::io::{self, Write};
use std::{env, fs};

/// A station that opens each key as it is first seen, while it has slots.
struct Bench {
    station: Station,
    store: Store,
    slots: HashMap<Key, usize>,
}

impl Bench {
    fn new() -> Bench {
        Bench {
            station: Station::new(Format::Extended),
            store: Store::new(),
            slots: HashMap::new(),
        }
    }

    /// The slot and the packet that is whole with this frame, if one is: the part of the store itself.
    fn packet(&mut self, bus: Bus, image: &[u8]) -> Result<Option<(usize, &[u8])>, Refusal> {
        let mut reply = self.station.receive(&mut self.store, bus, image)?;
        // The image is sound, or it were refused.
        let fields = fields_of(image);
        let key = Key { bus, fields };
        if reply == Reply::Filtered && self.slots.len() < Station::SLOTS {
            self.slots.insert(key, self.station.open(key)?);
            reply = self.station.receive(&mut self.store, bus, image)?;
        }
        match reply {
            Reply::Packet { .. } => {
                let slot = self.slots[&key];
                Ok(Some((slot, self.station.read(&self.store, slot)?)))
            }
            _ => Ok(None),
        }
    }
}

/// The fields of a sound extended image, but for flag and number.
fn fields_of(image: &[u8]) -> Fields {
    Fields::Extended {
        priority: image[1] >> 6,
        source: image[1] & 63,
        group: image[2] >> 6,
        destination: image[2] & 63,
        function: image[4] >> 3,
    }
}

/// The first record of a trace, as its bus and image, and what follows it. None if it is damaged.
fn record(trace: &[u8]) -> Option<(Bus, &[u8], &[u8])> {
    let (length, rest) = trace.split_first_chunk()?;
    let length = usize::from(u16::from_be_bytes(*length));
    if !(2..=15).contains(&length) {
        return None;
    }
    match rest.split_at_checked(length)? {
        ([1, bus, image @ ..], rest) => Some((Bus::of_number(*bus)?, image, rest)),
        _ => None,
    }
}

/// Writes a line for each packet and each refusal, and at last how many records there are.
pub fn list(mut trace: &[u8], out: &mut impl Write) -> Result<(), Box<dyn Error>> {
    let mut bench = Bench::new();
    let mut number = 0;
    while !trace.is_empty() {
        number += 1;
        let (bus, image, rest) = record(trace).ok_or(format!("record {number}: damaged"))?;
        match bench.packet(bus, image) {
            Ok(Some((slot, packet))) => {
                let length = packet.len();
                let hex: String = packet.iter().map(|byte| format!(" {byte:02x}")).collect();
                writeln!(
                    out,
                    "record {number}: bus {bus:?}, slot {slot}, packet {length}:{hex}"
                )?;
            }
            Ok(None) => {}
            Err(refusal) => writeln!(out, "record {number}: bus {bus:?}, refused {refusal}")?,
        }
        trace = rest;
    }
    Ok(writeln!(out, "{number} records")?)
}

fn main() -> Result<(), Box<dyn Error>> {
    let path = env::args_os().nth(1).ok_or("usage: packets TRACE")?;
    list(&fs::read(path)?, &mut io::stdout().lock())
}
