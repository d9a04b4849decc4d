//! The calls of the library for C, over bytes and numbers, with its answers.
//!
//! Written from the library's header and document 01, with L3 and L4 of document 02,
//! so that the library can be compared with it call by call. Where C has a pointer and a length there
//! is a slice here.

mod answer;
mod master_bytes;
mod station_bytes;
mod watch_bytes;

pub use answer::{refused, DONE, FILTERED, GAVE_UP, KEPT, PACKET, SEND};
pub use master_bytes::{master_bytes, master_of, MASTER_LAYOUT, MASTER_SIZE};
pub use station_bytes::{station_bytes, station_of, STATION_LAYOUT, STATION_SIZE};
pub use watch_bytes::{watch_bytes, watch_of, WATCH_LAYOUT, WATCH_SIZE};

use crate::filter::{Filter, Pair};
use crate::format::Format;
use crate::key::{Fields, Key};
use crate::master::{Kind, Master};
use crate::refusal::Refusal;
use crate::split;
use crate::station::Station;
use crate::stream::{Answer, AREA_SIZE};
use crate::watch::Watch;
use answer::{exchange_answer, number_or_refusal, receive_answer, reset_answer};

/// The release: major, minor and patch.
const RELEASE: [u8; 3] = [0, 2, 0];

pub fn version() -> u32 {
    let [major, minor, patch] = RELEASE.map(u32::from);
    65_536 * major + 256 * minor + patch
}

/// The format of a number.
pub fn format_of(number: u8) -> Option<Format> {
    match number {
        0 => Some(Format::Extended),
        1 => Some(Format::Standard),
        _ => None,
    }
}

/// The fields that bytes hold, if there are as many as the format has.
pub fn fields_of(format: Format, bytes: &[u8]) -> Result<Fields, Refusal> {
    match (format, bytes) {
        (Format::Extended, &[priority, source, group, destination, function]) => {
            Ok(Fields::Extended {
                priority,
                source,
                group,
                destination,
                function,
            })
        }
        (Format::Standard, &[priority, address, side]) => Ok(Fields::Standard {
            priority,
            address,
            side,
        }),
        _ => Err(Refusal::Field),
    }
}

pub fn piece_count(format: u8, size: usize) -> u32 {
    number_or_refusal(
        format_of(format)
            .ok_or(Refusal::Field)
            .and_then(|format| split::piece_count(format, size)),
    )
}

pub fn write_piece(format: u8, fields: &[u8], packet: &[u8], k: usize, output: &mut [u8]) -> u32 {
    number_or_refusal(
        format_of(format)
            .ok_or(Refusal::Field)
            .and_then(|format| fields_of(format, fields))
            .and_then(|fields| split::write_piece(&fields, packet, k, output)),
    )
}

pub fn station_new(station: &mut [u8], format: u8) -> u32 {
    if station.len() != STATION_SIZE {
        return refused(Refusal::State);
    }
    let Some(format) = format_of(format) else {
        return refused(Refusal::Field);
    };
    station.copy_from_slice(&station_bytes(&Station::new(format)));
    0
}

/// The station that bytes hold, if it is a sound one.
fn sound_station(bytes: &[u8]) -> Result<Station, Refusal> {
    station_of(bytes)
        .filter(Station::is_sound)
        .ok_or(Refusal::State)
}

pub fn open(station: &mut [u8], bus: u8, fields: &[u8]) -> u32 {
    number_or_refusal(sound_station(station).and_then(|old| {
        let fields = fields_of(old.format, fields)?;
        let (next, place) = old.open(Key { bus, fields });
        station.copy_from_slice(&station_bytes(&next));
        place
    }))
}

pub fn close(station: &mut [u8], slot: usize) -> u32 {
    number_or_refusal(sound_station(station).and_then(|old| {
        let (next, place) = old.close(slot);
        station.copy_from_slice(&station_bytes(&next));
        place
    }))
}

pub fn receive(station: &mut [u8], store: &mut [u8], bus: u8, image: &[u8]) -> u32 {
    // The station's own call tests whether it is sound.
    let Some(old) = station_of(station) else {
        return refused(Refusal::State);
    };
    let (next, answer) = old.receive(bus, image, store);
    if answer != Answer::Refused(Refusal::State) {
        station.copy_from_slice(&station_bytes(&next));
    }
    receive_answer(answer)
}

pub fn read(station: &[u8], store: &[u8], slot: usize, start: &mut usize) -> u32 {
    let length = station_of(station)
        .ok_or(Refusal::State)
        .and_then(|station| station.read_length(slot, store));
    if length.is_ok() {
        *start = slot * AREA_SIZE;
    }
    number_or_refusal(length)
}

pub fn filter_accepts(code: u16, mask: u16, id: u16) -> bool {
    Filter { code, mask }.accepts(id)
}

pub fn row_accepts(row: &[u8; 8], id: u16) -> bool {
    Pair::of_row(*row).accepts(id)
}

pub fn master_new(master: &mut [u8]) -> u32 {
    if master.len() != MASTER_SIZE {
        return refused(Refusal::State);
    }
    master.copy_from_slice(&master_bytes(&Master::new()));
    0
}

/// Makes a master's call and keeps the master it hands back.
fn on_master(
    bytes: &mut [u8],
    call: impl FnOnce(Master) -> (Master, Result<crate::master::Answer, Refusal>),
) -> u32 {
    let Some(old) = master_of(bytes).filter(Master::is_sound) else {
        return refused(Refusal::State);
    };
    let (next, answer) = call(old);
    bytes.copy_from_slice(&master_bytes(&next));
    exchange_answer(answer)
}

pub fn master_start(master: &mut [u8], kind: u8, node: u8) -> u32 {
    on_master(master, |master| match Kind::of_number(kind) {
        Some(kind) => master.start(kind, node),
        None => (master, Err(Refusal::Field)),
    })
}

pub fn master_reply(master: &mut [u8], bus: u8, node: u8, function: u8) -> u32 {
    on_master(master, |master| master.reply(bus, node, function))
}

pub fn master_timeout(master: &mut [u8]) -> u32 {
    on_master(master, Master::timeout)
}

pub fn watch_new(watch: &mut [u8], now: u32) -> u32 {
    if watch.len() != WATCH_SIZE {
        return refused(Refusal::State);
    }
    watch.copy_from_slice(&watch_bytes(&Watch::new(now)));
    0
}

pub fn watch_heard(watch: &mut [u8], bus: u8, now: u32) -> u32 {
    let Some(old) = watch_of(watch) else {
        return refused(Refusal::State);
    };
    let (next, answer) = old.heard(bus, now);
    watch.copy_from_slice(&watch_bytes(&next));
    number_or_refusal(answer.map(usize::from))
}

pub fn watch_check(watch: &mut [u8], now: u32) -> u32 {
    let Some(old) = watch_of(watch) else {
        return refused(Refusal::State);
    };
    let (next, reset) = old.check(now);
    watch.copy_from_slice(&watch_bytes(&next));
    reset_answer(reset)
}

#[cfg(test)]
mod tests;
