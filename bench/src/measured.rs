//! The plain calls as functions of their own, under names that the profiler finds.

use crate::bytes;
use crate::plain::{Fields, Format, Key, Refusal, Reply, Station};
use crate::split;

#[no_mangle]
#[inline(never)]
pub fn plain_receive(
    station: &mut Station,
    store: &mut [u8],
    bus: u8,
    image: &[u8],
) -> Result<Reply, Refusal> {
    station.receive(store, bus, image)
}

#[no_mangle]
#[inline(never)]
pub fn plain_receive_bytes(
    station: &mut [u8],
    store: &mut [u8],
    bus: u8,
    image: &[u8],
) -> Result<Reply, Refusal> {
    bytes::receive(station, store, bus, image)
}

#[no_mangle]
#[inline(never)]
pub fn plain_open(station: &mut Station, key: Key) -> Result<usize, Refusal> {
    station.open(key)
}

#[no_mangle]
#[inline(never)]
pub fn plain_close(station: &mut Station, slot: usize) -> Result<usize, Refusal> {
    station.close(slot)
}

#[no_mangle]
#[inline(never)]
pub fn plain_read<'a>(
    station: &Station,
    store: &'a [u8],
    slot: usize,
) -> Result<&'a [u8], Refusal> {
    station.read(store, slot)
}

#[no_mangle]
#[inline(never)]
pub fn plain_piece_count(format: Format, size: usize) -> Result<usize, Refusal> {
    split::piece_count(format, size)
}

#[no_mangle]
#[inline(never)]
pub fn plain_write_piece(
    fields: Fields,
    packet: &[u8],
    k: usize,
    output: &mut [u8],
) -> Result<usize, Refusal> {
    split::write_piece(fields, packet, k, output)
}

/// The limit: the packet's bytes copied, and nothing else.
#[no_mangle]
#[inline(never)]
pub fn plain_copy(target: &mut [u8], packet: &[u8]) {
    target.copy_from_slice(packet);
}

/// Where the profiler begins to count a case.
#[no_mangle]
#[inline(never)]
pub fn case_begins() {
    std::hint::black_box(0);
}

/// Where the profiler writes down what it has counted. The two bodies differ, so that they stay two functions.
#[no_mangle]
#[inline(never)]
pub fn case_ends() {
    std::hint::black_box(1);
}
