//! For a program without the standard library, as a library of its own: it answers what became of a frame on bus A.
//! It is not compiled over a crate that brings the standard library with it: that has a panic handler of its own.
#![no_std]

use core::panic::PanicInfo;
use siljuvatt::{Bus, Refusal, Reply, Station};

/// The store is any slice of 32,768 bytes that the program has.
pub fn received(station: &mut Station, store: &mut [u8], image: &[u8]) -> Result<Reply, Refusal> {
    station.receive(store, Bus::A, image)
}

#[panic_handler]
fn halt(_: &PanicInfo<'_>) -> ! {
    loop {}
}
