//! A store that owns its memory.

use crate::numbers;
use alloc::boxed::Box;
use alloc::vec;
use core::fmt;
use core::ops::{Deref, DerefMut};

/// A store of 32,768 bytes on the heap, zero when new. It is used as the slice of them, so wherever a call takes a
/// store, `&store` and `&mut store` will do, and so will any other slice of that length.
///
/// ```
/// use siljuvatt::{Bus, Format, Refusal, Reply, Station, Store};
///
/// let mut station = Station::new(Format::Standard);
/// let mut lent = vec![0u8; Store::SIZE];
/// assert_eq!(station.receive(&mut lent, Bus::A, b"\x16\x60"), Ok(Reply::Filtered));
/// assert_eq!(station.receive(&mut lent[1..], Bus::A, b"\x16\x60"), Err(Refusal::Store));
/// ```
#[derive(Clone, PartialEq, Eq)]
pub struct Store {
    bytes: Box<[u8]>,
}

impl Store {
    /// The bytes of a store.
    pub const SIZE: usize = numbers::STORE_SIZE;

    /// The bytes of it that each slot owns: slot `i` those from 2,048 × `i` on.
    pub const AREA_SIZE: usize = numbers::AREA_SIZE;

    /// A store of zeros.
    #[must_use]
    pub fn new() -> Store {
        Store {
            bytes: vec![0; Store::SIZE].into_boxed_slice(),
        }
    }
}

impl Default for Store {
    fn default() -> Store {
        Store::new()
    }
}

impl Deref for Store {
    type Target = [u8];

    fn deref(&self) -> &[u8] {
        &self.bytes
    }
}

impl DerefMut for Store {
    fn deref_mut(&mut self) -> &mut [u8] {
        &mut self.bytes
    }
}

impl fmt::Debug for Store {
    fn fmt(&self, f: &mut fmt::Formatter<'_>) -> fmt::Result {
        f.debug_struct("Store").finish_non_exhaustive()
    }
}
