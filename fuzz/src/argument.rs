//! The arguments of calls, by their kinds: how each is made up, printed, recorded, lent to the library, handed to the
//! model, and compared after the call.

use std::{mem, ptr};

use crate::bench::{Difference, Lents, Parts};
use crate::call::{Bytes, Hex, Part, Place};

/// What a call has for an argument of a kind. The kind is that of a function's argument, where it needs no lifetime.
pub trait MadeUp {
    type Value: Value;
}

macro_rules! made_up {
    ($($kind:ty as $value:ty),*) => {$(
        impl MadeUp for fn($kind) {
            type Value = $value;
        }
    )*};
}

made_up!(u8 as u8, u16 as u16, u32 as u32, usize as usize);
made_up!(&[u8] as Bytes, &mut [u8] as Bytes);
made_up!(&[u8; 8] as [u8; 8], &mut usize as Place);

/// An argument as a call has it.
pub trait Value {
    /// What is printed behind its name.
    fn shown(&self) -> String;

    /// Writes it for fuzz/replay.c. Numbers have their low byte first.
    fn record(&self, to: &mut Vec<u8>);
}

/// A value that can be held for the time of a call.
pub trait Hold: Value {
    type Held: Held;

    fn hold(&self, name: &'static str, parts: &mut Parts) -> Self::Held;
}

/// An argument during a call.
pub trait Held: Sized {
    /// Lends the library the bytes as they are before the call.
    fn lend(&mut self, _lents: &mut Lents) {}

    /// How many bytes are lent.
    fn length(&self) -> usize {
        0
    }

    /// Refuses what the library left, if it is not what the model left.
    fn compare(&self, _lents: &Lents) -> Result<(), Difference> {
        Ok(())
    }

    /// Writes what the model left, for fuzz/replay.c.
    fn record_after(&self, _to: &mut Vec<u8>) {}

    /// Gives a lasting part back.
    fn put_back(self, _parts: &mut Parts) {}
}

/// What the library is handed.
pub trait Raw<R> {
    fn raw(&self) -> R;
}

/// What the model is handed.
pub trait Hand<'h, K> {
    fn hand(&'h mut self) -> K;
}

macro_rules! numbers {
    ($($number:ty),*) => {$(
        impl Value for $number {
            fn shown(&self) -> String {
                format!(" {self}")
            }

            fn record(&self, to: &mut Vec<u8>) {
                to.extend(self.to_le_bytes());
            }
        }

        impl Hold for $number {
            type Held = $number;

            fn hold(&self, _: &'static str, _: &mut Parts) -> $number {
                *self
            }
        }

        impl Held for $number {}

        impl Raw<$number> for $number {
            fn raw(&self) -> $number {
                *self
            }
        }

        impl Hand<'_, $number> for $number {
            fn hand(&mut self) -> $number {
                *self
            }
        }
    )*};
}

numbers!(u8, u16, u32, usize);

/// Writes bytes behind their count.
pub fn record_bytes(bytes: &[u8], to: &mut Vec<u8>) {
    to.extend((bytes.len() as u32).to_le_bytes());
    to.extend_from_slice(bytes);
}

/// Says that the bytes follow; a lasting part has the byte of its number.
const OWN: u8 = 255;

impl Value for Bytes {
    fn shown(&self) -> String {
        match self {
            Bytes::Own(bytes) => format!(" {}", Hex(bytes)),
            Bytes::Lasting(_) => String::new(),
        }
    }

    fn record(&self, to: &mut Vec<u8>) {
        match self {
            Bytes::Own(bytes) => {
                to.push(OWN);
                record_bytes(bytes, to);
            }
            Bytes::Lasting(part) => to.push(*part as u8),
        }
    }
}

impl Hold for Bytes {
    type Held = HeldBytes;

    fn hold(&self, name: &'static str, parts: &mut Parts) -> HeldBytes {
        match self {
            Bytes::Own(bytes) => HeldBytes::new(name, bytes.clone(), None),
            Bytes::Lasting(part) => {
                HeldBytes::new(name, mem::take(parts.get_mut(*part)), Some(*part))
            }
        }
    }
}

impl Value for [u8; 8] {
    fn shown(&self) -> String {
        format!(" {}", Hex(self))
    }

    fn record(&self, to: &mut Vec<u8>) {
        to.push(OWN);
        record_bytes(self, to);
    }
}

impl Hold for [u8; 8] {
    type Held = HeldBytes;

    fn hold(&self, name: &'static str, _: &mut Parts) -> HeldBytes {
        HeldBytes::new(name, self.to_vec(), None)
    }
}

/// Bytes during a call: the model's, and where the library's are.
pub struct HeldBytes {
    name: &'static str,
    bytes: Vec<u8>,
    part: Option<Part>,
    at: *mut u8,
}

impl HeldBytes {
    fn new(name: &'static str, bytes: Vec<u8>, part: Option<Part>) -> HeldBytes {
        let at = ptr::null_mut();
        HeldBytes {
            name,
            bytes,
            part,
            at,
        }
    }
}

impl Held for HeldBytes {
    fn lend(&mut self, lents: &mut Lents) {
        self.at = match self.part {
            Some(Part::Store) => lents.lasting_store(),
            _ => lents.lend(self.name, &self.bytes),
        };
    }

    fn length(&self) -> usize {
        self.bytes.len()
    }

    fn compare(&self, lents: &Lents) -> Result<(), Difference> {
        match self.part {
            Some(Part::Store) => lents.compare_lasting_store(&self.bytes),
            _ => lents.compare(self.name, &self.bytes),
        }
    }

    fn record_after(&self, to: &mut Vec<u8>) {
        // The whole store is recorded at the end of a sequence.
        if self.part != Some(Part::Store) {
            record_bytes(&self.bytes, to);
        }
    }

    fn put_back(self, parts: &mut Parts) {
        if let Some(part) = self.part {
            *parts.get_mut(part) = self.bytes;
        }
    }
}

impl Raw<*const u8> for HeldBytes {
    fn raw(&self) -> *const u8 {
        self.at
    }
}

impl Raw<*mut u8> for HeldBytes {
    fn raw(&self) -> *mut u8 {
        self.at
    }
}

impl Raw<*const [u8; 8]> for HeldBytes {
    fn raw(&self) -> *const [u8; 8] {
        self.at.cast()
    }
}

impl<'h> Hand<'h, &'h [u8]> for HeldBytes {
    fn hand(&'h mut self) -> &'h [u8] {
        &self.bytes
    }
}

impl<'h> Hand<'h, &'h mut [u8]> for HeldBytes {
    fn hand(&'h mut self) -> &'h mut [u8] {
        &mut self.bytes
    }
}

impl<'h> Hand<'h, &'h [u8; 8]> for HeldBytes {
    fn hand(&'h mut self) -> &'h [u8; 8] {
        self.bytes[..].try_into().expect("eight bytes")
    }
}

/// What a place holds before a call.
const BEFORE: usize = 0x5AA5_C33C_0FF0_9669;

impl Value for Place {
    fn shown(&self) -> String {
        String::new()
    }

    fn record(&self, to: &mut Vec<u8>) {
        to.extend(BEFORE.to_le_bytes());
    }
}

impl Hold for Place {
    type Held = HeldPlace;

    fn hold(&self, name: &'static str, _: &mut Parts) -> HeldPlace {
        HeldPlace {
            name,
            number: BEFORE,
            at: ptr::null_mut(),
        }
    }
}

/// A number that a call may write: the model's, and where the library's is.
pub struct HeldPlace {
    name: &'static str,
    number: usize,
    at: *mut usize,
}

impl Held for HeldPlace {
    fn lend(&mut self, lents: &mut Lents) {
        let bytes = self.number.to_ne_bytes();
        self.at = lents.lend_aligned(self.name, &bytes).cast();
    }

    fn compare(&self, lents: &Lents) -> Result<(), Difference> {
        lents.compare(self.name, &self.number.to_ne_bytes())
    }

    fn record_after(&self, to: &mut Vec<u8>) {
        to.extend(self.number.to_le_bytes());
    }
}

impl Raw<*mut usize> for HeldPlace {
    fn raw(&self) -> *mut usize {
        self.at
    }
}

impl<'h> Hand<'h, &'h mut usize> for HeldPlace {
    fn hand(&'h mut self) -> &'h mut usize {
        &mut self.number
    }
}
