//! A watch for a bus gone silent.

use crate::answer::Answer;
use crate::numbers;
use crate::raw::slices;
use crate::{Bus, Refusal};

// The bits of the answer to a check.
const RESET_A: u32 = 25;
const RESET_B: u32 = 26;

/// Which buses have been silent for 16,000 ms or more and are to be reset.
#[derive(Clone, Copy, Debug, PartialEq, Eq)]
#[must_use]
pub struct Silent {
    /// Bus A is to be reset.
    pub a: bool,
    /// Bus B is to be reset.
    pub b: bool,
}

/// A watch over the silence of each bus. Times are milliseconds of a 32-bit count that may run over. It is 9 bytes and
/// nothing else; the last is the number of their layout.
///
/// ```
/// use siljuvatt::{Bus, Refusal, Silent, Watch};
///
/// let begin = 4_294_967_000; // the count runs over 296 ms later
/// let mut watch = Watch::new(begin);
/// watch.heard(Bus::B, 8_000)?;
/// assert_eq!(watch.check(15_703)?, Silent { a: false, b: false }); // 15,999 ms after it began
/// assert_eq!(watch.check(15_704)?, Silent { a: true, b: false });
/// assert_eq!(watch.check(15_705)?, Silent { a: false, b: false }); // told once; the silence counts anew
/// # Ok::<(), Refusal>(())
/// ```
#[derive(Clone, Debug, PartialEq, Eq)]
pub struct Watch {
    bytes: [u8; Watch::SIZE],
}

impl Watch {
    /// The bytes of a watch.
    pub const SIZE: usize = numbers::WATCH_SIZE;

    /// The last of them: the number of their layout.
    pub const LAYOUT: u8 = numbers::WATCH_LAYOUT;

    /// The milliseconds after which a silent bus is to be reset.
    pub const SILENCE: u32 = numbers::SILENCE;

    /// A watch that begins now: both buses count as just heard.
    #[must_use]
    pub fn new(now: u32) -> Watch {
        let mut bytes = [0; Watch::SIZE];
        // Only a library of another release refuses; zeros are no watch, so every call on them is refused then.
        let _ = slices::watch_new(&mut bytes, now);
        Watch { bytes }
    }

    /// The watch that these bytes are, as [`Watch::as_bytes`] gave them.
    ///
    /// # Errors
    ///
    /// [`Refusal::State`] if they are no watch of this release's layout.
    pub fn from_bytes(bytes: &[u8]) -> Result<Watch, Refusal> {
        let mut bytes: [u8; Watch::SIZE] = bytes.try_into().map_err(|_| Refusal::State)?;
        let answer = slices::watch_heard(&mut bytes, Bus::NONE, 0);
        Answer(answer).refused_as(Refusal::Field)?;
        Ok(Watch { bytes })
    }

    /// The bytes that the watch is.
    #[must_use]
    pub fn as_bytes(&self) -> &[u8; Watch::SIZE] {
        &self.bytes
    }

    /// A bus is heard.
    ///
    /// # Errors
    ///
    /// None with the library of this release: see [the crate](crate#releases).
    pub fn heard(&mut self, bus: Bus, now: u32) -> Result<(), Refusal> {
        let answer = slices::watch_heard(&mut self.bytes, bus.number(), now);
        Answer(answer).accepted().map(drop)
    }

    /// Which buses are to be reset. The silence of such a bus counts from now on.
    ///
    /// # Errors
    ///
    /// None with the library of this release: see [the crate](crate#releases).
    pub fn check(&mut self, now: u32) -> Result<Silent, Refusal> {
        silent_of(Answer(slices::watch_check(&mut self.bytes, now)))
    }
}

fn silent_of(answer: Answer) -> Result<Silent, Refusal> {
    let answer = answer.accepted()?;
    Ok(Silent {
        a: answer.bit(RESET_A),
        b: answer.bit(RESET_B),
    })
}

#[cfg(test)]
mod tests {
    use super::*;

    #[test]
    fn a_refusal_is_no_silence() {
        let neither = Silent { a: false, b: false };
        assert_eq!(silent_of(Answer(0)), Ok(neither));
        for bits in 0..4 {
            let (a, b) = (bits & 1 == 1, bits & 2 == 2);
            assert_eq!(silent_of(Answer(bits << RESET_A)), Ok(Silent { a, b }));
            let refused = 1 << 31 | bits << RESET_A;
            assert_eq!(silent_of(Answer(refused)), Err(Refusal::Unknown(refused)));
        }
    }
}
