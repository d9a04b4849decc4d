//! The watch for a bus gone silent.

use crate::key::is_bus;
use crate::refusal::Refusal;

/// The silence after which a bus is to be reset, in milliseconds.
pub const SILENCE: u32 = 16_000;

/// The last heard time of bus A and of bus B, on a free-running clock.
#[derive(Clone, Copy, Debug, PartialEq, Eq)]
pub struct Watch {
    pub last: [u32; 2],
}

impl Watch {
    /// A watch that begins now.
    pub fn new(now: u32) -> Watch {
        Watch { last: [now; 2] }
    }

    /// A bus is heard; answers its number.
    pub fn heard(mut self, bus: u8, now: u32) -> (Watch, Result<u8, Refusal>) {
        if !is_bus(bus) {
            return (self, Err(Refusal::Field));
        }
        self.last[usize::from(bus)] = now;
        (self, Ok(bus))
    }

    /// Which buses are to be reset. Their silence begins anew.
    pub fn check(mut self, now: u32) -> (Watch, [bool; 2]) {
        let reset = self.last.map(|last| now.wrapping_sub(last) >= SILENCE);
        for (last, reset) in self.last.iter_mut().zip(reset) {
            if reset {
                *last = now;
            }
        }
        (self, reset)
    }
}

#[cfg(test)]
mod tests {
    use super::*;

    #[test]
    fn a_bus_is_reset_at_16_000() {
        let watch = Watch::new(1_000);
        assert_eq!(watch.check(16_999), (watch, [false; 2]));
        assert_eq!(watch.check(17_000), (Watch::new(17_000), [true; 2]));
    }

    #[test]
    fn the_clock_runs_over() {
        let watch = Watch::new(4_294_967_000);
        assert_eq!(watch.check(15_703), (watch, [false; 2]));
        assert_eq!(watch.check(15_704), (Watch::new(15_704), [true; 2]));
    }

    #[test]
    fn a_clock_behind_reads_as_a_long_silence() {
        let watch = Watch::new(50_000);
        assert_eq!(watch.check(49_999).1, [true; 2]);
        // 2^32 - 16,000 behind is 16,000 after; one more behind is 15,999 after.
        assert_eq!(watch.check(66_000).1, [true; 2]);
        assert_eq!(watch.check(65_999).1, [false; 2]);
    }

    #[test]
    fn hearing_a_bus_sets_that_one_alone() {
        let (watch, answer) = Watch::new(0).heard(1, 10_000);
        assert_eq!(answer, Ok(1));
        assert_eq!(watch.last, [0, 10_000]);
        let (watch, reset) = watch.check(20_000);
        assert_eq!(reset, [true, false]);
        assert_eq!(watch.last, [20_000, 10_000]);
        let (watch, answer) = watch.heard(0, 30_000);
        assert_eq!(answer, Ok(0));
        assert_eq!(watch.check(30_000).1, [false, true]);
    }

    #[test]
    fn there_are_two_buses() {
        let watch = Watch::new(7);
        assert_eq!(watch.heard(2, 9), (watch, Err(Refusal::Field)));
    }
}
