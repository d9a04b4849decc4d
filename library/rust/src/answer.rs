//! The library's answers in 32 bits.

use crate::Refusal;

/// An answer of the library: 2^31 and a number if refused; else a number of 16 bits, above it a kind, and 2^24 for
/// "broke".
#[derive(Clone, Copy)]
#[must_use]
pub(crate) struct Answer(pub u32);

impl Answer {
    /// The answer, unless it is a refusal.
    pub fn accepted(self) -> Result<Answer, Refusal> {
        if self.0 < 1 << 31 {
            return Ok(self);
        }
        Err(Refusal::try_from(self.0 as u16).unwrap_or(self.unknown()))
    }

    /// The answer to a call that is made to be refused, if it is refused as expected.
    pub fn refused_as(self, expected: Refusal) -> Result<(), Refusal> {
        match self.accepted() {
            Err(refusal) if refusal == expected => Ok(()),
            Err(refusal) => Err(refusal),
            Ok(_) => Err(self.unknown()),
        }
    }

    /// The refusal that stands for an answer that this release does not know.
    pub fn unknown(self) -> Refusal {
        Refusal::Unknown(self.0)
    }

    pub fn number(self) -> usize {
        (self.0 & 0xFFFF) as usize
    }

    pub fn kind(self) -> u8 {
        (self.0 >> 16) as u8
    }

    pub fn broke(self) -> bool {
        self.bit(24)
    }

    pub fn bit(self, place: u32) -> bool {
        self.0 >> place & 1 == 1
    }
}

#[cfg(test)]
mod tests {
    use super::*;

    #[test]
    fn every_refused_answer_is_a_refusal() {
        for number in 0..=u16::MAX {
            let answer = Answer(1 << 31 | u32::from(number));
            let expected = Refusal::try_from(number).unwrap_or(Refusal::Unknown(answer.0));
            assert_eq!(answer.accepted().err(), Some(expected));
            assert_eq!(expected.number(), number);
        }
        assert!(Answer((1 << 31) - 1).accepted().is_ok());
    }

    #[test]
    fn an_answer_has_16_bits_of_number_then_8_of_kind_then_broke() {
        for place in 0..31 {
            let answer = Answer(1 << place);
            let parts = (answer.number(), u32::from(answer.kind()), answer.broke());
            let expected = match place {
                0..16 => (1 << place, 0, false),
                16..24 => (0, 1 << (place - 16), false),
                _ => (0, 0, place == 24),
            };
            assert_eq!(parts, expected, "bit {place}");
        }
    }

    #[test]
    fn only_the_expected_refusal_is_taken() {
        let refused = |refusal: Refusal| Answer(1 << 31 | u32::from(refusal.number()));
        assert_eq!(refused(Refusal::Field).refused_as(Refusal::Field), Ok(()));
        assert_eq!(
            refused(Refusal::State).refused_as(Refusal::Field),
            Err(Refusal::State)
        );
        assert_eq!(
            Answer(0).refused_as(Refusal::Field),
            Err(Refusal::Unknown(0))
        );
    }
}
