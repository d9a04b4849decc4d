//! What a station has counted.

use crate::numbers;
use crate::Refusal;

macro_rules! tallies {
    ($($field:ident = $index:ident, $name:literal, $says:literal;)*) => {
        /// How often a station gave each answer to an image, and each refusal that an image can have:
        /// [`Station::tallies`](crate::Station::tallies). Later releases add some.
        #[derive(Clone, Copy, Debug, PartialEq, Eq)]
        #[must_use]
        #[non_exhaustive]
        pub struct Tallies {
            $(#[doc = $says] pub $field: u64,)*
        }

        impl Tallies {
            /// The tallies as they are told one by one, by their indices.
            pub(crate) fn told(
                mut tell: impl FnMut(usize) -> Result<u64, Refusal>,
            ) -> Result<Tallies, Refusal> {
                Ok(Tallies { $($field: tell(numbers::$index)?),* })
            }

            /// Each with its name, in the order and with the names in which the program `report` prints them.
            pub fn named(&self) -> impl Iterator<Item = (&'static str, u64)> {
                [$(($name, self.$field)),*].into_iter()
            }
        }
    };
}

tallies! {
    packet = TALLY_PACKET, "packet", "A packet, and none dropped.";
    packet_broke = TALLY_PACKET_BROKE, "packet broke", "A packet, and an older one that was not whole dropped.";
    kept = TALLY_KEPT, "kept", "Kept, and no packet dropped.";
    kept_broke = TALLY_KEPT_BROKE, "kept broke", "Kept, and an older packet that was not whole dropped.";
    filtered = TALLY_FILTERED, "filtered", "Filtered: no slot was open with the frame's key.";
    refused_1 = TALLY_REFUSED_1, "refused 1", "Refused: [`Refusal::Length`].";
    refused_2 = TALLY_REFUSED_2, "refused 2", "Refused: [`Refusal::Form`].";
    refused_3 = TALLY_REFUSED_3, "refused 3", "Refused: [`Refusal::Remote`].";
    refused_4 = TALLY_REFUSED_4, "refused 4", "Refused: [`Refusal::Count`].";
    refused_5 = TALLY_REFUSED_5, "refused 5", "Refused: [`Refusal::Piece`].";
    refused_6 = TALLY_REFUSED_6, "refused 6", "Refused: [`Refusal::Orphan`].";
    refused_7 = TALLY_REFUSED_7, "refused 7", "Refused: [`Refusal::Step`].";
    refused_8 = TALLY_REFUSED_8, "refused 8", "Refused: [`Refusal::Long`].";
    refused_25 = TALLY_REFUSED_25, "refused 25", "Refused: [`Refusal::Surplus`].";
}

impl Tallies {
    /// How many images were judged: the sum of all. It may pass 64 bits.
    #[must_use]
    pub fn total(&self) -> u128 {
        self.named().map(|(_, tally)| u128::from(tally)).sum()
    }
}

#[cfg(test)]
mod tests {
    use super::*;

    /// Each field has the number of its own index, and `named` has all of them in their order.
    #[test]
    fn fields_and_names_are_in_the_order_of_the_indices() {
        let tallies = Tallies::told(|index| Ok(100 + index as u64)).unwrap();
        let values = tallies.named().map(|(_, tally)| tally);
        assert!(values.eq(100..100 + numbers::TALLIES as u64));
        assert_eq!((tallies.packet, tallies.refused_25), (100, 113));
        assert_eq!(tallies.total(), 14 * 100 + 91);
    }

    #[test]
    fn the_total_of_the_largest_is_no_64_bits() {
        let tallies = Tallies::told(|_| Ok(u64::MAX)).unwrap();
        assert_eq!(tallies.total(), 14 * (u128::from(u64::MAX)));
    }

    #[test]
    fn one_that_is_refused_refuses_all() {
        let last = |index| {
            if index < 13 {
                Ok(0)
            } else {
                Err(Refusal::State)
            }
        };
        assert_eq!(Tallies::told(last), Err(Refusal::State));
    }
}
