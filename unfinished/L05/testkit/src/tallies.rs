//! Numbers for the tallies of a station.

use crate::random::Random;

/// The largest value of a tally, at which images are refused.
pub const FULL: u64 = u64::MAX;

/// Any number from which a tally can rise for long, often one where a rise goes over into the next byte.
pub fn any_tally(random: &mut Random) -> u64 {
    let any = random.next_u64() >> random.below(64);
    let carry = (1 << (8 * random.within(1, 7))) - 1;
    random
        .pick(&[0, 1, carry, any, 1 << 63])
        .min(FULL - (1 << 32))
}

#[cfg(test)]
mod tests {
    use super::*;

    #[test]
    fn numbers_are_of_every_size_and_far_from_the_largest() {
        let mut random = Random::new(5);
        let mut lengths = [0; 65];
        for _ in 0..10_000 {
            let tally = any_tally(&mut random);
            assert!(FULL - tally > 1_000_000_000);
            lengths[(64 - tally.leading_zeros()) as usize] += 1;
        }
        assert!(lengths.iter().all(|&times| times > 0), "{lengths:?}");
    }
}
