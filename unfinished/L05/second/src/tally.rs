//! The tallies of a station: how many images had each answer and each refusal
//! (L5 of document 02).

use crate::refusal::Refusal;
use crate::stream::Answer;

/// How many tallies a station keeps.
pub const TALLY_COUNT: usize = ANSWER_COUNT + REFUSALS.len();

/// Packet and kept, each without broke and with it, and filtered.
const ANSWER_COUNT: usize = 5;

/// The refusals of an image that was judged. Those that come before, 21, 13, 9
/// and 26, have no tally.
const REFUSALS: [Refusal; 9] = [
    Refusal::Length,
    Refusal::Form,
    Refusal::Remote,
    Refusal::Count,
    Refusal::Piece,
    Refusal::Orphan,
    Refusal::Step,
    Refusal::Long,
    Refusal::Surplus,
];

/// The tallies, in the order of the report's lines. Any numbers are sound.
#[derive(Clone, Copy, Debug, PartialEq, Eq)]
pub struct Tallies(pub [u64; TALLY_COUNT]);

impl Tallies {
    /// Those of a new station.
    pub fn new() -> Tallies {
        Tallies([0; TALLY_COUNT])
    }

    /// Whether one stands at its largest value; then no image is judged,
    /// whichever tally it would raise.
    pub fn any_full(&self) -> bool {
        self.0.contains(&u64::MAX)
    }

    /// Counts the answer to an image that was judged, with no tally full.
    pub fn raise(&mut self, answer: Answer) {
        if let Some(place) = place_of(answer) {
            self.0[place] += 1;
        }
    }

    /// Adds the tallies of another station, each sum up to the largest number.
    pub fn add(&mut self, other: &Tallies) {
        for (sum, tally) in self.0.iter_mut().zip(other.0) {
            *sum = sum.saturating_add(tally);
        }
    }
}

impl Default for Tallies {
    fn default() -> Tallies {
        Tallies::new()
    }
}

/// The place of an answer's tally; none where no image was judged.
fn place_of(answer: Answer) -> Option<usize> {
    match answer {
        Answer::Packet { broke, .. } => Some(if broke { 1 } else { 0 }),
        Answer::Kept { broke } => Some(if broke { 3 } else { 2 }),
        Answer::Filtered => Some(4),
        Answer::Refused(refusal) => {
            let mut refusals = REFUSALS.iter();
            let place = refusals.position(|&counted| counted == refusal)?;
            Some(ANSWER_COUNT + place)
        }
    }
}

/// What the tally at a place counts, in the words of the report.
pub fn name(place: usize) -> String {
    let answers = ["packet", "packet broke", "kept", "kept broke", "filtered"];
    match place.checked_sub(ANSWER_COUNT) {
        None => answers[place].to_string(),
        Some(refusal) => format!("refused {}", REFUSALS[refusal].number()),
    }
}

#[cfg(test)]
mod tests {
    use super::*;

    /// The order of document 02: packet, packet broke, kept, kept broke,
    /// filtered, then each refusal, rising.
    const ORDER: [&str; 14] = [
        "packet",
        "packet broke",
        "kept",
        "kept broke",
        "filtered",
        "refused 1",
        "refused 2",
        "refused 3",
        "refused 4",
        "refused 5",
        "refused 6",
        "refused 7",
        "refused 8",
        "refused 25",
    ];

    fn packet(length: usize, broke: bool) -> Answer {
        Answer::Packet { length, broke }
    }

    /// The tallies that rise from 0, with their values.
    fn raised(answer: Answer) -> Vec<(String, u64)> {
        let mut tallies = Tallies::new();
        tallies.raise(answer);
        let places = tallies.0.iter().enumerate();
        let risen = places.filter(|(_, &tally)| tally != 0);
        risen.map(|(place, &tally)| (name(place), tally)).collect()
    }

    #[test]
    fn the_order_is_document_02s() {
        let names: Vec<String> = (0..TALLY_COUNT).map(name).collect();
        assert_eq!(names, ORDER);
    }

    #[test]
    fn each_answer_raises_its_own_and_no_other() {
        for (answer, own) in [
            (packet(0, false), "packet"),
            (packet(2048, false), "packet"),
            (packet(0, true), "packet broke"),
            (packet(8, true), "packet broke"),
            (Answer::Kept { broke: false }, "kept"),
            (Answer::Kept { broke: true }, "kept broke"),
            (Answer::Filtered, "filtered"),
        ] {
            assert_eq!(raised(answer), [(own.to_string(), 1)], "{answer:?}");
        }
    }

    #[test]
    fn each_refusal_from_1_to_8_and_25_raises_its_own_and_the_others_none() {
        for &refusal in Refusal::ALL {
            let number = refusal.number();
            let risen = raised(Answer::Refused(refusal));
            match number {
                1..=8 | 25 => assert_eq!(risen, [(format!("refused {number}"), 1)]),
                _ => assert_eq!(risen, [], "{refusal:?}"),
            }
        }
    }

    #[test]
    fn a_tally_is_full_at_the_largest_number_alone() {
        assert!(!Tallies::new().any_full());
        assert!(!Tallies([u64::MAX - 1; TALLY_COUNT]).any_full());
        for place in 0..TALLY_COUNT {
            let mut tallies = Tallies::new();
            tallies.0[place] = u64::MAX;
            assert!(tallies.any_full(), "{place}");
        }
    }

    #[test]
    fn the_last_rise_is_to_the_largest_number() {
        let mut tallies = Tallies([u64::MAX - 1; TALLY_COUNT]);
        tallies.raise(Answer::Filtered);
        assert_eq!(tallies.0[4], 18_446_744_073_709_551_615);
        assert!(tallies.any_full());
    }

    #[test]
    fn sums_stop_at_the_largest_number() {
        let largest = u64::MAX;
        for (first, second, sum) in [
            (0, 0, 0),
            (2, 3, 5),
            (0, largest, largest),
            (largest - 1, 1, largest),
            (largest - 1, 2, largest),
            (largest, 1, largest),
            (largest, largest, largest),
            (1 << 63, 1 << 63, largest),
        ] {
            for place in 0..TALLY_COUNT {
                // Each sum by itself: those beside it stay as they are.
                let (mut sums, mut other) = (Tallies([7; TALLY_COUNT]), Tallies::new());
                (sums.0[place], other.0[place]) = (first, second);
                sums.add(&other);
                let mut expected = [7; TALLY_COUNT];
                expected[place] = sum;
                assert_eq!(sums.0, expected);
            }
        }
    }
}
