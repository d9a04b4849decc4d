//! What L5 says of the tallies in the responses: which one an image raises, and that nothing else moves any. It is written
//! here once more, so that programs that are wrong alike are told.

use crate::request::{self, answer, name, Request};
use testkit::tallies::FULL;

/// What each tally counts, in the order of document 02.
pub const TALLIES: [&str; 14] = [
    "packet",
    "packet broke",
    "kept",
    "kept broke",
    "filtered",
    "refused 1",
    "refused 2",
    "refused 3",
    "refused 4",
    "refused 5",
    "refused 6",
    "refused 7",
    "refused 8",
    "refused 25",
];

/// The refusals that come before an image is judged.
const BEFORE: [&str; 4] = ["refused 21", "refused 13", "refused 9", TALLY];

/// The refusal of an image while a tally stands at its largest value.
pub const TALLY: &str = "refused 26";

/// Where slots and tallies stand in a response that has them, behind the answer.
const SLOTS_AT: usize = 4;
const TALLIES_AT: usize = SLOTS_AT + 160;
const SIZE: usize = TALLIES_AT + 8 * TALLIES.len();

/// The slots in a response that has them.
pub fn slots(response: &[u8]) -> &[u8] {
    &response[SLOTS_AT..TALLIES_AT]
}

/// The tallies in a response, if it has them.
fn tallies(response: &[u8]) -> Option<[u64; TALLIES.len()]> {
    if response.len() != SIZE {
        return None;
    }
    let mut tallies = [0; TALLIES.len()];
    for (tally, bytes) in tallies.iter_mut().zip(response[TALLIES_AT..].chunks(8)) {
        *tally = u64::from_be_bytes(bytes.try_into().expect("eight bytes"));
    }
    Some(tallies)
}

/// The tally that an image raised, and to which value.
#[derive(Clone, Copy, Debug, PartialEq)]
pub struct Raised {
    pub place: usize,
    pub value: u64,
}

/// The tallies as they have to be, request by request.
pub struct Expected {
    tallies: [u64; TALLIES.len()],
}

impl Expected {
    /// As a program begins.
    pub fn new() -> Expected {
        let tallies = [0; TALLIES.len()];
        Expected { tallies }
    }

    /// Follows a request and refuses a response that has other tallies; gives what an image raised.
    pub fn follow(&mut self, request: &[u8], response: &[u8]) -> Result<Option<Raised>, String> {
        // What is no request moves nothing.
        if response.is_empty() {
            return Ok(None);
        }
        let mut raised = None;
        match *request {
            [request::NEW, ..] => *self = Expected::new(),
            [request::TALLY, index, ref value @ ..] => {
                let value = value.try_into().expect("a value of eight bytes");
                self.tallies[usize::from(index)] = u64::from_be_bytes(value);
            }
            [request::RECEIVE, ..] => raised = self.receive(&answer(response))?,
            [request::OPEN | request::CLOSE | request::SLOT, ..] => {}
            _ => return Ok(None),
        }
        match tallies(response) {
            Some(tallies) if tallies == self.tallies => Ok(raised),
            Some(tallies) => Err(self.otherwise(request, response, &tallies)),
            None => Err(format!("{} has no tallies", name(request[0]))),
        }
    }

    /// An image that is judged raises the tally of its answer, and none is judged while one is full.
    fn receive(&mut self, answer: &str) -> Result<Option<Raised>, String> {
        let full = self.tallies.contains(&FULL);
        let place = TALLIES.iter().position(|&own| own == answer);
        match place {
            Some(_) if full => Err(format!("{answer}, though a tally is full")),
            Some(place) => {
                self.tallies[place] += 1;
                let value = self.tallies[place];
                Ok(Some(Raised { place, value }))
            }
            None if answer == TALLY && !full => Err(format!("{answer}, though no tally is full")),
            None if BEFORE.contains(&answer) => Ok(None),
            None => Err(format!("an image is answered: {answer}")),
        }
    }

    fn otherwise(&self, request: &[u8], response: &[u8], got: &[u64]) -> String {
        let pairs = self.tallies.iter().zip(got).zip(TALLIES);
        let wrong = pairs.filter(|((own, got), _)| own != got);
        let wrong: Vec<String> = wrong
            .map(|((own, got), name)| format!("{name} is {got}, not {own}"))
            .collect();
        let (call, answer) = (name(request[0]), answer(response));
        format!("tallies after {call}, {answer}: {}", wrong.join("; "))
    }
}

/// Follows all requests of a script.
pub fn check(requests: &[Request], responses: &[Vec<u8>]) -> Result<(), String> {
    let mut expected = Expected::new();
    for (place, (request, response)) in requests.iter().zip(responses).enumerate() {
        let followed = expected.follow(request, response);
        followed.map_err(|said| format!("request {place}: {said}"))?;
    }
    Ok(())
}

#[cfg(test)]
pub mod tests {
    use super::*;
    use second::format::Format;

    /// A response with all slots closed.
    pub fn response(answer: [u8; 4], tallies: [u64; 14]) -> Vec<u8> {
        let mut response = answer.to_vec();
        response.resize(164, 0);
        response.extend(tallies.iter().flat_map(|tally| tally.to_be_bytes()));
        response
    }

    /// What is said of an image received with these tallies before and after.
    fn received(
        answer: [u8; 4],
        before: [u64; 14],
        after: [u64; 14],
    ) -> Result<Option<Raised>, String> {
        let mut expected = Expected { tallies: before };
        expected.follow(&request::receive(0, &[]), &response(answer, after))
    }

    fn with(place: usize, value: u64) -> [u64; 14] {
        let mut tallies = [5; 14];
        tallies[place] = value;
        tallies
    }

    #[test]
    fn an_image_raises_its_own() {
        let answers = [
            [1, 0, 9, 0],
            [1, 0, 9, 1],
            [2, 0, 0, 0],
            [2, 0, 0, 1],
            [3, 0, 0, 0],
        ];
        let refusals = [1, 2, 3, 4, 5, 6, 7, 8, 25].map(|number| [4, 0, number, 0]);
        for (place, answer) in answers.into_iter().chain(refusals).enumerate() {
            let raised = received(answer, [5; 14], with(place, 6));
            assert_eq!(raised, Ok(Some(Raised { place, value: 6 })));
            let last = received(answer, with(place, FULL - 1), with(place, FULL));
            let value = FULL;
            assert_eq!(last, Ok(Some(Raised { place, value })));
            // None, another, by two, and one more besides.
            let other = (place + 1) % 14;
            let mut two = with(place, 6);
            two[other] = 6;
            for wrong in [[5; 14], with(other, 6), with(place, 7), two] {
                let said = received(answer, [5; 14], wrong).unwrap_err();
                assert!(said.starts_with("tallies after RECEIVE"), "{said}");
            }
            let full = with(other, FULL);
            let mut raised = full;
            raised[place] += 1;
            let said = received(answer, full, raised).unwrap_err();
            assert!(said.ends_with("though a tally is full"), "{said}");
        }
    }

    #[test]
    fn refusals_before_the_judging_move_none() {
        for number in [21, 13, 9, 26] {
            let answer = [4, 0, number, 0];
            let full = with(3, FULL);
            assert_eq!(received(answer, full, full), Ok(None));
            assert!(received(answer, full, with(3, 0)).is_err());
            let not_full = received(answer, [5; 14], [5; 14]);
            assert_eq!(not_full.is_ok(), number != 26);
        }
        assert!(received([4, 0, 16, 0], [5; 14], [5; 14]).is_err());
    }

    #[test]
    fn nothing_else_moves_one() {
        let value = |tallies| response([5, 0, 0, 0], tallies);
        for request in [
            vec![request::OPEN, 0],
            request::close(3),
            vec![request::SLOT, 1],
        ] {
            let tallies = [5; 14];
            let mut expected = Expected { tallies };
            assert_eq!(expected.follow(&request, &value([5; 14])), Ok(None));
            assert!(expected.follow(&request, &value(with(13, 6))).is_err());
            assert!(expected.follow(&request, &[5, 0, 0, 0]).is_err());
        }
        let tallies = [5; 14];
        let mut expected = Expected { tallies };
        let read = expected.follow(&request::read(0), &[5, 0, 1, 0, 7]);
        assert_eq!(read, Ok(None));
        assert_eq!(expected.follow(&[request::NEW, 9], &[]), Ok(None));
        let set = expected.follow(&request::tally(2, 9), &value(with(2, 9)));
        assert_eq!(set, Ok(None));
        let new = expected.follow(&request::new(Format::Standard), &value([0; 14]));
        assert_eq!(new, Ok(None));
        assert!(expected
            .follow(&request::new(Format::Standard), &value([1; 14]))
            .is_err());
    }
}
