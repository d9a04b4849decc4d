//! Compares what becomes of an image of every answer while any tally stands at any of the values where something changes,
//! in both formats at both fronts. What L5 says of each case stands here too.

use crate::exchange;
use crate::occurred::Occurred;
use crate::request::{self, answer, Request, CLOSED, COLLECTING, DONE, FULL_STORE, IDLE};
use crate::rise::{self, slots, TALLIES, TALLY};
use second::format::Format;
use second::frame::Flag;
use second::key::{Fields, Key};
use second::split::{self, piece};
use second::stream::AREA_SIZE;
use std::path::Path;
use testkit::keys::{any_key, name};
use testkit::tallies::FULL;
use testkit::{Random, FORMATS};

const SEED: u64 = 43_672;

/// The slot that receives, the bytes of its area that are looked at, and those before it.
const SLOT: usize = 5;
const HEAD: usize = 40;
const BESIDE: usize = 8;

/// The values of an image's own tally: 0, those where a byte goes over into the next, and the last two.
const OWN_VALUES: [u64; 12] = [
    0,
    1,
    0xFF,
    0xFFFF,
    0xFF_FFFF,
    0xFFFF_FFFF,
    0xFF_FFFF_FFFF,
    0xFFFF_FFFF_FFFF,
    0xFF_FFFF_FFFF_FFFF,
    0x7FFF_FFFF_FFFF_FFFF,
    FULL - 1,
    FULL,
];

/// Those of the tallies beside it.
const OTHER_VALUES: [u64; 2] = [FULL - 1, FULL];

/// An image that has an answer where its slot is in a state.
struct Case {
    kind: u8,
    h: usize,
    image: Vec<u8>,
    answer: &'static str,
}

/// Puts every case to both programs.
pub fn compare(calls: &Path) -> Result<(), String> {
    let mut occurred = Occurred::requiring(rows());
    let mut images = 0;
    for format in FORMATS {
        for front in [0, 1] {
            let script = Script::of(format, front);
            let responses = exchange::both(calls, &script.requests, &[])
                .map_err(|difference| format!("{}, {difference}", way(format, front)))?;
            images += script.check(&responses, &mut occurred)?;
        }
    }
    occurred.print();
    occurred.check()?;
    println!("equal: {images} images received");
    Ok(())
}

fn way(format: Format, front: u8) -> String {
    format!("{} front {front}", name(format))
}

/// What has to occur for each answer of each format at each front.
const RAISED: &str = "raised";
const FILLED: &str = "raised to the largest value";
const OWN_FULL: &str = "refused 26, its own tally full";
const OTHER_FULL: &str = "refused 26, another full";
const PAST_FULL: &str = "refused 21, 13 and 9 with a tally full";
const UNMOVED: &str = "refused 21, 13 and 9 with none full";
const OTHER_CALLS: &str = "opened, read and closed with every tally full";

fn rows() -> Vec<String> {
    let mut rows = Vec::new();
    for format in FORMATS {
        for front in [0, 1] {
            for answer in answers(format) {
                let whats = [RAISED, FILLED, OWN_FULL, OTHER_FULL];
                rows.extend(whats.map(|what| row(format, front, answer, what)));
            }
            let whats = [PAST_FULL, UNMOVED, OTHER_CALLS];
            rows.extend(whats.map(|what| row(format, front, "all", what)));
        }
    }
    rows
}

fn row(format: Format, front: u8, answer: &str, what: &str) -> String {
    format!("{} {answer}: {what}", way(format, front))
}

/// The answers that have a tally and that the format can give: FORM and LONG are extended's alone.
pub fn answers(format: Format) -> impl Iterator<Item = &'static str> {
    let alone = ["refused 2", "refused 8"];
    let can_be = move |answer: &&str| format == Format::Extended || !alone.contains(answer);
    TALLIES.into_iter().filter(can_be)
}

/// Images of the key, one at least for each answer.
fn cases(key: &Key) -> Vec<Case> {
    let (fields, format) = (&key.fields, key.fields.format());
    let size = format.piece_size();
    let long: Vec<u8> = (1..=2 * size as u8 + 3).collect();
    let [start, middle, end] = [0, 1, 2].map(|k| piece(fields, &long, k));
    let single = piece(fields, &[7, 8], 0);
    let cases = [
        (IDLE, 0, &single, "packet"),
        (DONE, 3, &single, "packet"),
        (COLLECTING, 2 * size, &end, "packet"),
        (COLLECTING, size, &single, "packet broke"),
        (IDLE, 0, &start, "kept"),
        (COLLECTING, size, &middle, "kept"),
        (COLLECTING, size, &start, "kept broke"),
        (CLOSED, 0, &single, "filtered"),
        (IDLE, 0, &middle, "refused 6"),
        (DONE, 3, &end, "refused 6"),
        (COLLECTING, size, &end, "refused 7"),
    ];
    let cases = cases.map(|(kind, h, image, answer)| case(kind, h, image.clone(), answer));
    cases
        .into_iter()
        .chain(no_frames(fields, &single))
        .collect()
}

fn case(kind: u8, h: usize, image: Vec<u8>, answer: &'static str) -> Case {
    Case {
        kind,
        h,
        image,
        answer,
    }
}

/// Images that are no frames, made of a single that is one; and in extended one that is LONG.
fn no_frames(fields: &Fields, single: &[u8]) -> Vec<Case> {
    let (first, rtr) = match fields.format() {
        Format::Extended => (0, 0x40),
        Format::Standard => (1, 0x10),
    };
    let with_bits = |place: usize, bits: u8| {
        let mut image = single.to_vec();
        image[place] |= bits;
        image
    };
    let short = single[..single.len() - 1].to_vec();
    let long = [single, &[9]].concat();
    let short_start = split::image(fields, Flag::Start, 0, &[1, 2, 3]);
    let mut cases = vec![
        case(IDLE, 0, Vec::new(), "refused 1"),
        case(IDLE, 0, vec![0; 14], "refused 1"),
        case(IDLE, 0, with_bits(first, rtr), "refused 3"),
        case(IDLE, 0, short, "refused 4"),
        case(IDLE, 0, short_start, "refused 5"),
        case(IDLE, 0, long, "refused 25"),
    ];
    if fields.format() == Format::Extended {
        // After 256 pieces the number awaited is 0 again.
        let last = split::image(fields, Flag::End, 0, &[1]);
        cases.push(case(IDLE, 0, with_bits(0, 0x10), "refused 2"));
        cases.push(case(COLLECTING, AREA_SIZE, last, "refused 8"));
    }
    cases
}

/// The tallies while they are not set to a value that matters: far from each limit, and each another.
fn beside(place: usize) -> u64 {
    0x0101_0000_0000 + 0x1_0000 * place as u64
}

/// The requests for one format and front, and what has to become of them.
struct Script {
    format: Format,
    front: u8,
    key: Key,
    requests: Vec<Request>,
    marks: Vec<Mark>,
}

/// A request whose answer is known.
struct Mark {
    place: usize,
    answer: String,
    row: String,
    /// Whether slots and store have to be as in the responses around: SLOT and STORE before, STORE after.
    unchanged: bool,
}

impl Script {
    fn of(format: Format, front: u8) -> Script {
        let key = any_key(format, &mut Random::new(SEED));
        let mut script = Script {
            format,
            front,
            key,
            requests: vec![request::new(format), request::front(front)],
            marks: Vec::new(),
        };
        script.push(request::fill(7, 3));
        for place in 0..TALLIES.len() {
            script.push(request::tally(place, beside(place)));
        }
        for case in cases(&key) {
            for place in 0..TALLIES.len() {
                script.values(&case, place);
            }
        }
        script.before_26();
        script.other_calls();
        script
    }

    fn push(&mut self, request: Request) {
        self.requests.push(request);
    }

    /// Pushes a request that has to be answered so.
    fn mark(&mut self, request: Request, answer: &str, row: String, unchanged: bool) {
        self.marks.push(Mark {
            place: self.requests.len(),
            answer: answer.to_string(),
            row,
            unchanged,
        });
        self.push(request);
    }

    fn row(&self, answer: &str, what: &str) -> String {
        row(self.format, self.front, answer, what)
    }

    /// The image with a tally at each of its values.
    fn values(&mut self, case: &Case, place: usize) {
        let own = TALLIES[place] == case.answer;
        let values = match own {
            true => &OWN_VALUES[..],
            false => &OTHER_VALUES,
        };
        for &value in values {
            let (answer, what) = match (value, own) {
                (FULL, true) => (TALLY, OWN_FULL),
                (FULL, false) => (TALLY, OTHER_FULL),
                (_, true) if value == FULL - 1 => (case.answer, FILLED),
                _ => (case.answer, RAISED),
            };
            self.push(request::tally(place, value));
            self.receive(case, answer, what);
        }
        self.push(request::tally(place, beside(place)));
    }

    /// Sets the slot, has it receive the image, and looks at its area before and after.
    fn receive(&mut self, case: &Case, answer: &str, what: &str) {
        let from = SLOT * AREA_SIZE - BESIDE;
        let (key, row) = (self.key, self.row(case.answer, what));
        self.push(request::store(from, BESIDE + HEAD));
        self.push(request::slot(SLOT, case.kind, case.h as u16, &key, 0));
        let image = request::receive(key.bus, &case.image);
        self.mark(image, answer, row, answer == TALLY);
        self.push(request::store(from, BESIDE + HEAD));
    }

    /// An image that is refused before its tallies are looked at, with one full and with none. Its own refusal, LENGTH,
    /// comes after all.
    fn before_26(&mut self) {
        let (key, full_store) = (self.key, request::lend(FULL_STORE));
        for (value, what) in [(FULL, PAST_FULL), (0, UNMOVED)] {
            let row = self.row("all", what);
            self.push(request::tally(9, value));
            self.push(request::slot(SLOT, IDLE, 0, &key, 0));
            let image = request::receive(2, &[]);
            self.mark(image.clone(), "refused 9", row.clone(), false);
            self.push(request::lend(FULL_STORE - 1));
            self.mark(image.clone(), "refused 13", row.clone(), false);
            // The same key twice.
            self.push(request::slot(SLOT + 1, IDLE, 0, &key, 0));
            self.mark(image, "refused 21", row, false);
            self.push(request::slot(SLOT + 1, CLOSED, 0, &key, 0));
            self.push(full_store.clone());
        }
    }

    /// The calls that look at no tally.
    fn other_calls(&mut self) {
        let (key, row) = (self.key, self.row("all", OTHER_CALLS));
        let other_bus = Key {
            bus: 1 - key.bus,
            ..key
        };
        for place in 0..TALLIES.len() {
            self.push(request::tally(place, FULL));
        }
        self.push(request::slot(SLOT, DONE, 3, &key, 0));
        let slot = SLOT as u8;
        for (request, answer) in [
            (request::open(&key, 0), "refused 14"),
            (request::open(&other_bus, 0), "value"),
            (request::read(slot), "value"),
            (request::read(0), "refused 17"),
            (request::close(0), "value"),
            (request::close(0), "refused 16"),
        ] {
            self.mark(request, answer, row.clone(), false);
        }
    }

    /// Refuses responses that are not as L5 says; gives how many images were received.
    fn check(&self, responses: &[Vec<u8>], occurred: &mut Occurred) -> Result<usize, String> {
        rise::check(&self.requests, responses)
            .map_err(|said| format!("{}: {said}", way(self.format, self.front)))?;
        for mark in &self.marks {
            let place = mark.place;
            let got = answer(&responses[place]);
            if got != mark.answer {
                let (own, row) = (&mark.answer, &mark.row);
                return Err(format!("{row}: request {place}: {got}, not {own}"));
            }
            if mark.unchanged && is_changed(responses, place) {
                return Err(format!("{}: request {place}: a change", mark.row));
            }
            occurred.count(&mark.row);
        }
        let images = self.requests.iter().filter(|r| r[0] == request::RECEIVE);
        Ok(images.count())
    }
}

/// Whether the slots, or the bytes of the store that are looked at, are other after an image than before it.
fn is_changed(responses: &[Vec<u8>], place: usize) -> bool {
    slots(&responses[place - 1]) != slots(&responses[place])
        || responses[place - 2] != responses[place + 1]
}

#[cfg(test)]
mod tests {
    use super::*;

    fn by_second(script: &Script) -> Vec<Vec<u8>> {
        exchange::by_second(&script.requests, &[]).unwrap()
    }

    #[test]
    fn every_case_occurs_and_is_as_l5_says() {
        let mut occurred = Occurred::requiring(rows());
        for format in FORMATS {
            for front in [0, 1] {
                let script = Script::of(format, front);
                let checked = script.check(&by_second(&script), &mut occurred);
                assert!(checked.is_ok_and(|images| images > 500));
            }
        }
        assert_eq!(occurred.check(), Ok(()));
    }

    #[test]
    fn every_answer_has_a_case() {
        for format in FORMATS {
            let key = any_key(format, &mut Random::new(1));
            let cases = cases(&key);
            for answer in answers(format) {
                assert!(cases.iter().any(|case| case.answer == answer), "{answer}");
            }
        }
        assert_eq!(answers(Format::Extended).count(), 14);
        assert_eq!(answers(Format::Standard).count(), 12);
    }

    /// What is said where a response to an image of that answer is changed: at which response after it, and at which byte.
    fn said(answer_is: &str, after: usize, byte: usize) -> String {
        let script = Script::of(Format::Standard, 1);
        let mut responses = by_second(&script);
        let mut marks = script.marks.iter().map(|mark| mark.place);
        let place = marks.find(|&place| answer(&responses[place]) == answer_is);
        responses[place.expect(answer_is) + after][byte] ^= 1;
        let mut occurred = Occurred::requiring(Vec::new());
        script.check(&responses, &mut occurred).unwrap_err()
    }

    #[test]
    fn a_wrong_response_is_told() {
        // The answer, a slot, the store, and a tally.
        assert!(said("kept broke", 0, 3).contains("tallies after RECEIVE"));
        assert!(said(TALLY, 0, 4).ends_with("a change"));
        assert!(said(TALLY, 0, 163).ends_with("a change"));
        assert!(said(TALLY, 1, 47).ends_with("a change"));
        assert!(said(TALLY, 0, 164).contains("packet is"));
        assert!(said("packet", 0, 171).contains("packet is"));
        assert!(said("refused 16", 0, 2).ends_with("refused 17, not refused 16"));
    }
}
