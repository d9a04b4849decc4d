//! The tallies of a station: L5 of document 02, rule by rule, in both formats.

use second::format::Format;
use second::key::{Fields, Key};
use second::refusal::Refusal;
use second::split::piece;
use second::station::{Slot, Station, STORE_SIZE};
use second::stream::{Answer, State};
use second::tally::{Tallies, TALLY_COUNT};

const FORMATS: [Format; 2] = [Format::Extended, Format::Standard];

/// The tallies in document 02's order.
const PACKET: usize = 0;
const PACKET_BROKE: usize = 1;
const KEPT: usize = 2;
const KEPT_BROKE: usize = 3;
const FILTERED: usize = 4;
/// That of refusal 1; those of 2 to 8 follow.
const REFUSED_1: usize = 5;
const REFUSED_25: usize = 13;

fn key(format: Format) -> Key {
    let fields = match format {
        Format::Extended => Fields::Extended {
            priority: 1,
            source: 5,
            group: 0,
            destination: 0,
            function: 2,
        },
        Format::Standard => Fields::Standard {
            priority: 1,
            address: 5,
            side: 1,
        },
    };
    Key { bus: 0, fields }
}

/// A station with its store. Slot 0 is open with the key.
#[derive(Clone, PartialEq, Debug)]
struct Run {
    station: Station,
    store: Vec<u8>,
}

impl Run {
    fn new(format: Format, state: State) -> Run {
        let mut station = Station::new(format);
        let key = key(format);
        station.slots[0] = Slot::Open { key, state };
        Run {
            station,
            store: vec![0xAA; STORE_SIZE],
        }
    }

    fn receive(&mut self, bus: u8, image: &[u8]) -> Answer {
        let (station, answer) = self.station.receive(bus, image, &mut self.store);
        self.station = station;
        answer
    }

    fn tallies(&self) -> [u64; TALLY_COUNT] {
        self.station.tallies.0
    }
}

/// An image with the state of slot 0 that it meets, its bus and what becomes of
/// it: its tally and its refusal, if it has one.
struct Case {
    state: State,
    bus: u8,
    image: Vec<u8>,
    tally: usize,
    refusal: Option<Refusal>,
}

/// The pieces of a packet that goes in three, and a single: start, middle, end,
/// single.
fn pieces(format: Format) -> [Vec<u8>; 4] {
    let (fields, packet) = (key(format).fields, [0x55; 20]);
    let of_long = |k| piece(&fields, &packet, k);
    [of_long(0), of_long(1), of_long(2), piece(&fields, &[7], 0)]
}

/// One image for each tally that the format can raise.
fn cases(format: Format) -> Vec<Case> {
    let one = format.piece_size();
    let (idle, one_held) = (State::Idle, State::Collecting(one));
    let [start, middle, end, single] = pieces(format);
    let taken = [
        (idle, 0, &single, PACKET),
        (State::Collecting(2 * one), 0, &end, PACKET),
        (one_held, 0, &single, PACKET_BROKE),
        (idle, 0, &start, KEPT),
        (one_held, 0, &middle, KEPT),
        (one_held, 0, &start, KEPT_BROKE),
        // The other bus is another key.
        (idle, 1, &single, FILTERED),
    ];
    let mut cases: Vec<Case> = taken
        .into_iter()
        .map(|(state, bus, image, tally)| Case {
            state,
            bus,
            image: image.clone(),
            tally,
            refusal: None,
        })
        .collect();
    let refused = refused(format, [&start, &middle, &end, &single]);
    cases.extend(refused.into_iter().map(|(state, image, refusal)| Case {
        state,
        bus: 0,
        image,
        tally: tally_of(refusal),
        refusal: Some(refusal),
    }));
    cases
}

/// Where document 02 puts the tally of a refusal.
fn tally_of(refusal: Refusal) -> usize {
    match refusal.number() {
        number @ 1..=8 => REFUSED_1 + usize::from(number) - 1,
        25 => REFUSED_25,
        number => panic!("{number} has no tally"),
    }
}

/// Images that are refused, from those that are not. LONG and FORM are
/// extended's alone.
fn refused(
    format: Format,
    [_, middle, end, single]: [&Vec<u8>; 4],
) -> Vec<(State, Vec<u8>, Refusal)> {
    let one = format.piece_size();
    let (idle, one_held) = (State::Idle, State::Collecting(one));
    let short = &single[..single.len() - 1];
    let long = [&single[..], &[7]].concat();
    let (first, rtr) = match format {
        Format::Extended => (0, 0x40),
        Format::Standard => (1, 0x10),
    };
    let mut remote = single.clone();
    remote[first] |= rtr;
    // A middle with the count of an end.
    let mut piece = middle[..middle.len() - 1].to_vec();
    piece[first] -= 1;
    let mut cases = vec![
        (idle, Vec::new(), Refusal::Length),
        (idle, vec![0; 14], Refusal::Length),
        (idle, remote, Refusal::Remote),
        (idle, short.to_vec(), Refusal::Count),
        (idle, piece, Refusal::Piece),
        (idle, middle.clone(), Refusal::Orphan),
        (State::Done(9), end.clone(), Refusal::Orphan),
        (one_held, end.clone(), Refusal::Step),
        (idle, long, Refusal::Surplus),
    ];
    if format == Format::Extended {
        let mut form = single.clone();
        form[0] |= 0x10;
        let mut last = end.clone();
        // The number awaited after 2,048 bytes is 0 again.
        last[3] &= 0xC0;
        cases.push((idle, form, Refusal::Form));
        cases.push((State::Collecting(2048), last, Refusal::Long));
    }
    cases
}

/// Whether an answer is the case's own.
fn is_answer(case: &Case, answer: Answer) -> bool {
    match (case.tally, case.refusal) {
        (_, Some(refusal)) => answer == Answer::Refused(refusal),
        (PACKET | PACKET_BROKE, _) => {
            matches!(answer, Answer::Packet { broke, .. } if broke == (case.tally == PACKET_BROKE))
        }
        (FILTERED, _) => answer == Answer::Filtered,
        _ => {
            let broke = case.tally == KEPT_BROKE;
            answer == Answer::Kept { broke }
        }
    }
}

#[test]
fn a_new_station_has_tallies_of_0() {
    for format in FORMATS {
        assert_eq!(Station::new(format).tallies.0, [0; 14]);
    }
}

#[test]
fn every_tally_has_a_case_that_its_format_can_give() {
    let tallies = |format| -> Vec<usize> { cases(format).iter().map(|case| case.tally).collect() };
    let (extended, standard) = (tallies(Format::Extended), tallies(Format::Standard));
    for tally in 0..TALLY_COUNT {
        assert!(extended.contains(&tally), "{tally}");
        // Standard has no fixed bits, and its numbers end before 2,048 bytes.
        let alone = [tally_of(Refusal::Form), tally_of(Refusal::Long)].contains(&tally);
        assert_eq!(standard.contains(&tally), !alone, "{tally}");
    }
}

#[test]
fn an_image_raises_the_tally_of_its_own_answer_by_one_and_no_other() {
    for format in FORMATS {
        for case in cases(format) {
            // Far from 0 and from the largest, and all different.
            let before: [u64; TALLY_COUNT] = std::array::from_fn(|i| (i as u64 + 1) << 40);
            let mut run = Run::new(format, case.state);
            run.station.tallies = Tallies(before);
            let answer = run.receive(case.bus, &case.image);
            assert!(is_answer(&case, answer), "{format:?} {answer:?}");
            let mut after = before;
            after[case.tally] += 1;
            assert_eq!(run.tallies(), after, "{format:?} {answer:?}");
        }
    }
}

#[test]
fn one_below_the_largest_value_an_image_is_still_judged() {
    for format in FORMATS {
        for case in cases(format) {
            let mut run = Run::new(format, case.state);
            run.station.tallies = Tallies([u64::MAX - 1; TALLY_COUNT]);
            let answer = run.receive(case.bus, &case.image);
            assert!(is_answer(&case, answer), "{format:?} {answer:?}");
            let mut after = [u64::MAX - 1; TALLY_COUNT];
            after[case.tally] = u64::MAX;
            assert_eq!(run.tallies(), after);
            // From here on nothing is judged.
            let before = run.clone();
            let answer = run.receive(case.bus, &case.image);
            assert_eq!(answer, Answer::Refused(Refusal::Tally));
            assert_eq!(run, before);
        }
    }
}

#[test]
fn any_tally_at_its_largest_value_refuses_every_image_and_nothing_changes() {
    for format in FORMATS {
        for case in cases(format) {
            for full in 0..TALLY_COUNT {
                let mut run = Run::new(format, case.state);
                run.station.tallies.0[full] = u64::MAX;
                let before = run.clone();
                let answer = run.receive(case.bus, &case.image);
                assert_eq!(answer, Answer::Refused(Refusal::Tally), "{full}");
                assert_eq!(run, before);
            }
        }
    }
}

#[test]
fn refusal_26_comes_after_9_and_before_1() {
    for format in FORMATS {
        let mut run = Run::new(format, State::Idle);
        run.station.tallies.0[FILTERED] = u64::MAX;
        let before = run.clone();
        for (bus, refusal) in [(2, Refusal::Field), (0, Refusal::Tally)] {
            // Of no bytes, which LENGTH is about.
            assert_eq!(run.receive(bus, &[]), Answer::Refused(refusal));
        }
        run.store.pop();
        assert_eq!(run.receive(2, &[]), Answer::Refused(Refusal::Store));
        run.store.push(0xAA);
        assert_eq!(run, before);
        run.station.slots[1] = run.station.slots[0];
        assert_eq!(run.receive(2, &[]), Answer::Refused(Refusal::State));
    }
}

#[test]
fn refusals_21_13_and_9_move_no_tally() {
    for format in FORMATS {
        for case in cases(format) {
            let sound = Run::new(format, case.state);
            let mut short = sound.clone();
            short.store.pop();
            let mut unsound = sound.clone();
            unsound.station.slots[9] = unsound.station.slots[0];
            for (mut run, bus, refusal) in [
                (sound, 2, Refusal::Field),
                (short, case.bus, Refusal::Store),
                (unsound, case.bus, Refusal::State),
            ] {
                let answer = run.receive(bus, &case.image);
                assert_eq!(answer, Answer::Refused(refusal));
                assert_eq!(run.tallies(), [0; TALLY_COUNT]);
            }
        }
    }
}

#[test]
fn opening_closing_and_reading_look_at_no_tally_and_move_none() {
    for format in FORMATS {
        for tallies in [[0; TALLY_COUNT], [5; TALLY_COUNT], [u64::MAX; TALLY_COUNT]] {
            let mut run = Run::new(format, State::Done(3));
            run.station.tallies = Tallies(tallies);
            let of = |station: &Station| station.tallies.0;
            let (opened, answer) = run.station.open(Key {
                bus: 1,
                ..key(format)
            });
            assert_eq!((answer, of(&opened)), (Ok(1), tallies));
            let (again, answer) = opened.open(key(format));
            assert_eq!((answer, of(&again)), (Err(Refusal::Taken), tallies));
            let (closed, answer) = again.close(1);
            assert_eq!((answer, of(&closed)), (Ok(1), tallies));
            let (still, answer) = closed.close(1);
            assert_eq!((answer, of(&still)), (Err(Refusal::Closed), tallies));
            assert_eq!(still.read_length(0, &run.store), Ok(3));
            assert_eq!(still.read_part(0, &run.store), [0xAA; 3]);
            assert_eq!(still.read_length(1, &run.store), Err(Refusal::Closed));
        }
    }
}

#[test]
fn the_sum_rises_by_one_for_each_image_judged() {
    for format in FORMATS {
        let mut run = Run::new(format, State::Idle);
        let mut judged = 0;
        for _ in 0..3 {
            for case in cases(format) {
                // The state is what the images before left: most are refused then, or broke.
                run.receive(case.bus, &case.image);
                judged += 1;
                run.receive(2, &case.image);
                assert_eq!(run.tallies().iter().sum::<u64>(), judged);
            }
        }
    }
}
