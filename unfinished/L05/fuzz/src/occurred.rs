//! How often each case came up: each function's answers and refusals, and the bytes put in a part's place.

use std::fmt::Write;

use second::format::Format;
use second::interface::{format_of, refused, FILTERED, KEPT, MASTER_SIZE, PACKET, STATION_SIZE};
use second::interface::{FORMAT_AT, TALLIES_AT, TALLY_SIZE};
use second::refusal::Refusal;
use second::split::piece_count;
use second::tally::TALLY_COUNT;
use testkit::damage::is_over_8;
use testkit::tallies::FULL;
use testkit::FORMATS;

use crate::bench::Parts;
use crate::call::{Bytes, Call};
use crate::library::{functions, Function, FUNCTIONS};
use crate::mutate::{MASTER_WAYS, STATION_WAYS, TALLY_WAYS, WATCH_WAYS, WAYS};

/// The lists of what is put in a part's place.
#[derive(Clone, Copy, Debug, PartialEq, Eq)]
pub enum List {
    SoundStation,
    MutatedStation,
    UnsoundStation,
    Tallies,
    SoundMaster,
    MutatedMaster,
    UnsoundMaster,
    SoundWatch,
    MutatedWatch,
    UnsoundWatch,
}

/// What was put in a part's place: an entry of a list.
#[derive(Clone, Copy, Debug, PartialEq, Eq)]
pub struct Note(pub List, pub usize);

/// The columns in which a case can come up, as bits.
const EXTENDED: u8 = 1;
const STANDARD: u8 = 2;
const BOTH: u8 = EXTENDED | STANDARD;
/// Where no format is in play.
const NONE: u8 = 4;
const ALL: u8 = BOTH | NONE;

/// The cases that can come up in a function, each with its columns.
struct Cases {
    answers: &'static [(&'static str, u8)],
    refusals: &'static [(Refusal, u8)],
}

fn cases(function: Function) -> Cases {
    let (answers, refusals): (&[_], &[_]) = match function {
        Function::version => (&[("release", NONE)], &[]),
        Function::piece_count => (
            &[
                ("1 piece", BOTH),
                ("2 to 255 pieces", BOTH),
                ("256 pieces", BOTH),
            ],
            &[(Refusal::Field, NONE), (Refusal::Size, BOTH)],
        ),
        Function::write_piece => (
            &[
                ("single", BOTH),
                ("start", BOTH),
                ("middle", BOTH),
                ("end", BOTH),
            ],
            &[
                (Refusal::Field, ALL),
                (Refusal::Size, BOTH),
                (Refusal::Index, BOTH),
                (Refusal::Room, BOTH),
            ],
        ),
        Function::station_new | Function::open | Function::close => return slot_cases(function),
        Function::receive => return RECEIVE_CASES,
        Function::read => return READ_CASES,
        Function::tally => return TALLY_CASES,
        Function::filter_accepts | Function::row_accepts => {
            (&[("not accepted", NONE), ("accepted", NONE)], &[])
        }
        Function::master_new
        | Function::master_start
        | Function::master_reply
        | Function::master_timeout => return master_cases(function),
        Function::watch_new => (&[("new", NONE)], &[(Refusal::State, NONE)]),
        Function::watch_heard => (
            &[("A", NONE), ("B", NONE)],
            &[(Refusal::Field, NONE), (Refusal::State, NONE)],
        ),
        Function::watch_check => (
            &[("none", NONE), ("A", NONE), ("B", NONE), ("both", NONE)],
            &[(Refusal::State, NONE)],
        ),
    };
    Cases { answers, refusals }
}

fn slot_cases(function: Function) -> Cases {
    let (answers, refusals): (&[_], &[_]) = match function {
        Function::station_new => (
            &[("new", BOTH)],
            &[(Refusal::Field, NONE), (Refusal::State, NONE)],
        ),
        Function::open => (
            &[("slot 0", BOTH), ("slots 1 to 14", BOTH), ("slot 15", BOTH)],
            &[
                (Refusal::Field, BOTH),
                (Refusal::Taken, BOTH),
                (Refusal::Full, BOTH),
                (Refusal::State, NONE),
            ],
        ),
        _ => (
            &[("closed", BOTH)],
            &[(Refusal::Closed, BOTH), (Refusal::State, NONE)],
        ),
    };
    Cases { answers, refusals }
}

const RECEIVE_CASES: Cases = Cases {
    answers: &[
        ("packet", BOTH),
        ("packet of 0 bytes", BOTH),
        ("packet of the limit", BOTH),
        ("packet, broke", BOTH),
        ("kept", BOTH),
        ("kept, broke", BOTH),
        ("filtered", BOTH),
        // These are counted among the others too.
        ("packet, count code over 8", BOTH),
        ("kept, count code over 8", BOTH),
        ("4 COUNT, count code over 8", BOTH),
        ("5 PIECE, count code over 8", BOTH),
        ("tally raised to 2^64 - 1", BOTH),
    ],
    refusals: &[
        (Refusal::Length, BOTH),
        (Refusal::Form, EXTENDED),
        (Refusal::Remote, BOTH),
        (Refusal::Count, BOTH),
        (Refusal::Surplus, BOTH),
        (Refusal::Piece, BOTH),
        (Refusal::Orphan, BOTH),
        (Refusal::Step, BOTH),
        (Refusal::Long, EXTENDED),
        (Refusal::Field, BOTH),
        (Refusal::Store, BOTH),
        (Refusal::State, NONE),
        (Refusal::Tally, BOTH),
    ],
};

const READ_CASES: Cases = Cases {
    answers: &[
        ("packet", BOTH),
        ("packet of 0 bytes", BOTH),
        ("packet of the limit", BOTH),
    ],
    refusals: &[
        (Refusal::Store, BOTH),
        (Refusal::Closed, BOTH),
        (Refusal::NoPacket, BOTH),
        (Refusal::State, NONE),
    ],
};

/// One answer, told apart by the tally asked for: what it counts.
const TALLY_CASES: Cases = Cases {
    answers: &[
        ("packet", BOTH),
        ("packet broke", BOTH),
        ("kept", BOTH),
        ("kept broke", BOTH),
        ("filtered", BOTH),
        ("refused 1", BOTH),
        ("refused 2", BOTH),
        ("refused 3", BOTH),
        ("refused 4", BOTH),
        ("refused 5", BOTH),
        ("refused 6", BOTH),
        ("refused 7", BOTH),
        ("refused 8", BOTH),
        ("refused 25", BOTH),
    ],
    refusals: &[(Refusal::Index, BOTH), (Refusal::State, NONE)],
};

fn master_cases(function: Function) -> Cases {
    let (answers, refusals): (&[_], &[_]) = match function {
        Function::master_new => (&[("new", NONE)], &[(Refusal::State, NONE)]),
        Function::master_start => (
            &[
                ("poll on A", NONE),
                ("poll on B", NONE),
                ("data block on A", NONE),
                ("data block on B", NONE),
                ("command on A", NONE),
                ("command on B", NONE),
            ],
            &[
                (Refusal::Field, NONE),
                (Refusal::Busy, NONE),
                (Refusal::State, NONE),
            ],
        ),
        Function::master_reply => (
            &[
                ("poll done", NONE),
                ("data block done", NONE),
                ("command done", NONE),
                ("command done, third send", NONE),
            ],
            &[
                (Refusal::Field, NONE),
                (Refusal::Idle, NONE),
                (Refusal::NotAwaited, NONE),
                (Refusal::State, NONE),
            ],
        ),
        _ => (
            &[
                ("poll given up", NONE),
                ("data block sent again", NONE),
                ("data block given up", NONE),
                ("command sent again", NONE),
                ("command sent on the other bus", NONE),
                ("command given up", NONE),
            ],
            &[(Refusal::Idle, NONE), (Refusal::State, NONE)],
        ),
    };
    Cases { answers, refusals }
}

/// Refusals have the places of `Refusal::ALL`; answers follow.
const ANSWERS_AT: usize = Refusal::ALL.len();
const PLACES: usize = ANSWERS_AT + TALLY_COUNT;

/// Where the cases of a count code over 8, and that of a tally raised to its largest value, stand among the answers of
/// receiving.
const CODES_AT: usize = ANSWERS_AT + 7;
const FILLED_AT: usize = ANSWERS_AT + 11;

/// The columns by name.
const COLUMNS: [&str; 3] = ["extended", "standard", "-"];

/// The counts of a run.
pub struct Occurred {
    /// By function, case and column.
    counts: Vec<[[u64; 3]; PLACES]>,
    /// By list and entry.
    notes: Vec<Vec<u64>>,
    /// Whether a piece was written of a packet of that size.
    sizes: [Vec<bool>; 2],
    /// Whether an image raised that tally to its largest value.
    filled: [[bool; TALLY_COUNT]; 2],
    pub calls: u64,
    pub sequences: u64,
}

impl Occurred {
    pub fn new() -> Occurred {
        Occurred {
            counts: vec![[[0; 3]; PLACES]; FUNCTIONS.len()],
            notes: lists()
                .iter()
                .map(|(_, ways)| vec![0; ways.len()])
                .collect(),
            sizes: FORMATS.map(|format| vec![false; format.packet_limit() + 1]),
            filled: [[false; TALLY_COUNT]; 2],
            calls: 0,
            sequences: 0,
        }
    }

    /// Counts a call, with the parts as they were before it.
    pub fn count(&mut self, call: &Call, before: &Before, answer: u32) {
        self.calls += 1;
        let column = column(call, before, answer);
        let mut refusals = Refusal::ALL.iter();
        let refusal = refusals.position(|&refusal| refused(refusal) == answer);
        let place = refusal.unwrap_or_else(|| ANSWERS_AT + kind_of(call, before, answer));
        let counts = &mut self.counts[call.function() as usize];
        counts[place][column] += 1;
        if let Some(code) = code_case(call, before, answer) {
            counts[CODES_AT + code][column] += 1;
        }
        if let Some(tally) = filled(call, before, answer) {
            counts[FILLED_AT][column] += 1;
            self.filled[column][tally] = true;
        }
        if let Call::write_piece {
            packet: Bytes::Own(packet),
            ..
        } = call
        {
            if place >= ANSWERS_AT {
                self.sizes[column][packet.len()] = true;
            }
        }
    }

    /// Counts bytes put in a part's place.
    pub fn note(&mut self, note: Note) {
        let Note(list, place) = note;
        self.notes[list as usize][place] += 1;
    }

    /// What never came up though it can, and what came up though it cannot.
    pub fn faults(&self) -> Vec<String> {
        let mut faults = Vec::new();
        for (function, place, column) in every_place() {
            let name = name_of(function, place);
            let (count, can) = (
                self.counts[function as usize][place][column],
                can_be(function, place, column),
            );
            let case = format!("{} {name} {}", function_name(function), COLUMNS[column]);
            match (can, count) {
                (true, 0) => faults.push(format!("never came up: {case}")),
                (false, 1..) => faults.push(format!("came up but cannot: {case}")),
                _ => {}
            }
        }
        for (list, (title, ways)) in lists().iter().enumerate() {
            for (way, name) in ways.iter().enumerate() {
                if self.notes[list][way] == 0 {
                    faults.push(format!("never came up: {title}: {name}"));
                }
            }
        }
        faults
    }

    /// The sizes of which no piece was written.
    pub fn sizes_left_out(&self) -> usize {
        let left_out = |sizes: &Vec<bool>| sizes.iter().filter(|&&seen| !seen).count();
        self.sizes.iter().map(left_out).sum()
    }

    /// The tallies that no image raised to their largest value.
    pub fn tallies_left_out(&self) -> Vec<String> {
        let formats = self.filled.iter().zip(COLUMNS);
        let left_out = formats.flat_map(|(filled, format)| {
            let tallies = TALLY_CASES.answers.iter().map(|&(tally, _)| tally);
            let unfilled = tallies.zip(filled).filter(|&(_, filled)| !filled);
            let left_out = unfilled.filter(move |&(tally, _)| can_rise(tally, format));
            left_out.map(move |(tally, _)| format!("{tally} in {format}"))
        });
        left_out.collect()
    }

    /// The table of all cases.
    pub fn table(&self) -> String {
        let mut text = format!(
            "{:<16}{:<31}{:>12}{:>12}{:>12}\n",
            "function", "case", "extended", "standard", "-"
        );
        for (function, place, _) in every_place().filter(|&(_, _, column)| column == 0) {
            let columns = [0, 1, 2].map(|column| {
                let count = self.counts[function as usize][place][column];
                match can_be(function, place, column) || count > 0 {
                    true => count.to_string(),
                    false => String::new(),
                }
            });
            if columns.iter().any(|column| !column.is_empty()) {
                let [extended, standard, none] = columns;
                let (function, name) = (function_name(function), name_of(function, place));
                let line =
                    format!("{function:<16}{name:<31}{extended:>12}{standard:>12}{none:>12}");
                writeln!(text, "{}", line.trim_end()).expect("text can be written");
            }
        }
        for (list, (title, ways)) in lists().iter().enumerate() {
            for (way, name) in ways.iter().enumerate() {
                let count = self.notes[list][way];
                writeln!(text, "{title:<16}{name:<31}{count:>36}").expect("text can be written");
            }
        }
        text
    }
}

impl Default for Occurred {
    fn default() -> Occurred {
        Occurred::new()
    }
}

/// What of the parts before a call its case depends on.
pub struct Before {
    station_format: Option<Format>,
    /// Whether each tally of the station is one below its largest value.
    nearly_full: [bool; TALLY_COUNT],
    /// Kind and send count of the exchange.
    exchange: (u8, u8),
}

impl Before {
    pub fn of(parts: &Parts) -> Before {
        let (mut format, mut nearly_full) = (None, [false; TALLY_COUNT]);
        if parts.station.len() == STATION_SIZE {
            format = format_of(parts.station[FORMAT_AT]);
            let tallies = parts.station[TALLIES_AT..].chunks(TALLY_SIZE);
            for (nearly_full, tally) in nearly_full.iter_mut().zip(tallies) {
                *nearly_full = tally == (FULL - 1).to_le_bytes();
            }
        }
        let exchange = match parts.master.len() {
            MASTER_SIZE => (parts.master[MASTER_SIZE - 4], parts.master[MASTER_SIZE - 2]),
            _ => (0, 0),
        };
        Before {
            station_format: format,
            nearly_full,
            exchange,
        }
    }
}

/// The column of a call: of its station's format, or of the format handed in.
fn column(call: &Call, before: &Before, answer: u32) -> usize {
    let format = match call {
        // What is no station has no format.
        _ if answer == refused(Refusal::State) => None,
        Call::piece_count { format, .. }
        | Call::write_piece { format, .. }
        | Call::station_new { format, .. } => format_of(*format),
        Call::open { .. }
        | Call::close { .. }
        | Call::receive { .. }
        | Call::read { .. }
        | Call::tally { .. } => before.station_format,
        _ => None,
    };
    match format {
        Some(Format::Extended) => 0,
        Some(Format::Standard) => 1,
        None => 2,
    }
}

/// The place among the function's answers of one that is no refusal.
fn kind_of(call: &Call, before: &Before, answer: u32) -> usize {
    let number = (answer & 0xFFFF) as usize;
    match call {
        Call::piece_count { .. } => match number {
            1 => 0,
            256 => 2,
            _ => 1,
        },
        Call::write_piece {
            format,
            packet: Bytes::Own(packet),
            k,
            ..
        } => place_of_piece(*format, packet.len(), *k),
        Call::open { .. } => match number {
            0 => 0,
            15 => 2,
            _ => 1,
        },
        Call::receive { .. } => received(before, answer),
        Call::read { .. } => packet_of(before, number),
        Call::tally { index, .. } => *index,
        Call::master_start { kind, .. } => 2 * usize::from(*kind - 1) + number,
        Call::master_reply { .. } => match before.exchange {
            (3, 3) => 3,
            (kind, _) => usize::from(kind - 1),
        },
        Call::master_timeout { .. } => match before.exchange {
            (1, _) => 0,
            (2, sends) => usize::from(sends),
            (_, sends) => usize::from(sends) + 2,
        },
        Call::filter_accepts { .. } | Call::row_accepts { .. } | Call::watch_heard { .. } => number,
        Call::watch_check { .. } => (answer >> 25) as usize,
        // One answer only.
        _ => 0,
    }
}

fn place_of_piece(format: u8, size: usize, k: usize) -> usize {
    let count = format_of(format).map_or(0, |format| piece_count(format, size).unwrap_or(0));
    match k {
        0 if count == 1 => 0,
        0 => 1,
        _ if k + 1 == count => 3,
        _ => 2,
    }
}

fn received(before: &Before, answer: u32) -> usize {
    let broke = answer >> 24 & 1 == 1;
    match answer >> 16 & 0xFF {
        PACKET if broke => 3,
        PACKET => packet_of(before, (answer & 0xFFFF) as usize),
        KEPT => 4 + usize::from(broke),
        _ => 6,
    }
}

/// The place among the cases of a count code over 8 of an image received that has one.
fn code_case(call: &Call, before: &Before, answer: u32) -> Option<usize> {
    let Call::receive {
        image: Bytes::Own(image),
        ..
    } = call
    else {
        return None;
    };
    if !is_over_8(image, before.station_format?) {
        return None;
    }
    let kinds = [
        answer >> 16 & 0xFEFF == PACKET,
        answer >> 16 & 0xFEFF == KEPT,
        answer == refused(Refusal::Count),
        answer == refused(Refusal::Piece),
    ];
    kinds.iter().position(|&is| is)
}

/// Whether images of a format can raise that tally: FORM and LONG are extended's alone.
fn can_rise(tally: &str, format: &str) -> bool {
    format == "extended" || !["refused 2", "refused 8"].contains(&tally)
}

/// The place of the tally that an answer to an image raises.
fn raised(answer: u32) -> Option<usize> {
    let broke = (answer >> 24 & 1) as usize;
    match answer >> 16 & 0xFEFF {
        PACKET => Some(broke),
        KEPT => Some(2 + broke),
        FILTERED => Some(4),
        _ => {
            let mut refusals = (1..=8).chain([25]).map(Refusal::of_number);
            let place = refusals.position(|refusal| refusal.map(refused) == Some(answer))?;
            Some(5 + place)
        }
    }
}

/// The place of the tally that an image received raised to its largest value.
fn filled(call: &Call, before: &Before, answer: u32) -> Option<usize> {
    let received = matches!(call, Call::receive { .. });
    raised(answer).filter(|&tally| received && before.nearly_full[tally])
}

fn packet_of(before: &Before, length: usize) -> usize {
    match before.station_format {
        Some(format) if length == format.packet_limit() => 2,
        _ if length == 0 => 1,
        _ => 0,
    }
}

fn every_place() -> impl Iterator<Item = (Function, usize, usize)> {
    // Answers first, then refusals, as the table has them.
    let places = (ANSWERS_AT..PLACES).chain(0..ANSWERS_AT);
    functions().into_iter().flat_map(move |function| {
        let places = places.clone();
        places.flat_map(move |place| (0..3).map(move |column| (function, place, column)))
    })
}

fn function_name(function: Function) -> &'static str {
    FUNCTIONS[function as usize]
}

fn can_be(function: Function, place: usize, column: usize) -> bool {
    let cases = cases(function);
    let columns = match place.checked_sub(ANSWERS_AT) {
        Some(answer) => cases.answers.get(answer).map(|&(_, columns)| columns),
        None => {
            let mut refusals = cases.refusals.iter();
            let refusal = refusals.find(|(refusal, _)| *refusal == Refusal::ALL[place]);
            refusal.map(|&(_, columns)| columns)
        }
    };
    columns.unwrap_or(0) >> column & 1 == 1
}

fn name_of(function: Function, place: usize) -> String {
    match place.checked_sub(ANSWERS_AT) {
        Some(answer) => {
            let cases = cases(function);
            let answer = cases.answers.get(answer);
            answer
                .map_or("an answer that is none", |&(name, _)| name)
                .into()
        }
        None => {
            let refusal = Refusal::ALL[place];
            format!("{} {}", refusal.number(), refusal.name())
        }
    }
}

/// The entries of each list, in the order of `List`, with their titles.
fn lists() -> [(&'static str, &'static [&'static str]); 10] {
    [
        ("station set", &["sound"]),
        ("station set", &WAYS),
        ("station set", &STATION_WAYS),
        ("station set", &TALLY_WAYS),
        ("master set", &["sound"]),
        ("master set", &WAYS),
        ("master set", &MASTER_WAYS),
        ("watch set", &["sound"]),
        ("watch set", &WAYS),
        ("watch set", &WATCH_WAYS),
    ]
}

#[cfg(test)]
mod tests {
    use super::*;
    use crate::call::{MASTER, STATION, STORE};
    use second::interface::station_bytes;
    use second::station::Station;

    fn parts(format: Format) -> Parts {
        Parts {
            station: station_bytes(&Station::new(format)).to_vec(),
            ..Parts::default()
        }
    }

    #[test]
    fn a_run_of_no_calls_lacks_every_case() {
        let faults = Occurred::new().faults();
        assert!(faults.contains(&"never came up: receive 8 LONG extended".into()));
        assert!(faults.contains(&"never came up: receive 25 SURPLUS extended".into()));
        assert!(faults.contains(&"never came up: receive 25 SURPLUS standard".into()));
        assert!(faults.contains(&"never came up: master_start command on B -".into()));
        assert!(faults.contains(&"never came up: station set: key open twice".into()));
        assert!(faults.iter().all(|fault| !fault.contains("LONG standard")));
        assert!(faults.contains(&"never came up: receive 26 TALLY standard".into()));
        assert!(faults.contains(&"never came up: tally refused 25 standard".into()));
        assert_eq!(Occurred::new().sizes_left_out(), 2049 + 1793);
        assert_eq!(Occurred::new().tallies_left_out().len(), 14 + 12);
    }

    #[test]
    fn each_tally_that_an_image_fills_is_counted() {
        let answers = [
            0x0004_0009,
            0x0104_0009,
            0x0005_0000,
            0x0105_0000,
            0x0006_0000,
        ];
        let refusals = [1, 2, 3, 4, 5, 6, 7, 8, 25].map(|number| 0x8000_0000 | number);
        let call = Call::receive {
            station: STATION,
            store: STORE,
            bus: 0,
            image: Bytes::Own(vec![]),
        };
        let with = |tally: usize, value: u64| {
            let mut parts = parts(Format::Extended);
            parts.station[TALLIES_AT + 8 * tally..][..8].copy_from_slice(&value.to_le_bytes());
            Before::of(&parts)
        };
        for (tally, answer) in answers.into_iter().chain(refusals).enumerate() {
            let mut occurred = Occurred::new();
            occurred.count(&call, &with(tally, FULL - 2), answer);
            occurred.count(&call, &with((tally + 1) % 14, FULL - 1), answer);
            assert_eq!(occurred.tallies_left_out().len(), 26);
            occurred.count(&call, &with(tally, FULL - 1), answer);
            let left_out = occurred.tallies_left_out();
            assert_eq!(left_out.len(), 25);
            let own = format!("{} in extended", TALLY_CASES.answers[tally].0);
            assert!(!left_out.contains(&own), "{own}");
        }
        for number in [9, 13, 21, 26] {
            assert_eq!(raised(0x8000_0000 | number), None);
        }
    }

    #[test]
    fn a_case_that_came_up_is_no_fault() {
        let mut occurred = Occurred::new();
        let before = Before::of(&parts(Format::Extended));
        let call = Call::close {
            station: STATION,
            slot: 0,
        };
        occurred.count(&call, &before, refused(Refusal::Closed));
        let lacks =
            |occurred: &Occurred, case: &str| occurred.faults().iter().any(|f| f.ends_with(case));
        assert!(!lacks(&occurred, "close 16 CLOSED extended"));
        assert!(lacks(&occurred, "close 16 CLOSED standard"));
        assert_eq!(occurred.calls, 1);
        assert!(occurred.table().contains("close           16 CLOSED"));
    }

    #[test]
    fn a_case_that_cannot_be_is_a_fault() {
        let mut occurred = Occurred::new();
        let call = Call::receive {
            station: STATION,
            store: STORE,
            bus: 0,
            image: Bytes::Own(vec![]),
        };
        let before = Before::of(&parts(Format::Standard));
        occurred.count(&call, &before, refused(Refusal::Long));
        let fault = "came up but cannot: receive 8 LONG standard";
        assert!(occurred.faults().contains(&fault.into()));
    }

    /// What is lacking of the cases of a count code over 8 after one image received in extended.
    fn lacking_codes(image: &[u8], answer: u32) -> Vec<String> {
        let mut occurred = Occurred::new();
        let call = Call::receive {
            station: STATION,
            store: STORE,
            bus: 0,
            image: Bytes::Own(image.to_vec()),
        };
        occurred.count(&call, &Before::of(&parts(Format::Extended)), answer);
        let of_codes = |fault: &String| fault.contains("over 8 extended");
        occurred.faults().into_iter().filter(of_codes).collect()
    }

    #[test]
    fn codes_over_8_are_counted_by_what_becomes_of_them() {
        let image = |code: u8| [0x80 | code, 0x45, 0, 0xC0, 0x10, 1, 2, 3, 4, 5, 6, 7, 8];
        for (answer, case) in [
            (0x0004_0008, "packet"),
            (0x0104_0008, "packet"),
            (0x0005_0000, "kept"),
            (0x0105_0000, "kept"),
            (refused(Refusal::Count), "4 COUNT"),
            (refused(Refusal::Piece), "5 PIECE"),
        ] {
            let fault = format!("never came up: receive {case}, count code over 8 extended");
            for code in 9..=15 {
                let lacking = lacking_codes(&image(code), answer);
                assert!(
                    lacking.len() == 3 && !lacking.contains(&fault),
                    "{lacking:?}"
                );
            }
            assert!(lacking_codes(&image(8), answer).contains(&fault));
        }
        for refusal in [Refusal::Remote, Refusal::Orphan, Refusal::Store] {
            assert_eq!(lacking_codes(&image(12), refused(refusal)).len(), 4);
        }
    }

    #[test]
    fn timeouts_are_told_apart_by_kind_and_sends() {
        let before = |kind, sends| Before {
            station_format: None,
            nearly_full: [false; TALLY_COUNT],
            exchange: (kind, sends),
        };
        let call = Call::master_timeout { master: MASTER };
        let place = |kind, sends| kind_of(&call, &before(kind, sends), 0x0007_0000);
        let places = [(1, 1), (2, 1), (2, 2), (3, 1), (3, 2), (3, 3)];
        assert_eq!(
            places.map(|(kind, sends)| place(kind, sends)),
            [0, 1, 2, 3, 4, 5]
        );
    }
}
