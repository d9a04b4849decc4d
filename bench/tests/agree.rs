//! On random traffic, whole and damaged, the library and the plain receivers give the same answers, and end with
//! the same stations and stores. Each comparison is seen to tell a fault that is planted in what it compares.

use bench::arrivals::{fields_at, kinds, one_source, Answered, FORMATS};
use bench::bytes::STATION_SIZE;
use bench::bytes::{self, fields_bytes, number_word, put_station, reply_word, station_of};
use bench::plain::{Format, Key, Refusal, Station, SLOTS, STORE_SIZE};
use bench::receivers::{Library, Plain, PlainBytes};
use bench::{library, split};
use second::interface::{refused, FILTERED, KEPT, PACKET};
use std::panic;
use testkit::damage::{corrupt, LONGEST};
use testkit::Random;

/// The faults that can be planted, by the comparisons that have to tell them.
const IN_TRAFFIC: [&str; 15] = [
    "open",
    "close",
    "receive",
    "receive by bytes",
    "read",
    "packet",
    "start",
    "state",
    "state by bytes",
    "station",
    "store",
    "store by bytes",
    "piece count",
    "piece",
    "image",
];
const IN_STATES: [&str; 2] = ["judged", "judged state"];
const IN_ROWS: [&str; 5] = [
    "row",
    "row by plain",
    "row by bytes",
    "one source",
    "one source by plain",
];

/// The same station three times, each with its store.
struct Bench {
    library: [u8; STATION_SIZE],
    plain: Station,
    plain_bytes: [u8; STATION_SIZE],
    stores: [Vec<u8>; 3],
    /// The fault that is planted, if any.
    fault: &'static str,
}

impl Bench {
    fn new(format: Format, fault: &'static str) -> Bench {
        let mut library = [0xAA; STATION_SIZE];
        assert_eq!(library::station_new(&mut library, format as u8), 0);
        Bench {
            library,
            plain: Station::new(format),
            plain_bytes: library,
            stores: std::array::from_fn(|_| vec![0; STORE_SIZE]),
            fault,
        }
    }

    /// The library's answer, wrong if this fault is planted.
    fn answer(&self, fault: &str, answer: u32) -> u32 {
        answer ^ u32::from(self.fault == fault)
    }

    /// The library's bytes, the last of them wrong if this fault is planted.
    fn bytes(&self, fault: &str, bytes: &[u8]) -> Vec<u8> {
        let mut bytes = bytes.to_vec();
        if let Some(last) = bytes.last_mut() {
            *last ^= u8::from(self.fault == fault);
        }
        bytes
    }

    fn open(&mut self, key: Key) {
        let answer = library::open(&mut self.library, key.bus, &fields_bytes(key.fields));
        let answer = self.answer("open", answer);
        assert_eq!(number_word(self.plain.open(key)), answer);
        self.plain_bytes = self.library;
    }

    fn close(&mut self, slot: usize) {
        let answer = library::close(&mut self.library, slot);
        let answer = self.answer("close", answer);
        assert_eq!(number_word(self.plain.close(slot)), answer);
        self.plain_bytes = self.library;
    }

    fn receive(&mut self, bus: u8, image: &[u8]) -> u32 {
        let [first, second, third] = &mut self.stores;
        let answer = library::receive(&mut self.library, first, bus, image);
        let plain = reply_word(self.plain.receive(second, bus, image));
        let by_bytes = reply_word(bytes::receive(&mut self.plain_bytes, third, bus, image));
        assert_eq!(plain, self.answer("receive", answer), "{image:02X?}");
        let seen = self.answer("receive by bytes", answer);
        assert_eq!(by_bytes, seen, "{image:02X?}");
        answer
    }

    fn read(&self, slot: usize) {
        let mut start = usize::MAX;
        let answer = library::read(&self.library, &self.stores[0], slot, &mut start);
        let packet = self.plain.read(&self.stores[1], slot);
        assert_eq!(
            number_word(packet.map(<[u8]>::len)),
            self.answer("read", answer)
        );
        match packet {
            Ok(packet) => {
                let read = &self.stores[0][start..start + answer as usize];
                assert_eq!(self.bytes("packet", read), packet);
            }
            Err(_) => assert_eq!(start ^ usize::from(self.fault == "start"), usize::MAX),
        }
    }

    fn check_states(&self) {
        let mut own = [0; STATION_SIZE];
        put_station(&self.plain, &mut own);
        assert_eq!(self.bytes("state", &self.library), own);
        let seen = self.bytes("state by bytes", &self.library);
        assert_eq!(seen, self.plain_bytes);
        let seen = self.bytes("station", &self.library);
        assert_eq!(station_of(&seen).as_ref(), Ok(&self.plain));
    }

    fn check_stores(&self) {
        let [first, second, third] = &self.stores;
        assert!(self.bytes("store", first) == *second);
        assert!(self.bytes("store by bytes", first) == *third);
    }

    /// The answer to an image, and the state after it, by the library and by bytes.
    fn judge(&mut self, image: &[u8]) -> u32 {
        let [first, second, _] = &mut self.stores;
        let answer = library::receive(&mut self.library, first, 0, image);
        let by_bytes = reply_word(bytes::receive(&mut self.plain_bytes, second, 0, image));
        assert_eq!(by_bytes, self.answer("judged", answer));
        let seen = self.bytes("judged state", &self.library);
        assert_eq!(seen, self.plain_bytes);
        answer
    }

    /// The images of a packet, written by the library and by plain Rust.
    fn pieces(&self, random: &mut Random, format: Format, slot: usize) -> Vec<Vec<u8>> {
        let size = a_size(random, format);
        let packet = random.bytes(size);
        let fields = fields_at(format, slot);
        let handed = fields_bytes(fields);
        let answer = self.answer("piece count", library::piece_count(format as u8, size));
        assert_eq!(number_word(split::piece_count(format, size)), answer);
        let count = split::piece_count(format, size).unwrap_or(0);
        let mut images = Vec::new();
        for k in 0..=count {
            let mut outputs = [[0xEE; 14]; 2];
            let room = 14 - random.below(4);
            let answer =
                library::write_piece(format as u8, &handed, &packet, k, &mut outputs[0][..room]);
            let own = split::write_piece(fields, &packet, k, &mut outputs[1][..room]);
            assert_eq!(number_word(own), self.answer("piece", answer));
            assert_eq!(self.bytes("image", &outputs[0]), outputs[1]);
            if let Ok(length) = own {
                images.push(outputs[0][..length].to_vec());
            }
        }
        images
    }
}

fn a_size(random: &mut Random, format: Format) -> usize {
    match random.below(4) {
        0 => random.below(9),
        1 => random.below(40),
        2 => random.below(format.packet_limit() + 3),
        _ => format.packet_limit() - random.below(3),
    }
}

/// The testkit's format, which is the second program's.
fn format_of_kit(format: Format) -> second::format::Format {
    match format {
        Format::Extended => second::format::Format::Extended,
        Format::Standard => second::format::Format::Standard,
    }
}

/// A refusal as it is, any other answer without its number.
fn kind_of(answer: u32) -> u32 {
    if answer >= 0x8000_0000 {
        answer
    } else {
        answer & 0xFFFF_0000
    }
}

fn traffic(seed: u64, format: Format, fault: &'static str, answers: &mut Vec<u32>) {
    let mut random = Random::new(seed);
    let mut bench = Bench::new(format, fault);
    for _ in 0..60 {
        match random.below(8) {
            0 => bench.close(random.below(SLOTS + 1)),
            1..=4 => {
                let bus = random.below(3) as u8;
                bench.open(Key {
                    bus: bus % 2 + bus / 2 * 7,
                    fields: fields_at(format, random.below(9)),
                });
            }
            _ => {}
        }
        let slot = random.below(10);
        let mut bus = random.below(2) as u8;
        for mut image in bench.pieces(&mut random, format, slot) {
            if random.chance(20) {
                corrupt(&mut image, format_of_kit(format), LONGEST, &mut random);
            }
            if random.chance(10) {
                bus = random.below(3) as u8;
            }
            let answer = bench.receive(bus, &image);
            if !answers.contains(&kind_of(answer)) {
                answers.push(kind_of(answer));
            }
            bench.check_states();
        }
        bench.read(random.below(SLOTS + 2));
        bench.check_stores();
    }
}

#[test]
fn traffic_is_received_alike() {
    let mut answers = Vec::new();
    for seed in 1..=40 {
        for format in FORMATS {
            traffic(seed, format, "", &mut answers);
        }
    }
    let taken = [PACKET, KEPT].map(|kind| [kind << 16, kind << 16 | 1 << 24]);
    let refusals = [
        Refusal::Length,
        Refusal::Form,
        Refusal::Remote,
        Refusal::Count,
        Refusal::Surplus,
        Refusal::Piece,
        Refusal::Orphan,
        Refusal::Step,
        Refusal::Field,
    ];
    let expected = taken.into_iter().flatten().chain([FILTERED << 16]);
    for answer in expected.chain(refusals.map(refused)) {
        assert!(answers.contains(&answer), "{answer:08X}");
    }
}

/// The place of the byte whose low half is the count, and the bytes before the data.
fn layout(format: Format) -> (usize, usize) {
    match format {
        Format::Extended => (0, 5),
        Format::Standard => (1, 2),
    }
}

/// Every count before 0 to 9 data bytes, of each piece of a packet of three and of a single; answers with which count
/// and how many data bytes a single was taken.
fn counts(format: Format, fault: &'static str) -> Vec<(u8, usize)> {
    let (at, header) = layout(format);
    let fields = fields_at(format, 0);
    let mut bench = Bench::new(format, fault);
    bench.open(Key { bus: 0, fields });
    let mut singles = Vec::new();
    for (size, k) in [(8, 0), (24, 0), (24, 1), (20, 2)] {
        let mut image = vec![0; 13];
        let length = split::write_piece(fields, &[7; 24][..size], k, &mut image).expect("a piece");
        image.truncate(length);
        image.resize(header + 9, 8);
        for count in 0..16 {
            image[at] = image[at] & 0xF0 | count;
            for data in 0..=9 {
                let answer = bench.receive(0, &image[..header + data]);
                bench.check_states();
                if size == 8 && kind_of(answer) == PACKET << 16 {
                    singles.push((count, data));
                }
            }
        }
    }
    bench.check_stores();
    singles
}

#[test]
fn counts_are_read_alike() {
    let said = |count: u8| (count, usize::from(count.min(8)));
    let expected: Vec<_> = (0..16).map(said).collect();
    for format in FORMATS {
        assert_eq!(counts(format, ""), expected);
    }
}

/// Bytes that are no sound station, and some that are; answers how many were.
fn states(turns: usize, fault: &'static str) -> usize {
    let mut random = Random::new(7);
    let mut sound = 0;
    for turn in 0..turns {
        let format = FORMATS[turn % 2];
        let mut bench = Bench::new(format, fault);
        for slot in 0..random.below(SLOTS + 1) {
            bench.open(Key {
                bus: random.below(2) as u8,
                fields: fields_at(format, slot),
            });
        }
        for _ in 0..random.below(3) {
            let i = random.below(STATION_SIZE);
            bench.library[i] = if random.chance(500) {
                random.below(4) as u8
            } else {
                random.byte()
            };
        }
        bench.plain_bytes = bench.library;
        let answer = bench.judge(&[0x81, 0x45, 0, 0xC0, 0x10, 7]);
        sound += usize::from(answer != refused(Refusal::State));
    }
    sound
}

#[test]
fn states_are_judged_alike() {
    let sound = states(40_000, "");
    assert!((8_000..32_000).contains(&sound), "{sound}");
}

/// Whether a comparison fails.
fn is_told<T>(compare: impl FnOnce() -> T + panic::UnwindSafe) -> bool {
    panic::catch_unwind(compare).is_err()
}

#[test]
fn planted_faults_are_told() {
    for fault in IN_TRAFFIC {
        // The traffic of one seed need not have a packet that is read.
        let compare = || {
            (1..=8).for_each(|seed| traffic(seed, Format::Extended, fault, &mut Vec::new()));
        };
        assert!(is_told(compare), "{fault}");
    }
    for fault in IN_STATES {
        assert!(is_told(|| states(100, fault)), "{fault}");
    }
    for fault in IN_ROWS {
        assert!(is_told(|| rows(fault)), "{fault}");
    }
}

/// The answer that a row's name says, but for the length of a packet.
fn named(answered: Answered) -> u32 {
    match answered {
        Answered::Packet => PACKET << 16,
        Answered::Kept => KEPT << 16,
        Answered::Filtered => FILTERED << 16,
        Answered::Refused(refusal) => refused(refusal),
    }
}

/// Each row of the tables measures what it says.
fn rows(fault: &str) {
    let seen = |name: &str, answer: Option<u32>| {
        answer.expect("an image") ^ u32::from(fault == name) << 16
    };
    for format in FORMATS {
        for row in kinds(format) {
            let name = row.name();
            let answer = row.arrival.answer::<Library>();
            let named = named(row.answered);
            assert_eq!(kind_of(seen("row", answer)), named, "{name}");
            let plain = seen("row by plain", row.arrival.answer::<Plain>());
            assert_eq!(Some(plain), answer, "{name}");
            let by_bytes = seen("row by bytes", row.arrival.answer::<PlainBytes>());
            assert_eq!(Some(by_bytes), answer, "{name}");
        }
    }
    let packet = PACKET << 16 | 8;
    let answer = one_source().answer::<Library>();
    assert_eq!(seen("one source", answer), packet);
    let answer = one_source().answer::<Plain>();
    assert_eq!(seen("one source by plain", answer), packet);
}

#[test]
fn rows_are_answered_as_named() {
    rows("");
}
