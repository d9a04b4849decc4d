//! Traces: records of arrived frames, and the kinds of damage a trace can have.

use second::format::Format;
use std::io::{self, Read, Write};
use testkit::damage::is_over_8;
use testkit::keys::different_keys;
use testkit::traffic::{Arrival, Noise, Sizes, Traffic};
use testkit::Random;

/// The kinds of damage, besides input that is empty and not damaged at all.
pub const DAMAGES: [&str; 10] = [
    "length 0",
    "length 1",
    "length 16 to 255",
    "length with its high byte set",
    "version not 1",
    "bus not 0 or 1",
    "ends inside the length",
    "ends after the length",
    "ends between version and bus",
    "ends inside the image",
];

/// The note of a trace that begins with empty images, so many that their lines are far longer than a read is: a
/// program meets a full output before it has listed what it read.
pub const DENSE: &str = "dense trace";

const DENSE_RECORDS: usize = 40_000;

/// A generated trace and what the generator knows of it.
pub struct Trace {
    pub bytes: Vec<u8>,
    /// The records before the damage, if there is any.
    pub records: usize,
    pub damage: Option<&'static str>,
    pub notes: Vec<&'static str>,
    /// How many images there are of each length.
    pub lengths: [u64; 14],
    /// Of each record, whether its image has a count code of 9 to 15.
    pub over_8: Vec<bool>,
}

/// Appends a record.
pub fn write_record(out: &mut impl Write, bus: u8, image: &[u8]) -> io::Result<()> {
    out.write_all(&[0, image.len() as u8 + 2, 1, bus])?;
    out.write_all(image)
}

/// The next record's bus and image, or nothing where the trace ends. Damage is an error.
pub fn read_record(input: &mut impl Read) -> io::Result<Option<(u8, Vec<u8>)>> {
    let mut length = [0; 2];
    if input.read(&mut length[..1])? == 0 {
        return Ok(None);
    }
    input.read_exact(&mut length[1..])?;
    let length = usize::from(u16::from_be_bytes(length));
    if !(2..=15).contains(&length) {
        return Err(io::Error::other("damaged record: length"));
    }
    let mut body = vec![0; length];
    input.read_exact(&mut body)?;
    if body[0] != 1 || body[1] > 1 {
        return Err(io::Error::other("damaged record: version or bus"));
    }
    Ok(Some((body[1], body.split_off(2))))
}

struct Profile {
    records: usize,
    streams: usize,
    sizes: Sizes,
    noise: Noise,
}

impl Profile {
    fn draw(random: &mut Random) -> Profile {
        match random.below(100) {
            0..=3 => Profile::busy(0, random),
            4..=84 => Profile::busy(random.within(1, 200), random),
            85..=96 => Profile::quiet(random.within(200, 900), random),
            _ => Profile::busy(random.within(2000, 6000), random),
        }
    }

    /// Few streams, with room for the longest packets and little that breaks them.
    fn quiet(records: usize, random: &mut Random) -> Profile {
        let sizes = [
            Sizes::Mixed,
            Sizes::Large,
            Sizes::NearLimit,
            Sizes::NearLimit,
            Sizes::TooLong,
        ];
        Profile {
            records,
            streams: random.within(1, 3),
            sizes: random.pick(&sizes),
            noise: Noise::even(random.pick(&[0, 0, 1])),
        }
    }

    /// Up to more streams than there are slots. Long packets get less noise, since one lost piece makes orphans
    /// of all after it.
    fn busy(records: usize, random: &mut Random) -> Profile {
        let streams = match random.below(10) {
            0..=3 => random.within(1, 3),
            4..=6 => random.within(4, 16),
            _ => random.within(17, 24),
        };
        let (sizes, times) = match random.below(5) {
            0 => (Sizes::Single, random.pick(&[0, 10, 40, 100])),
            1 | 2 => (Sizes::Short, random.pick(&[0, 10, 40, 100])),
            3 => (Sizes::Mixed, random.pick(&[0, 3, 10, 20])),
            _ => (Sizes::Large, random.pick(&[0, 1, 3, 10])),
        };
        Profile {
            records,
            streams,
            sizes,
            noise: Noise::even(times),
        }
    }
}

impl Trace {
    /// The trace of that number under the seed.
    pub fn generate(seed: u64, number: u64) -> Trace {
        let mut random = Random::of_item(seed, number);
        let dense = random.below(400) == 0;
        let profile = Profile::draw(&mut random);
        let keys = different_keys(Format::Extended, profile.streams, &mut random);
        let own = Random::new(random.next_u64());
        let mut traffic = Traffic::new(&keys, profile.sizes, profile.noise, 13, own);
        let mut trace = Trace {
            bytes: Vec::new(),
            records: 0,
            damage: None,
            notes: Vec::new(),
            lengths: [0; 14],
            over_8: Vec::new(),
        };
        if dense {
            trace.push_dense(&mut random);
        }
        for _ in 0..profile.records {
            trace.push(&traffic.next_frame());
        }
        if random.chance(300) {
            let kind = random.below(DAMAGES.len());
            trace.bytes.extend(damaged(kind, &mut random));
            trace.damage = Some(DAMAGES[kind]);
        }
        trace
    }

    /// Whether the input ends inside a record.
    pub fn is_cut(&self) -> bool {
        self.damage
            .is_some_and(|damage| damage.starts_with("ends "))
    }

    fn push_dense(&mut self, random: &mut Random) {
        for _ in 0..DENSE_RECORDS {
            self.push(&Arrival {
                bus: random.below(2) as u8,
                image: Vec::new(),
                note: None,
            });
        }
        self.notes.push(DENSE);
    }

    fn push(&mut self, arrival: &Arrival) {
        write_record(&mut self.bytes, arrival.bus, &arrival.image).expect("a Vec takes all");
        self.records += 1;
        self.notes.extend(arrival.note);
        self.lengths[arrival.image.len()] += 1;
        self.over_8
            .push(is_over_8(&arrival.image, Format::Extended));
    }
}

/// A damaged record. Where the input doesn't end in it, it is otherwise as good as can be and sound records
/// follow, so that a program that reads on is found.
fn damaged(kind: usize, random: &mut Random) -> Vec<u8> {
    let [length, version, bus] = [9, 1, random.below(2) as u8];
    let image = [0x82, random.byte(), random.byte(), 0xC0, 0x10, 1, 2];
    let long = random.within(16, 255) as u8;
    let not_1 = random.pick(&[0, 2, 3, 129, 255]);
    let not_bus = random.pick(&[2, 3, 65, 66, 128, 255]);
    let head: Vec<u8> = match kind {
        0 => vec![0, 0],
        1 => vec![0, 1, version],
        2 => vec![0, long, version, bus],
        3 => vec![random.within(1, 255) as u8, length, version, bus],
        4 => vec![0, length, not_1, bus],
        5 => vec![0, length, version, not_bus],
        6 => return vec![random.pick(&[0, 0, 1, 255])],
        7 => return vec![0, random.within(2, 15) as u8],
        8 => return vec![0, random.within(2, 15) as u8, version],
        _ => {
            let mut part = vec![0, length, version, bus];
            part.extend_from_slice(&image[..random.below(image.len())]);
            return part;
        }
    };
    let mut bytes = head;
    bytes.extend_from_slice(&image);
    if kind == 2 {
        bytes.resize(2 + usize::from(long), 0);
    }
    for _ in 0..random.below(4) {
        write_record(&mut bytes, 0, &image).expect("a Vec takes all");
    }
    bytes
}

#[cfg(test)]
mod tests {
    use super::*;

    fn records(mut bytes: &[u8]) -> (usize, bool) {
        let mut count = 0;
        loop {
            match read_record(&mut bytes) {
                Ok(Some(_)) => count += 1,
                Ok(None) => return (count, false),
                Err(_) => return (count, true),
            }
        }
    }

    #[test]
    fn traces_hold_what_they_say() {
        for number in 0..300 {
            let trace = Trace::generate(6, number);
            let found = records(&trace.bytes);
            assert_eq!(found, (trace.records, trace.damage.is_some()));
            let images: u64 = trace.lengths.iter().sum();
            assert_eq!(images as usize, trace.records);
            assert_eq!(trace.over_8.len(), trace.records);
        }
    }

    #[test]
    fn every_kind_of_damage_stops_at_the_first_record() {
        let mut random = Random::new(7);
        for (kind, name) in DAMAGES.iter().enumerate() {
            for _ in 0..100 {
                let bytes = damaged(kind, &mut random);
                assert_eq!(records(&bytes), (0, true), "{name}");
            }
        }
    }

    #[test]
    fn some_traces_are_dense() {
        let mut dense = (0..4000)
            .map(|number| Trace::generate(1, number))
            .filter(|trace| trace.notes.contains(&DENSE));
        let trace = dense.next().expect("a dense trace in 4000");
        assert!(trace.lengths[0] as usize >= DENSE_RECORDS);
        let head = trace.bytes[..4 * DENSE_RECORDS].chunks(4);
        let mut seen = [0; 2];
        for record in head {
            assert_eq!(record[..3], [0, 2, 1]);
            seen[usize::from(record[3])] += 1;
        }
        assert!(seen[0] > 0 && seen[1] > 0);
        assert!(dense.count() < 40);
    }

    #[test]
    fn the_seed_and_number_fix_the_trace() {
        let bytes = Trace::generate(1, 2).bytes;
        assert_eq!(bytes, Trace::generate(1, 2).bytes);
        assert_ne!(bytes, Trace::generate(2, 2).bytes);
    }
}
