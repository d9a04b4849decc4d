//! Frames of several streams as they arrive: packets in pieces, interleaved, with disturbances.

use second::format::Format;
use second::frame::Flag;
use second::key::Key;
use second::split::{image, piece, pieces_for};
use second::station::{Slot, Station};
use second::stream::State;

use crate::damage::{corrupt, raise_code, set_code};
use crate::random::Random;

/// How long the packets of a run are.
#[derive(Clone, Copy, Debug)]
pub enum Sizes {
    Single,
    Short,
    /// As on a bench at work: mostly single frames, few long packets.
    Bench,
    Mixed,
    Large,
    NearLimit,
    TooLong,
}

impl Sizes {
    fn draw(self, format: Format, random: &mut Random) -> usize {
        let limit = format.packet_limit();
        match self {
            Sizes::Single => random.within(0, 8),
            Sizes::Short => random.within(0, 64),
            Sizes::Bench => match random.below(100) {
                0..=69 => random.within(0, 8),
                70..=93 => random.within(9, 64),
                94..=98 => random.within(65, 300),
                _ => random.within(301, limit),
            },
            Sizes::Mixed => match random.below(100) {
                0..=49 => random.within(0, 8),
                50..=79 => random.within(9, 64),
                80..=94 => random.within(65, 600),
                _ => random.within(601, limit),
            },
            Sizes::Large => random.within(500, limit),
            Sizes::NearLimit => limit - random.pick(&[0, 0, 1, 6, 7, 8, 9, 16]),
            Sizes::TooLong => random.within(limit + 1, limit + 150),
        }
    }
}

/// How many frames in a thousand are disturbed in each way.
#[derive(Clone, Copy, Default)]
pub struct Noise {
    pub lost: usize,
    pub repeated: usize,
    pub restarted: usize,
    pub stray: usize,
    pub any_piece: usize,
    pub priority: usize,
    pub corrupt: usize,
    /// Of the frames of count 8, whatever else happens to them: those with one of the codes 9 to 15 for it, which breaks
    /// nothing.
    pub codes: usize,
}

impl Noise {
    /// Each disturbance that often.
    pub fn even(times: usize) -> Self {
        Noise {
            lost: times,
            repeated: times,
            restarted: times,
            stray: times,
            any_piece: times,
            priority: times,
            corrupt: times,
            codes: times,
        }
    }

    fn draw(&self, random: &mut Random) -> Disturbance {
        let ways = [
            (self.lost, Disturbance::Lost),
            (self.repeated, Disturbance::Repeated),
            (self.restarted, Disturbance::Restarted),
            (self.stray, Disturbance::Stray),
            (self.any_piece, Disturbance::AnyPiece),
            (self.priority, Disturbance::Priority),
            (self.corrupt, Disturbance::Corrupt),
        ];
        let mut place = random.below(1000);
        for (times, way) in ways {
            if place < times {
                return way;
            }
            place -= times;
        }
        Disturbance::None
    }
}

#[derive(Clone, Copy)]
enum Disturbance {
    None,
    Lost,
    Repeated,
    Restarted,
    Stray,
    AnyPiece,
    Priority,
    Corrupt,
}

/// What is noted of an arrival besides the corruptions.
pub const DISTURBANCES: [&str; 8] = [
    "frame lost before this one",
    "frame repeated",
    "start repeated",
    "packet abandoned",
    "stray piece",
    "any flag, number and count",
    "other priority",
    "count code over 8",
];

/// A frame that arrives, with a note of how it was disturbed.
#[derive(Clone)]
pub struct Arrival {
    pub bus: u8,
    pub image: Vec<u8>,
    pub note: Option<&'static str>,
}

impl Arrival {
    fn noted(mut self, note: &'static str) -> Self {
        self.note = Some(note);
        self
    }
}

struct Stream {
    key: Key,
    packet: Vec<u8>,
    /// The piece to be sent next, at least 1 while the packet is under way.
    next: usize,
}

/// The frames of some streams, without end.
pub struct Traffic {
    format: Format,
    streams: Vec<Stream>,
    sizes: Sizes,
    noise: Noise,
    /// No image is longer, corrupted ones included.
    longest: usize,
    again: Option<Arrival>,
    random: Random,
}

impl Traffic {
    /// The traffic of these keys, at least one, all of one format.
    pub fn new(keys: &[Key], sizes: Sizes, noise: Noise, longest: usize, random: Random) -> Self {
        let streams = keys.iter().map(|&key| Stream {
            key,
            packet: Vec::new(),
            next: 0,
        });
        Traffic {
            format: keys[0].fields.format(),
            streams: streams.collect(),
            sizes,
            noise,
            longest,
            again: None,
            random,
        }
    }

    /// The next frame.
    pub fn next_frame(&mut self) -> Arrival {
        let mut arrival = self.next_arrival();
        let image = &mut arrival.image;
        if self.random.chance(self.noise.codes) && raise_code(image, self.format, &mut self.random)
        {
            arrival.note.get_or_insert(DISTURBANCES[7]);
        }
        arrival
    }

    /// The next frame, with the code 8 for a count of 8.
    fn next_arrival(&mut self) -> Arrival {
        // A repeated frame comes at once or after some others.
        if self.again.is_some() && self.random.chance(500) {
            return self.again.take().expect("it is there");
        }
        let place = self.random.below(self.streams.len());
        match self.noise.draw(&mut self.random) {
            Disturbance::None => self.frame(place),
            Disturbance::Lost => {
                self.frame(place);
                self.frame(place).noted(DISTURBANCES[0])
            }
            Disturbance::Repeated => self.repeated(place),
            Disturbance::Restarted => self.restarted(place),
            Disturbance::Stray => self.stray(place),
            Disturbance::AnyPiece => self.any_piece(place),
            Disturbance::Priority => self.other_priority(place),
            Disturbance::Corrupt => self.corrupted(place),
        }
    }

    /// Makes a stream that the station lost begin anew, now and then, as the rest of its packet is refused frame by
    /// frame.
    pub fn give_up_lost(&mut self, station: &Station) {
        for stream in &mut self.streams {
            let lost = stream.next > 0 && collecting(station, &stream.key).is_none();
            if lost && self.random.chance(300) {
                stream.next = 0;
            }
        }
    }

    /// Makes every stream that the station collects go on from where it is.
    pub fn follow(&mut self, station: &Station) {
        let keys: Vec<Key> = self.streams.iter().map(|stream| stream.key).collect();
        for key in keys {
            if let Some(held) = collecting(station, &key) {
                self.go_on_from(&key, held / self.format.piece_size());
            }
        }
    }

    /// Makes the stream of that key, if there is one, go on from piece k of some packet.
    pub fn go_on_from(&mut self, key: &Key, k: usize) {
        let Some(stream) = self.streams.iter_mut().find(|stream| stream.key == *key) else {
            return;
        };
        let (held, limit) = (k * self.format.piece_size(), self.format.packet_limit());
        let mut size = self.random.within(held + 1, held + 40);
        if (held + 1..held + 40).contains(&limit) && self.random.chance(500) {
            size = limit;
        }
        // A packet of up to 8 bytes has no second piece.
        stream.packet = self.random.bytes(size.max(9));
        stream.next = k;
    }

    /// The next piece of a stream, of a new packet when the last one is through.
    fn frame(&mut self, place: usize) -> Arrival {
        let stream = &mut self.streams[place];
        if stream.next == 0 {
            let size = self.sizes.draw(self.format, &mut self.random);
            stream.packet = self.random.bytes(size);
        }
        let image = piece(&stream.key.fields, &stream.packet, stream.next);
        let count = pieces_for(self.format, stream.packet.len());
        stream.next = (stream.next + 1) % count;
        Arrival {
            bus: stream.key.bus,
            image,
            note: None,
        }
    }

    fn repeated(&mut self, place: usize) -> Arrival {
        let arrival = self.frame(place);
        let is_start = self.streams[place].next == 1;
        let note = DISTURBANCES[if is_start { 2 } else { 1 }];
        self.again = Some(arrival.clone().noted(note));
        arrival
    }

    /// Gives up a packet under way: its start comes again, or another packet begins.
    fn restarted(&mut self, place: usize) -> Arrival {
        let stream = &mut self.streams[place];
        if stream.next == 0 {
            return self.frame(place);
        }
        if self.random.chance(500) {
            stream.next = 1;
            let image = piece(&stream.key.fields, &stream.packet, 0);
            let bus = stream.key.bus;
            let note = Some(DISTURBANCES[2]);
            return Arrival { bus, image, note };
        }
        stream.next = 0;
        self.frame(place).noted(DISTURBANCES[3])
    }

    /// A middle or an end that belongs to no packet. The stream's own packet goes on after it.
    fn stray(&mut self, place: usize) -> Arrival {
        let key = self.streams[place].key;
        let full = self.format.piece_size();
        let (flag, size) = if self.random.chance(300) {
            (Flag::Middle, full)
        } else {
            (Flag::End, self.random.within(2, full))
        };
        let number = self.random.within(1, 63) as u8;
        let data = self.random.bytes(size);
        Arrival {
            bus: key.bus,
            image: image(&key.fields, flag, number, &data),
            note: Some(DISTURBANCES[4]),
        }
    }

    /// A piece with any flag, number and count, so that each rule on these is kept and broken.
    fn any_piece(&mut self, place: usize) -> Arrival {
        let key = self.streams[place].key;
        let random = &mut self.random;
        let flag = random.pick(&[Flag::Start, Flag::Middle, Flag::End, Flag::Single]);
        let any = random.byte();
        let number = random.pick(&[0, 1, 1, 2, 63, 64, 254, 255, any]);
        let number = self.format.piece_number(number.into()) as u8;
        // The standard number takes a byte of eight, but not in a single.
        let most = match flag {
            Flag::Single => 8,
            _ => self.format.piece_size(),
        };
        let size = random.within(0, most);
        let part = random.bytes(size);
        let mut image = image(&key.fields, flag, number, &part);
        if random.chance(250) {
            set_code(&mut image, self.format, random.within(9, 15));
        }
        Arrival {
            bus: key.bus,
            image,
            note: Some(DISTURBANCES[5]),
        }
    }

    /// The stream's next frame with its priority, the highest two bits of the identifier, changed.
    fn other_priority(&mut self, place: usize) -> Arrival {
        let mut arrival = self.frame(place);
        let byte = match self.format {
            Format::Extended => 1,
            Format::Standard => 0,
        };
        arrival.image[byte] ^= (self.random.within(1, 3) as u8) << 6;
        arrival.noted(DISTURBANCES[6])
    }

    fn corrupted(&mut self, place: usize) -> Arrival {
        let mut arrival = self.frame(place);
        let image = &mut arrival.image;
        let way = corrupt(image, self.format, self.longest, &mut self.random);
        arrival.noted(way)
    }
}

/// How many bytes a station holds of a packet of that key that it is collecting.
fn collecting(station: &Station, key: &Key) -> Option<usize> {
    station.slots.iter().find_map(|slot| match slot {
        Slot::Open {
            key: own,
            state: State::Collecting(held),
        } if own == key => Some(*held),
        _ => None,
    })
}

#[cfg(test)]
mod tests {
    use super::*;
    use crate::damage::is_over_8;
    use crate::keys::{different_keys, FORMATS};
    use second::frame::judge;
    use second::refusal::Refusal;
    use second::station::STORE_SIZE;
    use second::stream::Answer;

    fn traffic(format: Format, streams: usize, sizes: Sizes, noise: Noise) -> Traffic {
        let mut random = Random::new(11);
        let keys = different_keys(format, streams, &mut random);
        Traffic::new(&keys, sizes, noise, 13, random)
    }

    fn next_flag(traffic: &mut Traffic) -> Flag {
        let image = traffic.next_frame().image;
        judge(traffic.format, &image).expect("a sound frame").flag
    }

    #[test]
    fn undisturbed_traffic_is_whole_packets() {
        for format in FORMATS {
            let mut traffic = traffic(format, 1, Sizes::NearLimit, Noise::default());
            let starts = (0..2560)
                .filter(|_| next_flag(&mut traffic) == Flag::Start)
                .count();
            assert!((10..=11).contains(&starts), "{starts}");
        }
    }

    #[test]
    fn noisy_traffic_has_every_disturbance() {
        for format in FORMATS {
            let mut traffic = traffic(format, 5, Sizes::Short, Noise::even(50));
            let mut notes = Vec::new();
            let mut refused = 0;
            for _ in 0..5000 {
                let arrival = traffic.next_frame();
                notes.extend(arrival.note);
                refused += usize::from(judge(format, &arrival.image).is_err());
            }
            for name in DISTURBANCES {
                assert!(notes.contains(&name), "{name}");
            }
            assert!((50..1000).contains(&refused), "{refused}");
        }
    }

    /// What a station that has all keys open answers, and the flags of the frames with a code over 8.
    fn received(traffic: &mut Traffic, frames: usize) -> (Vec<Answer>, Vec<Flag>) {
        let mut station = Station::new(traffic.format);
        for stream in &traffic.streams {
            station = station.open(stream.key).0;
        }
        let mut store = vec![0; STORE_SIZE];
        let (mut answers, mut raised) = (Vec::new(), Vec::new());
        for _ in 0..frames {
            let arrival = traffic.next_frame();
            if is_over_8(&arrival.image, traffic.format) {
                assert_eq!(arrival.note, Some(DISTURBANCES[7]));
                let frame = judge(traffic.format, &arrival.image);
                raised.extend(frame.map(|frame| frame.flag));
            }
            let (next, answer) = station.receive(arrival.bus, &arrival.image, &mut store);
            station = next;
            answers.push(answer);
        }
        (answers, raised)
    }

    #[test]
    fn packets_with_codes_over_8_are_whole() {
        for format in FORMATS {
            let codes = Noise {
                codes: 400,
                ..Noise::default()
            };
            let mut traffic = traffic(format, 5, Sizes::Short, codes);
            let (answers, raised) = received(&mut traffic, 10_000);
            let mut long = 0;
            for answer in answers {
                match answer {
                    Answer::Packet { length, .. } => long += usize::from(length > 8),
                    Answer::Kept { broke: false } => {}
                    _ => panic!("{format:?} {answer:?}"),
                }
            }
            assert!(long > 1000, "{long}");
            for flag in [Flag::Start, Flag::Middle, Flag::End, Flag::Single] {
                let times = raised.iter().filter(|&&own| own == flag).count();
                assert!(times > 3, "{format:?} {flag:?} {times}");
            }
        }
    }

    #[test]
    fn noise_has_images_too_short_and_too_long_and_codes_over_8() {
        for format in FORMATS {
            let mut traffic = traffic(format, 5, Sizes::Short, Noise::even(50));
            let mut judged = Vec::new();
            for _ in 0..40_000 {
                let image = traffic.next_frame().image;
                judged.push((is_over_8(&image, format), judge(format, &image).err()));
            }
            for (over_8, refusal, least) in [
                (false, Some(Refusal::Count), 100),
                (false, Some(Refusal::Surplus), 200),
                (true, None, 200),
                (true, Some(Refusal::Count), 200),
                (true, Some(Refusal::Piece), 10),
            ] {
                let is = |own: &&(bool, Option<Refusal>)| **own == (over_8, refusal);
                let times = judged.iter().filter(is).count();
                assert!(times >= least, "{format:?} {over_8} {refusal:?} {times}");
            }
        }
    }

    #[test]
    fn goes_on_from_a_piece() {
        let mut traffic = traffic(Format::Extended, 1, Sizes::Short, Noise::default());
        let key = traffic.streams[0].key;
        traffic.go_on_from(&key, 64);
        let image = traffic.next_frame().image;
        let frame = judge(Format::Extended, &image).unwrap();
        assert_eq!(frame.number, 0);
        assert_ne!(frame.flag, Flag::Start);
    }

    #[test]
    fn lost_streams_begin_anew() {
        let mut traffic = traffic(Format::Standard, 1, Sizes::NearLimit, Noise::default());
        traffic.next_frame();
        traffic.next_frame();
        for _ in 0..100 {
            traffic.give_up_lost(&Station::new(Format::Standard));
        }
        assert_eq!(next_flag(&mut traffic), Flag::Start);
    }

    #[test]
    fn streams_follow_a_station() {
        let mut traffic = traffic(Format::Extended, 1, Sizes::Short, Noise::default());
        let mut station = Station::new(Format::Extended);
        station.slots[7] = Slot::Open {
            key: traffic.streams[0].key,
            state: State::Collecting(65 * 8),
        };
        traffic.follow(&station);
        let image = traffic.next_frame().image;
        let frame = judge(Format::Extended, &image).unwrap();
        assert_eq!(frame.number, 1);
        assert!(matches!(frame.flag, Flag::Middle | Flag::End));
    }
}
