//! Generates scripts of calls on a station: mostly frames received, among all the other calls.

use crate::request::{self, Request, CLOSED, COLLECTING, DONE, FULL_STORE, HELD, IDLE};
use second::format::Format;
use second::key::Key;
use testkit::keys::{any_fields, any_key, bad_key, different_keys, other, NO_BUSES};
use testkit::traffic::{Noise, Sizes, Traffic};
use testkit::Random;

/// The ways in which a slot is made unsound, with an image received while it is.
pub const UNSOUND: [&str; 5] = [
    "RECEIVE, unsound: h of a collecting slot",
    "RECEIVE, unsound: h of a done slot",
    "RECEIVE, unsound: the same key twice",
    "RECEIVE, unsound: field or bus out of range",
    "RECEIVE, unsound: key of the other format",
];
pub const MALFORMED: &str = "malformed request";
pub const CUT_SHORT: &str = "script that ends inside a request";
pub const LENT_OTHER: &str = "RECEIVE, store of another size lent";
pub const WHOLE_STORE: &str = "all bytes asked for";

/// A script and what the generator knows of it.
pub struct Script {
    pub requests: Vec<Request>,
    /// The beginning of a request that never comes whole.
    pub tail: Vec<u8>,
    pub notes: Vec<Note>,
}

/// Something in a script, with the format and the front that it was written for.
pub struct Note {
    pub format: Format,
    pub front: u8,
    pub what: &'static str,
}

/// Operations that neither program knows. The program knows some that the second one doesn't.
const UNKNOWN: [u8; 5] = [0, 31, 32, 128, 255];

/// Images in scripts are up to this long, two over the longest sound one.
const LONGEST_IMAGE: usize = 15;

struct Profile {
    streams: usize,
    steps: usize,
    sizes: Sizes,
    noise: Noise,
    /// Calls in a thousand that are not a frame received.
    others: usize,
}

impl Profile {
    fn draw(random: &mut Random) -> Profile {
        if random.chance(60) {
            // Room for the longest packets, with little that breaks them.
            return Profile {
                streams: random.within(1, 2),
                steps: random.within(300, 900),
                sizes: random.pick(&[Sizes::Large, Sizes::NearLimit, Sizes::TooLong]),
                noise: Noise::even(random.pick(&[0, 1])),
                others: 10,
            };
        }
        let (sizes, times) = match random.below(5) {
            0 => (Sizes::Single, random.pick(&[0, 20, 60, 130])),
            1 | 2 => (Sizes::Short, random.pick(&[0, 20, 60, 130])),
            3 => (Sizes::Mixed, random.pick(&[0, 5, 20, 60])),
            _ => (Sizes::Large, random.pick(&[0, 1, 5])),
        };
        Profile {
            streams: random.within(1, 20),
            steps: random.within(10, 250),
            sizes,
            noise: Noise::even(times),
            others: random.pick(&[50, 150, 300]),
        }
    }
}

/// Writes a script, following roughly what the station will hold.
struct Writer {
    format: Format,
    keys: Vec<Key>,
    traffic: Traffic,
    /// The key of each open slot.
    open: [Option<Key>; 16],
    /// False while no call changes what is open: a slot is unsound, or the station is not ours.
    sound: bool,
    /// The front that receives.
    front: u8,
    random: Random,
    script: Script,
}

impl Script {
    /// The script of that number under the seed.
    pub fn generate(seed: u64, number: u64) -> Script {
        let mut random = Random::of_item(seed, number);
        let profile = Profile::draw(&mut random);
        let format = random.pick(&[Format::Extended, Format::Standard]);
        let mut writer = Writer::new(format, &profile, random);
        writer.begin();
        for _ in 0..profile.steps {
            if writer.random.chance(profile.others) {
                writer.other_call();
            } else {
                writer.receive();
            }
        }
        writer.finish();
        writer.script
    }
}

impl Writer {
    fn new(format: Format, profile: &Profile, mut random: Random) -> Writer {
        let keys = different_keys(format, profile.streams, &mut random);
        let own = Random::new(random.next_u64());
        let (sizes, noise) = (profile.sizes, profile.noise);
        Writer {
            format,
            traffic: Traffic::new(&keys, sizes, noise, LONGEST_IMAGE, own),
            keys,
            open: [None; 16],
            sound: true,
            front: 0,
            random,
            script: Script {
                requests: Vec::new(),
                tail: Vec::new(),
                notes: Vec::new(),
            },
        }
    }

    fn push(&mut self, request: Request) {
        self.script.requests.push(request);
    }

    fn note(&mut self, what: &'static str) {
        self.script.notes.push(Note {
            format: self.format,
            front: self.front,
            what,
        });
    }

    /// A new station and its first streams. A script in extended may go without the call.
    fn begin(&mut self) {
        if self.format == Format::Standard || self.random.chance(700) {
            self.new_station(self.format);
        }
        if self.random.chance(500) {
            self.set_front(1);
        }
        if self.random.chance(800) {
            self.fill();
        }
        // A stream now and then stays closed, so that its frames are filtered.
        for key in self.keys.clone() {
            if self.random.chance(950) {
                self.open_key(key);
            }
        }
    }

    /// A new station receives at front 0.
    fn new_station(&mut self, format: Format) {
        self.push(request::new(format));
        self.front = 0;
    }

    fn set_front(&mut self, front: u8) {
        self.push(request::front(front));
        self.front = front;
    }

    /// Either front, also the one that is set.
    fn any_front(&mut self) {
        let front = self.random.pick(&[0, 1]);
        self.set_front(front);
    }

    /// Everything is looked at once more.
    fn finish(&mut self) {
        self.whole_store();
        for slot in 0..=16 {
            self.push(request::read(slot));
        }
        if self.random.chance(200) {
            let size = self.random.within(1, 9);
            self.script.tail = [0, 9, 4, 0, 0x83, 1, 2, 0xC0, 8, 1][..size].to_vec();
            self.note(CUT_SHORT);
        }
    }

    fn whole_store(&mut self) {
        self.push(request::store(0, HELD));
        self.note(WHOLE_STORE);
    }

    fn receive(&mut self) {
        let arrival = self.traffic.next_frame();
        let bus = if self.random.chance(5) {
            self.random.pick(&NO_BUSES)
        } else {
            arrival.bus
        };
        self.push(request::receive(bus, &arrival.image));
        if self.random.chance(30) {
            self.whole_store();
        }
    }

    fn other_call(&mut self) {
        match self.random.below(110) {
            0..=17 => self.read(),
            18..=29 => self.open_some(),
            30..=38 => self.close(),
            39..=58 => self.sound_slot(),
            59..=68 => self.unsound_slot(),
            69..=78 => self.other_store(),
            79..=84 => self.part_of_store(),
            85..=90 => self.split(),
            91..=96 => self.malformed(),
            97 => self.renew(),
            98 | 99 => self.fill(),
            _ => self.any_front(),
        }
    }

    /// One of the calls that a station can refuse.
    fn any_call(&mut self) {
        match self.random.below(5) {
            0 => self.read(),
            1 => self.open_some(),
            2 => self.close(),
            _ => self.receive(),
        }
    }

    /// A slot number, now and then over 15.
    fn slot_number(&mut self) -> u8 {
        if self.random.chance(60) {
            self.random.pick(&[16, 17, 128, 255])
        } else {
            self.random.below(16) as u8
        }
    }

    fn read(&mut self) {
        let slot = self.slot_number();
        self.push(request::read(slot));
    }

    fn close(&mut self) {
        let slot = self.slot_number();
        self.push(request::close(slot));
        if self.sound && slot < 16 {
            self.open[usize::from(slot)] = None;
        }
    }

    fn open_some(&mut self) {
        let key = match self.random.below(8) {
            0..=3 => self.random.pick(&self.keys),
            4 | 5 => any_key(self.format, &mut self.random),
            6 => bad_key(self.format, &mut self.random),
            _ => any_key(other(self.format), &mut self.random),
        };
        self.open_key(key);
    }

    fn open_key(&mut self, key: Key) {
        let spare = self.random.byte();
        self.push(request::open(&key, spare));
        let fits = self.sound && key.in_range(self.format);
        if fits && !self.open.contains(&Some(key)) {
            if let Some(slot) = self.open.iter_mut().find(|slot| slot.is_none()) {
                *slot = Some(key);
            }
        }
    }

    /// Puts a slot into a sound state. If it is collecting, its stream goes on from there.
    fn sound_slot(&mut self) {
        let place = self.random.below(16);
        let mut key = self.random.pick(&self.keys);
        while self.open.contains(&Some(key)) && self.open[place] != Some(key) {
            key = any_key(self.format, &mut self.random);
        }
        let kinds = [CLOSED, IDLE, COLLECTING, COLLECTING, DONE];
        let kind = self.random.pick(&kinds);
        let h = self.sound_h(kind);
        let spare = self.random.byte();
        self.push(request::slot(place, kind, h as u16, &key, spare));
        self.open[place] = (kind != CLOSED).then_some(key);
        if kind == COLLECTING {
            self.traffic.go_on_from(&key, h / self.format.piece_size());
        }
    }

    /// An h that is sound in a slot of that kind; it is not looked at in a closed or idle one.
    fn sound_h(&mut self, kind: u8) -> usize {
        let (size, limit) = (self.format.piece_size(), self.format.packet_limit());
        let most = self.format.collecting_limit() / size;
        let any_pieces = self.random.within(1, most);
        let any_length = self.random.within(0, limit);
        match kind {
            COLLECTING => size * self.random.pick(&[1, most - 1, most, any_pieces]),
            DONE => self.random.pick(&[0, limit, any_length]),
            _ => any_length,
        }
    }

    /// Makes a slot unsound, calls some calls, receiving among them, and makes the station sound again.
    fn unsound_slot(&mut self) {
        let place = self.random.below(16);
        let way = self.random.below(UNSOUND.len());
        let Some((kind, h, key)) = self.unsound_state(way, place) else {
            return;
        };
        let spare = self.random.byte();
        self.push(request::slot(place, kind, h, &key, spare));
        self.note(UNSOUND[way]);
        self.sound = false;
        for _ in 0..self.random.within(0, 3) {
            self.any_call();
        }
        self.receive();
        self.sound = true;
        let (kind, key) = match self.open[place] {
            Some(key) => (IDLE, key),
            None => (CLOSED, key),
        };
        self.push(request::slot(place, kind, h, &key, spare));
    }

    /// Kind, h and key of a slot that is unsound in that way. There may be no other key to hold twice.
    fn unsound_state(&mut self, way: usize, place: usize) -> Option<(u8, u16, Key)> {
        let random = &mut self.random;
        let (size, limit) = (self.format.piece_size(), self.format.packet_limit());
        let key = any_key(self.format, random);
        let kind = random.pick(&[IDLE, COLLECTING, DONE]);
        let whole = random.within(1, 255) * size;
        Some(match way {
            0 => {
                let over = self.format.collecting_limit() + size;
                let between = whole - random.within(1, size - 1);
                let h = random.pick(&[0, 1, between, whole + 1, over, 65_535, 65_528]);
                (COLLECTING, h as u16, key)
            }
            1 => (
                DONE,
                random.pick(&[limit + 1, limit + 8, 65_535]) as u16,
                key,
            ),
            2 => {
                let others: Vec<Key> = (0..16)
                    .filter(|&slot| slot != place)
                    .filter_map(|slot| self.open[slot])
                    .collect();
                if others.is_empty() {
                    return None;
                }
                (kind, whole as u16, random.pick(&others))
            }
            3 => (kind, whole as u16, bad_key(self.format, random)),
            _ => (kind, whole as u16, any_key(other(self.format), random)),
        })
    }

    /// Lends a store of another size for some calls, receiving among them.
    fn other_store(&mut self) {
        let any = self.random.within(0, HELD);
        let sizes = [0, FULL_STORE - 1, FULL_STORE + 1, HELD, FULL_STORE, any];
        let size = self.random.pick(&sizes);
        self.push(request::lend(size));
        if size != FULL_STORE {
            self.note(LENT_OTHER);
        }
        for _ in 0..self.random.within(0, 2) {
            self.any_call();
        }
        self.receive();
        if self.random.chance(200) {
            self.unsound_slot();
        }
        // A new station has a full store again, too.
        if self.random.chance(100) {
            self.renew();
        } else {
            self.push(request::lend(FULL_STORE));
        }
    }

    fn part_of_store(&mut self) {
        let from = self.random.within(0, HELD);
        let size = self.random.within(0, (HELD - from).min(3000));
        self.push(request::store(from, size));
    }

    /// The splitting calls, which leave the station alone.
    fn split(&mut self) {
        let format = self.random.pick(&[Format::Extended, Format::Standard]);
        let size = self.random.within(0, 60);
        self.push(request::count(format, size as u64));
        let fields = any_fields(format, &mut self.random);
        let k = self.random.within(0, 8) as u16;
        let room = self.random.within(0, 20) as u8;
        let packet = self.random.bytes(size);
        let spare = self.random.byte();
        self.push(request::piece(&fields, spare, k, room, &packet));
    }

    /// A new station, now and then after one of the other format, on which no key of ours is open.
    fn renew(&mut self) {
        if self.random.chance(300) {
            self.new_station(other(self.format));
            self.any_front();
            self.sound = false;
            self.any_call();
            self.sound = true;
        }
        self.new_station(self.format);
        if self.random.chance(500) {
            self.set_front(1);
        }
        self.open = [None; 16];
        for key in self.keys.clone() {
            self.open_key(key);
        }
    }

    fn fill(&mut self) {
        let (seed, step) = (self.random.byte(), self.random.byte());
        self.push(request::fill(seed, step));
    }

    /// A request that the protocol rules out.
    fn malformed(&mut self) {
        let key = any_key(self.format, &mut self.random);
        let place = self.random.below(16);
        let sound = [
            request::new(self.format),
            request::open(&key, 0),
            request::close(0),
            request::read(0),
            request::count(self.format, 9),
            request::slot(place, CLOSED, 0, &key, 0),
            request::lend(FULL_STORE),
            request::store(0, 10),
            request::fill(1, 1),
            request::front(1 - self.front),
        ];
        let which = self.random.below(sound.len());
        let mut request = sound[which].clone();
        match self.random.below(4) {
            0 => request.push(0),
            1 => request.truncate(self.random.below(request.len())),
            2 => request[0] = self.random.pick(&UNKNOWN),
            _ => request = self.ruled_out(&key),
        }
        self.push(request);
        self.note(MALFORMED);
    }

    /// A request of the right length with an argument that the protocol rules out.
    fn ruled_out(&mut self, key: &Key) -> Request {
        // As a front it is ruled out, too.
        let bad_format = self.random.pick(&[2, 3, 128, 255]);
        let mut request = match self.random.below(12) {
            0 => return vec![request::NEW, bad_format],
            1 => return vec![request::COUNT, bad_format, 0, 0, 0, 0, 0, 0, 0, 9],
            2 => return request::slot(self.random.within(16, 255), IDLE, 0, key, 0),
            3 => return request::slot(0, self.random.within(4, 255) as u8, 8, key, 0),
            4 => return request::lend(self.random.within(HELD + 1, 65_535)),
            5 => return request::store(self.random.within(1, 65_535), HELD),
            6 => return vec![request::RECEIVE],
            7 => {
                return request::piece(&key.fields, 0, 0, 13, &[])[..self.random.within(1, 9)]
                    .to_vec()
            }
            8 => return request::front(bad_format),
            9 => request::open(key, 0),
            10 => request::slot(0, self.random.below(4) as u8, 8, key, 0),
            _ => request::piece(&key.fields, 0, 0, 13, &[1, 2, 3]),
        };
        let place = match request[0] {
            request::OPEN => 2,
            request::SLOT => 6,
            _ => 1,
        };
        request[place] = bad_format;
        request
    }
}

#[cfg(test)]
mod tests {
    use super::*;

    #[test]
    fn the_seed_and_number_fix_the_script() {
        let requests = Script::generate(1, 2).requests;
        assert_eq!(requests, Script::generate(1, 2).requests);
        assert_ne!(requests, Script::generate(1, 3).requests);
    }

    #[test]
    fn a_tail_is_never_a_whole_request() {
        for number in 0..200 {
            let tail = Script::generate(3, number).tail;
            let length = tail.get(1).map_or(usize::MAX, |&low| usize::from(low));
            assert!(tail.len() < 2 || tail.len() < 2 + length);
        }
    }

    #[test]
    fn sound_slots_follow_their_format() {
        let mut seen = 0;
        for number in 0..300 {
            let script = Script::generate(5, number);
            // Without an unsound slot or another format, all collecting slots hold whole pieces.
            if script
                .notes
                .iter()
                .any(|note| UNSOUND.contains(&note.what) || note.what == MALFORMED)
            {
                continue;
            }
            for request in script.requests.iter().filter(|r| r[0] == request::SLOT) {
                let h = usize::from(u16::from_be_bytes([request[3], request[4]]));
                let size = if request[6] == 0 { 8 } else { 7 };
                if request[2] == COLLECTING {
                    assert!(h > 0 && h % size == 0 && h <= 2048);
                    seen += 1;
                }
            }
        }
        assert!(seen > 0);
    }

    #[test]
    fn both_fronts_are_set_at_the_beginning_and_later() {
        let (mut set, mut first) = ([0; 2], 0);
        for number in 0..300 {
            let script = Script::generate(9, number);
            let fronts = script
                .requests
                .iter()
                .filter_map(|request| match request[..] {
                    [request::FRONT, front @ (0 | 1)] => Some(usize::from(front)),
                    _ => None,
                });
            fronts.for_each(|front| set[front] += 1);
            let head = &script.requests[..script.requests.len().min(2)];
            first += usize::from(head.contains(&request::front(1)));
        }
        assert!(set[0] > 100 && set[1] > 300, "{set:?}");
        assert!((100..200).contains(&first), "{first}");
    }

    #[test]
    fn a_new_station_is_at_front_0() {
        let profile = Profile::draw(&mut Random::new(1));
        let mut writer = Writer::new(Format::Standard, &profile, Random::new(1));
        writer.set_front(1);
        writer.note(MALFORMED);
        writer.new_station(Format::Standard);
        writer.note(MALFORMED);
        let fronts = writer.script.notes.iter().map(|note| note.front);
        assert!(fronts.eq([1, 0]));
    }

    #[test]
    fn unsound_slots_and_other_stores_meet_an_image() {
        for number in 0..100 {
            let profile = Profile::draw(&mut Random::new(number));
            let mut writer = Writer::new(Format::Extended, &profile, Random::new(number));
            let calls = |writer: &Writer| -> Vec<u8> {
                let requests = writer.script.requests.iter();
                requests.map(|request| request[0]).collect()
            };
            writer.unsound_slot();
            let unsound = calls(&writer);
            assert!(unsound.is_empty() || unsound.contains(&request::RECEIVE));
            writer.script.requests.clear();
            writer.other_store();
            assert!(calls(&writer).contains(&request::RECEIVE));
        }
    }

    #[test]
    fn no_operation_of_the_protocol_is_taken_as_unknown() {
        for operation in UNKNOWN {
            assert!(!(1..=30).contains(&operation));
        }
    }

    #[test]
    fn malformed_requests_have_empty_responses() {
        let mut lengths = [false; 2];
        for number in 0..2000 {
            let profile = Profile::draw(&mut Random::new(number));
            let mut writer = Writer::new(Format::Standard, &profile, Random::new(number));
            writer.malformed();
            let requests = writer.script.requests;
            let responses = crate::exchange::by_second(&requests, &[]).unwrap();
            assert_eq!(responses, [[]], "{requests:?}");
            match requests[0][..] {
                [request::FRONT] => lengths[0] = true,
                [request::FRONT, 2] => lengths[1] = true,
                _ => {}
            }
        }
        // A front that isn't given, and the first that there isn't.
        assert_eq!(lengths, [true; 2]);
    }

    #[test]
    fn malformed_requests_are_ruled_out() {
        for number in 0..200 {
            let profile = Profile::draw(&mut Random::new(number));
            let mut writer = Writer::new(Format::Standard, &profile, Random::new(number));
            let key = any_key(Format::Standard, &mut Random::new(number));
            let request = writer.ruled_out(&key);
            let from = |place: usize| u16::from_be_bytes([request[place], request[place + 1]]);
            let ruled_out = match request[0] {
                request::NEW | request::COUNT => request[1] > 1,
                request::OPEN => request[2] > 1,
                request::SLOT => request[1] > 15 || request[2] > 3 || request[6] > 1,
                request::LEND => from(1) > 40_000,
                request::STORE => u32::from(from(1)) + u32::from(from(3)) > 40_000,
                request::RECEIVE => request.len() == 1,
                request::FRONT => request[1] > 1,
                _ => request.len() < 10 || request[1] > 1,
            };
            assert!(ruled_out, "{request:?}");
        }
    }
}
