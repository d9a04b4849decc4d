//! A station: one format, sixteen slots, and the calls on them.
//!
//! Each call takes the station and hands back the next one; a refused call
//! hands back the station it was given, save for the idle slot after STEP and
//! LONG.

use crate::format::Format;
use crate::frame::{judge, Frame};
use crate::key::{is_bus, Key};
use crate::refusal::Refusal;
use crate::stream::{step, Answer, State, AREA_SIZE};

/// The slots of a station.
pub const SLOT_COUNT: usize = 16;

/// The size of the lent store: one area for each slot.
pub const STORE_SIZE: usize = SLOT_COUNT * AREA_SIZE;

/// A slot is closed, or open for the stream of a key.
#[derive(Clone, Copy, Debug, PartialEq, Eq)]
pub enum Slot {
    Closed,
    Open { key: Key, state: State },
}

impl Slot {
    /// The key of an open slot.
    pub fn key(&self) -> Option<&Key> {
        match self {
            Slot::Closed => None,
            Slot::Open { key, .. } => Some(key),
        }
    }

    /// Whether a station of this format can have the slot, by itself.
    fn is_sound(&self, format: Format) -> bool {
        match self {
            Slot::Closed => true,
            Slot::Open { key, state } => key.in_range(format) && state.is_sound(format),
        }
    }
}

/// A station. Its parts are open to the caller, so each call tests them.
#[derive(Clone, Copy, Debug, PartialEq, Eq)]
pub struct Station {
    pub format: Format,
    pub slots: [Slot; SLOT_COUNT],
}

impl Station {
    /// A new station, with all slots closed.
    pub fn new(format: Format) -> Station {
        Station {
            format,
            slots: [Slot::Closed; SLOT_COUNT],
        }
    }

    /// Whether keys and states of all slots fit the format, and keys differ.
    pub fn is_sound(&self) -> bool {
        self.slots.iter().all(|slot| slot.is_sound(self.format)) && self.keys_differ()
    }

    /// Opens the lowest closed slot for the key and answers its number.
    pub fn open(mut self, key: Key) -> (Station, Result<usize, Refusal>) {
        let place = self.place_for(&key);
        if let Ok(i) = place {
            let state = State::Idle;
            self.slots[i] = Slot::Open { key, state };
        }
        (self, place)
    }

    /// Closes a slot and answers its number.
    pub fn close(mut self, slot: usize) -> (Station, Result<usize, Refusal>) {
        if !self.is_sound() {
            return (self, Err(Refusal::State));
        }
        if self.state_of(slot).is_none() {
            return (self, Err(Refusal::Closed));
        }
        self.slots[slot] = Slot::Closed;
        (self, Ok(slot))
    }

    /// Receives an image from a bus; of the store only the area of the
    /// stream concerned is written.
    pub fn receive(self, bus: u8, image: &[u8], store: &mut [u8]) -> (Station, Answer) {
        match self.admit(bus, image, store) {
            Ok(frame) => self.take(bus, &frame, store),
            Err(refusal) => (self, Answer::Refused(refusal)),
        }
    }

    /// The length of the packet in a done slot.
    pub fn read_length(&self, slot: usize, store: &[u8]) -> Result<usize, Refusal> {
        self.check(store)?;
        match self.state_of(slot) {
            None => Err(Refusal::Closed),
            Some(State::Done(length)) => Ok(length),
            Some(State::Idle | State::Collecting(_)) => Err(Refusal::NoPacket),
        }
    }

    /// The packet in a done slot, as a part of the store; empty if refused.
    pub fn read_part<'a>(&self, slot: usize, store: &'a [u8]) -> &'a [u8] {
        match self.read_length(slot, store) {
            Ok(length) => &store[slot * AREA_SIZE..][..length],
            Err(_) => &[],
        }
    }

    /// The refusals that come first in each call with a store.
    fn check(&self, store: &[u8]) -> Result<(), Refusal> {
        if !self.is_sound() {
            Err(Refusal::State)
        } else if store.len() != STORE_SIZE {
            Err(Refusal::Store)
        } else {
            Ok(())
        }
    }

    /// The frame of an image, if nothing up to PIECE, SURPLUS included, refuses
    /// the call.
    fn admit<'a>(&self, bus: u8, image: &'a [u8], store: &[u8]) -> Result<Frame<'a>, Refusal> {
        self.check(store)?;
        if !is_bus(bus) {
            return Err(Refusal::Field);
        }
        judge(self.format, image)
    }

    /// Gives the frame to the stream of its key.
    fn take(mut self, bus: u8, frame: &Frame, store: &mut [u8]) -> (Station, Answer) {
        let fields = frame.fields;
        let key = Key { bus, fields };
        for (slot, area) in self.slots.iter_mut().zip(store.chunks_exact_mut(AREA_SIZE)) {
            match slot {
                Slot::Open { key: own, state } if *own == key => {
                    let answer = take_into(state, area, frame);
                    return (self, answer);
                }
                _ => {}
            }
        }
        (self, Answer::Filtered)
    }

    /// The slot that opening the key takes.
    fn place_for(&self, key: &Key) -> Result<usize, Refusal> {
        if !self.is_sound() {
            return Err(Refusal::State);
        }
        if !key.in_range(self.format) {
            return Err(Refusal::Field);
        }
        if self.slots.iter().any(|slot| slot.key() == Some(key)) {
            return Err(Refusal::Taken);
        }
        let lowest = self.slots.iter().position(|slot| *slot == Slot::Closed);
        lowest.ok_or(Refusal::Full)
    }

    /// The state of an open slot; none if it is closed or there is no such slot.
    fn state_of(&self, slot: usize) -> Option<State> {
        match self.slots.get(slot) {
            Some(Slot::Open { state, .. }) => Some(*state),
            Some(Slot::Closed) | None => None,
        }
    }

    /// Whether no two open slots have the same key.
    fn keys_differ(&self) -> bool {
        let mut later = self.slots.iter();
        while let Some(slot) = later.next() {
            let Some(key) = slot.key() else { continue };
            if later.clone().any(|other| other.key() == Some(key)) {
                return false;
            }
        }
        true
    }
}

/// Makes the step of one stream: its state, and the bytes in its area.
fn take_into(state: &mut State, area: &mut [u8], frame: &Frame) -> Answer {
    let step = step(*state, frame);
    if let Some(at) = step.write_at {
        area[at..at + frame.packet.len()].copy_from_slice(frame.packet);
    }
    *state = step.next;
    step.answer
}

#[cfg(test)]
mod tests {
    use super::*;
    use crate::key::Fields;
    use crate::split::{piece, piece_count, write_piece};

    fn extended(bus: u8, source: u8, function: u8) -> Key {
        Key {
            bus,
            fields: Fields::Extended {
                priority: 0,
                source,
                group: 0,
                destination: 0,
                function,
            },
        }
    }

    fn standard(bus: u8, address: u8) -> Key {
        Key {
            bus,
            fields: Fields::Standard {
                priority: 0,
                address,
                side: 0,
            },
        }
    }

    fn refused(refusal: Refusal) -> Answer {
        Answer::Refused(refusal)
    }

    /// A station with its store, for tests that follow a run.
    struct Run {
        station: Station,
        store: Vec<u8>,
    }

    impl Run {
        fn new(keys: &[Key]) -> Run {
            let mut run = Run {
                station: Station::new(keys[0].fields.format()),
                store: vec![0xAA; STORE_SIZE],
            };
            for (i, key) in keys.iter().enumerate() {
                assert_eq!(run.open(*key), Ok(i));
            }
            run
        }

        fn open(&mut self, key: Key) -> Result<usize, Refusal> {
            let (station, answer) = self.station.open(key);
            self.station = station;
            answer
        }

        fn close(&mut self, slot: usize) -> Result<usize, Refusal> {
            let (station, answer) = self.station.close(slot);
            self.station = station;
            answer
        }

        fn receive(&mut self, bus: u8, image: &[u8]) -> Answer {
            let (station, answer) = self.station.receive(bus, image, &mut self.store);
            self.station = station;
            answer
        }

        /// Receives piece k of the packet, as the key's sender splits it.
        fn receive_piece(&mut self, key: &Key, packet: &[u8], k: usize) -> Answer {
            let mut image = [0; 13];
            let length = write_piece(&key.fields, packet, k, &mut image).unwrap();
            self.receive(key.bus, &image[..length])
        }

        fn read(&self, slot: usize) -> (Result<usize, Refusal>, &[u8]) {
            let length = self.station.read_length(slot, &self.store);
            (length, self.station.read_part(slot, &self.store))
        }

        fn state(&self, slot: usize) -> State {
            self.station.state_of(slot).unwrap()
        }
    }

    fn packet(size: usize, seed: usize) -> Vec<u8> {
        (0..size).map(|i| (i * 11 + i / 256 + seed) as u8).collect()
    }

    const KEPT: Answer = Answer::Kept { broke: false };

    fn whole(length: usize) -> Answer {
        Answer::Packet {
            length,
            broke: false,
        }
    }

    #[test]
    fn packets_arrive_whole_while_streams_run_side_by_side() {
        // One node's two functions, and the two buses, must not run together.
        let sets = [
            [extended(0, 6, 2), extended(1, 6, 2), extended(0, 6, 3)],
            [standard(0, 6), standard(1, 6), standard(0, 7)],
        ];
        for keys in sets {
            let format = keys[0].fields.format();
            let limit = format.packet_limit();
            for size in [9, 15, 16, 17, 512, 513, 1785, limit] {
                let mut run = Run::new(&keys);
                let last = piece_count(format, size).unwrap() - 1;
                for k in 0..=last {
                    for (seed, key) in keys.iter().enumerate() {
                        let answer = run.receive_piece(key, &packet(size, seed), k);
                        assert_eq!(answer, if k < last { KEPT } else { whole(size) });
                    }
                }
                for slot in 0..keys.len() {
                    assert_eq!(run.read(slot), (Ok(size), &packet(size, slot)[..]));
                    let rest = &run.store[slot * AREA_SIZE + size..(slot + 1) * AREA_SIZE];
                    assert!(rest.iter().all(|&byte| byte == 0xAA));
                }
            }
        }
    }

    #[test]
    fn packets_arrive_whole_with_codes_over_8() {
        // Three filled pieces, and a single: each has eight data bytes.
        for (key, count_byte, filled) in [(extended(0, 1, 1), 0, 24), (standard(0, 1), 1, 21)] {
            for code in 9..=15 {
                for size in [filled, 8] {
                    let mut run = Run::new(&[key]);
                    let packet = packet(size, code.into());
                    let last = piece_count(key.fields.format(), size).unwrap() - 1;
                    for k in 0..=last {
                        let mut image = piece(&key.fields, &packet, k);
                        assert_eq!(image[count_byte] & 0x0F, 8);
                        image[count_byte] = image[count_byte] & 0xF0 | code;
                        let answer = run.receive(0, &image);
                        assert_eq!(answer, if k < last { KEPT } else { whole(size) });
                    }
                    assert_eq!(run.read(0), (Ok(size), &packet[..]));
                    assert!(run.store[size..].iter().all(|&byte| byte == 0xAA));
                }
            }
        }
    }

    #[test]
    fn an_image_too_short_or_too_long_between_pieces_changes_nothing() {
        for key in [extended(0, 1, 1), standard(0, 1)] {
            let mut run = Run::new(&[key]);
            let packet = packet(20, 1);
            for k in 0..=2 {
                // The next piece but for its length, and a single.
                for image in [piece(&key.fields, &packet, k), piece(&key.fields, &[7], 0)] {
                    let before = (run.station, run.store.clone());
                    let short = &image[..image.len() - 1];
                    assert_eq!(run.receive(0, short), refused(Refusal::Count));
                    let header = key.fields.format().header_size();
                    for length in image.len() + 1..=header + 8 {
                        let mut long = image.clone();
                        long.resize(length, 0x77);
                        assert_eq!(run.receive(0, &long), refused(Refusal::Surplus));
                    }
                    assert_eq!((run.station, &run.store), (before.0, &before.1));
                }
                let answer = run.receive_piece(&key, &packet, k);
                assert_eq!(answer, if k < 2 { KEPT } else { whole(20) });
            }
            assert_eq!(run.read(0), (Ok(20), &packet[..]));
        }
    }

    #[test]
    fn short_packets_are_read_at_the_head_of_the_area() {
        for key in [extended(0, 1, 1), standard(0, 1)] {
            let mut run = Run::new(&[key]);
            for size in 0..=8 {
                let packet = packet(size, size);
                assert_eq!(run.receive_piece(&key, &packet, 0), whole(size));
                assert_eq!(run.read(0), (Ok(size), &packet[..]));
            }
        }
    }

    #[test]
    fn a_repeated_start_restarts_the_packet() {
        let key = extended(1, 6, 2);
        let mut run = Run::new(&[key]);
        let (old, new) = (packet(20, 1), packet(20, 2));
        run.receive_piece(&key, &old, 0);
        run.receive_piece(&key, &old, 1);
        let broke = run.receive_piece(&key, &new, 0);
        assert_eq!(broke, Answer::Kept { broke: true });
        assert_eq!(run.receive_piece(&key, &new, 1), KEPT);
        assert_eq!(run.receive_piece(&key, &new, 2), whole(20));
        assert_eq!(run.read(0), (Ok(20), &new[..]));
    }

    #[test]
    fn a_single_while_collecting_adds_broke() {
        let key = standard(1, 6);
        let mut run = Run::new(&[key]);
        run.receive_piece(&key, &packet(20, 1), 0);
        let answer = run.receive_piece(&key, &[9, 8], 0);
        assert_eq!(
            answer,
            Answer::Packet {
                length: 2,
                broke: true
            }
        );
        assert_eq!(run.read(0), (Ok(2), &[9, 8][..]));
    }

    #[test]
    fn an_orphan_leaves_a_done_packet() {
        let key = extended(0, 6, 2);
        let mut run = Run::new(&[key]);
        run.receive_piece(&key, &[1, 2, 3], 0);
        let answer = run.receive_piece(&key, &packet(20, 1), 1);
        assert_eq!(answer, refused(Refusal::Orphan));
        assert_eq!(run.read(0), (Ok(3), &[1, 2, 3][..]));
    }

    #[test]
    fn a_step_makes_idle_and_writes_nothing() {
        let key = extended(0, 6, 2);
        let mut run = Run::new(&[key]);
        let packet = packet(40, 1);
        run.receive_piece(&key, &packet, 0);
        let store = run.store.clone();
        let answer = run.receive_piece(&key, &packet, 2);
        assert_eq!(answer, refused(Refusal::Step));
        assert_eq!(run.state(0), State::Idle);
        assert_eq!(run.store, store);
        let answer = run.receive_piece(&key, &packet, 1);
        assert_eq!(answer, refused(Refusal::Orphan));
    }

    #[test]
    fn a_257th_piece_is_long() {
        let key = extended(0, 0, 0);
        let mut run = Run::new(&[key]);
        let start = [0x88, 0, 0, 0x40, 0, 1, 2, 3, 4, 5, 6, 7, 8];
        assert_eq!(run.receive(0, &start), KEPT);
        for k in 1..256 {
            let middle = [0x88, 0, 0, (k % 64) as u8, 0, 1, 2, 3, 4, 5, 6, 7, 8];
            assert_eq!(run.receive(0, &middle), KEPT);
        }
        assert_eq!(run.state(0), State::Collecting(2048));
        let store = run.store.clone();
        let end = [0x81, 0, 0, 0x80, 0, 9];
        assert_eq!(run.receive(0, &end), refused(Refusal::Long));
        assert_eq!(run.state(0), State::Idle);
        assert_eq!(run.store, store);
    }

    #[test]
    fn frames_of_no_open_key_are_filtered() {
        let key = extended(0, 6, 2);
        let mut run = Run::new(&[key]);
        let before = (run.station, run.store.clone());
        for other in [extended(1, 6, 2), extended(0, 7, 2), extended(0, 6, 3)] {
            let answer = run.receive_piece(&other, &[1], 0);
            assert_eq!(answer, Answer::Filtered);
        }
        assert_eq!((run.station, run.store), before);
    }

    #[test]
    fn opening_takes_the_lowest_closed_slot() {
        let keys: Vec<Key> = (0..16).map(|address| standard(0, address)).collect();
        let mut run = Run::new(&keys);
        assert_eq!(run.open(keys[3]), Err(Refusal::Taken));
        assert_eq!(run.open(standard(1, 3)), Err(Refusal::Full));
        assert_eq!(run.close(9), Ok(9));
        assert_eq!(run.close(4), Ok(4));
        assert_eq!(run.close(4), Err(Refusal::Closed));
        assert_eq!(run.close(16), Err(Refusal::Closed));
        assert_eq!(run.open(standard(1, 3)), Ok(4));
        assert_eq!(run.open(keys[4]), Ok(9));
        assert_eq!(run.open(keys[9]), Err(Refusal::Full));
    }

    #[test]
    fn opening_refuses_keys_out_of_range() {
        let mut run = Run::new(&[extended(0, 6, 2)]);
        let before = run.station;
        assert_eq!(run.open(extended(2, 6, 2)), Err(Refusal::Field));
        assert_eq!(run.open(extended(0, 64, 2)), Err(Refusal::Field));
        assert_eq!(run.open(extended(0, 6, 32)), Err(Refusal::Field));
        assert_eq!(run.open(standard(0, 6)), Err(Refusal::Field));
        assert_eq!(run.station, before);
    }

    #[test]
    fn reading_refuses_slots_without_a_packet() {
        let key = extended(0, 6, 2);
        let mut run = Run::new(&[key]);
        assert_eq!(run.read(0), (Err(Refusal::NoPacket), &[][..]));
        run.receive_piece(&key, &packet(20, 1), 0);
        assert_eq!(run.read(0), (Err(Refusal::NoPacket), &[][..]));
        assert_eq!(run.read(1), (Err(Refusal::Closed), &[][..]));
        assert_eq!(run.read(16), (Err(Refusal::Closed), &[][..]));
        run.store.pop();
        assert_eq!(run.read(16), (Err(Refusal::Store), &[][..]));
    }

    #[test]
    fn closing_changes_no_store_byte() {
        let key = extended(0, 6, 2);
        let mut run = Run::new(&[key]);
        run.receive_piece(&key, &[1, 2, 3], 0);
        let store = run.store.clone();
        assert_eq!(run.close(0), Ok(0));
        assert_eq!(run.store, store);
        assert_eq!(run.station, Station::new(Format::Extended));
    }

    #[test]
    fn receiving_refuses_in_order() {
        let mut run = Run::new(&[extended(0, 6, 2)]);
        let sound = run.station;
        run.station.slots[1] = run.station.slots[0];
        run.store.push(0);
        assert_eq!(run.receive(2, &[]), refused(Refusal::State));
        run.station = sound;
        assert_eq!(run.receive(2, &[]), refused(Refusal::Store));
        run.store.pop();
        assert_eq!(run.receive(2, &[]), refused(Refusal::Field));
        assert_eq!(run.receive(1, &[]), refused(Refusal::Length));
        let piece = [0x81, 0x45, 0x00, 0xC1, 0x10, 0x07];
        assert_eq!(run.receive(1, &piece), refused(Refusal::Piece));
        assert_eq!(run.station, sound);
        assert!(run.store.iter().all(|&byte| byte == 0xAA));
    }

    #[test]
    fn every_call_refuses_an_unsound_station() {
        let idle = |key| Slot::Open {
            key,
            state: State::Idle,
        };
        let state = |state| Slot::Open {
            key: extended(0, 1, 1),
            state,
        };
        for slot in [
            idle(extended(0, 6, 2)),
            idle(extended(2, 1, 1)),
            idle(extended(0, 64, 1)),
            idle(standard(0, 1)),
            state(State::Collecting(0)),
            state(State::Collecting(12)),
            state(State::Collecting(2056)),
            state(State::Done(2049)),
        ] {
            let mut run = Run::new(&[extended(0, 6, 2)]);
            run.station.slots[15] = slot;
            let before = run.station;
            assert_eq!(run.open(standard(9, 9)), Err(Refusal::State), "{slot:?}");
            assert_eq!(run.close(99), Err(Refusal::State));
            assert_eq!(run.receive(9, &[]), refused(Refusal::State));
            assert_eq!(run.read(0), (Err(Refusal::State), &[][..]));
            assert_eq!(run.station, before);
        }
    }
}
