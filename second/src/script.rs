//! Calls by script: requests on the input, a response to each on the output.

use std::io::{self, BufReader, BufWriter, Read, Write};

use crate::format::Format;
use crate::frame::judge;
use crate::input::fill;
use crate::key::{Fields, Key};
use crate::refusal::Refusal;
use crate::split::{piece_count, write_piece};
use crate::station::{Slot, Station, SLOT_COUNT, STORE_SIZE};
use crate::stream::{Answer, State};

const NEW: u8 = 1;
const OPEN: u8 = 2;
const CLOSE: u8 = 3;
const RECEIVE: u8 = 4;
const READ: u8 = 5;
const COUNT: u8 = 6;
const PIECE: u8 = 7;
const SLOT: u8 = 8;
const LEND: u8 = 9;
const STORE: u8 = 10;
const FILL: u8 = 11;
const FRONT: u8 = 12;
const JUDGE: u8 = 13;

/// The bytes of which a part is lent as the store.
const BYTES_SIZE: usize = 40_000;

/// What the bytes of a lent output hold before the call.
const UNWRITTEN: u8 = 0xEE;

const BUFFER_SIZE: usize = 64 * 1024;

/// Answers the requests on the input until it ends; a read error counts as
/// the end, and a request that is cut off has no response.
pub fn calls(input: impl Read, output: impl Write) -> io::Result<()> {
    let mut input = BufReader::with_capacity(BUFFER_SIZE, input);
    let mut output = BufWriter::with_capacity(BUFFER_SIZE, output);
    let mut bench = Bench::new();
    let mut request = vec![0; usize::from(u16::MAX)];
    let mut response = Vec::new();
    loop {
        // Whoever waits for these responses before asking on must get them.
        if !begins_with_request(input.buffer()) {
            output.flush()?;
        }
        let Some(request) = read_request(&mut input, &mut request) else {
            return output.flush();
        };
        response.clear();
        // A request that is none changes nothing and writes nothing.
        let _ = bench.respond(request, &mut response);
        output.write_all(&two_bytes(response.len()))?;
        output.write_all(&response)?;
    }
}

/// Whether a whole request stands at the head of these bytes.
fn begins_with_request(bytes: &[u8]) -> bool {
    match bytes {
        [high, low, rest @ ..] => rest.len() >= number(*high, *low),
        _ => false,
    }
}

/// Reads a whole request into the buffer, without its length.
fn read_request<'a>(input: &mut impl Read, buffer: &'a mut [u8]) -> Option<&'a [u8]> {
    let mut length = [0; 2];
    if fill(input, &mut length) < length.len() {
        return None;
    }
    let request = &mut buffer[..usize::from(u16::from_be_bytes(length))];
    if fill(input, request) < request.len() {
        return None;
    }
    Some(request)
}

/// What the calls work on: a station, and bytes to lend as its store.
struct Bench {
    station: Station,
    bytes: Vec<u8>,
    lent: usize,
}

impl Bench {
    fn new() -> Bench {
        Bench {
            station: Station::new(Format::Extended),
            bytes: vec![0; BYTES_SIZE],
            lent: STORE_SIZE,
        }
    }

    /// Carries out a request and appends its response; none if the request
    /// is not one of the protocol.
    fn respond(&mut self, request: &[u8], response: &mut Vec<u8>) -> Option<()> {
        let (&operation, arguments) = request.split_first()?;
        match (operation, arguments) {
            (NEW, &[format]) => self.renew(format_of(format)?, response),
            (OPEN, &[bus, format, a, b, c, d, e]) => {
                let fields = fields_of(format, [a, b, c, d, e])?;
                self.open(Key { bus, fields }, response);
            }
            (CLOSE, &[slot]) => self.close(slot, response),
            (RECEIVE, [bus, image @ ..]) => self.receive(*bus, image, response),
            (READ, &[slot]) => self.read(slot, response),
            (COUNT, &[format, ref size @ ..]) => {
                let size = u64::from_be_bytes(size.try_into().ok()?);
                put_count(format_of(format)?, size, response);
            }
            (PIECE, &[format, a, b, c, d, e, k1, k0, room, ref packet @ ..]) => {
                let fields = fields_of(format, [a, b, c, d, e])?;
                put_piece(&fields, packet, number(k1, k0), room, response);
            }
            (SLOT, &[slot, kind, h1, h0, bus, format, a, b, c, d, e]) => {
                let fields = fields_of(format, [a, b, c, d, e])?;
                let content = slot_of(kind, number(h1, h0), Key { bus, fields })?;
                self.set_slot(usize::from(slot), content, response)?;
            }
            (LEND, &[n1, n0]) => self.lend(number(n1, n0), response)?,
            (STORE, &[from1, from0, size1, size0]) => {
                let (from, size) = (number(from1, from0), number(size1, size0));
                response.extend_from_slice(self.bytes.get(from..from + size)?);
            }
            (FILL, &[seed, step]) => self.fill(seed, step, response),
            // Both fronts answer alike, so there is one here and nothing to change.
            (FRONT, &[0 | 1]) => put_value(Ok(0), response),
            (JUDGE, &[format, ref image @ ..]) => put_judged(format_of(format)?, image, response),
            _ => return None,
        }
        Some(())
    }

    fn renew(&mut self, format: Format, response: &mut Vec<u8>) {
        self.station = Station::new(format);
        self.bytes.fill(0);
        self.lent = STORE_SIZE;
        put_value(Ok(0), response);
        put_slots(&self.station, response);
    }

    fn open(&mut self, key: Key, response: &mut Vec<u8>) {
        let (station, answer) = self.station.open(key);
        self.station = station;
        put_value(answer, response);
        put_slots(&self.station, response);
    }

    fn close(&mut self, slot: u8, response: &mut Vec<u8>) {
        let (station, answer) = self.station.close(usize::from(slot));
        self.station = station;
        put_value(answer, response);
        put_slots(&self.station, response);
    }

    fn receive(&mut self, bus: u8, image: &[u8], response: &mut Vec<u8>) {
        let store = &mut self.bytes[..self.lent];
        let (station, answer) = self.station.receive(bus, image, store);
        self.station = station;
        put_answer(answer, response);
        put_slots(&self.station, response);
    }

    fn read(&self, slot: u8, response: &mut Vec<u8>) {
        let (slot, store) = (usize::from(slot), &self.bytes[..self.lent]);
        put_value(self.station.read_length(slot, store), response);
        response.extend_from_slice(self.station.read_part(slot, store));
    }

    fn set_slot(&mut self, slot: usize, content: Slot, response: &mut Vec<u8>) -> Option<()> {
        *self.station.slots.get_mut(slot)? = content;
        put_value(Ok(0), response);
        put_slots(&self.station, response);
        Some(())
    }

    fn lend(&mut self, size: usize, response: &mut Vec<u8>) -> Option<()> {
        if size > BYTES_SIZE {
            return None;
        }
        self.lent = size;
        put_value(Ok(size), response);
        Some(())
    }

    fn fill(&mut self, seed: u8, step: u8, response: &mut Vec<u8>) {
        let mut next = seed;
        for byte in &mut self.bytes {
            *byte = next;
            next = next.wrapping_add(step);
        }
        put_value(Ok(0), response);
    }
}

/// The number of two bytes, the high one first.
fn number(high: u8, low: u8) -> usize {
    usize::from(u16::from_be_bytes([high, low]))
}

/// The two low bytes of a number; the numbers of the protocol have no more.
fn two_bytes(number: usize) -> [u8; 2] {
    (number as u16).to_be_bytes()
}

fn format_of(byte: u8) -> Option<Format> {
    match byte {
        0 => Some(Format::Extended),
        1 => Some(Format::Standard),
        _ => None,
    }
}

/// The fields as they come, in range or not.
fn fields_of(format: u8, [a, b, c, d, e]: [u8; 5]) -> Option<Fields> {
    let fields = match format_of(format)? {
        Format::Extended => Fields::Extended {
            priority: a,
            source: b,
            group: c,
            destination: d,
            function: e,
        },
        Format::Standard => Fields::Standard {
            priority: a,
            address: b,
            side: c,
        },
    };
    Some(fields)
}

/// A slot set by hand, sound or not.
fn slot_of(kind: u8, held: usize, key: Key) -> Option<Slot> {
    let state = match kind {
        0 => return Some(Slot::Closed),
        1 => State::Idle,
        2 => State::Collecting(held),
        3 => State::Done(held),
        _ => return None,
    };
    Some(Slot::Open { key, state })
}

/// Appends how many pieces a packet takes. A size that is no number here is
/// over every limit, as the largest that is one.
fn put_count(format: Format, size: u64, response: &mut Vec<u8>) {
    let size = usize::try_from(size).unwrap_or(usize::MAX);
    put_value(piece_count(format, size), response);
}

/// Appends the answer of a piece call and the whole output lent to it.
fn put_piece(fields: &Fields, packet: &[u8], k: usize, room: u8, response: &mut Vec<u8>) {
    let mut output = [UNWRITTEN; u8::MAX as usize];
    let output = &mut output[..usize::from(room)];
    put_value(write_piece(fields, packet, k, output), response);
    response.extend_from_slice(output);
}

/// Appends where the packet bytes of an image begin and what frame it holds,
/// or its refusal alone.
fn put_judged(format: Format, image: &[u8], response: &mut Vec<u8>) {
    let judged = judge(format, image);
    put_value(
        judged.map(|frame| image.len() - frame.packet.len()),
        response,
    );
    if let Ok(frame) = judged {
        response.extend(fields_bytes(&frame.fields));
        response.extend([frame.flag.bits(), frame.number]);
    }
}

/// Appends an answer of kind "value", or a refusal.
fn put_value(answer: Result<usize, Refusal>, response: &mut Vec<u8>) {
    match answer {
        Ok(value) => put_parts(5, value, false, response),
        Err(refusal) => put_answer(Answer::Refused(refusal), response),
    }
}

/// Appends the answer of a receiving call.
fn put_answer(answer: Answer, response: &mut Vec<u8>) {
    match answer {
        Answer::Packet { length, broke } => put_parts(1, length, broke, response),
        Answer::Kept { broke } => put_parts(2, 0, broke, response),
        Answer::Filtered => put_parts(3, 0, false, response),
        Answer::Refused(refusal) => put_parts(4, refusal.number().into(), false, response),
    }
}

/// Appends the four bytes of an answer.
fn put_parts(kind: u8, number: usize, broke: bool, response: &mut Vec<u8>) {
    let [high, low] = two_bytes(number);
    response.extend([kind, high, low, u8::from(broke)]);
}

/// Appends the ten bytes of each slot.
fn put_slots(station: &Station, response: &mut Vec<u8>) {
    response.reserve(SLOT_COUNT * 10);
    for slot in &station.slots {
        response.extend(slot_bytes(slot));
    }
}

fn slot_bytes(slot: &Slot) -> [u8; 10] {
    let Slot::Open { key, state } = slot else {
        return [0; 10];
    };
    let (kind, held) = match *state {
        State::Idle => (1, 0),
        State::Collecting(held) => (2, held),
        State::Done(held) => (3, held),
    };
    let [h1, h0] = two_bytes(held);
    let [format, a, b, c, d, e] = fields_bytes(&key.fields);
    [kind, h1, h0, key.bus, format, a, b, c, d, e]
}

/// The format and five fields, of which standard has three.
fn fields_bytes(fields: &Fields) -> [u8; 6] {
    match *fields {
        Fields::Extended {
            priority,
            source,
            group,
            destination,
            function,
        } => [0, priority, source, group, destination, function],
        Fields::Standard {
            priority,
            address,
            side,
        } => [1, priority, address, side, 0, 0],
    }
}

#[cfg(test)]
mod tests {
    use super::*;
    use std::cell::{Cell, RefCell};

    /// The responses to requests, each given without its length.
    fn run(requests: &[&[u8]]) -> Vec<Vec<u8>> {
        let mut input = Vec::new();
        for request in requests {
            input.extend(two_bytes(request.len()));
            input.extend_from_slice(request);
        }
        let mut output = Vec::new();
        calls(&input[..], &mut output).unwrap();
        let responses = responses(&output);
        assert_eq!(responses.len(), requests.len());
        responses
    }

    fn responses(mut output: &[u8]) -> Vec<Vec<u8>> {
        let mut responses = Vec::new();
        while let [high, low, rest @ ..] = output {
            let (response, rest) = rest.split_at(number(*high, *low));
            responses.push(response.to_vec());
            output = rest;
        }
        responses
    }

    fn last(requests: &[&[u8]]) -> Vec<u8> {
        run(requests).pop().unwrap()
    }

    /// An answer and slots, of which those given stand first and the others
    /// are closed.
    fn with_slots(answer: [u8; 4], slots: &[[u8; 10]]) -> Vec<u8> {
        let mut response = answer.to_vec();
        response.extend(slots.iter().flatten());
        response.resize(4 + 160, 0);
        response
    }

    const OPEN_5: &[u8] = &[OPEN, 0, 0, 1, 5, 0, 0, 2];
    const RECEIVE_5: &[u8] = &[RECEIVE, 0, 0x81, 0x45, 0x00, 0xC0, 0x10, 0x07];
    const SLOTS_OF_DONE_5: [[u8; 10]; 1] = [[3, 0, 1, 0, 0, 1, 5, 0, 0, 2]];

    #[test]
    fn open_receive_read_close() {
        let responses = run(&[OPEN_5, RECEIVE_5, &[READ, 0], &[CLOSE, 0], &[READ, 0]]);
        let idle = [[1, 0, 0, 0, 0, 1, 5, 0, 0, 2]];
        assert_eq!(responses[0], with_slots([5, 0, 0, 0], &idle));
        assert_eq!(responses[1], with_slots([1, 0, 1, 0], &SLOTS_OF_DONE_5));
        assert_eq!(responses[2], [5, 0, 1, 0, 7]);
        assert_eq!(responses[3], with_slots([5, 0, 0, 0], &[]));
        assert_eq!(responses[4], [4, 0, 16, 0]);
    }

    #[test]
    fn filtered_and_refused() {
        let answers = |requests: &[&[u8]]| last(requests)[..4].to_vec();
        assert_eq!(answers(&[RECEIVE_5]), [3, 0, 0, 0]);
        assert_eq!(answers(&[&[RECEIVE, 0]]), [4, 0, 1, 0]);
        assert_eq!(answers(&[&[RECEIVE, 2]]), [4, 0, 9, 0]);
        assert_eq!(answers(&[OPEN_5, OPEN_5]), [4, 0, 14, 0]);
        assert_eq!(answers(&[&[OPEN, 0, 1, 0, 0, 0, 0, 0]]), [4, 0, 9, 0]);
        assert_eq!(answers(&[&[CLOSE, 16]]), [4, 0, 16, 0]);
        assert_eq!(answers(&[OPEN_5, &[READ, 0]]), [4, 0, 17, 0]);
    }

    #[test]
    fn broke_is_the_fourth_byte_of_an_answer() {
        let start = &[
            RECEIVE, 0, 0x88, 0x45, 0, 0x40, 0x10, 1, 2, 3, 4, 5, 6, 7, 8,
        ];
        let responses = run(&[OPEN_5, start, start, RECEIVE_5]);
        let slots = [[2, 0, 8, 0, 0, 1, 5, 0, 0, 2]];
        assert_eq!(responses[1], with_slots([2, 0, 0, 0], &slots));
        assert_eq!(responses[2], with_slots([2, 0, 0, 1], &slots));
        assert_eq!(responses[3], with_slots([1, 0, 1, 1], &SLOTS_OF_DONE_5));
    }

    #[test]
    fn standard_fields_are_three() {
        let slots = [[1, 0, 0, 1, 1, 2, 22, 1, 0, 0]];
        let open = &[OPEN, 1, 1, 2, 22, 1, 77, 88];
        let response = last(&[&[NEW, 1], open]);
        assert_eq!(response, with_slots([5, 0, 0, 0], &slots));
        // The bytes not looked at do not make another key.
        let again = &[OPEN, 1, 1, 2, 22, 1, 0, 0];
        let response = last(&[&[NEW, 1], open, again]);
        assert_eq!(response, with_slots([4, 0, 14, 0], &slots));
    }

    #[test]
    fn new_forgets_everything() {
        let responses = run(&[
            OPEN_5,
            &[FILL, 3, 1],
            &[LEND, 0, 1],
            &[NEW, 0],
            &[STORE, 0, 0, 0, 2],
            &[READ, 0],
        ]);
        assert_eq!(responses[3], with_slots([5, 0, 0, 0], &[]));
        assert_eq!(responses[4], [0, 0]);
        assert_eq!(responses[5], [4, 0, 16, 0]);
    }

    #[test]
    fn piece_counts() {
        let count = |format, size: u64| {
            let mut request = vec![COUNT, format];
            request.extend(size.to_be_bytes());
            last(&[&request])
        };
        assert_eq!(count(0, 17), [5, 0, 3, 0]);
        assert_eq!(count(1, 14), [5, 0, 2, 0]);
        assert_eq!(count(0, 2048), [5, 1, 0, 0]);
        assert_eq!(count(0, 2049), [4, 0, 10, 0]);
        assert_eq!(count(1, 1793), [4, 0, 10, 0]);
        assert_eq!(count(1, u64::MAX), [4, 0, 10, 0]);
        // An extended packet of 65,537 bytes is not one of 1 byte, and so on.
        for bit in [16, 32, 48, 63] {
            assert_eq!(count(0, (1 << bit) + 1), [4, 0, 10, 0]);
        }
    }

    #[test]
    fn pieces_leave_the_rest_of_the_output() {
        let piece = |k, room| last(&[&[PIECE, 0, 1, 5, 0, 0, 2, 0, k, room, 7]]);
        let image = [0x81, 0x45, 0x00, 0xC0, 0x10, 0x07];
        let expected = [&[5, 0, 6, 0][..], &image, &[0xEE, 0xEE]].concat();
        assert_eq!(piece(0, 8), expected);
        assert_eq!(piece(0, 6), expected[..10]);
        assert_eq!(piece(0, 5), [4, 0, 12, 0, 0xEE, 0xEE, 0xEE, 0xEE, 0xEE]);
        assert_eq!(piece(1, 0), [4, 0, 11, 0]);
        assert_eq!(piece(0, 255).len(), 4 + 255);
    }

    #[test]
    fn pieces_of_no_packet_bytes() {
        let response = last(&[&[PIECE, 1, 2, 22, 1, 9, 9, 0, 0, 2]]);
        assert_eq!(response, [5, 0, 2, 0, 0x96, 0xE0]);
    }

    #[test]
    fn slots_set_by_hand_are_seen_and_refused() {
        let responses = run(&[
            &[SLOT, 0, 3, 0xFF, 0xFF, 7, 0, 1, 2, 3, 4, 5],
            OPEN_5,
            &[CLOSE, 0],
            RECEIVE_5,
            &[READ, 0],
            &[SLOT, 0, 0, 1, 2, 3, 0, 4, 5, 6, 7, 8],
            OPEN_5,
        ]);
        let unsound = [[3, 0xFF, 0xFF, 7, 0, 1, 2, 3, 4, 5]];
        assert_eq!(responses[0], with_slots([5, 0, 0, 0], &unsound));
        for response in &responses[1..4] {
            assert_eq!(*response, with_slots([4, 0, 21, 0], &unsound));
        }
        assert_eq!(responses[4], [4, 0, 21, 0]);
        assert_eq!(responses[5], with_slots([5, 0, 0, 0], &[]));
        assert_eq!(responses[6][..4], [5, 0, 0, 0]);
    }

    #[test]
    fn an_idle_slot_has_no_h() {
        let response = last(&[&[SLOT, 0, 1, 1, 1, 0, 1, 2, 22, 1, 5, 5]]);
        let slots = [[1, 0, 0, 0, 1, 2, 22, 1, 0, 0]];
        assert_eq!(response, with_slots([5, 0, 0, 0], &slots));
    }

    #[test]
    fn lend_and_store() {
        let [n1, n0] = two_bytes(32_767);
        let [full1, full0] = two_bytes(40_000);
        let [over1, over0] = two_bytes(40_001);
        let responses = run(&[
            OPEN_5,
            &[FILL, 250, 1],
            &[LEND, n1, n0],
            RECEIVE_5,
            &[LEND, over1, over0],
            &[READ, 0],
            &[LEND, full1, full0],
            &[READ, 0],
            &[STORE, 0, 4, 0, 3],
        ]);
        assert_eq!(responses[2], [5, n1, n0, 0]);
        assert_eq!(responses[3][..4], [4, 0, 13, 0]);
        assert_eq!(responses[4], []);
        assert_eq!(responses[5], [4, 0, 13, 0]);
        assert_eq!(responses[6], [5, full1, full0, 0]);
        assert_eq!(responses[7], [4, 0, 13, 0]);
        assert_eq!(responses[8], [254, 255, 0]);
    }

    #[test]
    fn store_within_its_bounds() {
        let store = |from, size| {
            let ([a, b], [c, d]) = (two_bytes(from), two_bytes(size));
            last(&[&[FILL, 0, 1], &[STORE, a, b, c, d]])
        };
        assert_eq!(store(0, 40_000).len(), 40_000);
        assert_eq!(store(39_999, 1), [(39_999 % 256) as u8]);
        assert_eq!(store(40_000, 0), []);
        assert_eq!(store(40_000, 1), []);
        assert_eq!(store(1, 40_000), []);
        assert_eq!(store(65_535, 65_535), []);
    }

    #[test]
    fn fill_by_steps() {
        let filled = |seed, step| last(&[&[FILL, seed, step], &[STORE, 0, 0, 0, 4]]);
        assert_eq!(filled(7, 0), [7, 7, 7, 7]);
        assert_eq!(filled(254, 1), [254, 255, 0, 1]);
        assert_eq!(filled(3, 100), [3, 103, 203, 47]);
        assert_eq!(filled(1, 255), [1, 0, 255, 254]);
        // The last byte is 39,999 steps on, which is 63 modulo 256.
        let [from1, from0] = two_bytes(39_999);
        let last_byte = last(&[&[FILL, 5, 3], &[STORE, from1, from0, 0, 1]]);
        assert_eq!(last_byte, [5 + 3 * 63]);
    }

    #[test]
    fn both_fronts_answer_alike() {
        for front in [0, 1] {
            let responses = run(&[OPEN_5, &[FRONT, front], RECEIVE_5, &[READ, 0]]);
            assert_eq!(responses[1], [5, 0, 0, 0]);
            let done = with_slots([1, 0, 1, 0], &SLOTS_OF_DONE_5);
            assert_eq!(responses[2], done);
            assert_eq!(responses[3], [5, 0, 1, 0, 7]);
        }
    }

    #[test]
    fn judged_images() {
        let extended = [JUDGE, 0, 0x81, 0x45, 0x00, 0xC0, 0x10, 0x07];
        assert_eq!(last(&[&extended]), [5, 0, 5, 0, 0, 1, 5, 0, 0, 2, 3, 0]);
        let single = [JUDGE, 1, 0x96, 0xE3, 7, 8, 9];
        assert_eq!(last(&[&single]), [5, 0, 2, 0, 1, 2, 22, 1, 0, 0, 3, 0]);
        let end = [JUDGE, 1, 0x96, 0xC3, 7, 8, 9];
        assert_eq!(last(&[&end]), [5, 0, 3, 0, 1, 2, 22, 1, 0, 0, 2, 7]);
        let over_8 = [JUDGE, 1, 0x96, 0x8C, 7, 8, 9, 10, 11, 12, 13, 14];
        assert_eq!(last(&[&over_8]), [5, 0, 3, 0, 1, 2, 22, 1, 0, 0, 0, 7]);
        assert_eq!(last(&[&over_8[..11]]), [4, 0, 4, 0]);
        let long = [JUDGE, 1, 0x96, 0xE2, 7, 8, 9];
        assert_eq!(last(&[&long]), [4, 0, 25, 0]);
        assert_eq!(last(&[&[JUDGE, 0]]), [4, 0, 1, 0]);
    }

    #[test]
    fn what_is_no_request_has_an_empty_response() {
        let none: [&[u8]; 31] = [
            &[],
            &[0],
            &[JUDGE],
            &[JUDGE, 2, 0x96, 0xE0],
            &[14, 1],
            &[30],
            &[31],
            &[255, 0],
            &[NEW],
            &[NEW, 2],
            &[NEW, 1, 0],
            &[OPEN, 0, 2, 0, 0, 0, 0, 0],
            &[OPEN, 0, 0, 0, 0, 0, 0],
            &[OPEN, 0, 0, 0, 0, 0, 0, 0, 0],
            &[CLOSE],
            &[CLOSE, 0, 0],
            &[RECEIVE],
            &[READ],
            &[COUNT, 2, 0, 0, 0, 0, 0, 0, 0, 1],
            &[COUNT, 0, 0, 0, 0, 1],
            &[COUNT],
            &[PIECE, 0, 0, 0, 0, 0, 0, 0, 0],
            &[PIECE, 2, 0, 0, 0, 0, 0, 0, 0, 9],
            &[SLOT, 16, 1, 0, 0, 0, 0, 0, 0, 0, 0, 0],
            &[SLOT, 0, 4, 0, 0, 0, 0, 0, 0, 0, 0, 0],
            &[SLOT, 0, 0, 0, 0, 0, 2, 0, 0, 0, 0, 0],
            &[FILL, 0],
            &[FILL, 0, 0, 0],
            &[FRONT],
            &[FRONT, 2],
            &[FRONT, 0, 0],
        ];
        for request in none {
            let responses = run(&[OPEN_5, request, RECEIVE_5]);
            assert_eq!(responses[1], [], "{request:?}");
            let after = with_slots([1, 0, 1, 0], &SLOTS_OF_DONE_5);
            assert_eq!(responses[2], after, "{request:?}");
        }
    }

    /// An input that gives one part a read and notes how many bytes of
    /// output there were before it.
    struct Parts<'a> {
        parts: std::slice::Iter<'a, &'a [u8]>,
        written: &'a Cell<usize>,
        before: &'a RefCell<Vec<usize>>,
    }

    impl Read for Parts<'_> {
        fn read(&mut self, buffer: &mut [u8]) -> io::Result<usize> {
            self.before.borrow_mut().push(self.written.get());
            let part = self.parts.next().copied().unwrap_or_default();
            buffer[..part.len()].copy_from_slice(part);
            Ok(part.len())
        }
    }

    struct Counted<'a>(&'a Cell<usize>);

    impl Write for Counted<'_> {
        fn write(&mut self, bytes: &[u8]) -> io::Result<usize> {
            self.0.set(self.0.get() + bytes.len());
            Ok(bytes.len())
        }

        fn flush(&mut self) -> io::Result<()> {
            Ok(())
        }
    }

    #[test]
    fn responses_do_not_wait_for_more_input() {
        // Requests with a response of two bytes each: two, a half and a half, one and a part.
        let parts: [&[u8]; 4] = [&[0, 0, 0, 1, 0], &[0, 2, 0], &[0], &[0, 0, 0]];
        let (written, before) = (Cell::new(0), RefCell::default());
        let input = Parts {
            parts: parts.iter(),
            written: &written,
            before: &before,
        };
        calls(input, Counted(&written)).unwrap();
        assert_eq!(before.into_inner(), [0, 4, 4, 6, 8]);
    }

    #[test]
    fn a_request_cut_off_has_no_response() {
        let mut input = vec![0, 2, NEW, 0];
        for tail in [&[0][..], &[0, 2], &[0, 2, NEW]] {
            input.truncate(4);
            input.extend_from_slice(tail);
            let mut output = Vec::new();
            calls(&input[..], &mut output).unwrap();
            assert_eq!(responses(&output).len(), 1, "{tail:?}");
        }
    }
}
