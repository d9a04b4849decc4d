//! Requests and responses of the script protocol (see PROTOCOL.md).

use second::format::Format;
use second::key::{Fields, Key};
use second::refusal::Refusal;
use std::io::{self, Read};
use testkit::keys::{field_bytes, number};

pub const NEW: u8 = 1;
pub const OPEN: u8 = 2;
pub const CLOSE: u8 = 3;
pub const RECEIVE: u8 = 4;
pub const READ: u8 = 5;
pub const COUNT: u8 = 6;
pub const PIECE: u8 = 7;
pub const SLOT: u8 = 8;
pub const LEND: u8 = 9;
pub const STORE: u8 = 10;
pub const FILL: u8 = 11;
pub const FRONT: u8 = 12;
pub const JUDGE: u8 = 13;

/// The size of the bytes that both programs hold, of which a part is lent.
pub const HELD: usize = 40_000;
/// The size of a store that is not refused.
pub const FULL_STORE: usize = 32_768;

/// A request without its length.
pub type Request = Vec<u8>;

pub fn new(format: Format) -> Request {
    vec![NEW, number(format)]
}

/// Bus, format and five fields. `spare` goes where the fields of standard end and nothing is looked at.
fn key_bytes(key: &Key, spare: u8) -> [u8; 7] {
    let format = number(key.fields.format());
    let fields = field_bytes(&key.fields);
    let mut bytes = [key.bus, format, 0, 0, 0, spare, !spare];
    bytes[2..][..fields.len()].copy_from_slice(&fields);
    bytes
}

pub fn open(key: &Key, spare: u8) -> Request {
    let mut request = vec![OPEN];
    request.extend(key_bytes(key, spare));
    request
}

pub fn close(slot: u8) -> Request {
    vec![CLOSE, slot]
}

pub fn receive(bus: u8, image: &[u8]) -> Request {
    let mut request = vec![RECEIVE, bus];
    request.extend_from_slice(image);
    request
}

pub fn read(slot: u8) -> Request {
    vec![READ, slot]
}

pub fn count(format: Format, size: u64) -> Request {
    let mut request = vec![COUNT, number(format)];
    request.extend(size.to_be_bytes());
    request
}

/// Piece k with these fields.
pub fn piece(fields: &Fields, spare: u8, k: u16, room: u8, packet: &[u8]) -> Request {
    let (bus, fields) = (0, *fields);
    let mut request = vec![PIECE];
    request.extend(&key_bytes(&Key { bus, fields }, spare)[1..]);
    request.extend(k.to_be_bytes());
    request.push(room);
    request.extend_from_slice(packet);
    request
}

/// The kinds of slot.
pub const CLOSED: u8 = 0;
pub const IDLE: u8 = 1;
pub const COLLECTING: u8 = 2;
pub const DONE: u8 = 3;

pub fn slot(place: usize, kind: u8, h: u16, key: &Key, spare: u8) -> Request {
    let mut request = vec![SLOT, place as u8, kind];
    request.extend(h.to_be_bytes());
    request.extend(key_bytes(key, spare));
    request
}

pub fn lend(size: usize) -> Request {
    let mut request = vec![LEND];
    request.extend((size as u16).to_be_bytes());
    request
}

pub fn store(from: usize, size: usize) -> Request {
    let mut request = vec![STORE];
    request.extend((from as u16).to_be_bytes());
    request.extend((size as u16).to_be_bytes());
    request
}

pub fn fill(seed: u8, step: u8) -> Request {
    vec![FILL, seed, step]
}

/// Which front receives from here on: the station itself (0), or the one over a lent table (1).
pub fn front(number: u8) -> Request {
    vec![FRONT, number]
}

pub fn judge(format: Format, image: &[u8]) -> Request {
    let mut request = vec![JUDGE, number(format)];
    request.extend_from_slice(image);
    request
}

/// The requests as they are fed to a program.
pub fn encode(requests: &[Request]) -> Vec<u8> {
    let mut bytes = Vec::new();
    for request in requests {
        bytes.extend((request.len() as u16).to_be_bytes());
        bytes.extend_from_slice(request);
    }
    bytes
}

/// The next response, or nothing where the output ends.
pub fn next_response(output: &mut impl Read) -> io::Result<Option<Vec<u8>>> {
    let mut length = [0; 2];
    if output.read(&mut length[..1])? == 0 {
        return Ok(None);
    }
    output.read_exact(&mut length[1..])?;
    let mut response = vec![0; usize::from(u16::from_be_bytes(length))];
    output.read_exact(&mut response)?;
    Ok(Some(response))
}

/// The name of an operation.
pub fn name(operation: u8) -> &'static str {
    match operation {
        NEW => "NEW",
        OPEN => "OPEN",
        CLOSE => "CLOSE",
        RECEIVE => "RECEIVE",
        READ => "READ",
        COUNT => "COUNT",
        PIECE => "PIECE",
        SLOT => "SLOT",
        LEND => "LEND",
        STORE => "STORE",
        FILL => "FILL",
        FRONT => "FRONT",
        JUDGE => "JUDGE",
        _ => "unknown",
    }
}

/// A refusal as an answer, in words.
pub fn refused(refusal: Refusal) -> String {
    format!("refused {}", refusal.number())
}

/// The answer at the head of a response, in words. A value is not told.
pub fn answer(response: &[u8]) -> String {
    let &[kind, high, low, broke, ..] = response else {
        return "no answer".to_string();
    };
    let word = match kind {
        1 => "packet".to_string(),
        2 => "kept".to_string(),
        3 => "filtered".to_string(),
        4 => format!("refused {}", u16::from_be_bytes([high, low])),
        5 => "value".to_string(),
        _ => format!("kind {kind}"),
    };
    match broke {
        0 => word,
        _ => word + " broke",
    }
}

/// What an image with a count code of 9 to 15 can be judged to be once its count is looked at. None is too long for it:
/// nine data bytes are refused before.
pub const BY_COUNT: [&str; 3] = ["sound", "refused 4", "refused 5"];

/// What the answer to an image that is judged or received says of the image, in words: "sound", or its refusal.
pub fn judged(response: &[u8]) -> String {
    match response {
        // These refuse a sound image: ORPHAN, STEP and LONG.
        [4, 0, 6..=8, ..] => "sound".to_string(),
        [4, ..] => answer(response),
        _ => "sound".to_string(),
    }
}

#[cfg(test)]
mod tests {
    use super::*;

    #[test]
    fn requests_have_the_sizes_of_the_protocol() {
        let fields = Fields::Standard {
            priority: 1,
            address: 2,
            side: 1,
        };
        let key = Key { bus: 1, fields };
        assert_eq!(open(&key, 9), [2, 1, 1, 1, 2, 1, 9, 246]);
        assert_eq!(slot(3, DONE, 258, &key, 0)[..6], [8, 3, 3, 1, 2, 1]);
        assert_eq!(slot(3, DONE, 258, &key, 0).len(), 12);
        assert_eq!(
            piece(&fields, 9, 258, 13, &[5])[..],
            [7, 1, 1, 2, 1, 9, 246, 1, 2, 13, 5]
        );
        assert_eq!(
            count(Format::Extended, 2049),
            [6, 0, 0, 0, 0, 0, 0, 0, 8, 1]
        );
        assert_eq!(store(0, HELD), [10, 0, 0, 0x9C, 0x40]);
        assert_eq!(lend(FULL_STORE), [9, 0x80, 0]);
        assert_eq!(fill(3, 5), [11, 3, 5]);
        assert_eq!(front(1), [12, 1]);
        assert_eq!(judge(Format::Standard, &[5, 6]), [13, 1, 5, 6]);
    }

    #[test]
    fn encodes_and_splits() {
        let requests = vec![new(Format::Standard), Vec::new(), fill(7, 1)];
        let bytes = encode(&requests);
        let mut rest = &bytes[..];
        for request in &requests {
            assert_eq!(next_response(&mut rest).unwrap().as_ref(), Some(request));
        }
        assert_eq!(next_response(&mut rest).unwrap(), None);
        assert!(next_response(&mut &bytes[..3]).is_err());
    }

    #[test]
    fn reads_answers() {
        assert_eq!(answer(&[1, 0, 9, 1, 0]), "packet broke");
        assert_eq!(answer(&[4, 0, 21, 0]), refused(Refusal::State));
        assert_eq!(answer(&[]), "no answer");
    }

    #[test]
    fn tells_sound_images() {
        for response in [[1, 0, 8, 1], [2, 0, 0, 0], [3, 0, 0, 0], [5, 0, 5, 0]] {
            assert_eq!(judged(&response), "sound");
        }
        for refusal in Refusal::ALL {
            let of_sound = [Refusal::Orphan, Refusal::Step, Refusal::Long].contains(refusal);
            let sound = judged(&[4, 0, refusal.number(), 0]) == "sound";
            assert_eq!(sound, of_sound, "{refusal:?}");
        }
        assert_eq!(judged(&[4, 0, 4, 0]), "refused 4");
        assert_eq!(judged(&[4, 0, 25, 0]), "refused 25");
    }
}
