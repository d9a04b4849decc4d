//! The records of a trace: length, version, bus and image.

use std::io::{BufReader, Read};

use crate::input::fill;

/// The only version of a record.
const VERSION: u8 = 1;

/// The shortest record: version and bus, and an image of no bytes.
const SHORTEST: usize = 2;

/// The longest record: version and bus, and an image of 13 bytes.
const LONGEST: usize = 15;

const BUFFER_SIZE: usize = 64 * 1024;

/// What comes next in a trace.
#[derive(Clone, Copy, Debug, PartialEq, Eq)]
pub enum Next<'a> {
    /// A sound record, its bus 0 or 1 and its image not judged yet.
    Record { bus: u8, image: &'a [u8] },
    /// A record of another form, or one inside which the input ends.
    Damaged,
    /// The end of the input, between two records.
    End,
}

/// Reads a trace record by record, in constant memory.
pub struct Trace<R> {
    input: BufReader<R>,
    record: [u8; LONGEST],
}

impl<R: Read> Trace<R> {
    pub fn new(input: R) -> Trace<R> {
        Trace {
            input: BufReader::with_capacity(BUFFER_SIZE, input),
            record: [0; LONGEST],
        }
    }

    /// Reads the next record. After a damaged one there is nothing to go on
    /// with, as the place of the next is not known.
    pub fn read(&mut self) -> Next<'_> {
        let mut length = [0; 2];
        match fill(&mut self.input, &mut length) {
            0 => return Next::End,
            1 => return Next::Damaged,
            _ => {}
        }
        let length = usize::from(u16::from_be_bytes(length));
        if !(SHORTEST..=LONGEST).contains(&length) {
            return Next::Damaged;
        }
        let record = &mut self.record[..length];
        if fill(&mut self.input, record) < length {
            return Next::Damaged;
        }
        match record {
            [VERSION, bus @ (0 | 1), image @ ..] => Next::Record { bus: *bus, image },
            _ => Next::Damaged,
        }
    }
}

#[cfg(test)]
mod tests {
    use super::*;
    use crate::input::tests::Failing;

    #[test]
    fn records_one_by_one() {
        let mut input = vec![0, 2, 1, 0, 0, 15, 1, 1];
        input.extend(1..=13);
        let mut trace = Trace::new(&input[..]);
        assert_eq!(trace.read(), Next::Record { bus: 0, image: &[] });
        let image = &[1, 2, 3, 4, 5, 6, 7, 8, 9, 10, 11, 12, 13];
        assert_eq!(trace.read(), Next::Record { bus: 1, image });
        assert_eq!(trace.read(), Next::End);
    }

    #[test]
    fn damaged_records() {
        for input in [
            &[0][..],                  // ends inside the length
            &[0, 7],                   // ends after the length
            &[0, 7, 1],                // ends after the version
            &[0, 7, 1, 0],             // ends after the bus
            &[0, 7, 1, 0, 1, 2, 3, 4], // ends inside the image
            &[0, 0, 1, 0],             // length 0
            &[0, 1, 1, 0],             // length 1
            &[0, 2, 0, 0],             // version 0
            &[0, 2, 2, 0],             // version 2
            &[0, 2, 1, 2],             // bus 2
            &[0, 2, 1, 255],           // bus 255
        ] {
            assert_eq!(Trace::new(input).read(), Next::Damaged, "{input:?}");
        }
    }

    #[test]
    fn lengths_over_15_are_damaged_though_the_bytes_are_there() {
        for length in [16_u16, 255, 256, 258, 0x0F00, 0xFFFF] {
            let mut input = length.to_be_bytes().to_vec();
            input.extend([1, 0]);
            input.resize(2 + usize::from(length), 0);
            assert_eq!(Trace::new(&input[..]).read(), Next::Damaged, "{length}");
        }
    }

    #[test]
    fn a_read_error_is_the_end() {
        let mut trace = Trace::new(Failing::after(&[0, 3, 1, 1, 9]));
        let image = &[9];
        assert_eq!(trace.read(), Next::Record { bus: 1, image });
        assert_eq!(trace.read(), Next::End);
        let mut trace = Trace::new(Failing::after(&[0, 3, 1, 1]));
        assert_eq!(trace.read(), Next::Damaged);
    }
}
