//! Writes the frames of a trace as a log file of candump.

use crate::trace::read_record;
use std::io::{self, BufReader, BufWriter, Read, Write};

/// The first time stamp, in microseconds, and the time from each record to the next.
const FIRST: u64 = 1_700_000_000_000_123;
const STEP: u64 = 130;

/// Writes a line for each record whose image is a CAN frame. A damaged record is an error.
pub fn log(input: impl Read, output: impl Write) -> io::Result<()> {
    let mut input = BufReader::with_capacity(1 << 16, input);
    let mut output = BufWriter::with_capacity(1 << 16, output);
    let mut time = FIRST;
    while let Some((bus, image)) = read_record(&mut input)? {
        if image.len() >= 5 {
            write_line(&mut output, time, bus, &image)?;
        }
        time += STEP;
    }
    output.flush()
}

fn write_line(output: &mut impl Write, time: u64, bus: u8, image: &[u8]) -> io::Result<()> {
    let identifier = u32::from_be_bytes([image[1], image[2], image[3], image[4]]) / 8;
    let (seconds, rest) = (time / 1_000_000, time % 1_000_000);
    write!(output, "({seconds}.{rest:06}) can{bus} {identifier:08X}#")?;
    if image[0] & 0x40 != 0 {
        output.write_all(b"R")?;
    } else {
        for byte in &image[5..] {
            output.write_all(&[digit(byte >> 4), digit(byte & 15)])?;
        }
    }
    output.write_all(b"\n")
}

fn digit(value: u8) -> u8 {
    b"0123456789ABCDEF"[usize::from(value)]
}

#[cfg(test)]
mod tests {
    use super::*;
    use crate::trace::write_record;

    #[test]
    fn writes_frames_and_leaves_out_what_is_none() {
        let mut trace = Vec::new();
        for (bus, image) in [
            (0, &[0x82, 0x45, 0x00, 0xC0, 0x10, 0x07, 0xA0][..]),
            (0, &[0x82, 0x45][..]),
            (1, &[0xC0, 0xFF, 0xFF, 0xC0, 0xF8][..]),
            (1, &[0x80, 0x00, 0x00, 0x40, 0x10][..]),
        ] {
            write_record(&mut trace, bus, image).unwrap();
        }
        let mut lines = Vec::new();
        log(&trace[..], &mut lines).unwrap();
        let text = String::from_utf8(lines).unwrap();
        assert_eq!(
            text,
            "(1700000000.000123) can0 08A01802#07A0\n\
             (1700000000.000383) can1 1FFFF81F#R\n\
             (1700000000.000513) can1 00000802#\n"
        );
    }

    #[test]
    fn damage_is_an_error() {
        assert!(log(&[0, 1][..], Vec::new()).is_err());
    }
}
