//! The listing program: a trace of extended frames, one line a record.

use std::io::{self, BufWriter, Read, Write};

use crate::format::Format;
use crate::frame::{judge, Frame};
use crate::key::{Fields, Key};
use crate::station::SLOT_COUNT;
use crate::stream::{step, Answer, State};
use crate::trace::{Next, Trace};

const HEADER: &str = "record bus priority source group dest flag number function count answer";

const BUFFER_SIZE: usize = 64 * 1024;

/// Lists the trace on the input, up to its end or its first damaged record.
pub fn listing(input: impl Read, output: impl Write) -> io::Result<()> {
    let mut trace = Trace::new(input);
    let mut output = BufWriter::with_capacity(BUFFER_SIZE, output);
    let mut streams = Streams::new();
    let mut records: u64 = 0;
    writeln!(output, "{HEADER}")?;
    loop {
        match trace.read() {
            Next::Record { bus, image } => {
                records += 1;
                write_record(&mut output, &mut streams, records, bus, image)?;
            }
            Next::Damaged => {
                writeln!(output, "{} stopped", records + 1)?;
                break;
            }
            Next::End => break,
        }
    }
    writeln!(output, "records {records}")?;
    output.flush()
}

/// Writes the line of one record.
fn write_record(
    output: &mut impl Write,
    streams: &mut Streams,
    record: u64,
    bus: u8,
    image: &[u8],
) -> io::Result<()> {
    let letter = if bus == 0 { 'A' } else { 'B' };
    write!(output, "{record} {letter} ")?;
    match judge(Format::Extended, image) {
        Ok(frame) => {
            write_fields(output, &frame)?;
            write_answer(output, streams.receive(bus, &frame))
        }
        Err(refusal) => write_answer(output, Answer::Refused(refusal)),
    }
}

/// Writes the fields of a frame, with a blank after each.
fn write_fields(output: &mut impl Write, frame: &Frame) -> io::Result<()> {
    // An extended image is never judged to hold standard fields.
    if let Fields::Extended {
        priority,
        source,
        group,
        destination,
        function,
    } = frame.fields
    {
        let (flag, number, count) = (frame.flag.bits(), frame.number, frame.count);
        write!(
            output,
            "{priority} {source} {group} {destination} {flag} {number} {function} {count} "
        )?;
    }
    Ok(())
}

/// Writes an answer and ends the line.
fn write_answer(output: &mut impl Write, answer: Answer) -> io::Result<()> {
    let broke = match answer {
        Answer::Packet { length, broke } => {
            write!(output, "packet {length}")?;
            broke
        }
        Answer::Kept { broke } => {
            write!(output, "kept")?;
            broke
        }
        Answer::Filtered => {
            write!(output, "filtered")?;
            false
        }
        Answer::Refused(refusal) => {
            write!(output, "refused {}", refusal.number())?;
            false
        }
    };
    writeln!(output, "{}", if broke { " broke" } else { "" })
}

/// The streams seen so far. Only answers are listed, so no packet bytes are
/// kept, and no one else can make the states unsound.
struct Streams {
    open: Vec<(Key, State)>,
}

impl Streams {
    fn new() -> Streams {
        Streams {
            open: Vec::with_capacity(SLOT_COUNT),
        }
    }

    /// The answer to a frame, whose key is opened if it is new and can be.
    fn receive(&mut self, bus: u8, frame: &Frame) -> Answer {
        let fields = frame.fields;
        let Some(state) = self.stream_of(Key { bus, fields }) else {
            return Answer::Filtered;
        };
        let step = step(*state, frame);
        *state = step.next;
        step.answer
    }

    fn stream_of(&mut self, key: Key) -> Option<&mut State> {
        let known = self.open.iter().position(|(own, _)| *own == key);
        let place = known.unwrap_or(self.open.len());
        if place == SLOT_COUNT {
            return None;
        }
        if known.is_none() {
            self.open.push((key, State::Idle));
        }
        Some(&mut self.open[place].1)
    }
}

#[cfg(test)]
mod tests {
    use super::*;
    use crate::input::tests::Failing;
    use crate::refusal::Refusal;
    use crate::station::{Station, STORE_SIZE};
    use std::io::ErrorKind;
    use std::iter;

    const EXAMPLE: &[u8] = &[
        0x00, 0x08, 0x01, 0x00, 0x81, 0x45, 0x00, 0xC0, 0x10, 0x07, //
        0x00, 0x0F, 0x01, 0x01, 0x88, 0x06, 0x00, 0x40, 0x10, 0x30, 0x30, 0x34, 0x31, 0x32, 0x37,
        0x30, 0x31, //
        0x00, 0x08, 0x01, 0x01, 0x81, 0x06, 0x00, 0x81, 0x10, 0x39, //
        0x00, 0x07, 0x01, 0x00, 0xC0, 0x45, 0x00, 0xC0, 0x10,
    ];

    const EXAMPLE_OUTPUT: &str = "\
record bus priority source group dest flag number function count answer
1 A 1 5 0 0 3 0 2 1 packet 1
2 B 0 6 0 0 1 0 2 8 kept
3 B 0 6 0 0 2 1 2 1 packet 9
4 A refused 3
records 4
";

    fn list(input: impl Read) -> String {
        let mut output = Vec::new();
        listing(input, &mut output).unwrap();
        String::from_utf8(output).unwrap()
    }

    /// The listing's lines after the header.
    fn lines(input: &[u8]) -> Vec<String> {
        let output = list(input);
        let mut lines = output.lines().map(String::from);
        assert_eq!(lines.next().as_deref(), Some(HEADER));
        assert!(output.ends_with('\n'));
        lines.collect()
    }

    fn record(bus: u8, image: &[u8]) -> Vec<u8> {
        let mut record = vec![0, (2 + image.len()) as u8, 1, bus];
        record.extend_from_slice(image);
        record
    }

    /// An extended image from a source, its data bytes all 0.
    fn image(source: u8, flag_and_number: u8, count: u8) -> Vec<u8> {
        let mut image = vec![0x80 | count, source, 0, flag_and_number, 0];
        image.resize(5 + usize::from(count), 0);
        image
    }

    #[test]
    fn the_example_of_document_01() {
        assert_eq!(list(EXAMPLE), EXAMPLE_OUTPUT);
    }

    #[test]
    fn empty_input() {
        assert_eq!(list(&[][..]), format!("{HEADER}\nrecords 0\n"));
    }

    #[test]
    fn damaged_records_stop_the_listing() {
        for damage in [
            &[0, 0][..],    // length 0
            &[0, 1, 1],     // length 1
            &[0, 16, 1, 0], // length over 15
            &[1, 8, 1, 0],  // length over 255
            &[0, 2, 0, 0],  // version 0
            &[0, 2, 2, 0],  // version 2
            &[0, 2, 1, 2],  // bus 2
        ] {
            // Nothing after the damage is read, however sound it looks.
            let input = [&record(0, &image(5, 0xC0, 1)), damage, EXAMPLE].concat();
            let expected = ["1 A 0 5 0 0 3 0 0 1 packet 1", "2 stopped", "records 1"];
            assert_eq!(lines(&input), expected, "{damage:?}");
        }
    }

    #[test]
    fn every_cut_of_the_example_is_listed() {
        let ends = [0, 10, 27, 37, 46];
        for cut in 0..=EXAMPLE.len() {
            let whole = ends.iter().filter(|&&end| end <= cut).count() - 1;
            let mut expected: Vec<String> = EXAMPLE_OUTPUT.lines().map(String::from).collect();
            expected.truncate(1 + whole);
            if !ends.contains(&cut) {
                expected.push(format!("{} stopped", whole + 1));
            }
            expected.push(format!("records {whole}"));
            assert_eq!(lines(&EXAMPLE[..cut]), expected[1..], "cut at {cut}");
        }
    }

    #[test]
    fn a_read_error_counts_as_the_end() {
        assert_eq!(list(Failing::after(EXAMPLE)), EXAMPLE_OUTPUT);
        let stopped = format!("{HEADER}\n1 stopped\nrecords 0\n");
        assert_eq!(list(Failing::after(&EXAMPLE[..9])), stopped);
    }

    #[test]
    fn refused_images_show_record_bus_and_number() {
        let remote = [0xC1, 0x45, 0x00, 0xC0, 0x10, 0x07];
        let form = [0x91, 0x45, 0x00, 0xC0, 0x10, 0x07];
        let piece = [0x81, 0x45, 0x00, 0xC1, 0x10, 0x07];
        let short = [0x82, 0x45, 0x00, 0xC0, 0x10, 0x07];
        let long = [0x80, 0x45, 0x00, 0xC0, 0x10, 0x07];
        let images = [&[][..], &form, &remote, &short, &piece, &long];
        let input: Vec<u8> = images.iter().flat_map(|image| record(1, image)).collect();
        let expected = [
            "1 B refused 1",
            "2 B refused 2",
            "3 B refused 3",
            "4 B refused 4",
            "5 B refused 5",
            "6 B refused 25",
            "records 6",
        ];
        assert_eq!(lines(&input), expected);
    }

    #[test]
    fn codes_over_8_are_listed_as_8() {
        for code in 9..=15 {
            let images = [0x40, 0x01, 0x82, 0xC0].map(|flag_and_number| {
                let mut image = image(9, flag_and_number, 8);
                image[0] = 0x80 | code;
                image
            });
            let mut input: Vec<u8> = images.iter().flat_map(|image| record(0, image)).collect();
            input.extend(record(0, &images[3][..12]));
            let expected = [
                "1 A 0 9 0 0 1 0 0 8 kept",
                "2 A 0 9 0 0 0 1 0 8 kept",
                "3 A 0 9 0 0 2 2 0 8 packet 24",
                "4 A 0 9 0 0 3 0 0 8 packet 8",
                "5 A refused 4",
                "records 5",
            ];
            assert_eq!(lines(&input), expected, "{code}");
        }
    }

    #[test]
    fn images_too_short_or_too_long_open_no_key_and_break_no_packet() {
        let mut input = record(0, &image(63, 0x40, 8));
        let mut refused = Vec::new();
        // The end of the stream under way, and singles of many others.
        let singles = (0..20).map(|source| (source, 0xC0));
        for (source, flag_and_number) in iter::once((63, 0x81)).chain(singles) {
            let mut image = image(source, flag_and_number, 2);
            for (number, length) in [(4, 6), (25, 8)] {
                image.resize(length, 0);
                input.extend(record(0, &image));
                refused.push(format!("{} A refused {number}", refused.len() + 2));
            }
        }
        input.extend(record(0, &image(63, 0x81, 2)));
        input.extend((0..16).flat_map(|source| record(0, &image(source, 0xC0, 0))));
        let lines = lines(&input);
        assert_eq!(lines[1..43], refused);
        assert_eq!(lines[43], "44 A 0 63 0 0 2 1 0 2 packet 10");
        // Sixteen keys are open: that one, and those of fifteen sources.
        assert_eq!(lines[58], "59 A 0 14 0 0 3 0 0 0 packet 0");
        assert_eq!(lines[59], "60 A 0 15 0 0 3 0 0 0 filtered");
    }

    #[test]
    fn broke_orphan_and_step() {
        let images = [
            image(9, 0x81, 2),
            image(9, 0x40, 8),
            image(9, 0x40, 8),
            image(9, 0x02, 8),
            image(9, 0x40, 8),
            image(9, 0xC0, 0),
        ];
        let input: Vec<u8> = images.iter().flat_map(|image| record(0, image)).collect();
        let expected = [
            "1 A 0 9 0 0 2 1 0 2 refused 6",
            "2 A 0 9 0 0 1 0 0 8 kept",
            "3 A 0 9 0 0 1 0 0 8 kept broke",
            "4 A 0 9 0 0 0 2 0 8 refused 7",
            "5 A 0 9 0 0 1 0 0 8 kept",
            "6 A 0 9 0 0 3 0 0 0 packet 0 broke",
            "records 6",
        ];
        assert_eq!(lines(&input), expected);
    }

    #[test]
    fn long_after_256_pieces() {
        let mut input = record(0, &image(9, 0x40, 8));
        for k in 1..257 {
            input.extend(record(0, &image(9, (k % 64) as u8, 8)));
        }
        let lines = lines(&input);
        assert_eq!(lines[255], "256 A 0 9 0 0 0 63 0 8 kept");
        assert_eq!(lines[256], "257 A 0 9 0 0 0 0 0 8 refused 8");
    }

    #[test]
    fn the_seventeenth_key_is_filtered_and_orphans_open_theirs() {
        let mut input = Vec::new();
        for source in 0..17 {
            input.extend(record(0, &image(source, 0x81, 1)));
        }
        input.extend(record(0, &image(15, 0xC0, 1)));
        input.extend(record(1, &image(15, 0xC0, 1)));
        let lines = lines(&input);
        assert_eq!(lines[15], "16 A 0 15 0 0 2 1 0 1 refused 6");
        assert_eq!(lines[16], "17 A 0 16 0 0 2 1 0 1 filtered");
        assert_eq!(lines[17], "18 A 0 15 0 0 3 0 0 1 packet 1");
        assert_eq!(lines[18], "19 B 0 15 0 0 3 0 0 1 filtered");
    }

    #[test]
    fn an_output_error_is_handed_on() {
        struct Closed;
        impl Write for Closed {
            fn write(&mut self, _: &[u8]) -> io::Result<usize> {
                Err(ErrorKind::BrokenPipe.into())
            }
            fn flush(&mut self) -> io::Result<()> {
                Ok(())
            }
        }
        let error = listing(EXAMPLE, Closed).unwrap_err();
        assert_eq!(error.kind(), ErrorKind::BrokenPipe);
    }

    #[test]
    fn streams_answer_as_a_station_does() {
        let mut streams = Streams::new();
        let mut station = Station::new(Format::Extended);
        let mut store = vec![0; STORE_SIZE];
        let mut seed = 1_u32;
        let mut random = |below: u32| {
            seed = seed.wrapping_mul(1_664_525).wrapping_add(1_013_904_223);
            ((seed >> 16) % below) as u8
        };
        for _ in 0..20_000 {
            let (bus, source) = (random(2), random(9));
            let flag_and_number = [0x40, 0xC0, 0x01, 0x02, 0x81, 0x82][usize::from(random(6))];
            let image = image(source, flag_and_number, 8);
            let frame = judge(Format::Extended, &image).unwrap();
            let fields = frame.fields;
            let (opened, place) = station.open(Key { bus, fields });
            assert!(matches!(place, Ok(_) | Err(Refusal::Taken | Refusal::Full)));
            let (next, answer) = opened.receive(bus, &image, &mut store);
            station = next;
            assert_eq!(streams.receive(bus, &frame), answer);
        }
    }
}
