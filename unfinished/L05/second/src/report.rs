//! The report program: how many images in trace files had each answer (L5 of
//! document 02).

use std::fs::File;
use std::io::{self, Read, Write};
use std::os::unix::ffi::OsStrExt;
use std::path::Path;

use crate::format::Format;
use crate::frame::judge;
use crate::key::Key;
use crate::station::{Station, STORE_SIZE};
use crate::tally::{name, Tallies};
use crate::trace::{Next, Trace};

/// Writes each tally summed over the files, a line each. A file that can't be
/// opened adds nothing and is named in the errors.
pub fn report(
    files: &[impl AsRef<Path>],
    mut output: impl Write,
    mut errors: impl Write,
) -> io::Result<()> {
    let mut sums = Tallies::new();
    for file in files.iter().map(AsRef::as_ref) {
        match File::open(file) {
            Ok(trace) => sums.add(&tallies_of(trace)),
            Err(error) => {
                // The report is due even where nothing can be said.
                let _ = name_file(&mut errors, file, &error);
            }
        }
    }
    output.write_all(lines(&sums).as_bytes())?;
    output.flush()
}

/// Names a file that can't be opened, by the bytes of its name.
fn name_file(errors: &mut impl Write, file: &Path, error: &io::Error) -> io::Result<()> {
    errors.write_all(file.as_os_str().as_bytes())?;
    writeln!(errors, ": {error}")
}

/// The lines of the report.
fn lines(sums: &Tallies) -> String {
    let sums = sums.0.iter().enumerate();
    sums.map(|(place, sum)| format!("{} {sum}\n", name(place)))
        .collect()
}

/// The tallies of a new station that is fed a trace as the listing is: up to
/// its end or its first damaged record, each new key opened as first seen.
fn tallies_of(input: impl Read) -> Tallies {
    let mut trace = Trace::new(input);
    let mut station = Station::new(Format::Extended);
    let mut store = vec![0; STORE_SIZE];
    while let Next::Record { bus, image } = trace.read() {
        if let Ok(frame) = judge(Format::Extended, image) {
            let fields = frame.fields;
            // Refused where the key is open already, or with sixteen others open.
            (station, _) = station.open(Key { bus, fields });
        }
        (station, _) = station.receive(bus, image, &mut store);
    }
    station.tallies
}

#[cfg(test)]
mod tests {
    use super::*;
    use crate::input::tests::Failing;
    use crate::listing;

    fn record(bus: u8, image: &[u8]) -> Vec<u8> {
        let mut record = vec![0, (2 + image.len()) as u8, 1, bus];
        record.extend_from_slice(image);
        record
    }

    /// An extended image from a source, its data bytes all 0.
    fn image(source: u8, flag_and_number: u8, count: u8) -> Vec<u8> {
        let mut image = vec![0x80 | count, source, 0, flag_and_number, 0];
        image.resize(5 + usize::from(count), 0);
        image
    }

    fn single(source: u8) -> Vec<u8> {
        image(source, 0xC0, 1)
    }

    /// The names and values of those tallies that are not 0.
    fn found(input: impl Read) -> Vec<(String, u64)> {
        let tallies = tallies_of(input).0.into_iter().enumerate();
        let risen = tallies.filter(|&(_, tally)| tally > 0);
        risen.map(|(place, tally)| (name(place), tally)).collect()
    }

    fn expected(tallies: &[(&str, u64)]) -> Vec<(String, u64)> {
        let tallies = tallies.iter();
        tallies
            .map(|&(name, tally)| (name.to_string(), tally))
            .collect()
    }

    /// Images of one stream that have every answer but filtered, each behind
    /// the place of its tally.
    fn every_answer() -> Vec<(usize, Vec<Vec<u8>>)> {
        let start = image(9, 0x40, 8);
        let middle = |k: u16| image(9, (k % 64) as u8, 8);
        let mut form = single(9);
        form[0] |= 0x10;
        let mut remote = single(9);
        remote[0] |= 0x40;
        let surplus = [single(9), vec![0]].concat();
        // 256 pieces, of which the start is the first, fill the area.
        let all_middles = (1..256).map(middle).collect();
        vec![
            (10, vec![middle(1), middle(2)]),
            (2, vec![start.clone()]),
            (3, vec![start.clone(); 3]),
            (2, all_middles),
            (12, vec![middle(256)]),
            (2, vec![start.clone()]),
            (11, vec![middle(2)]),
            (0, vec![single(9); 5]),
            (2, vec![start]),
            (1, vec![single(9)]),
            (5, vec![Vec::new()]),
            (6, vec![form; 2]),
            (7, vec![remote; 3]),
            (8, vec![single(9)[..5].to_vec(); 4]),
            (9, vec![image(9, 0x41, 8)]),
            (13, vec![surplus; 2]),
        ]
    }

    #[test]
    fn the_example_of_document_01() {
        let input: Vec<u8> = [
            record(0, &[0x81, 0x45, 0x00, 0xC0, 0x10, 0x07]),
            record(
                1,
                &[
                    0x88, 0x06, 0, 0x40, 0x10, 0x30, 0x30, 0x34, 0x31, 0x32, 0x37, 0x30, 0x31,
                ],
            ),
            record(1, &[0x81, 0x06, 0x00, 0x81, 0x10, 0x39]),
            record(0, &[0xC0, 0x45, 0x00, 0xC0, 0x10]),
        ]
        .concat();
        let tallies = [("packet", 2), ("kept", 1), ("refused 3", 1)];
        assert_eq!(found(&input[..]), expected(&tallies));
        // What the input ends inside of is not counted, what came before is.
        for cut in 37..input.len() {
            assert_eq!(found(&input[..cut]), expected(&tallies[..2]));
        }
    }

    #[test]
    fn each_answer_is_counted_under_its_own_name() {
        let mut counts = [0; 14];
        let mut trace = Vec::new();
        for (place, images) in every_answer() {
            counts[place] += images.len() as u64;
            trace.extend(images.iter().flat_map(|image| record(0, image)));
        }
        // With fifteen more keys open, those after them are filtered.
        for source in 20..35 {
            trace.extend(record(0, &single(source)));
            counts[0] += 1;
        }
        for source in 40..46 {
            trace.extend(record(1, &single(source)));
            counts[4] += 1;
        }
        assert!(counts.iter().all(|&count| count > 0));
        assert_eq!(tallies_of(&trace[..]), Tallies(counts));
    }

    #[test]
    fn a_damaged_record_ends_a_file_and_what_came_before_counts() {
        let before = record(0, &single(5));
        for damage in [
            &[0, 0][..],
            &[0, 1, 1],
            &[0, 16, 1, 0],
            &[1, 8, 1, 0],
            &[0, 2, 0, 0],
            &[0, 2, 1, 2],
            &[0],
        ] {
            let trace = match damage {
                // The input ends inside the length.
                [0] => [&before[..], &[0]].concat(),
                _ => [&before, damage, &before].concat(),
            };
            assert_eq!(found(&trace[..]), expected(&[("packet", 1)]), "{damage:?}");
        }
    }

    #[test]
    fn a_read_error_is_the_end() {
        let trace = [record(0, &single(5)), record(1, &single(5))].concat();
        let two = expected(&[("packet", 2)]);
        assert_eq!(found(Failing::after(&trace)), two);
        assert_eq!(found(Failing::after(&[])), []);
    }

    #[test]
    fn lines_are_the_answer_a_space_and_the_sum() {
        let mut sums = Tallies::new();
        sums.0[1] = 7;
        sums.0[13] = u64::MAX;
        let expected = "\
packet 0
packet broke 7
kept 0
kept broke 0
filtered 0
refused 1 0
refused 2 0
refused 3 0
refused 4 0
refused 5 0
refused 6 0
refused 7 0
refused 8 0
refused 25 18446744073709551615
";
        assert_eq!(lines(&sums), expected);
    }

    #[test]
    fn a_trace_has_as_many_of_each_answer_as_its_listing() {
        let mut seed = 7_u32;
        let mut random = |below: u32| {
            seed = seed.wrapping_mul(1_664_525).wrapping_add(1_013_904_223);
            ((seed >> 16) % below) as u8
        };
        let mut trace = Vec::new();
        for _ in 0..20_000 {
            let (bus, source) = (random(2), random(10));
            let flag_and_number = [0x40, 0xC0, 0x01, 0x02, 0x81, 0x82][usize::from(random(6))];
            let mut image = image(source, flag_and_number, 8);
            match random(40) {
                0 => image[0] = random(255),
                1 => drop(image.pop()),
                _ => {}
            }
            trace.extend(record(bus, &image));
        }
        let mut listed = Vec::new();
        listing(&trace[..], &mut listed).unwrap();
        let listed = String::from_utf8(listed).unwrap();
        let mut sums = Tallies::new();
        for (place, sum) in sums.0.iter_mut().enumerate() {
            let own = name(place);
            let lines = listed.lines().skip(1);
            *sum = lines.filter(|line| answer_in(line) == own).count() as u64;
        }
        assert_eq!(sums.0.iter().sum::<u64>(), 20_000);
        assert_eq!(tallies_of(&trace[..]), sums);
    }

    /// The answer in a line of a listing, without the length of a packet.
    fn answer_in(line: &str) -> String {
        let words = line.split(' ').skip(2);
        let words = words.skip_while(|word| word.parse::<u64>().is_ok());
        let words: Vec<&str> = words.collect();
        match words[..] {
            ["packet", _] => "packet".to_string(),
            ["packet", _, "broke"] => "packet broke".to_string(),
            _ => words.join(" "),
        }
    }
}
