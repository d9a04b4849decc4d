//! Compares both receiving fronts with the second program, on generated traces.

use crate::calls::keep_script;
use crate::exchange;
use crate::observe::answers;
use crate::program::{self, drip};
use crate::request::{self, answer, encode, judged, name, refused, Request, BY_COUNT, FULL_STORE};
use crate::tally::Tally;
use crate::trace::{read_record, Trace};
use second::format::Format;
use second::interface::fields_of;
use second::key::Key;
use second::refusal::Refusal;
use std::io::BufReader;
use std::path::Path;
use std::process::Command;
use testkit::damage::is_over_8;
use testkit::Random;

/// The station's own, and the one over a lent table.
const FRONTS: [u8; 2] = [0, 1];

const SMALL_PARTS: &str = "input: written in small parts";

/// Has the program receive the records of that many traces and compares each response with the second program's.
pub fn compare(calls: &Path, count: u64, seed: u64, keep: Option<&Path>) -> Result<(), String> {
    let mut tally = Tally::requiring(names());
    let mut records = 0;
    for number in 0..count {
        let trace = Trace::generate(seed, number);
        let part = part_size(&trace, &mut Random::of_item(!seed, number));
        let told = |difference| format!("seed {seed}, trace {number}: {difference}");
        for front in FRONTS {
            let script = script(&trace, front).map_err(told)?;
            compare_one(calls, &script, part, &mut tally).map_err(|difference| {
                let bytes = encode(&script.requests);
                let kept = keep.map_or(String::new(), |file| keep_script(file, &bytes));
                told(format!("front {front}: {difference}{kept}"))
            })?;
        }
        records += trace.records;
    }
    tally.print();
    tally.check()?;
    println!("equal: {count} traces, {records} records, at each front");
    Ok(())
}

fn names() -> Vec<String> {
    let mut names = vec![SMALL_PARTS.to_string()];
    for front in FRONTS {
        let received = answers().into_iter();
        names.extend(received.map(|answer| row(front, request::RECEIVE, &answer)));
        let codes = BY_COUNT.map(of_code);
        names.extend(codes.map(|what| row(front, request::RECEIVE, &what)));
        // A key is new, open already, or all slots are taken.
        let opened = [
            "value".into(),
            refused(Refusal::Taken),
            refused(Refusal::Full),
        ];
        names.extend(opened.map(|answer| row(front, request::OPEN, &answer)));
    }
    names
}

fn row(front: u8, operation: u8, answer: &str) -> String {
    format!("front {front} {} {answer}", name(operation))
}

/// Of images with a count code of 9 to 15: what is said of them.
fn of_code(judged: &str) -> String {
    format!("of a count code 9 to 15: {judged}")
}

/// In how large parts a script is handed over: whole, or some of the short ones in small parts, because it takes
/// time.
fn part_size(trace: &Trace, random: &mut Random) -> usize {
    if trace.bytes.len() < 4000 && random.chance(100) {
        random.pick(&[1, 2, 3, 7, 16])
    } else {
        usize::MAX
    }
}

fn compare_one(
    calls: &Path,
    script: &Script,
    part: usize,
    tally: &mut Tally,
) -> Result<(), String> {
    let requests = &script.requests;
    let expected = exchange::by_second(requests, &[])?;
    check_listed(script, &expected)?;
    let bytes = encode(requests);
    program::run(
        &mut Command::new(calls),
        |input| drip(input, &bytes, part),
        |output| {
            let mut output = BufReader::new(output);
            exchange::compare(&mut output, requests, &expected)?;
            exchange::at_end(&mut output)
        },
    )?;
    for (request, response) in requests.iter().zip(&expected) {
        if [request::OPEN, request::RECEIVE].contains(&request[0]) {
            tally.count(&row(script.front, request[0], &answer(response)));
        }
        if request[0] == request::RECEIVE && is_over_8(&request[2..], Format::Extended) {
            let judged = judged(response);
            if BY_COUNT.contains(&judged.as_str()) {
                tally.count(&row(script.front, request::RECEIVE, &of_code(&judged)));
            }
        }
    }
    if part < usize::MAX {
        tally.count(SMALL_PARTS);
    }
    Ok(())
}

/// The requests for a trace, and what the second program's listing says of each record.
struct Script {
    front: u8,
    requests: Vec<Request>,
    listed: Vec<String>,
}

/// Receives each whole record at that front, after opening its key as a listing does, and asks for the store.
fn script(trace: &Trace, front: u8) -> Result<Script, String> {
    let listing = by_second(&trace.bytes)?;
    let records = records_of(&listing)?;
    let mut requests = vec![request::new(Format::Extended), request::front(front)];
    let mut rest = &trace.bytes[..];
    for record in &records {
        let (bus, image) = match read_record(&mut rest) {
            Ok(Some(found)) if found.0 == record.bus => found,
            _ => return Err(format!("second: no such record: {:?}", record.line)),
        };
        if let Some(fields) = record.fields {
            let fields = fields_of(Format::Extended, &fields).expect("five fields");
            requests.push(request::open(&Key { bus, fields }, 0));
        }
        requests.push(request::receive(bus, &image));
    }
    if records.len() != trace.records {
        let (listed, made) = (records.len(), trace.records);
        return Err(format!(
            "second: {listed} records, but the trace has {made}"
        ));
    }
    requests.push(request::store(0, FULL_STORE));
    let listed = records.iter().map(|record| record.answer.to_string());
    Ok(Script {
        front,
        listed: listed.collect(),
        requests,
    })
}

fn by_second(trace: &[u8]) -> Result<String, String> {
    let mut output = Vec::new();
    second::listing(trace, &mut output).map_err(|error| format!("second::listing: {error}"))?;
    String::from_utf8(output).map_err(|_| "the listing is no text".to_string())
}

/// A record as the second program lists it.
#[derive(Debug, PartialEq)]
struct Record<'a> {
    line: &'a str,
    bus: u8,
    /// Of an image that is a frame: priority, source, group, destination and function.
    fields: Option<[u8; 5]>,
    answer: &'a str,
}

impl<'a> Record<'a> {
    /// Takes a line apart. A line that is no record's gives nothing.
    fn parse(line: &'a str) -> Option<Record<'a>> {
        let (_, rest) = line.split_once(' ')?;
        let (bus, rest) = rest.split_once(' ')?;
        let bus = match bus {
            "A" => 0,
            "B" => 1,
            _ => return None,
        };
        // An image that is no frame has no fields to show.
        let (fields, answer) = match rest.starts_with("refused ") {
            true => (None, rest),
            false => {
                let words: Vec<&str> = rest.splitn(9, ' ').collect();
                let &[p, s, g, d, _, _, f, _, answer] = &words[..] else {
                    return None;
                };
                (Some(numbers([p, s, g, d, f])?), answer)
            }
        };
        Some(Record {
            line,
            bus,
            fields,
            answer,
        })
    }
}

fn numbers(words: [&str; 5]) -> Option<[u8; 5]> {
    let mut numbers = [0; 5];
    for (number, word) in numbers.iter_mut().zip(words) {
        *number = word.parse().ok()?;
    }
    Some(numbers)
}

/// The records of a listing. One whose last line doesn't say how many it has was not understood.
fn records_of(listing: &str) -> Result<Vec<Record<'_>>, String> {
    let lines = listing.lines().skip(1);
    let records: Vec<Record> = lines.map_while(Record::parse).collect();
    let last = listing.lines().last().unwrap_or_default();
    let count = records.len();
    if last == format!("records {count}") {
        Ok(records)
    } else {
        Err(format!(
            "second: {count} lines of records, and last {last:?}"
        ))
    }
}

/// Refuses where a record was received with another answer than the listing says. What the program answers is
/// compared with these responses.
fn check_listed(script: &Script, responses: &[Vec<u8>]) -> Result<(), String> {
    let calls = script.requests.iter().zip(responses);
    let received = calls.filter(|call| call.0[0] == request::RECEIVE);
    let answers: Vec<String> = received.map(|call| as_listed(call.1)).collect();
    if answers == script.listed {
        return Ok(());
    }
    let pairs = answers.iter().zip(&script.listed);
    let place = pairs
        .take_while(|(answer, listed)| answer == listed)
        .count();
    let (answer, listed) = (answers.get(place), script.listed.get(place));
    Err(format!(
        "record {}\n  second calls: {answer:?}\n  second listing: {listed:?}",
        place + 1
    ))
}

/// The answer of a response as a listing shows it: packets with their length.
fn as_listed(response: &[u8]) -> String {
    let words = answer(response);
    match *response {
        [1, high, low, ..] => {
            let length = u16::from_be_bytes([high, low]);
            words.replacen("packet", &format!("packet {length}"), 1)
        }
        _ => words,
    }
}

#[cfg(test)]
mod tests {
    use super::*;
    use crate::trace::write_record;

    const LISTING: &str = "header\n1 B 0 6 0 0 1 0 2 8 kept\n2 A refused 3\n\
                           3 B 0 6 0 0 3 0 2 8 packet 8 broke\n4 stopped\nrecords 3\n";

    /// A start and a single of one stream, an image that is no frame between them, and a damaged record.
    fn trace() -> Trace {
        let mut bytes = Vec::new();
        let start = [0x88, 6, 0, 0x40, 0x10, 1, 2, 3, 4, 5, 6, 7, 8];
        let single = [0x88, 6, 0, 0xC0, 0x10, 1, 2, 3, 4, 5, 6, 7, 8];
        for (bus, image) in [
            (1, &start[..]),
            (0, &[0xC0, 6, 0, 0xC0, 0x10]),
            (1, &single),
        ] {
            write_record(&mut bytes, bus, image).unwrap();
        }
        bytes.extend([0, 1]);
        Trace {
            bytes,
            records: 3,
            damage: Some("length 1"),
            notes: Vec::new(),
            lengths: [0; 14],
            over_8: vec![false; 3],
        }
    }

    #[test]
    fn takes_lines_apart() {
        let parts = |line| Record::parse(line).map(|r| (r.bus, r.fields, r.answer));
        let frame = "12 B 1 5 7 9 2 1 2 1 packet 9 broke";
        let fields = Some([1, 5, 7, 9, 2]);
        assert_eq!(parts(frame), Some((1, fields, "packet 9 broke")));
        assert_eq!(parts("4 A refused 3"), Some((0, None, "refused 3")));
        for line in [
            "4 stopped",
            "records 4",
            "",
            "4 A 1 5 0 0 2 1 2 1",
            "4 C refused 3",
            "4 A 1 5 0 0 2 1 x 1 kept",
        ] {
            assert_eq!(parts(line), None, "{line}");
        }
    }

    #[test]
    fn refuses_a_listing_it_does_not_understand() {
        assert_eq!(records_of("header\nrecords 0\n"), Ok(Vec::new()));
        assert_eq!(records_of(LISTING).unwrap().len(), 3);
        assert!(records_of("header\n1 A refused 3\nrecords 2\n").is_err());
        assert!(records_of("header\n1 A\n2 A refused 3\nrecords 2\n").is_err());
        assert!(records_of("header\n1 A refused 3\n").is_err());
    }

    #[test]
    fn opens_the_key_of_each_frame_and_receives_every_record() {
        let script = script(&trace(), 1).unwrap();
        let open = vec![request::OPEN, 1, 0, 0, 6, 0, 0, 2];
        let start = request::receive(1, &[0x88, 6, 0, 0x40, 0x10, 1, 2, 3, 4, 5, 6, 7, 8]);
        assert_eq!(script.requests[..2], [vec![request::NEW, 0], vec![12, 1]]);
        assert_eq!(script.requests[2..4], [open.clone(), start]);
        assert_eq!(script.requests[4][..2], [request::RECEIVE, 0]);
        assert_eq!(script.requests[5], open);
        assert_eq!(script.requests[6][..2], [request::RECEIVE, 1]);
        assert_eq!(script.requests[7..], [request::store(0, 32_768)]);
        assert_eq!(script.listed, ["kept", "refused 3", "packet 8 broke"]);
    }

    #[test]
    fn refuses_a_trace_with_another_number_of_records() {
        let mut trace = trace();
        trace.records = 4;
        assert!(script(&trace, 1).is_err());
    }

    #[test]
    fn tells_a_record_that_is_answered_otherwise() {
        let mut script = script(&trace(), 1).unwrap();
        let responses = exchange::by_second(&script.requests, &[]).unwrap();
        assert_eq!(check_listed(&script, &responses), Ok(()));
        script.listed[2] = "packet 8".to_string();
        let found = check_listed(&script, &responses).unwrap_err();
        assert!(found.starts_with("record 3\n") && found.contains("packet 8 broke"));
        script.listed.truncate(2);
        let found = check_listed(&script, &responses).unwrap_err();
        assert!(found.starts_with("record 3\n") && found.contains("None"));
    }

    #[test]
    fn shows_answers_as_a_listing_does() {
        for (response, shown) in [
            ([1, 8, 0, 0], "packet 2048"),
            ([1, 0, 9, 1], "packet 9 broke"),
            ([2, 0, 0, 1], "kept broke"),
            ([3, 0, 0, 0], "filtered"),
            ([4, 0, 7, 0], "refused 7"),
        ] {
            assert_eq!(as_listed(&response), shown);
        }
    }
}
