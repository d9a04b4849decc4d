//! Compares the calls of a station, script by script.

use crate::exchange;
use crate::request::{self, answer, encode, judged, name, refused, Request, BY_COUNT};
use crate::script::{Script, CUT_SHORT, LENT_OTHER, MALFORMED, UNSOUND, WHOLE_STORE};
use crate::tally::Tally;
use second::format::Format;
use second::refusal::Refusal;
use std::fs;
use std::path::Path;
use testkit::damage::is_over_8;
use testkit::{keys, FORMATS};

/// Runs both programs on that many scripts and compares their responses one by one.
pub fn compare(calls: &Path, count: u64, seed: u64, keep: Option<&Path>) -> Result<(), String> {
    let mut tally = Tally::requiring(names());
    let mut requests = 0;
    for number in 0..count {
        let script = Script::generate(seed, number);
        compare_one(calls, &script, &mut tally).map_err(|difference| {
            let kept = keep.map_or(String::new(), |file| keep_script(file, &whole(&script)));
            format!("seed {seed}, script {number}, {difference}{kept}")
        })?;
        requests += script.requests.len();
    }
    tally.print();
    tally.check()?;
    println!("equal: {count} scripts, {requests} requests");
    Ok(())
}

fn compare_one(calls: &Path, script: &Script, tally: &mut Tally) -> Result<(), String> {
    let responses = exchange::both(calls, &script.requests, &script.tail)?;
    count_answers(&script.requests, &responses, tally);
    for note in &script.notes {
        tally.count(&row(note.format, note.front, note.what));
    }
    Ok(())
}

/// The script as it is fed.
fn whole(script: &Script) -> Vec<u8> {
    let mut bytes = encode(&script.requests);
    bytes.extend_from_slice(&script.tail);
    bytes
}

/// The name under which something is counted: of receiving, each front by itself.
fn row(format: Format, front: u8, what: &str) -> String {
    let format = keys::name(format);
    match what.starts_with("RECEIVE") {
        true => format!("{format} front {front} {what}"),
        false => format!("{format} {what}"),
    }
}

/// What receiving can answer in a format.
fn received(format: Format) -> Vec<String> {
    let answers = [
        "RECEIVE packet",
        "RECEIVE packet broke",
        "RECEIVE kept",
        "RECEIVE kept broke",
        "RECEIVE filtered",
    ];
    let refusals = [
        Refusal::Length,
        Refusal::Remote,
        Refusal::Count,
        Refusal::Surplus,
        Refusal::Piece,
        Refusal::Orphan,
        Refusal::Step,
        Refusal::Field,
        Refusal::Store,
        Refusal::State,
    ];
    let own: &[Refusal] = match format {
        Format::Extended => &[Refusal::Form, Refusal::Long],
        Format::Standard => &[],
    };
    let refusals = refusals.iter().chain(own);
    let refusals = refusals.map(|&refusal| of_call("RECEIVE", refusal));
    answers
        .map(String::from)
        .into_iter()
        .chain(refusals)
        .collect()
}

fn of_call(call: &str, refusal: Refusal) -> String {
    format!("{call} {}", refused(refusal))
}

/// What is counted of both fronts together: what the other calls can answer, and what the generator knows.
fn others() -> Vec<String> {
    let refusals: [(&str, &[Refusal]); 3] = [
        (
            "OPEN",
            &[
                Refusal::Field,
                Refusal::Taken,
                Refusal::Full,
                Refusal::State,
            ],
        ),
        ("CLOSE", &[Refusal::Closed, Refusal::State]),
        (
            "READ",
            &[
                Refusal::Store,
                Refusal::Closed,
                Refusal::NoPacket,
                Refusal::State,
            ],
        ),
    ];
    let mut names = Vec::new();
    for (call, refusals) in refusals {
        names.push(format!("{call} value"));
        names.extend(refusals.iter().map(|&refusal| of_call(call, refusal)));
    }
    names.extend([MALFORMED, CUT_SHORT, WHOLE_STORE].map(String::from));
    names
}

fn longest(format: Format) -> String {
    format!("RECEIVE packet of {} bytes", format.packet_limit())
}

/// Of images with a count code of 9 to 15: what is said of them.
fn of_code(judged: &str) -> String {
    format!("RECEIVE of a count code 9 to 15: {judged}")
}

fn of_length(length: usize) -> String {
    format!("RECEIVE of an image of {length} bytes")
}

fn names() -> Vec<String> {
    let mut names = Vec::new();
    for format in FORMATS {
        for front in [0, 1] {
            let known = UNSOUND.into_iter().chain([LENT_OTHER]);
            let rows = received(format).into_iter().chain(known.map(String::from));
            names.extend(rows.map(|what| row(format, front, &what)));
            names.push(row(format, front, &longest(format)));
            names.extend(BY_COUNT.map(|judged| row(format, front, &of_code(judged))));
            names.extend((0..=15).map(|length| row(format, front, &of_length(length))));
        }
        names.extend(others().iter().map(|what| row(format, 0, what)));
    }
    names
}

/// What is counted of an image received besides its answer.
fn of_image(format: Format, image: &[u8], response: &[u8]) -> impl Iterator<Item = String> {
    let code = is_over_8(image, format).then(|| judged(response));
    let by_count = code.filter(|judged| BY_COUNT.contains(&judged.as_str()));
    let code = by_count.map(|judged| of_code(&judged));
    code.into_iter().chain([of_length(image.len())])
}

/// Counts the answers of the calls on the station, by the format and the front it has at that time.
fn count_answers(requests: &[Request], responses: &[Vec<u8>], tally: &mut Tally) {
    let (mut format, mut front) = (Format::Extended, 0);
    for (request, response) in requests.iter().zip(responses) {
        match request[..] {
            [request::NEW, 0] => (format, front) = (Format::Extended, 0),
            [request::NEW, 1] => (format, front) = (Format::Standard, 0),
            [request::FRONT, set @ (0 | 1)] => front = set,
            _ => {}
        }
        let operation = request.first().copied().unwrap_or(0);
        let counted = [
            request::OPEN,
            request::CLOSE,
            request::RECEIVE,
            request::READ,
        ];
        if !counted.contains(&operation) || response.is_empty() {
            continue;
        }
        let what = format!("{} {}", name(operation), answer(response));
        tally.count(&row(format, front, &what));
        if operation == request::RECEIVE {
            let what = of_image(format, &request[2..], response);
            what.for_each(|what| tally.count(&row(format, front, &what)));
        }
        let [high, low] = (format.packet_limit() as u16).to_be_bytes();
        if response.starts_with(&[1, high, low]) {
            tally.count(&row(format, front, &longest(format)));
        }
    }
}

/// Writes a script that was found to differ to a file, and says so.
pub fn keep_script(file: &Path, script: &[u8]) -> String {
    match fs::write(file, script) {
        Ok(()) => format!("\n  the script is in {}", file.display()),
        Err(error) => format!("\n  the script can't be written: {error}"),
    }
}

#[cfg(test)]
mod tests {
    use super::*;
    use std::collections::HashSet;

    #[test]
    fn counts_by_format_and_answer() {
        let requests = [
            request::read(0),
            request::front(1),
            request::receive(0, &[2; 15]),
            request::new(Format::Standard),
            request::receive(0, &[]),
            request::front(1),
            request::front(2),
            request::receive(0, &[1]),
        ];
        let value = vec![5, 0, 0, 0];
        let responses = [
            vec![4, 0, 16, 0],
            value.clone(),
            vec![4, 0, 21, 0],
            value.clone(),
            vec![1, 7, 0, 1],
            value,
            Vec::new(),
            vec![4, 0, 1, 0],
        ];
        let names = [
            "extended READ refused 16",
            "extended front 1 RECEIVE refused 21",
            "extended front 1 RECEIVE of an image of 15 bytes",
            "standard front 0 RECEIVE packet broke",
            "standard front 0 RECEIVE packet of 1792 bytes",
            "standard front 1 RECEIVE refused 1",
            "standard front 1 RECEIVE of an image of 1 bytes",
        ];
        let mut tally = Tally::requiring(names.map(str::to_string).to_vec());
        count_answers(&requests, &responses, &mut tally);
        assert_eq!(tally.check(), Ok(()));
    }

    #[test]
    fn counts_codes_over_8() {
        // One of the codes is 8, and one image is refused before its code is looked at.
        let calls = [
            (request::new(Format::Standard), [5, 0, 0, 0]),
            (request::receive(0, &[0x96, 0xEC]), [4, 0, 4, 0]),
            (request::receive(0, &[0x96, 0xE8]), [4, 0, 5, 0]),
            (request::receive(0, &[0x96, 0xEF]), [2, 0, 0, 0]),
            (request::receive(9, &[0x96, 0xEF]), [4, 0, 9, 0]),
        ];
        let (requests, responses): (Vec<_>, Vec<_>) = calls.into_iter().unzip();
        let responses: Vec<Vec<u8>> = responses.iter().map(|answer| answer.to_vec()).collect();
        let is_counted = |judged: &str| {
            let row = row(Format::Standard, 0, &of_code(judged));
            let mut tally = Tally::requiring(vec![row]);
            count_answers(&requests, &responses, &mut tally);
            tally.check().is_ok()
        };
        assert!(is_counted("refused 4") && is_counted("sound"));
        assert!(!is_counted("refused 5") && !is_counted("refused 9"));
    }

    #[test]
    fn asks_for_each_answer_of_each_front_once() {
        let names = names();
        for front in [0, 1] {
            for format in FORMATS {
                let row = row(format, front, &of_call("RECEIVE", Refusal::Step));
                assert_eq!(names.iter().filter(|name| **name == row).count(), 1);
            }
        }
        let different: HashSet<&String> = names.iter().collect();
        assert_eq!(different.len(), names.len());
    }
}
