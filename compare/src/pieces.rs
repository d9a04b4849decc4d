//! Compares splitting at every packet size of both formats.

use crate::exchange;
use crate::program;
use crate::request::{self, answer, encode, name, refused, Request};
use crate::tally::Tally;
use second::format::Format;
use second::refusal::Refusal;
use second::split;
use std::io::{BufReader, Write};
use std::path::Path;
use std::process::{ChildStdin, Command};
use testkit::keys::{any_fields, bad_fields};
use testkit::{keys, Random, FORMATS};

const SEED: u64 = 43_671;

/// Puts one script to both programs. It is made twice, once to be fed and once to be compared, since it is
/// too large to be held.
pub fn compare(calls: &Path) -> Result<(), String> {
    let mut tally = Tally::requiring(names());
    let mut requests = 0;
    let feed = |input: &mut ChildStdin| {
        for (format, size) in batches() {
            input.write_all(&encode(&batch(format, size)))?;
        }
        Ok(())
    };
    program::run(&mut Command::new(calls), feed, |output| {
        let mut output = BufReader::new(output);
        for (format, size) in batches() {
            let batch = batch(format, size);
            let expected = exchange::by_second(&batch, &[])?;
            exchange::compare(&mut output, &batch, &expected).map_err(|difference| {
                format!("{} packets, size {size}: {difference}", keys::name(format))
            })?;
            for (request, response) in batch.iter().zip(&expected) {
                tally.count(&row(format, request[0], response));
            }
            requests += batch.len();
        }
        exchange::at_end(&mut output)
    })?;
    tally.print();
    tally.check()?;
    println!("equal: 1 script, {requests} requests");
    Ok(())
}

fn row(format: Format, operation: u8, response: &[u8]) -> String {
    format!(
        "{} {} {}",
        keys::name(format),
        name(operation),
        answer(response)
    )
}

fn names() -> Vec<String> {
    let calls: [(&str, &[Refusal]); 2] = [
        ("COUNT", &[Refusal::Size]),
        (
            "PIECE",
            &[Refusal::Field, Refusal::Size, Refusal::Index, Refusal::Room],
        ),
    ];
    let mut names = Vec::new();
    for format in FORMATS.map(keys::name) {
        for (call, refusals) in calls {
            names.push(format!("{format} {call} value"));
            let refusals = refusals.iter().map(|&refusal| refused(refusal));
            names.extend(refusals.map(|refused| format!("{format} {call} {refused}")));
        }
    }
    names
}

/// Every size up to the limit and two more, then some far over it.
fn batches() -> impl Iterator<Item = (Format, usize)> {
    const LARGE: [usize; 15] = [
        2_100,
        4_096,
        16_384,
        65_520,
        0x0001_0008,
        0x0100_0008,
        0x7FFF_FFFF,
        0x8000_0000,
        0xFFFF_FFFF,
        0x0001_0000_0000,
        0x0001_0000_0008,
        0x0001_0000_0000_0008,
        0x7FFF_FFFF_FFFF_FFFF,
        0x8000_0000_0000_0008,
        0xFFFF_FFFF_FFFF_FFFF,
    ];
    FORMATS.into_iter().flat_map(|format| {
        let sizes = (0..=format.packet_limit() + 2).chain(LARGE);
        sizes.map(move |size| (format, size))
    })
}

/// The requests for one size. A packet that no request can hold is only asked about.
fn batch(format: Format, size: usize) -> Vec<Request> {
    let mut random = Random::of_item(SEED ^ u64::from(keys::number(format)), size as u64);
    let mut requests = vec![request::count(format, size as u64)];
    if size > 65_520 {
        return requests;
    }
    let packet = random.bytes(size);
    let count = split::pieces_for(format, size);
    let every = if size > format.packet_limit() + 2 {
        3
    } else {
        count
    };
    for k in 0..=every {
        let fields = any_fields(format, &mut random);
        let room = random.pick(&[13, 13, 13, 14, 20, 255]);
        requests.push(request::piece(
            &fields,
            random.byte(),
            k as u16,
            room,
            &packet,
        ));
    }
    for _ in 0..6 {
        requests.push(tight(format, &packet, &mut random));
    }
    for _ in 0..4 {
        requests.push(wrong(format, &packet, &mut random));
    }
    requests
}

/// A piece with room around the length of its image.
fn tight(format: Format, packet: &[u8], random: &mut Random) -> Request {
    let fields = any_fields(format, random);
    let count = split::pieces_for(format, packet.len());
    let any = random.below(count);
    let k = random.pick(&[0, count - 1, any]);
    let length = split::piece(&fields, packet, k).len() as u8;
    let room = random.pick(&[0, 1, length - 1, length - 1, length, length + 1]);
    request::piece(&fields, random.byte(), k as u16, room, packet)
}

/// A piece with fields out of range, a number too high, little room, or several of these.
fn wrong(format: Format, packet: &[u8], random: &mut Random) -> Request {
    let fields = match random.chance(700) {
        true => bad_fields(format, random),
        false => any_fields(format, random),
    };
    let count = split::pieces_for(format, packet.len());
    let k = random.pick(&[0, count - 1, count, count + 1, 64, 256, 257, 65_535]);
    let room = random.pick(&[0, 4, 9, 12, 13, 13, 13]);
    request::piece(&fields, random.byte(), k as u16, room, packet)
}

#[cfg(test)]
mod tests {
    use super::*;

    #[test]
    fn every_piece_and_one_more_is_asked_for() {
        for (format, size) in [(Format::Extended, 2048), (Format::Standard, 1792)] {
            let batch = batch(format, size);
            let numbers: Vec<u16> = batch[1..258]
                .iter()
                .map(|request| u16::from_be_bytes([request[7], request[8]]))
                .collect();
            assert_eq!(numbers, (0..=256).collect::<Vec<u16>>());
        }
    }

    #[test]
    fn all_sizes_are_there_and_fit_a_request() {
        for format in FORMATS {
            let sizes: Vec<usize> = batches()
                .filter(|batch| batch.0 == format)
                .map(|batch| batch.1)
                .collect();
            assert!((0..=format.packet_limit() + 2).all(|size| sizes.contains(&size)));
            let largest = batch(format, 65_520);
            assert!(largest.iter().all(|request| request.len() <= 65_535));
        }
    }
}
