//! Compares responses that fill the program's output to its last byte, or all but.

use crate::exchange;
use crate::program;
use crate::request::{encode, fill, read, store, Request, HELD};
use std::io::{BufReader, Write};
use std::path::Path;
use std::process::Command;
use std::sync::mpsc;

/// The program's output. It is written out when no whole request is left, or when a response of all bytes might not
/// have room in it.
const OUTPUT: usize = 131_072;

/// How much of the output is filled when all bytes are asked for, whose response fills it.
const FILLED: usize = OUTPUT - 2 - HELD;

/// Puts a script to both programs for each of these: all bytes are asked for when they just have room, with a
/// byte to spare, and when they have none, so that what is filled is written out before.
pub fn compare(calls: &Path) -> Result<(), String> {
    let mut requests = 0;
    for filled in [FILLED, FILLED - 1, FILLED + 1] {
        let script = script(filled);
        compare_one(calls, &script)
            .map_err(|difference| format!("{filled} bytes, then all: {difference}"))?;
        requests += script.len();
    }
    println!("equal: 3 scripts, {requests} requests");
    Ok(())
}

/// The input stays open until the last response has come: none may wait for more input.
fn compare_one(calls: &Path, script: &[Request]) -> Result<(), String> {
    let expected = exchange::by_second(script, &[])?;
    let bytes = encode(script);
    let (last, came) = mpsc::channel::<()>();
    program::run(
        &mut Command::new(calls),
        // In one write and short, so that one read gets all of it.
        move |input| {
            input.write_all(&bytes)?;
            came.recv().ok();
            Ok(())
        },
        move |output| {
            let mut output = BufReader::new(output);
            exchange::compare(&mut output, script, &expected)?;
            drop(last);
            exchange::at_end(&mut output)
        },
    )
}

/// Responses of so many bytes with their lengths, then one of all bytes, then some more.
fn script(filled: usize) -> Vec<Request> {
    // FILL has a response of 6 bytes, and each of the others 2 before its bytes.
    let rest = filled - 6 - 2 * (2 + HELD) - 2;
    vec![
        fill(7, 3),
        store(0, HELD),
        store(0, HELD),
        store(5, rest),
        store(0, HELD),
        store(11, 300),
        fill(1, 255),
        read(0),
        store(0, HELD),
    ]
}

#[cfg(test)]
mod tests {
    use super::*;

    #[test]
    fn the_fifth_response_fills_the_output() {
        let responses = exchange::by_second(&script(FILLED), &[]).unwrap();
        let sizes: Vec<usize> = responses.iter().map(|r| 2 + r.len()).collect();
        assert_eq!(sizes[..4].iter().sum::<usize>(), 91_070);
        assert_eq!(sizes[..5].iter().sum::<usize>(), 131_072);
        assert!(sizes.len() > 5);
        // Each of them is begun: the longest has room after those before it.
        for count in 0..5 {
            let filled: usize = sizes[..count].iter().sum();
            assert!(filled + 2 + HELD <= OUTPUT);
        }
        assert!(sizes[..6].iter().sum::<usize>() > OUTPUT);
    }

    #[test]
    fn a_byte_less_and_a_byte_more() {
        for filled in [FILLED - 1, FILLED + 1] {
            let responses = exchange::by_second(&script(filled), &[]).unwrap();
            let before: usize = responses[..4].iter().map(|r| 2 + r.len()).sum();
            assert_eq!(before, filled);
        }
    }

    #[test]
    fn bytes_differ_and_a_pipe_takes_the_script_at_once() {
        let script = script(FILLED);
        let responses = exchange::by_second(&script, &[]).unwrap();
        assert_eq!(responses[4][..4], [7, 10, 13, 16]);
        assert_ne!(responses[4], responses[8]);
        assert!(responses.iter().all(|response| !response.is_empty()));
        assert!(encode(&script).len() < 4096);
    }
}
