//! Puts the same requests to both programs and compares the responses one by one.

use crate::program;
use crate::request::{encode, name, next_response, Request};
use std::io::{BufReader, Read, Write};
use std::path::Path;
use std::process::Command;

/// Puts the requests to both programs, with `tail` after them, and gives the responses if they are the same.
pub fn both(calls: &Path, requests: &[Request], tail: &[u8]) -> Result<Vec<Vec<u8>>, String> {
    let expected = by_second(requests, tail)?;
    let mut bytes = encode(requests);
    bytes.extend_from_slice(tail);
    program::run(
        &mut Command::new(calls),
        |input| input.write_all(&bytes),
        |output| {
            let mut output = BufReader::new(output);
            compare(&mut output, requests, &expected)?;
            at_end(&mut output)
        },
    )?;
    Ok(expected)
}

/// The responses of the second program, one for each request. `tail` is fed after the requests.
pub fn by_second(requests: &[Request], tail: &[u8]) -> Result<Vec<Vec<u8>>, String> {
    let mut script = encode(requests);
    script.extend_from_slice(tail);
    let mut output = Vec::new();
    second::calls(&script[..], &mut output).map_err(|error| format!("second::calls: {error}"))?;
    let mut rest = &output[..];
    let mut responses = Vec::with_capacity(requests.len());
    while let Some(response) = next_response(&mut rest).map_err(|error| error.to_string())? {
        responses.push(response);
    }
    if responses.len() == requests.len() {
        Ok(responses)
    } else {
        let (gave, asked) = (responses.len(), requests.len());
        Err(format!(
            "second::calls gave {gave} responses to {asked} requests"
        ))
    }
}

/// Takes the program's response to each of the requests and compares it with the second program's.
pub fn compare(
    output: &mut impl Read,
    requests: &[Request],
    expected: &[Vec<u8>],
) -> Result<(), String> {
    for (number, (request, second)) in requests.iter().zip(expected).enumerate() {
        let response = next_response(output)
            .map_err(|error| format!("request {number}: {error}"))?
            .ok_or_else(|| format!("request {number}: the program gave no more responses"))?;
        if response != *second {
            return Err(difference(number, request, &response, second));
        }
    }
    Ok(())
}

/// Refuses if the program writes more than was asked for.
pub fn at_end(output: &mut impl Read) -> Result<(), String> {
    match output.read(&mut [0]) {
        Ok(0) => Ok(()),
        Ok(_) => Err("the program gave more responses than requests".to_string()),
        Err(error) => Err(error.to_string()),
    }
}

fn difference(number: usize, request: &[u8], program: &[u8], second: &[u8]) -> String {
    let operation = name(request.first().copied().unwrap_or(0));
    let same = program.iter().zip(second).take_while(|(a, b)| a == b);
    let from = same.count();
    let (request, program, second) = (hex(request, 0), hex(program, from), hex(second, from));
    format!(
        "request {number}, {operation}: {request}\n  responses differ from byte {from}\n  \
         program: {program}\n  second:  {second}"
    )
}

/// The bytes in hexadecimal; of many, those around a place.
fn hex(bytes: &[u8], place: usize) -> String {
    const MOST: usize = 200;
    let from = if bytes.len() <= MOST {
        0
    } else {
        place.saturating_sub(MOST / 2).min(bytes.len() - MOST)
    };
    let part = &bytes[from..bytes.len().min(from + MOST)];
    let digits: String = part.iter().map(|byte| format!("{byte:02X}")).collect();
    if part.len() == bytes.len() {
        format!("{digits} ({} bytes)", bytes.len())
    } else {
        format!("...{digits}... (from byte {from} of {})", bytes.len())
    }
}

#[cfg(test)]
mod tests {
    use super::*;

    #[test]
    fn finds_a_response_that_differs() {
        let requests = [vec![5, 1], vec![5, 2]];
        let expected = [vec![1, 2], vec![3, 4]];
        let same = [0, 2, 1, 2, 0, 2, 3, 4];
        assert_eq!(compare(&mut &same[..], &requests, &expected), Ok(()));
        let other = [0, 2, 1, 2, 0, 2, 3, 5];
        let found = compare(&mut &other[..], &requests, &expected).unwrap_err();
        assert!(found.contains("request 1, READ: 0502") && found.contains("byte 1"));
        assert!(found.contains("0305") && found.contains("0304"));
        assert!(compare(&mut &same[..4], &requests, &expected).is_err());
        assert!(at_end(&mut &same[..4]).is_err());
    }

    #[test]
    fn shows_the_place_of_long_responses() {
        let mut bytes = vec![0; 1000];
        bytes[700] = 0xAB;
        assert!(hex(&bytes, 700).contains("AB"));
        assert!(hex(&bytes, 999).ends_with("(from byte 800 of 1000)"));
    }
}
