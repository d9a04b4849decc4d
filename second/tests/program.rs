//! The binary itself: arguments, standard streams and a closed pipe.

use std::io::{Read, Write};
use std::process::{Child, Command, Stdio};

/// One sound record: a single of one byte.
const RECORD: [u8; 10] = [0, 8, 1, 0, 0x81, 0x45, 0x00, 0xC0, 0x10, 0x07];

fn start(arguments: &[&str]) -> Child {
    Command::new(env!("CARGO_BIN_EXE_second"))
        .args(arguments)
        .stdin(Stdio::piped())
        .stdout(Stdio::piped())
        .stderr(Stdio::piped())
        .spawn()
        .unwrap()
}

/// Runs the program on an input that fits into a pipe.
fn run(arguments: &[&str], input: &[u8]) -> (Option<i32>, Vec<u8>, Vec<u8>) {
    let mut child = start(arguments);
    child.stdin.take().unwrap().write_all(input).unwrap();
    let output = child.wait_with_output().unwrap();
    (output.status.code(), output.stdout, output.stderr)
}

#[test]
fn listing_of_one_record() {
    let expected = "\
record bus priority source group dest flag number function count answer
1 A 1 5 0 0 3 0 2 1 packet 1
records 1
";
    let (code, output, errors) = run(&["listing"], &RECORD);
    assert_eq!(code, Some(0));
    assert_eq!(String::from_utf8(output).unwrap(), expected);
    assert!(errors.is_empty());
}

#[test]
fn calls_of_one_request() {
    let (code, output, errors) = run(&["calls"], &[0, 10, 6, 0, 0, 0, 0, 0, 0, 0, 0, 17]);
    assert_eq!(code, Some(0));
    assert_eq!(output, [0, 4, 5, 0, 3, 0]);
    assert!(errors.is_empty());
}

#[test]
fn a_closed_output_ends_the_listing_quietly() {
    let mut child = start(&["listing"]);
    drop(child.stdout.take());
    let mut input = child.stdin.take().unwrap();
    let records = RECORD.repeat(1000);
    // The program stops reading at some point, which breaks this pipe too.
    let stopped = (0..100_000).any(|_| input.write_all(&records).is_err());
    assert!(stopped);
    let mut errors = Vec::new();
    child
        .stderr
        .take()
        .unwrap()
        .read_to_end(&mut errors)
        .unwrap();
    assert!(errors.is_empty());
    assert_eq!(child.wait().unwrap().code(), Some(0));
}

#[test]
fn other_arguments_are_refused() {
    for arguments in [&[][..], &["other"], &["listing", "more"]] {
        let child = start(arguments);
        let output = child.wait_with_output().unwrap();
        assert_eq!(output.status.code(), Some(2), "{arguments:?}");
        assert!(output.stdout.is_empty());
        assert!(!output.stderr.is_empty());
    }
}
