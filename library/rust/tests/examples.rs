//! What the examples print.
#![cfg(feature = "alloc")]

#[allow(dead_code)] // main
#[path = "../examples/begin.rs"]
mod begin;
#[allow(dead_code)] // main
#[path = "../examples/packets.rs"]
mod packets;

const BEGIN: &str = "\
piece 0: kept
piece 2: refused 7 STEP: another number than awaited; the stream is idle now
piece 0: kept
piece 1: kept
piece 2: packet of 23 bytes
serial 004127019 lot 07
command: send on bus A
command: send on bus A
command: send on bus B
command: Done
command: a second reply has no exchange
watch: after 15999 ms reset A: false, reset B: false
watch: after 16000 ms reset A: true, reset B: false
";

#[test]
fn begin() {
    let mut out = Vec::new();
    begin::begin(&mut out).unwrap();
    assert_eq!(String::from_utf8(out).unwrap(), BEGIN);
}

/// Of each record with a packet or a refusal: its number, which of them, and the packet's length or the refusal's
/// number.
fn outcomes(text: &str) -> Vec<[&str; 3]> {
    let told = |line| {
        let words: Vec<&str> = str::split(line, [' ', ':', ',']).collect();
        let record = words.iter().find(|word| word.parse::<u32>().is_ok())?;
        let outcome = |pair: &&[&str]| ["packet", "refused"].contains(&pair[0]);
        let pair = words.windows(2).find(outcome)?;
        Some([record, pair[0], pair[1]])
    };
    text.lines().filter_map(told).collect()
}

/// The sample's listing has a line for each record, which ends by what became of it.
#[test]
fn packets() {
    let (trace, listing) = (
        include_bytes!("../../../samples/two-boards.trace"),
        include_str!("../../../samples/two-boards.txt"),
    );
    let mut out = Vec::new();
    packets::list(trace, &mut out).unwrap();
    let out = String::from_utf8(out).unwrap();
    let expected = outcomes(listing);
    assert!(expected.contains(&["8", "packet", "23"]), "{expected:?}");
    assert!(expected.contains(&["16", "refused", "7"]), "{expected:?}");
    assert_eq!(outcomes(&out), expected);
    assert!(out.contains(" 30 30 34 31 32 37 30 31 39"), "{out}");

    let error = packets::list(&trace[..trace.len() - 1], &mut Vec::new()).unwrap_err();
    assert!(error.to_string().ends_with(": damaged"), "{error}");
}
