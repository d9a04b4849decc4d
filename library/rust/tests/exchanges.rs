//! Filters, a master's exchanges, the watch, refusals and releases.

use siljuvatt::{id_of, version, Version, VERSION};
use siljuvatt::{Bus, Filter, Kind, Master, NoRefusal, Refusal, Row, Silent, Step, Watch};

const NEITHER: Result<Silent, Refusal> = silent(false, false);

const fn silent(a: bool, b: bool) -> Result<Silent, Refusal> {
    Ok(Silent { a, b })
}

fn send(bus: Bus) -> Result<Step, Refusal> {
    Ok(Step::Send(bus))
}

#[test]
fn poll_is_sent_once_and_awaits_function_2() {
    let mut master = Master::new();
    assert_eq!(master.start(Kind::Poll, 7), send(Bus::A));
    assert_eq!(master.reply(Bus::A, 7, 4), Err(Refusal::NotAwaited));
    assert_eq!(master.reply(Bus::A, 7, 2), Ok(Step::Done));
    assert_eq!(master.start(Kind::Poll, 7), send(Bus::A));
    assert_eq!(master.timeout(), Ok(Step::GaveUp));
    assert_eq!(
        master.start(Kind::Poll, 7),
        send(Bus::B),
        "the other bus is chosen, and stays so"
    );
}

#[test]
fn data_block_is_sent_twice_on_one_bus() {
    let mut master = Master::new();
    assert_eq!(master.start(Kind::DataBlock, 7), send(Bus::A));
    assert_eq!(master.timeout(), send(Bus::A));
    assert_eq!(master.reply(Bus::A, 7, 2), Err(Refusal::NotAwaited));
    assert_eq!(master.timeout(), Ok(Step::GaveUp));
    assert_eq!(master.start(Kind::DataBlock, 7), send(Bus::B));
    assert_eq!(master.reply(Bus::B, 7, 4), Ok(Step::Done));
}

#[test]
fn command_goes_over_to_the_other_bus_and_back() {
    let mut master = Master::new();
    for (first, other) in [(Bus::A, Bus::B), (Bus::B, Bus::A)] {
        assert_eq!(master.start(Kind::Command, 22), send(first));
        assert_eq!(master.timeout(), send(first));
        assert_eq!(master.timeout(), send(other));
        assert_eq!(master.timeout(), Ok(Step::GaveUp));
    }
    assert_eq!(master.start(Kind::Command, 22), send(Bus::A));
    assert_eq!(master.timeout(), send(Bus::A));
    assert_eq!(
        master.reply(Bus::A, 22, 4),
        Ok(Step::Done),
        "answered on the first bus"
    );
    assert_eq!(
        master.start(Kind::Command, 22),
        send(Bus::A),
        "which stays chosen"
    );
}

#[test]
fn buses_are_chosen_node_by_node() {
    let mut master = Master::new();
    assert_eq!(master.start(Kind::Poll, 63), send(Bus::A));
    assert_eq!(master.timeout(), Ok(Step::GaveUp));
    for node in 0..63 {
        assert_eq!(master.start(Kind::Poll, node), send(Bus::A));
        assert_eq!(master.reply(Bus::A, node, 2), Ok(Step::Done));
    }
    assert_eq!(master.start(Kind::Poll, 63), send(Bus::B));
}

#[test]
fn reply_counts_only_from_node_with_function_on_bus() {
    let mut master = Master::new();
    assert_eq!(master.start(Kind::Command, 22), send(Bus::A));
    let before = master.clone();
    for (bus, node, function) in [
        (Bus::B, 22, 4),
        (Bus::A, 23, 4),
        (Bus::A, 22, 2),
        (Bus::A, 22, 31),
    ] {
        assert_eq!(master.reply(bus, node, function), Err(Refusal::NotAwaited));
    }
    assert_eq!(master, before);
}

#[test]
fn master_refuses_in_order_and_changes_nothing() {
    let mut master = Master::new();
    let new = master.clone();
    assert_eq!(master.start(Kind::Poll, 64), Err(Refusal::Field));
    assert_eq!(master.reply(Bus::A, 64, 2), Err(Refusal::Field));
    assert_eq!(master.reply(Bus::A, 22, 32), Err(Refusal::Field));
    assert_eq!(master.reply(Bus::A, 22, 2), Err(Refusal::Idle));
    assert_eq!(master.timeout(), Err(Refusal::Idle));
    assert_eq!(master, new);
    assert_eq!(master.start(Kind::Poll, 1), send(Bus::A));
    let busy = master.clone();
    assert_eq!(master.start(Kind::Poll, 64), Err(Refusal::Field));
    assert_eq!(master.start(Kind::Poll, 1), Err(Refusal::Busy));
    assert_eq!(master.reply(Bus::B, 64, 2), Err(Refusal::Field));
    assert_eq!(master, busy);
}

#[test]
fn bytes_carry_a_master_over() {
    let mut master = Master::new();
    assert_eq!(master.start(Kind::Command, 22), send(Bus::A));
    let mut again = Master::from_bytes(master.as_bytes()).unwrap();
    assert_eq!(again, master);
    assert_eq!(again.timeout(), send(Bus::A));

    assert_eq!(master.as_bytes()[67], Master::LAYOUT);
    let layouts = [0, 2, 255].map(|layout| (67, layout));
    let parts = [(0, 2), (63, 255), (64, 4), (65, 64), (66, 0), (66, 4)];
    for (place, byte) in parts.into_iter().chain(layouts) {
        let mut bytes = *master.as_bytes();
        bytes[place] = byte;
        assert_eq!(
            Master::from_bytes(&bytes).err(),
            Some(Refusal::State),
            "{place}"
        );
    }
    let (zeros, long) = ([0; Master::SIZE], [0; Master::SIZE + 1]);
    for none in [&master.as_bytes()[1..], &[], &zeros, &long] {
        assert_eq!(Master::from_bytes(none).err(), Some(Refusal::State));
    }
}

#[test]
fn silence_is_told_bus_by_bus_and_once() {
    let mut watch = Watch::new(1_000);
    assert_eq!(watch.heard(Bus::A, 9_000), Ok(()));
    assert_eq!(watch.check(16_999), NEITHER);
    assert_eq!(watch.check(17_000), silent(false, true));
    assert_eq!(watch.check(24_999), NEITHER);
    assert_eq!(watch.check(25_000), silent(true, false));
    assert_eq!(
        watch.check(33_000),
        silent(false, true),
        "16,000 after it was told"
    );
}

#[test]
fn a_clock_behind_reads_as_a_long_silence() {
    let last = 1_000_000u32;
    for behind in [1, 5, u32::MAX - 16_000, u32::MAX - 15_999] {
        let now = last.wrapping_sub(behind);
        assert_eq!(
            Watch::new(last).check(now),
            silent(true, true),
            "{behind} behind"
        );
    }
    let now = last.wrapping_sub(u32::MAX - 15_998); // 2^32 - 15,999 behind is 15,999 ahead
    assert_eq!(Watch::new(last).check(now), NEITHER);
    assert_eq!(Watch::new(last).check(last), NEITHER);
}

#[test]
fn bytes_carry_a_watch_over() {
    let watch = Watch::new(77);
    let bytes = *watch.as_bytes();
    assert_eq!(Watch::from_bytes(&bytes), Ok(watch));
    assert_eq!(bytes[8], Watch::LAYOUT);
    let layouts = [0, 2, 255].map(|layout| [&bytes[..8], &[layout]].concat());
    let lengths = [vec![], bytes[1..].to_vec(), [&bytes[..], &[1]].concat()];
    for none in layouts.iter().chain(&lengths) {
        assert_eq!(Watch::from_bytes(none).err(), Some(Refusal::State));
    }
}

/// Each bit by itself: it is looked at where its mask bit is 0.
#[test]
fn filter_looks_at_bits_without_mask() {
    for bit in 0..16 {
        let one = 1 << bit;
        assert!(!Filter { code: 0, mask: 0 }.accepts(one));
        assert!(Filter { code: 0, mask: one }.accepts(one));
        assert!(Filter { code: one, mask: 0 }.accepts(one));
        assert!(Filter {
            code: one,
            mask: one
        }
        .accepts(0));
        assert!(!Filter {
            code: one,
            mask: !one
        }
        .accepts(0));
    }
}

/// A row is code 0, mask 0, code 1, mask 1 and so on: its first filter is bytes 0 to 3, its second bytes 4 to 7.
#[test]
fn row_accepts_when_either_filter_does() {
    let row = [0x12, 0x0F, 0x34, 0xF0, 0xAB, 0x00, 0xCD, 0x01];
    let first = Filter {
        code: 0x1234,
        mask: 0x0FF0,
    };
    let second = Filter {
        code: 0xABCD,
        mask: 0x0001,
    };
    let (mut accepted, mut by_second) = (0, 0);
    for id in 0..=u16::MAX {
        let expected = first.accepts(id) || second.accepts(id);
        assert_eq!(Row(row).accepts(id), expected, "{id:04X}");
        accepted += u32::from(expected);
        by_second += u32::from(second.accepts(id));
    }
    assert_eq!((accepted, by_second), (256 + 2, 2));
}

#[test]
fn id_is_bytes_1_and_2() {
    assert_eq!(id_of(b"\x81\x45\x00\xC0\x10\x07"), Some(0x4500));
    assert_eq!(id_of(b"\x81\x45"), None);
}

/// What they are is in the header, to which this crate's are held by a test of the library.
#[test]
fn refusals_are_found_by_their_numbers() {
    let mut last = 0;
    for &refusal in Refusal::ALL {
        let (number, name) = (refusal.number(), refusal.name());
        assert!(number > last, "{refusal} stands behind {last}");
        last = number;
        assert_eq!(Refusal::try_from(number), Ok(refusal));
        assert_eq!(format!("{refusal:?}").to_uppercase(), name);
        let text = format!("{number} {name}: {}", refusal.says());
        assert_eq!(refusal.to_string(), text);
    }
    for number in [0, last + 1, 256 + last, u16::MAX] {
        assert_eq!(Refusal::try_from(number), Err(NoRefusal(number)));
    }
    let error: Box<dyn std::error::Error> = Box::new(Refusal::Orphan);
    assert!(error.to_string().starts_with("6 ORPHAN"));
}

#[test]
fn an_answer_that_is_not_known_is_told_with_its_number() {
    let unknown = Refusal::Unknown(0x8000_0063);
    assert_eq!((unknown.number(), unknown.name()), (99, "UNKNOWN"));
    assert_eq!(
        unknown.to_string(),
        "UNKNOWN: no refusal of this release, answer 0x80000063"
    );
    assert!(!Refusal::ALL.contains(&unknown));
}

#[test]
fn the_library_that_is_linked_is_of_this_release() {
    assert_eq!(version(), VERSION);
    assert_eq!(VERSION.to_string(), env!("CARGO_PKG_VERSION"));
    let other = Version {
        major: 258,
        minor: 3,
        patch: 4,
    };
    assert_eq!(other.number(), 0x0102_0304);
    assert!(other > VERSION);
}
