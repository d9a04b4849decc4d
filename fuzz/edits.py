#!/usr/bin/env python3
"""Changes the model in one place at a time and sees that the comparison with the library tells of it.

usage: fuzz/edits.py FOLDER, the folder of libsiljuvatt.a

A rule that is wrong in the library is one that is wrong in the model, seen from the other side: so this shows that
the inputs of fuzz/run reach each of these rules. The repository stays as it is: a copy of the workspace is edited.
"""

import os
import re
import shutil
import subprocess
import sys
import tempfile

CALLS = "1000000"

# All members of the workspace, as cargo wants to see each.
PACKAGES = ("second", "testkit", "compare", "fuzz", "bench", "library/rust")

# What to put for what, in each file of second/src, with every run of blanks and line ends as one blank.
EDITS = {
    "filter.rs": [
        ("|| bit(self.mask, i) == 1", "|| bit(self.mask, i) == 0"),
        ("(0..16).all", "(0..15).all"),
        ("Pair(filter(0), filter(4))", "Pair(filter(0), filter(0))"),
        ("[row[at], row[at + 2]]", "[row[at + 2], row[at]]"),
        ("self.0.accepts(id) || self.1.accepts(id)", "self.0.accepts(id) && self.1.accepts(id)"),
    ],
    "master.rs": [
        ("Kind::Poll => 1, Kind::DataBlock", "Kind::Poll => 2, Kind::DataBlock"),
        (
            "Kind::Poll => 2, Kind::DataBlock | Kind::Command => 4,",
            "Kind::Poll => 2, Kind::DataBlock | Kind::Command => 5,",
        ),
        ("if exchange.sends == exchange.kind.first_sends()", "if exchange.sends == exchange.kind.total_sends()"),
        ("if exchange.sends == exchange.kind.first_sends()", "if exchange.sends >= exchange.kind.first_sends()"),
        ("*chosen = 1 - *chosen;", "*chosen = 1;"),
        ("function <= 31", "function <= 32"),
        (
            "(bus, node, function) == (sent_on, exchange.node, exchange.kind.awaits())",
            "(node, function) == (exchange.node, exchange.kind.awaits())",
        ),
        ("usize::from(self.node) < NODE_COUNT", "usize::from(self.node) <= NODE_COUNT"),
        ("self.chosen.iter().all(|&bus| is_bus(bus)) ", "self.chosen[1..].iter().all(|&bus| is_bus(bus)) "),
        (
            " if !is_node(node) { return (self, Err(Refusal::Field)); }"
            " if self.exchange.is_some() { return (self, Err(Refusal::Busy)); }",
            " if self.exchange.is_some() { return (self, Err(Refusal::Busy)); }"
            " if !is_node(node) { return (self, Err(Refusal::Field)); }",
        ),
        (
            " } else if !in_range { Err(Refusal::Field) } else { self.exchange.ok_or(Refusal::Idle) }",
            " } else if self.exchange.is_none() { Err(Refusal::Idle) } else if !in_range { Err(Refusal::Field) }"
            " else { self.exchange.ok_or(Refusal::Idle) }",
        ),
    ],
    "watch.rs": [
        (">= SILENCE", "> SILENCE"),
        ("now.wrapping_sub(last) >= SILENCE", "now.saturating_sub(last) >= SILENCE"),
        (" if reset {", " if false && reset {"),
        ("self.last[usize::from(bus)] = now;", "self.last = [now; 2];"),
        ("last.map(|last| now.wrapping_sub(last)", "last.map(|last| last.wrapping_sub(now)"),
    ],
    "stream.rs": [
        ("if length > AREA_SIZE", "if length >= AREA_SIZE"),
        ("let broke = matches!(state, State::Collecting(_));", "let broke = !matches!(state, State::Idle);"),
        ("format.piece_number(held / format.piece_size())", "held / format.piece_size()"),
        (
            "return lost(Refusal::Step);",
            "return Step { answer: Answer::Refused(Refusal::Step), next: State::Collecting(held), write_at: None };",
        ),
        (
            "return lost(Refusal::Long);",
            "return Step { answer: Answer::Refused(Refusal::Long), next: State::Collecting(held), write_at: None };",
        ),
        ("State::Done(held) => held <= format.packet_limit()", "State::Done(held) => held <= 2048"),
        ("held % size == 0 && ", ""),
        ("(size..=format.collecting_limit())", "(0..=format.collecting_limit())"),
        ("next: state, write_at: None,", "next: State::Idle, write_at: None,"),
        (
            " let length = held + frame.packet.len(); if length > AREA_SIZE { return lost(Refusal::Long); } let broke",
            " let length = held + frame.packet.len(); if length > 4096 { return lost(Refusal::Long); } let broke",
        ),
        (
            " if usize::from(frame.number) != awaited {",
            " if held < AREA_SIZE && usize::from(frame.number) != awaited {",
        ),
    ],
    "format.rs": [
        ("Format::Standard => 1785", "Format::Standard => 1792"),
    ],
    "station.rs": [
        ("&& self.keys_differ()", ""),
        ("position(|slot| *slot == Slot::Closed)", "rposition(|slot| *slot == Slot::Closed)"),
        (
            "Slot::Open { key: own, state } if *own == key",
            "Slot::Open { key: own, state } if own.fields == key.fields",
        ),
        (
            " if !self.is_sound() { Err(Refusal::State) } else if store.len() != STORE_SIZE { Err(Refusal::Store)",
            " if store.len() != STORE_SIZE { Err(Refusal::Store) } else if !self.is_sound() { Err(Refusal::State)",
        ),
        ("store.len() != STORE_SIZE", "store.len() < STORE_SIZE"),
        (
            " if self.slots.iter().any(|slot| slot.key() == Some(key)) { return Err(Refusal::Taken); }",
            " if self.slots.iter().all(|slot| *slot != Slot::Closed) { return Err(Refusal::Full); }"
            " if self.slots.iter().any(|slot| slot.key() == Some(key)) { return Err(Refusal::Taken); }",
        ),
    ],
    "frame.rs": [
        ("|| header[4] & 0b111 != 0", ""),
        ("(1..=254).contains(&number)", "(1..=255).contains(&number)"),
        ("if number == 1 { 3 } else { 2 }", "2"),
        ("Flag::Single => number == 0", "Flag::Single => true"),
        ("0b1011_0000 != 0b1000_0000", "0b1001_0000 != 0b1000_0000"),
        ("0b1011_0000 != 0b1000_0000", "0b1010_0000 != 0b1000_0000"),
        ("0b1011_0000 != 0b1000_0000", "0b0011_0000 != 0"),
        ("header[4] & 0b111 != 0", "header[4] & 0b110 != 0"),
        (
            "Flag::Start => count == 8 && number == 0, Flag::Middle => count == 8,",
            "Flag::Start => count == 8, Flag::Middle => count == 8,",
        ),
        ("Flag::Middle => count == 8,", "Flag::Middle => true,"),
        ("Flag::End => count >= 1", "Flag::End => true"),
        (
            "Flag::Start => count == 8 && number == 0, Flag::Middle => count == 8 && (1",
            "Flag::Start => count == 8, Flag::Middle => count == 8 && (1",
        ),
        ("Flag::Middle => count == 8 && (1..=254)", "Flag::Middle => (1..=254)"),
        ("Flag::Middle => count == 8 && (1..=254)", "Flag::Middle => count == 8 && (0..=254)"),
        ("Flag::End => number >= 1 && count", "Flag::End => count"),
        ("if number == 1 { 3 } else { 2 }", "3"),
        # L3: the codes 9 to 15 are read as 8.
        (
            "let count = (byte & 0b1111).min(MAX_COUNT as u8);",
            "let count = (byte & 0b1111).min(MAX_COUNT as u8); if byte & 0b1111 == 9 { return Err(Refusal::Count); }",
        ),
        (
            "let count = (byte & 0b1111).min(MAX_COUNT as u8);",
            "let count = match byte & 0b1111 { 15 => 7, code => code.min(MAX_COUNT as u8) };",
        ),
        ("(byte & 0b1111).min(MAX_COUNT as u8)", "(byte & 0b1111)"),
        ("Ordering::Equal => Ok(count)", "Ordering::Equal => Ok(byte & 0b1111)"),
        ("Ordering::Less => Err", "Ordering::Less if byte & 0b1111 > 8 => Ok(count), Ordering::Less => Err"),
        (
            "let count = judge_count(header[0], data)?;",
            "let count = judge_count(header[0], data)?; if header[0] & 0b1111 > 8 { return Err(Refusal::Count); }",
        ),
        (
            "let count = judge_count(header[1], data)?;",
            "let count = judge_count(header[1], data)?; if header[1] & 0b1111 > 8 { return Err(Refusal::Count); }",
        ),
        (
            " let count = judge_count(header[0], data)?; let flag",
            " if header[0] & 0b1111 > 8 && header[3] >> 6 == 1 && header[3] & 0b11_1111 != 0"
            " { return Err(Refusal::Piece); } let count = judge_count(header[0], data)?; let flag",
        ),
        # L4: too short is 4, too long is 25, in the same place of the order.
        ("Ordering::Greater => Err(Refusal::Surplus)", "Ordering::Greater => Err(Refusal::Count)"),
        ("Ordering::Less => Err(Refusal::Count)", "Ordering::Less => Err(Refusal::Surplus)"),
        ("match data.len().cmp(&usize::from(count))", "match usize::from(count).cmp(&data.len())"),
        ("Ordering::Greater => Err(Refusal::Surplus)", "Ordering::Greater => Ok(count)"),
        (
            "Ordering::Less => Err(Refusal::Count)",
            "Ordering::Less if byte & 0b1111 > 8 => Err(Refusal::Surplus), Ordering::Less => Err(Refusal::Count)",
        ),
        (
            "Ordering::Greater => Err(Refusal::Surplus)",
            "Ordering::Greater if count == 0 => Err(Refusal::Count), Ordering::Greater => Err(Refusal::Surplus)",
        ),
        (
            "Ordering::Greater => Err(Refusal::Surplus)",
            "Ordering::Greater if data.len() == usize::from(count) + 1 => Err(Refusal::Count),"
            " Ordering::Greater => Err(Refusal::Surplus)",
        ),
        (
            "Ordering::Greater => Err(Refusal::Surplus)",
            "Ordering::Greater if data.len() > usize::from(count) + 1 => Err(Refusal::Count),"
            " Ordering::Greater => Err(Refusal::Surplus)",
        ),
        (
            " if header[0] & 0b0100_0000 != 0 { return Err(Refusal::Remote); } let count = judge_count(header[0], data)?;",
            " let count = judge_count(header[0], data)?; if header[0] & 0b0100_0000 != 0 { return Err(Refusal::Remote); }",
        ),
        # Too long means a count under 8, which a start or a middle may not have: 25 after 5.
        (
            "let count = judge_count(header[0], data)?;",
            "let count = match judge_count(header[0], data) {"
            " Err(Refusal::Surplus) if header[3] >> 6 < 2 => return Err(Refusal::Piece), count => count? };",
        ),
        (
            "let count = judge_count(header[1], data)?;",
            "let count = match judge_count(header[1], data) {"
            " Err(Refusal::Surplus) if header[1] >> 5 & 3 < 2 => return Err(Refusal::Piece), count => count? };",
        ),
    ],
    "split.rs": [
        ("if output.len() < image.len()", "if output.len() <= image.len()"),
        ("flag.bits() << 6 | number", "flag.bits() << 6 | (number & 31)"),
        ("if k >= count", "if k > 256"),
        ("side << 7", "side << 6"),
        ("part.len() as u8 + u8::from(numbered)", "part.len() as u8"),
        (
            "output[..image.len()].copy_from_slice(&image);",
            "output[..image.len()].copy_from_slice(&image);"
            " if output.len() > image.len() { output[image.len()] = 0; }",
        ),
        ("if size <= MAX_COUNT", "if size < MAX_COUNT"),
    ],
    "key.rs": [
        ("function <= 31", "function <= 32"),
        ("side <= 1", "side <= 2"),
        ("bus <= 1", "bus <= 2"),
    ],
    "interface/station_bytes.rs": [
        ("(slot_numbers(&slot) == (key, state)).then_some(slot)", "Some(slot)"),
        ("if (key, state) == (0, 0)", "if state == 0"),
        ("(slot_numbers(&slot) == (key, state))", "(slot_numbers(&slot).0 == key)"),
        ("(slot_numbers(&slot) == (key, state))", "(slot_numbers(&slot).1 == state)"),
        (" if bytes.len() != STATION_SIZE ||", " if bytes.len() < STATION_SIZE ||"),
        (" || bytes[STATION_SIZE - 1] != STATION_LAYOUT", ""),
        ("fields + 128 * u32::from(key.bus)", "fields + 64 * u32::from(key.bus)"),
        ("+ 4 * u32::from(function)", "+ 8 * u32::from(function)"),
    ],
    "interface/master_bytes.rs": [
        ("[0, 0, 0, MASTER_LAYOUT] => None", "[0, _, _, MASTER_LAYOUT] => None"),
        ("[0, 0, 0, MASTER_LAYOUT] => None", "[0, 0, _, MASTER_LAYOUT] => None"),
        ("[0, 0, 0, MASTER_LAYOUT] => None", "[0, 0, 0, _] => None"),
        ("[kind, node, sends, MASTER_LAYOUT]", "[kind, node, sends, _]"),
    ],
    "interface/watch_bytes.rs": [
        ("b3, WATCH_LAYOUT] => Some", "b3, _] => Some"),
    ],
    "interface/answer.rs": [
        ("[1 << 25, 1 << 26]", "[1 << 26, 1 << 25]"),
        ("SEND: u32 = 7", "SEND: u32 = 4"),
        ("FILTERED: u32 = 6", "FILTERED: u32 = 5"),
    ],
    "interface/mod.rs": [
        ("if length.is_ok() { *start = slot * AREA_SIZE; }", "*start = slot % 16 * AREA_SIZE;"),
        ("RELEASE: [u8; 3] = [0, 2, 0]", "RELEASE: [u8; 3] = [0, 2, 1]"),
        (
            "if station.len() != STATION_SIZE { return refused(Refusal::State); }"
            " let Some(format) = format_of(format) else { return refused(Refusal::Field); };",
            "let Some(format) = format_of(format) else { return refused(Refusal::Field); };"
            " if station.len() != STATION_SIZE { return refused(Refusal::State); }",
        ),
        ("if answer != Answer::Refused(Refusal::State) {", "if !matches!(answer, Answer::Refused(_)) {"),
        (
            " let fields = fields_of(old.format, fields)?;",
            " let most = if old.format == Format::Extended { 5 } else { 3 };"
            " let fields = fields_of(old.format, &fields[..fields.len().min(most)])?;",
        ),
        (
            "Some(kind) => master.start(kind, node), None => (master, Err(Refusal::Field))",
            "Some(kind) => master.start(kind, node),"
            " None if master.exchange.is_some() => (master, Err(Refusal::Busy)), None => (master, Err(Refusal::Field))",
        ),
    ],
}


def flat(text):
    """The part of a source before its tests, without comments, on one line; and the tests as they are."""
    head, mark, tests = text.partition("#[cfg(test)]")
    return re.sub(r"\s+", " ", re.sub(r"//[^\n]*", "", head)), mark + tests


def build_and_run(folder):
    """Builds the copies and makes the comparison; answers whether it told of a difference."""
    build = ["cargo", "build", "--release", "--offline", "--quiet", "--jobs", "1", "--package", "fuzz"]
    subprocess.run(build, cwd=folder, check=True)
    fuzz = [os.path.join(os.environ["CARGO_TARGET_DIR"], "release/fuzz"), "--calls", CALLS]
    run = subprocess.run(fuzz, stderr=subprocess.PIPE, text=True)
    # The edited model may break down, as where it writes behind an area.
    told = "fuzz: a difference" in run.stderr or "panicked" in run.stderr
    if not told and run.returncode != 0:
        sys.exit("the comparison fails without a difference:\n" + run.stderr)
    return told


def try_edit(folder, name, old, new):
    """Makes one edit, and undoes it; answers whether the comparison told of it."""
    path = os.path.join(folder, "second/src", name)
    with open(path) as file:
        text = file.read()
    head, tests = flat(text)
    if head.count(old) != 1:
        sys.exit(f"{name} has {head.count(old)} times: {old}")
    with open(path, "w") as file:
        file.write(head.replace(old, new) + "\n" + tests)
    told = build_and_run(folder)
    with open(path, "w") as file:
        file.write(text)
    return told


def main():
    if len(sys.argv) != 2:
        sys.exit("usage: fuzz/edits.py FOLDER")
    os.environ["SILJUVATT_LIB"] = os.path.abspath(sys.argv[1])
    os.environ["CARGO_PROFILE_RELEASE_OPT_LEVEL"] = "1"
    # An edit may leave something unused.
    os.environ["RUSTFLAGS"] = "-Awarnings"
    root = os.path.dirname(os.path.dirname(os.path.abspath(__file__)))
    missed = []
    with tempfile.TemporaryDirectory() as folder:
        os.environ["CARGO_TARGET_DIR"] = os.path.join(folder, "target")
        for name in ("Cargo.toml", "Cargo.lock"):
            shutil.copy(os.path.join(root, name), folder)
        for package in PACKAGES:
            shutil.copytree(os.path.join(root, package), os.path.join(folder, package))
        if build_and_run(folder):
            sys.exit("library and model differ without an edit: fuzz/run")
        edits = [(name, old, new) for name, pairs in EDITS.items() for old, new in pairs]
        for name, old, new in edits:
            if not try_edit(folder, name, old, new):
                missed.append(f"{name}: {new}")
                print("not told:", missed[-1], flush=True)
    print(f"told: {len(edits) - len(missed)} of {len(edits)} edits")
    sys.exit(1 if missed else 0)


main()
