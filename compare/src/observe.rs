//! What occurred in a run, as its listing shows it.

use crate::request::refused;
use crate::tally::Tally;
use second::refusal::Refusal;

/// What a record can be answered, packets of all lengths together.
pub fn answers() -> Vec<String> {
    let taken = ["packet", "packet broke", "kept", "kept broke", "filtered"];
    let refusals = [
        Refusal::Length,
        Refusal::Form,
        Refusal::Remote,
        Refusal::Count,
        Refusal::Piece,
        Refusal::Orphan,
        Refusal::Step,
        Refusal::Long,
        Refusal::Surplus,
    ];
    let taken = taken.into_iter().map(String::from);
    taken.chain(refusals.map(refused)).collect()
}

const WRAPPED: &str = "middle with number 0 kept (piece 64, 128 or 192)";
const WHOLE_512: &str = "packet of over 512 bytes";
const WHOLE_2048: &str = "packet of 2048 bytes";
const LONG_0: &str = "number 0 refused as LONG (piece 257)";
const ORPHAN_END: &str = "end refused as ORPHAN";
const BETWEEN: &str = "packet with frames of another source between its own";
const TWIN: &str = "packet with frames of the same fields on the other bus between";
const STOPPED: &str = "stopped";
const CODE_LISTED: &str = "count code 9 to 15 listed as 8";
const CODE_REFUSED: &str = "count code 9 to 15 refused as COUNT";
const CODE_BETWEEN: &str = "packet of several pieces, some with a count code 9 to 15";

/// The names under which a listing's lines are counted.
pub fn names() -> Vec<String> {
    let singles = (0..=8).map(|length| format!("single of {length} bytes"));
    let others = [
        WRAPPED,
        WHOLE_512,
        WHOLE_2048,
        LONG_0,
        ORPHAN_END,
        BETWEEN,
        TWIN,
        STOPPED,
        CODE_LISTED,
        CODE_REFUSED,
        CODE_BETWEEN,
    ];
    let fixed = answers().into_iter().chain(others.map(String::from));
    fixed.chain(singles).collect()
}

/// A line with all its fields.
struct Line<'a> {
    bus: &'a str,
    /// Priority, source, group, destination and function.
    fields: [&'a str; 5],
    flag: &'a str,
    number: &'a str,
    count: &'a str,
    /// Whether the image has a count code of 9 to 15.
    over_8: bool,
    answer: &'a [&'a str],
}

/// A packet under way, and what came between its pieces.
struct UnderWay {
    bus: String,
    fields: [String; 5],
    other_source: bool,
    twin: bool,
    /// Whether one of its pieces has a count code of 9 to 15.
    over_8: bool,
}

impl UnderWay {
    fn has_key(&self, line: &Line) -> bool {
        self.bus == line.bus && self.fields == line.fields
    }
}

/// Follows one listing line by line.
struct Observer<'a> {
    under_way: Vec<UnderWay>,
    tally: &'a mut Tally,
}

/// Counts what the lines of a listing show; of each record it is known whether its image has a count code of 9 to 15.
/// Gives the number in the last line.
pub fn observe(listing: &str, over_8: &[bool], tally: &mut Tally) -> Option<usize> {
    let mut observer = Observer {
        under_way: Vec::new(),
        tally,
    };
    let mut records = None;
    for (place, line) in listing.lines().skip(1).enumerate() {
        let over_8 = over_8.get(place).is_some_and(|&over_8| over_8);
        let words: Vec<&str> = line.split(' ').collect();
        match words[..] {
            ["records", number] => records = number.parse().ok(),
            [_, "stopped"] => observer.tally.count(STOPPED),
            [_, _, "refused", number] => observer.no_frame(number, over_8),
            [_, bus, p, s, g, d, flag, number, f, count, ref answer @ ..] => observer.line(&Line {
                bus,
                fields: [p, s, g, d, f],
                flag,
                number,
                count,
                over_8,
                answer,
            }),
            _ => observer.tally.count("line of another form"),
        }
    }
    records
}

impl Observer<'_> {
    /// An image that is refused before it belongs to a stream.
    fn no_frame(&mut self, number: &str, over_8: bool) {
        self.tally.count(&format!("refused {number}"));
        if over_8 && number.parse() == Ok(Refusal::Count.number()) {
            self.tally.count(CODE_REFUSED);
        }
    }

    fn line(&mut self, line: &Line) {
        self.pass_by(line);
        if line.over_8 && line.count == "8" {
            self.tally.count(CODE_LISTED);
        }
        match *line.answer {
            ["packet", length] => {
                self.tally.count("packet");
                self.packet(line, length);
            }
            ["packet", length, "broke"] => {
                self.tally.count("packet broke");
                self.packet(line, length);
            }
            ["refused", number] => self.refused(line, number),
            _ => {
                self.tally.count(&line.answer.join(" "));
                self.kept(line);
            }
        }
    }

    /// Notes at the other packets under way that this frame came between their pieces.
    fn pass_by(&mut self, line: &Line) {
        for other in &mut self.under_way {
            other.other_source |= other.fields[1] != line.fields[1];
            other.twin |= other.bus != line.bus && other.fields == line.fields;
        }
    }

    fn kept(&mut self, line: &Line) {
        match (line.flag, line.answer[0]) {
            ("1", "kept") => {
                self.forget(line);
                self.under_way.push(UnderWay {
                    bus: line.bus.to_string(),
                    fields: line.fields.map(str::to_string),
                    other_source: false,
                    twin: false,
                    over_8: line.over_8,
                });
            }
            ("0", "kept") => self.middle(line),
            _ => {}
        }
    }

    fn middle(&mut self, line: &Line) {
        if line.number == "0" {
            self.tally.count(WRAPPED);
        }
        let mut under_way = self.under_way.iter_mut();
        if let Some(own) = under_way.find(|packet| packet.has_key(line)) {
            own.over_8 |= line.over_8;
        }
    }

    fn packet(&mut self, line: &Line, length: &str) {
        let ended = self.forget(line);
        if line.flag == "3" {
            self.tally.count(&format!("single of {length} bytes"));
            return;
        }
        let length: usize = length.parse().unwrap_or(0);
        let ended = ended.as_ref();
        let facts = [
            (length > 512, WHOLE_512),
            (length == 2048, WHOLE_2048),
            (ended.is_some_and(|packet| packet.other_source), BETWEEN),
            (ended.is_some_and(|packet| packet.twin), TWIN),
            (
                ended.is_some_and(|packet| packet.over_8 || line.over_8),
                CODE_BETWEEN,
            ),
        ];
        for (holds, name) in facts {
            if holds {
                self.tally.count(name);
            }
        }
    }

    fn refused(&mut self, line: &Line, number: &str) {
        self.tally.count(&format!("refused {number}"));
        let is = |refusal: Refusal| number.parse() == Ok(refusal.number());
        match (line.flag, line.number) {
            ("2", _) if is(Refusal::Orphan) => self.tally.count(ORPHAN_END),
            (_, "0") if is(Refusal::Long) => self.tally.count(LONG_0),
            _ => {}
        }
        // After STEP and LONG the stream is idle; after ORPHAN it held nothing.
        self.forget(line);
    }

    fn forget(&mut self, line: &Line) -> Option<UnderWay> {
        let place = self.under_way.iter().position(|p| p.has_key(line))?;
        Some(self.under_way.swap_remove(place))
    }
}

#[cfg(test)]
mod tests {
    use super::*;

    fn missing(listing: &str) -> String {
        missing_with_codes(listing, &[])
    }

    fn missing_with_codes(listing: &str, over_8: &[bool]) -> String {
        let mut tally = Tally::requiring(names());
        observe(listing, over_8, &mut tally);
        tally.check().expect_err("a short listing lacks much")
    }

    #[test]
    fn sees_packets_between_one_another() {
        let listing = "header\n1 A 0 1 0 0 1 0 2 8 kept\n2 B 0 1 0 0 1 0 2 8 kept\n\
                       3 A 0 2 0 0 3 0 2 0 packet 0\n4 A 0 1 0 0 2 1 2 1 packet 9\nrecords 4\n";
        let missing = missing(listing);
        for name in [BETWEEN, TWIN, "single of 0 bytes"] {
            assert!(!missing.contains(name), "{name}");
        }
        assert!(missing.contains(WHOLE_512));
    }

    #[test]
    fn sees_no_others_where_there_are_none() {
        let listing = "header\n1 A 0 1 0 0 1 0 2 8 kept\n2 A 0 1 0 0 2 1 2 1 packet 9\nrecords 2\n";
        let missing = missing(listing);
        assert!(missing.contains(BETWEEN) && missing.contains(TWIN));
    }

    #[test]
    fn sees_the_wraparound_and_the_end() {
        let listing = "header\n1 A 0 1 0 0 0 0 2 8 kept\n2 A 0 1 0 0 2 1 2 1 packet 2048\n\
                       3 A 0 1 0 0 2 0 2 1 refused 8\n4 A 0 1 0 0 2 0 2 1 refused 6\n\
                       5 B refused 3\n6 stopped\nrecords 5\n";
        let missing = missing(listing);
        for name in [
            WRAPPED,
            WHOLE_512,
            WHOLE_2048,
            LONG_0,
            ORPHAN_END,
            STOPPED,
            "refused 3",
        ] {
            assert!(!missing.contains(name), "{name}");
        }
        let mut tally = Tally::requiring(Vec::new());
        assert_eq!(observe(listing, &[], &mut tally), Some(5));
    }

    #[test]
    fn sees_codes_over_8() {
        let listing = "header\n1 A 0 1 0 0 1 0 2 8 kept\n2 A 0 1 0 0 0 1 2 8 kept\n\
                       3 A 0 1 0 0 2 2 2 1 packet 17\n4 A refused 4\n5 A refused 3\nrecords 5\n";
        // The records with such a code, and what is seen of it. The end's count is not listed as 8.
        let cases: [(&[usize], &[&str]); 4] = [
            (&[], &[]),
            (&[0, 3], &[CODE_LISTED, CODE_REFUSED, CODE_BETWEEN]),
            (&[1, 4], &[CODE_LISTED, CODE_BETWEEN]),
            (&[2], &[CODE_BETWEEN]),
        ];
        for (records, seen) in cases {
            let over_8: Vec<bool> = (0..5).map(|place| records.contains(&place)).collect();
            let missing = missing_with_codes(listing, &over_8);
            for name in [CODE_LISTED, CODE_REFUSED, CODE_BETWEEN] {
                assert_eq!(
                    !missing.contains(name),
                    seen.contains(&name),
                    "{records:?} {name}"
                );
            }
        }
    }
}
