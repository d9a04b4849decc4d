//! Compares what becomes of every count code before every number of data bytes, one too many included, with every flag:
//! judged, received at both fronts, and listed. What L3 and L4 say of each case stands here too, so that programs that
//! are wrong alike are told.

use crate::exchange;
use crate::request::{self, judged, Request, BY_COUNT, CLOSED, COLLECTING, DONE, IDLE};
use crate::tally::Tally;
use crate::trace::write_record;
use crate::traces::{list, list_also, Programs, Way};
use second::format::Format;
use second::frame::Flag;
use second::key::Fields;
use second::split;
use second::stream::AREA_SIZE;
use std::cmp::Ordering;
use std::path::Path;
use testkit::damage::{is_over_8, set_code};
use testkit::keys::{any_fields, any_key, name};
use testkit::{Random, FORMATS};

const SEED: u64 = 11_898;

/// The slot that receives, and how many bytes beside its area are looked at.
const SLOT: usize = 3;
const BESIDE: usize = 8;

const LISTED: &str = "listed";
const JUDGED: &str = "judged";
const RECEIVED: [&str; 2] = ["received at front 0", "received at front 1"];

/// The flags, each in the place of its two bits.
const FLAGS: [Flag; 4] = [Flag::Middle, Flag::Start, Flag::End, Flag::Single];

/// What an image with a count code of 0 to 8 can be judged to be once its count is looked at.
const UP_TO_8: [&str; 4] = ["sound", "refused 4", "refused 25", "refused 5"];

/// Flag, count code and number of data bytes of an image.
type Case = (Flag, usize, usize);

/// Puts every case to the programs and the second one.
pub fn compare(programs: &Programs, calls: &Path) -> Result<(), String> {
    let mut counts = Counts::new();
    let (mut images, mut frames) = (0, 0);
    for format in FORMATS {
        let script = judge_script(format);
        images += compare_calls(calls, &script, (JUDGED, format), &mut counts)?;
        for (front, way) in RECEIVED.into_iter().enumerate() {
            let script = receive_script(format, front as u8);
            frames += compare_calls(calls, &script, (way, format), &mut counts)?;
        }
    }
    let listed = compare_listed(programs, &mut counts)?;
    counts.results.print();
    counts.check()?;
    println!("equal: {images} images judged, {frames} images received, {listed} records listed");
    Ok(())
}

/// What became of the images.
struct Counts {
    /// By code, flag and number of data bytes; too many to be printed.
    cases: Tally,
    /// All flags and numbers of data bytes together.
    results: Tally,
}

impl Counts {
    /// Every case has to occur, and everything that can become of one.
    fn new() -> Counts {
        let (mut cases, mut results) = (Vec::new(), Vec::new());
        for (way, format, most) in ways() {
            let up_to_8 = UP_TO_8.map(|result| result_row(way, format, false, result));
            let over_8 = BY_COUNT.map(|result| result_row(way, format, true, result));
            results.extend(up_to_8.into_iter().chain(over_8));
            cases.extend(every_case(most).map(|case| case_row(way, format, case)));
        }
        Counts {
            cases: Tally::requiring(cases),
            results: Tally::requiring(results),
        }
    }

    /// Counts an image for its case where the result is the case's own, and refuses any other; but its number may break a
    /// piece rule.
    fn count(
        &mut self,
        (way, format): (&str, Format),
        image: &[u8],
        result: &str,
    ) -> Result<(), String> {
        let over_8 = is_over_8(image, format);
        self.results.count(&result_row(way, format, over_8, result));
        let case = case_of(format, image);
        let row = case_row(way, format, case);
        match (expected(format, case), result) {
            (expected, _) if result == expected => self.cases.count(&row),
            ("sound", "refused 5") => {}
            (expected, _) => return Err(format!("{row}: {result}, not {expected}")),
        }
        Ok(())
    }

    fn check(&self) -> Result<(), String> {
        self.cases.check().and(self.results.check())
    }
}

/// The ways in which images are put to the programs, with the most data bytes. No record has room for nine.
fn ways() -> Vec<(&'static str, Format, usize)> {
    let mut ways = vec![(LISTED, Format::Extended, 8)];
    for format in FORMATS {
        ways.extend([JUDGED, RECEIVED[0], RECEIVED[1]].map(|way| (way, format, 9)));
    }
    ways
}

fn result_row(way: &str, format: Format, over_8: bool, result: &str) -> String {
    let codes = if over_8 { "9 to 15" } else { "0 to 8" };
    format!("{} {way}, count code {codes}: {result}", name(format))
}

fn case_row(way: &str, format: Format, (flag, code, size): Case) -> String {
    let flag = format!("{flag:?}").to_lowercase();
    let format = name(format);
    format!("{format} {way}, {flag} with count code {code} and {size} data bytes")
}

fn case_of(format: Format, image: &[u8]) -> Case {
    let (flag, code) = match format {
        Format::Extended => (image[3] >> 6, image[0] & 15),
        Format::Standard => (image[1] >> 5 & 3, image[1] & 15),
    };
    let size = image.len() - format.header_size();
    (FLAGS[usize::from(flag)], code.into(), size)
}

/// Every flag, count code and number of data bytes.
fn every_case(most: usize) -> impl Iterator<Item = Case> {
    FLAGS.into_iter().flat_map(move |flag| {
        (0..=15).flat_map(move |code| (0..=most).map(move |size| (flag, code, size)))
    })
}

/// What becomes of a case. L3 says what count a code stands for, and L4 tells too few data bytes from too many.
fn expected(format: Format, (flag, code, size): Case) -> &'static str {
    let count = match code {
        9..=15 => 8,
        _ => code,
    };
    match size.cmp(&count) {
        _ if size > 8 => "refused 1",
        Ordering::Less => "refused 4",
        Ordering::Greater => "refused 25",
        Ordering::Equal if some_number_goes_with(format, flag, count) => "sound",
        Ordering::Equal => "refused 5",
    }
}

/// Whether the piece rules let a piece of that flag and count have any number at all.
fn some_number_goes_with(format: Format, flag: Flag, count: usize) -> bool {
    match (flag, format) {
        (Flag::Single, _) => true,
        (Flag::Start | Flag::Middle, _) => count == 8,
        (Flag::End, Format::Extended) => count >= 1,
        (Flag::End, Format::Standard) => count >= 2,
    }
}

/// The image of a case, whether or not its parts go together. In standard the number is the first data byte, also of a
/// single.
fn image(fields: &Fields, number: u8, case: Case, random: &mut Random) -> Vec<u8> {
    let (format, (flag, code, size)) = (fields.format(), case);
    let mut image = split::image(fields, flag, number, &[]);
    image.truncate(format.header_size());
    set_code(&mut image, format, code);
    image.extend(random.bytes(size));
    if format == Format::Standard && size > 0 {
        image[2] = number;
    }
    image
}

fn highest_number(format: Format) -> u8 {
    match format {
        Format::Extended => 63,
        Format::Standard => 255,
    }
}

/// Every case with every number.
fn judge_script(format: Format) -> Vec<Request> {
    let mut random = Random::new(SEED);
    let mut requests = Vec::new();
    for case in every_case(9) {
        for number in 0..=highest_number(format) {
            let fields = any_fields(format, &mut random);
            let image = image(&fields, number, case, &mut random);
            requests.push(request::judge(format, &image));
        }
    }
    requests
}

/// The states of a slot before it receives, with the number of the piece: often the one awaited.
fn states(format: Format) -> &'static [(u8, u16, u8)] {
    match format {
        Format::Extended => &[
            (CLOSED, 0, 0),
            (IDLE, 0, 0),
            (DONE, 20, 1),
            (COLLECTING, 8, 1),
            (COLLECTING, 512, 0),
            (COLLECTING, 2040, 63),
            (COLLECTING, 2048, 0),
        ],
        Format::Standard => &[
            (CLOSED, 0, 1),
            (IDLE, 0, 0),
            (DONE, 20, 1),
            (COLLECTING, 7, 0),
            (COLLECTING, 7, 1),
            (COLLECTING, 14, 2),
            (COLLECTING, 1778, 254),
            (COLLECTING, 1785, 255),
        ],
    }
}

/// Every case in each of these states. Before each image the slot is set, and before and after both its area is asked
/// for.
fn receive_script(format: Format, front: u8) -> Vec<Request> {
    let mut random = Random::new(SEED);
    let key = any_key(format, &mut random);
    let area = request::store(SLOT * AREA_SIZE - BESIDE, AREA_SIZE + 2 * BESIDE);
    let mut requests = vec![
        request::new(format),
        request::front(front),
        request::fill(7, 3),
        area.clone(),
    ];
    for &(kind, h, number) in states(format) {
        for case in every_case(9) {
            let image = image(&key.fields, number, case, &mut random);
            requests.push(request::slot(SLOT, kind, h, &key, 0));
            requests.push(request::receive(key.bus, &image));
            requests.push(area.clone());
        }
    }
    requests
}

/// Gives how many images were judged or received.
fn compare_calls(
    calls: &Path,
    requests: &[Request],
    way: (&str, Format),
    counts: &mut Counts,
) -> Result<usize, String> {
    let responses = exchange::both(calls, requests, &[])
        .map_err(|difference| format!("{} {}, {difference}", name(way.1), way.0))?;
    count_calls(requests, &responses, way, counts)
}

fn count_calls(
    requests: &[Request],
    responses: &[Vec<u8>],
    way: (&str, Format),
    counts: &mut Counts,
) -> Result<usize, String> {
    let mut images = 0;
    for (place, request) in requests.iter().enumerate() {
        if let Some(image) = image_of(request) {
            let mut result = judged(&responses[place]);
            if request[0] == request::RECEIVE && result != "sound" && is_changed(responses, place) {
                result += " with a change";
            }
            counts.count(way, image, &result)?;
            images += 1;
        }
    }
    Ok(images)
}

/// Whether the slots, or the slot's area, are other after an image than before it.
fn is_changed(responses: &[Vec<u8>], place: usize) -> bool {
    let slots = |place: usize| &responses[place][4..];
    slots(place - 1) != slots(place) || responses[place - 2] != responses[place + 1]
}

/// The image that is judged or received.
fn image_of(request: &Request) -> Option<&[u8]> {
    match request[..] {
        [request::JUDGE | request::RECEIVE, _, ref image @ ..] => Some(image),
        _ => None,
    }
}

/// The images of every case with every number in extended, each between a start, so that number 1 is awaited, and an end
/// of that number.
fn listed_images() -> Vec<[Vec<u8>; 3]> {
    let mut random = Random::new(SEED);
    let fields = any_fields(Format::Extended, &mut random);
    let start = split::image(&fields, Flag::Start, 0, &[0x55; 8]);
    let end = split::image(&fields, Flag::End, 1, &[0x66]);
    let mut images = Vec::new();
    for case in every_case(8) {
        for number in 0..=highest_number(Format::Extended) {
            let image = image(&fields, number, case, &mut random);
            images.push([start.clone(), image, end.clone()]);
        }
    }
    images
}

fn trace_of(images: &[[Vec<u8>; 3]]) -> Vec<u8> {
    let mut trace = Vec::new();
    for image in images.iter().flatten() {
        write_record(&mut trace, 1, image).expect("a Vec takes all");
    }
    trace
}

/// Gives how many records were listed.
fn compare_listed(programs: &Programs, counts: &mut Counts) -> Result<usize, String> {
    let images = listed_images();
    let trace = trace_of(&images);
    let listing = list(programs, &trace, &Way::AtOnce)?;
    if let Some(also) = programs.also {
        list_also(also, &trace, &listing)?;
    }
    let text = String::from_utf8(listing).map_err(|_| "the listings are no text")?;
    count_listed(&images, &text, counts)?;
    Ok(3 * images.len())
}

fn count_listed(images: &[[Vec<u8>; 3]], listing: &str, counts: &mut Counts) -> Result<(), String> {
    let lines: Vec<&str> = listing.lines().skip(1).collect();
    for ([_, image, _], lines) in images.iter().zip(lines.chunks(3)) {
        counts.count((LISTED, Format::Extended), image, &listed(image, lines))?;
    }
    Ok(())
}

/// What the lines of an image and those around it say of it. A refused one leaves the packet around it whole, and of
/// others the count that its code stands for is shown.
fn listed(image: &[u8], lines: &[&str]) -> String {
    let words: Vec<Vec<&str>> = lines.iter().map(|line| line.split(' ').collect()).collect();
    let count = (image[0] & 15).min(8).to_string();
    match (
        words.get(1).map(Vec::as_slice),
        words.get(2).map(Vec::as_slice),
    ) {
        (Some([_, _, "refused", number]), Some([.., "packet", "9"])) => format!("refused {number}"),
        (Some([_, _, _, _, _, _, _, _, _, shown, ..]), _) if *shown == count => "sound".to_string(),
        _ => format!("the lines {lines:?}"),
    }
}

#[cfg(test)]
mod tests {
    use super::*;

    /// Has the second program make every case, and counts those of the images that are wanted.
    fn counts_of(wanted: impl Fn(Format, &[u8]) -> bool) -> Counts {
        let mut counts = Counts::new();
        let mut images = listed_images();
        images.retain(|[_, image, _]| wanted(Format::Extended, image));
        let mut listing = Vec::new();
        second::listing(&trace_of(&images)[..], &mut listing).unwrap();
        let listing = String::from_utf8(listing).unwrap();
        count_listed(&images, &listing, &mut counts).unwrap();
        for format in FORMATS {
            let scripts = [
                (JUDGED, judge_script(format)),
                (RECEIVED[0], receive_script(format, 0)),
                (RECEIVED[1], receive_script(format, 1)),
            ];
            for (way, mut script) in scripts {
                script
                    .retain(|request| image_of(request).is_none_or(|image| wanted(format, image)));
                let responses = exchange::by_second(&script, &[]).unwrap();
                count_calls(&script, &responses, (way, format), &mut counts).unwrap();
            }
        }
        counts
    }

    #[test]
    fn every_case_occurs_and_is_as_l3_and_l4_say() {
        let counts = counts_of(|_, _| true);
        assert_eq!(counts.check(), Ok(()));
    }

    #[test]
    fn a_case_that_is_left_out_is_told() {
        for (left_out, name) in [
            (
                (Flag::End, 12, 8),
                "end with count code 12 and 8 data bytes",
            ),
            (
                (Flag::Single, 0, 1),
                "single with count code 0 and 1 data bytes",
            ),
        ] {
            let counts = counts_of(|format, image| case_of(format, image) != left_out);
            let said = counts.check().unwrap_err();
            assert_eq!(said.matches(name).count(), ways().len(), "{said}");
            assert_eq!(said.matches(';').count() + 1, ways().len(), "{said}");
        }
    }

    #[test]
    fn a_refusal_that_never_occurs_is_told() {
        for (size_is, refusal) in [
            (Ordering::Less, "refused 4"),
            (Ordering::Greater, "refused 25"),
        ] {
            let counts = counts_of(|format, image| {
                let (_, code, size) = case_of(format, image);
                size.cmp(&code.min(8)) != size_is
            });
            let said = counts.results.check().unwrap_err();
            for (way, format, _) in ways() {
                let row = result_row(way, format, false, refusal);
                assert!(said.contains(&row), "{said}");
            }
        }
    }

    #[test]
    fn another_result_is_told() {
        let image =
            |code: u8, size: usize| [&[0x80 | code, 0, 0, 0xC0, 0], &[7; 9][..size]].concat();
        let all = ["sound", "refused 1", "refused 4", "refused 5", "refused 25"];
        for (code, size, right) in [
            (2, 1, "refused 4"),
            (2, 3, "refused 25"),
            (0, 8, "refused 25"),
            (15, 7, "refused 4"),
            (15, 9, "refused 1"),
        ] {
            for result in all {
                let said =
                    Counts::new().count((JUDGED, Format::Extended), &image(code, size), result);
                assert_eq!(said.is_ok(), result == right, "{said:?}");
            }
        }
    }

    /// What is said where each response to an image is damaged, at the byte and the response after it that are given.
    fn said_of(way: usize, byte: usize, after: usize) -> Option<String> {
        let script = receive_script(Format::Standard, way as u8);
        let mut responses = exchange::by_second(&script, &[]).unwrap();
        let is_long = |place: &usize| judged(&responses[*place]) == "refused 25";
        let place = (0..script.len())
            .filter(|&place| image_of(&script[place]).is_some())
            .find(is_long)
            .expect("an image too long");
        responses[place + after][byte] ^= 1;
        let way = (RECEIVED[way], Format::Standard);
        count_calls(&script, &responses, way, &mut Counts::new()).err()
    }

    #[test]
    fn an_image_too_long_that_changes_something_is_told() {
        for way in [0, 1] {
            for (byte, after) in [(4, 0), (163, 0), (0, 1), (2063, 1)] {
                let said = said_of(way, byte, after).expect("a change");
                assert!(
                    said.ends_with("refused 25 with a change, not refused 25"),
                    "{said}"
                );
            }
        }
    }

    #[test]
    fn lines_are_read_with_those_around() {
        let image = [0x8C, 0x45, 0, 0xC0, 0x10];
        let kept = "1 B 1 5 0 0 1 0 2 8 kept";
        let whole = "3 B 1 5 0 0 2 1 2 1 packet 9";
        let lost = "3 B 1 5 0 0 2 1 2 1 refused 6";
        let frame = "2 B 1 5 0 0 3 0 2 8 packet 8 broke";
        let with_12 = "2 B 1 5 0 0 3 0 2 12 packet 8 broke";
        assert_eq!(
            listed(&image, &[kept, "2 B refused 25", whole]),
            "refused 25"
        );
        assert_eq!(listed(&image, &[kept, frame, lost]), "sound");
        for lines in [
            &[kept, "2 B refused 25", lost][..],
            &[kept, with_12, lost],
            &[kept, "2 B refused 25"],
            &[],
        ] {
            assert!(listed(&image, lines).starts_with("the lines "), "{lines:?}");
        }
    }

    #[test]
    fn images_are_of_their_case() {
        let mut random = Random::new(1);
        for format in FORMATS {
            let fields = any_fields(format, &mut random);
            for case in every_case(9) {
                let image = image(&fields, 1, case, &mut random);
                assert_eq!(case_of(format, &image), case);
            }
        }
        assert_eq!(every_case(9).count(), 4 * 16 * 10);
    }
}
