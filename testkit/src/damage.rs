//! Images made wrong in one of several ways, or given another code for the same count.

use second::format::{Format, MAX_COUNT};

use crate::random::Random;

/// What can be wrong with an image; "fixed bits wrong" in extended only.
pub const CORRUPTIONS: [&str; 11] = [
    "bits flipped",
    "count wrong",
    "data cut off",
    "data left behind",
    "RTR set",
    "flag wrong",
    "number wrong",
    "length wrong",
    "shortened with its count",
    "random bytes",
    "fixed bits wrong",
];

/// Lengths of images up to this come up as often as each other; the longest sound one has 13 bytes.
const NEAR: usize = 20;

/// Lengths that 8 or 16 bits take for sound ones.
const FAR: [usize; 4] = [261, 269, 65_536 + 5, 65_536 + 13];

/// The longest image that damage makes, where nothing else bounds it.
pub const LONGEST: usize = 65_536 + 13;

/// Makes a whole image wrong in some way and names the way; it may still be one that is received. No image becomes
/// longer than `longest`.
pub fn corrupt(
    image: &mut Vec<u8>,
    format: Format,
    longest: usize,
    random: &mut Random,
) -> &'static str {
    let ways = match format {
        Format::Extended => CORRUPTIONS.len(),
        Format::Standard => CORRUPTIONS.len() - 1,
    };
    let way = random.below(ways);
    match way {
        0 => flip_bits(image, random),
        1 => wrong_count(image, format, random),
        2 => cut_off(image, format, random),
        3 => leave_behind(image, format, longest, random),
        4 => set_remote(image, format),
        5 => change_flag(image, format, random),
        6 => change_number(image, format, random),
        7 => change_length(image, longest, random),
        8 => shorten(image, format, random),
        9 => *image = random_bytes(longest, random),
        _ => break_fixed_bits(image, random),
    }
    CORRUPTIONS[way]
}

/// The place of the byte whose low half is the count's code.
fn count_byte(format: Format) -> usize {
    match format {
        Format::Extended => 0,
        Format::Standard => 1,
    }
}

/// Gives an image that count code.
pub fn set_code(image: &mut [u8], format: Format, code: usize) {
    let byte = &mut image[count_byte(format)];
    *byte = *byte & 0xF0 | code as u8;
}

/// Whether an image has one of the count codes 9 to 15. What is too short for a code has none.
pub fn is_over_8(image: &[u8], format: Format) -> bool {
    let byte = image.get(count_byte(format));
    byte.is_some_and(|byte| usize::from(byte & 0x0F) > MAX_COUNT)
}

/// Puts one of the codes 9 to 15 in the place of 8 before eight data bytes, which means the same (L3), and says so.
/// Other images stay as they are.
pub fn raise_code(image: &mut [u8], format: Format, random: &mut Random) -> bool {
    let full = image.len() == format.header_size() + MAX_COUNT;
    let raised = full && usize::from(image[count_byte(format)] & 0x0F) == MAX_COUNT;
    if raised {
        set_code(image, format, any_code_over_8(random));
    }
    raised
}

fn any_code_over_8(random: &mut Random) -> usize {
    random.within(MAX_COUNT + 1, 15)
}

/// Gives a code that does not stand for the number of data bytes.
fn wrong_count(image: &mut [u8], format: Format, random: &mut Random) {
    let size = image.len() - format.header_size();
    let wrong = (0..=15).filter(|&code: &usize| code.min(MAX_COUNT) != size);
    let wrong: Vec<usize> = wrong.collect();
    set_code(image, format, random.pick(&wrong));
}

/// Gives any code and fewer data bytes than it stands for, often one fewer.
fn cut_off(image: &mut Vec<u8>, format: Format, random: &mut Random) {
    let code = random.within(1, 15);
    let count = code.min(MAX_COUNT);
    let missing = one_or_more(count, random);
    resize_data(image, format, count - missing, random);
    set_code(image, format, code);
}

/// Gives any code and more data bytes than it stands for, often one more: up to eight in all, but nine after a code that
/// stands for eight, if an image may be that long.
fn leave_behind(image: &mut Vec<u8>, format: Format, longest: usize, random: &mut Random) {
    let room = longest > format.header_size() + MAX_COUNT;
    let code = random.within(0, if room { 15 } else { MAX_COUNT - 1 });
    let count = code.min(MAX_COUNT);
    let surplus = one_or_more((MAX_COUNT - count).max(1), random);
    resize_data(image, format, count + surplus, random);
    set_code(image, format, code);
}

/// One, half of the time; else any number up to the most.
fn one_or_more(most: usize, random: &mut Random) -> usize {
    match random.chance(500) {
        true => 1,
        false => random.within(1, most),
    }
}

/// Cuts data bytes off, or adds any.
fn resize_data(image: &mut Vec<u8>, format: Format, size: usize, random: &mut Random) {
    let length = format.header_size() + size;
    image.truncate(length);
    image.extend(random.bytes(length - image.len()));
}

fn flip_bits(image: &mut [u8], random: &mut Random) {
    let first = random.below(image.len() * 8);
    image[first / 8] ^= 1 << (first % 8);
    if random.chance(300) {
        let second = random.below(image.len() * 8);
        image[second / 8] ^= 1 << (second % 8);
    }
}

/// Gives the low `bits` bits of a byte another value.
fn change_low(image: &mut [u8], place: usize, bits: u32, random: &mut Random) {
    image[place] ^= random.within(1, (1 << bits) - 1) as u8;
}

fn set_remote(image: &mut [u8], format: Format) {
    match format {
        Format::Extended => image[0] |= 0x40,
        Format::Standard => image[1] |= 0x10,
    }
}

fn change_flag(image: &mut [u8], format: Format, random: &mut Random) {
    let difference = random.within(1, 3) as u8;
    match format {
        Format::Extended => image[3] ^= difference << 6,
        Format::Standard => image[1] ^= difference << 5,
    }
}

fn change_number(image: &mut Vec<u8>, format: Format, random: &mut Random) {
    match format {
        Format::Extended => change_low(image, 3, 6, random),
        // An empty single has no byte in that place.
        Format::Standard if image.len() < 3 => image.push(0),
        Format::Standard => image[2] = random.pick(&[0, 1, 254, 255, image[2] ^ 64]),
    }
}

fn change_length(image: &mut Vec<u8>, longest: usize, random: &mut Random) {
    let fill = random.byte();
    let far = random.pick(&FAR);
    let length = match far <= longest && random.chance(150) {
        true => far,
        false => random.within(0, longest.min(NEAR)),
    };
    image.resize(length, fill);
}

/// Cuts data bytes off and gives the count that belongs to it.
fn shorten(image: &mut Vec<u8>, format: Format, random: &mut Random) {
    let header = format.header_size();
    let length = random.within(header, image.len());
    image.truncate(length);
    set_code(image, format, length - header);
}

fn random_bytes(longest: usize, random: &mut Random) -> Vec<u8> {
    let size = random.within(0, longest.min(NEAR));
    random.bytes(size)
}

fn break_fixed_bits(image: &mut [u8], random: &mut Random) {
    match random.below(4) {
        0 => image[0] &= 0x7F,
        1 => image[0] |= random.pick(&[0x10, 0x20, 0x30, 0x50, 0x60]),
        _ => change_low(image, 4, 3, random),
    }
}

#[cfg(test)]
mod tests {
    use super::*;
    use crate::keys::{any_fields, FORMATS};
    use second::frame::{judge, Flag};
    use second::refusal::Refusal;
    use second::split::{image, piece};
    use std::collections::HashMap;

    /// A piece of a packet of twenty bytes, damaged.
    fn damaged(format: Format, longest: usize, random: &mut Random) -> (Vec<u8>, &'static str) {
        let fields = any_fields(format, random);
        let mut image = piece(&fields, &random.bytes(20), random.below(3));
        let way = corrupt(&mut image, format, longest, random);
        (image, way)
    }

    #[test]
    fn every_refusal_of_an_image_comes_about_and_every_way() {
        for format in FORMATS {
            let mut random = Random::new(5);
            let (mut seen, mut ways) = (Vec::new(), Vec::new());
            for _ in 0..3000 {
                let (image, way) = damaged(format, LONGEST, &mut random);
                seen.extend(judge(format, &image).err());
                ways.push(way);
            }
            let form = (format == Format::Extended).then_some(Refusal::Form);
            let others = [
                Refusal::Length,
                Refusal::Remote,
                Refusal::Count,
                Refusal::Surplus,
                Refusal::Piece,
            ];
            for refusal in others.into_iter().chain(form) {
                assert!(seen.contains(&refusal), "{format:?} {refusal:?}");
            }
            let all = CORRUPTIONS.len() - usize::from(format == Format::Standard);
            for way in &CORRUPTIONS[..all] {
                assert!(ways.contains(way), "{format:?} {way}");
            }
        }
    }

    const FLAGS: [Flag; 4] = [Flag::Start, Flag::Middle, Flag::End, Flag::Single];

    /// An image of a flag, a number that goes with it, and so many data bytes, one at least where the number is one.
    fn any_image(format: Format, flag: Flag, size: usize, random: &mut Random) -> Vec<u8> {
        let fields = any_fields(format, random);
        let numbered = format == Format::Standard && flag != Flag::Single;
        let part = random.bytes(size.saturating_sub(numbered.into()));
        let number = match flag {
            Flag::Start | Flag::Single => 0,
            Flag::Middle | Flag::End => random.within(1, 63),
        };
        image(&fields, flag, number as u8, &part)
    }

    #[test]
    fn keeps_within_the_longest_for_every_piece() {
        let mut random = Random::new(8);
        for format in FORMATS {
            for _ in 0..5000 {
                let (flag, size) = (random.pick(&FLAGS), random.within(0, 8));
                let mut image = any_image(format, flag, size, &mut random);
                corrupt(&mut image, format, 13, &mut random);
                assert!(image.len() <= 13);
            }
        }
    }

    /// The count code of an image, and how many data bytes there are more than it stands for.
    fn code_and_surplus(format: Format, image: &[u8]) -> (usize, isize) {
        let code = usize::from(image[count_byte(format)] & 0x0F);
        let size = image.len() - format.header_size();
        (code, size as isize - code.min(8) as isize)
    }

    #[test]
    fn wrong_counts_are_refused_with_codes_over_8_among_them() {
        let mut random = Random::new(3);
        for format in FORMATS {
            for (flag, size) in FLAGS.into_iter().flat_map(|f| (1..=8).map(move |s| (f, s))) {
                let (mut over, mut long) = (0, 0);
                for _ in 0..100 {
                    let mut image = any_image(format, flag, size, &mut random);
                    wrong_count(&mut image, format, &mut random);
                    let is_long = code_and_surplus(format, &image).1 > 0;
                    let refusal = [Refusal::Count, Refusal::Surplus][usize::from(is_long)];
                    assert_eq!(judge(format, &image), Err(refusal));
                    over += usize::from(is_over_8(&image, format));
                    long += usize::from(is_long);
                }
                // Before eight data bytes they are sound, and every smaller count is too small.
                assert_eq!(over > 20, size < 8, "{over}");
                assert!(long > 0 && (long == 100) == (size == 8), "{long}");
            }
        }
    }

    /// How often a way of damage makes each code with each surplus, of pieces of every flag and size. Each image has to
    /// be refused for that.
    fn made(
        format: Format,
        way: impl Fn(&mut Vec<u8>, &mut Random),
    ) -> HashMap<(usize, isize), usize> {
        let mut random = Random::new(4);
        let mut made = HashMap::new();
        for _ in 0..4000 {
            let (flag, size) = (random.pick(&FLAGS), random.within(0, 8));
            let mut image = any_image(format, flag, size, &mut random);
            way(&mut image, &mut random);
            let (code, surplus) = code_and_surplus(format, &image);
            let refusal = match surplus {
                1 if code >= 8 => Refusal::Length,
                1.. => Refusal::Surplus,
                _ => Refusal::Count,
            };
            assert_eq!(judge(format, &image), Err(refusal));
            *made.entry((code, surplus)).or_insert(0) += 1;
        }
        made
    }

    #[test]
    fn data_is_cut_off_after_every_code() {
        for format in FORMATS {
            let made = made(format, |image, random| cut_off(image, format, random));
            for code in 1..=15 {
                let most = code.min(8) as isize;
                assert!(made[&(code, -1)] > 100, "{code}");
                assert!((1..=most).all(|missing| made.contains_key(&(code, -missing))));
            }
            assert!(made.keys().all(|&(_, surplus)| surplus < 0));
        }
    }

    #[test]
    fn data_is_left_behind_after_every_code() {
        for format in FORMATS {
            let full = format.header_size() + 8;
            for (longest, highest) in [(full, 7), (full + 1, 15)] {
                let leave = |image: &mut Vec<u8>, random: &mut Random| {
                    leave_behind(image, format, longest, random);
                    assert!(image.len() <= longest);
                };
                let made = made(format, leave);
                for code in 0..=highest {
                    let most = 8_isize.saturating_sub(code as isize).max(1);
                    assert!(made[&(code, 1)] > 100, "{code}");
                    assert!((1..=most).all(|surplus| made.contains_key(&(code, surplus))));
                }
                assert!(made.keys().all(|&(_, surplus)| surplus > 0));
            }
        }
    }

    #[test]
    fn a_raised_code_is_judged_as_8() {
        let mut random = Random::new(6);
        for format in FORMATS {
            for flag in FLAGS {
                let mut codes = [false; 16];
                for _ in 0..200 {
                    let image = any_image(format, flag, 8, &mut random);
                    let mut raised = image.clone();
                    assert!(raise_code(&mut raised, format, &mut random));
                    codes[usize::from(raised[count_byte(format)] & 0x0F)] = true;
                    assert!(is_over_8(&raised, format) && !is_over_8(&image, format));
                    assert!(judge(format, &image).is_ok());
                    assert_eq!(judge(format, &raised), judge(format, &image));
                }
                assert_eq!(codes, std::array::from_fn(|code| code > 8));
            }
        }
    }

    #[test]
    fn no_other_image_gets_a_raised_code() {
        let mut random = Random::new(7);
        for format in FORMATS {
            let mut images: Vec<Vec<u8>> = (0..=13).map(|size| vec![0x88; size]).collect();
            images.retain(|image| image.len() != format.header_size() + 8);
            let mut wrong = any_image(format, Flag::Single, 8, &mut random);
            set_code(&mut wrong, format, 3);
            images.push(wrong);
            for image in images {
                let mut same = image.clone();
                assert!(!raise_code(&mut same, format, &mut random));
                assert_eq!(same, image);
            }
            assert!(!is_over_8(&[], format));
        }
    }

    #[test]
    fn lengths_go_far_where_they_may() {
        let mut random = Random::new(9);
        let mut longest = 0;
        for _ in 0..5000 {
            let (image, _) = damaged(Format::Extended, LONGEST, &mut random);
            longest = longest.max(image.len());
        }
        assert_eq!(longest, LONGEST);
    }

    #[test]
    fn fixed_bits_end_wrong() {
        let mut random = Random::new(2);
        for _ in 0..100 {
            let mut image = vec![0x81, 0x45, 0, 0xC0, 0x10, 7];
            break_fixed_bits(&mut image, &mut random);
            assert_eq!(judge(Format::Extended, &image), Err(Refusal::Form));
        }
    }
}
