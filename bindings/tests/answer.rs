//! The reader of answers, without the library: document 01's worked listing
//! written by hand, no byte that is not looked at, and no panic on any bytes.

mod common;

use common::cases;
use layout_reader::{area_needed, Alignment, Answer, Bound, Kind};

/// The C header, whose sizes the crate has too.
const HEADER: &str = include_str!("../../include/layout.h");

const LISTING: &str = "layout 2 2 8 none D Z -
c 0 1 8 none D Z
literal +0 +8 a5
c 1 1 8 none D Z
variable +0 +8 rec
";

fn bytes_of(numbers: &[u32]) -> Vec<u8> {
    numbers.iter().flat_map(|number| number.to_le_bytes()).collect()
}

/// The image of `10u4, 5u4; rec[..8]`, as far as an answer speaks of it: header
/// and text, with the tables between left out.
fn worked_image() -> Vec<u8> {
    let text = b"5u410u4rec[..8]";
    let mut image = bytes_of(&[2, 3, 8, text.len() as u32, 2, 40, 40, 40, 40, 55]);
    image.extend(text);
    image
}

/// The answer of the worked listing, field by field.
fn worked_answer() -> Vec<u8> {
    let bound = |x: u32| [0, 0, x, 0, 0, 0];
    let mut numbers = vec![2, 2, 8, 0, 3, 0, 0, 0];
    numbers.extend([1, 0, 3, 8, 0, 1, 0, 3, 8, 0]);
    // a literal of 8 bits at byte 0 of the block; rec, after 5u4 and 10u4; both with an end
    for component in [[1, 0, 0, 8, 0, 1], [2, 7, 3, 0, 0, 1]] {
        numbers.extend([component, bound(0), bound(8)].concat());
    }
    let mut answer = bytes_of(&numbers);
    answer.push(0xa5);
    answer
}

#[test]
fn worked_listing() {
    let (answer, image) = (worked_answer(), worked_image());
    assert_eq!(answer.len(), area_needed(2, 2, 1));
    let answer = Answer::read(&answer, &image).expect("an answer");
    assert_eq!(answer.to_string(), LISTING);
    assert_eq!((answer.width(), answer.alignment()), (Some(8), Alignment::None));
    assert_eq!(answer.starting_value(), None);
    let kinds: Vec<Kind> = answer.components().rev().map(|c| c.kind()).collect();
    assert_eq!(kinds, [Kind::Variable(b"rec"), Kind::Literal { width: 8, bytes: &[0xa5] }]);
    let end = answer.components().next().and_then(|c| c.end());
    assert_eq!(end, Some(Bound { text: b"", x: 8 }));
}

#[test]
fn every_byte_is_looked_at() {
    let (answer, image) = (worked_answer(), worked_image());
    let right = Answer::read(&answer, &image).expect("an answer");
    for at in 0..answer.len() {
        for bit in 0..8 {
            let mut wrong = answer.clone();
            wrong[at] ^= 1 << bit;
            assert!(Answer::read(&wrong, &image) != Ok(right), "byte {at}, bit {bit}");
        }
    }
    for length in 0..answer.len() {
        assert!(Answer::read(&answer[..length], &image).is_err(), "cut to {length}");
    }
    assert!(Answer::read(&[&answer[..], &[0]].concat(), &image).is_err(), "one byte more");
    for length in 0..image.len() {
        assert!(Answer::read(&answer, &image[..length]).is_err(), "image cut to {length}");
    }
}

#[test]
fn all_that_is_handed_out_can_be_shown() {
    let (answer, image) = (worked_answer(), worked_image());
    let answer = Answer::read(&answer, &image).expect("an answer");
    let mut concatenations = answer.concatenations();
    assert!(format!("{concatenations:?} {:?}", answer.components()).contains("0..2"));
    let first = concatenations.next();
    assert_ne!(first, concatenations.next());
    let shown = "Some(Concatenation { width: Some(8), alignment: None, deterministic: true, \
                 nonzero: true, .. })";
    assert_eq!(format!("{first:?}"), shown);
}

/// The sizes are those of the header, which names a constant and its number on
/// one line.
#[test]
fn sizes_of_the_header() {
    for (name, size) in [
        ("HEAD_SIZE", layout_reader::HEAD_SIZE),
        ("CONCATENATION_SIZE", layout_reader::CONCATENATION_SIZE),
        ("COMPONENT_SIZE", layout_reader::COMPONENT_SIZE),
        ("ANY_LISTING", layout_reader::ANY_LISTING),
        ("RUN_STACK", layout_reader::RUN_STACK),
        ("LISTING_STACK", layout_reader::LISTING_STACK),
        ("CHECK_STACK", layout_reader::CHECK_STACK),
        ("TOKENS_STACK", layout_reader::TOKENS_STACK),
        ("TOKEN_SIZE", layout_reader::TOKEN_SIZE),
        ("ANY_IMAGE", layout_reader::ANY_IMAGE),
    ] {
        let line = format!("#define LAYOUT_{name} {size}");
        assert!(HEADER.lines().any(|header| header == line), "{line}");
    }
}

/// The number at a place of the worked answer made another: what is said of it.
fn fault(at: usize, number: u32) -> String {
    let mut answer = worked_answer();
    answer[at..at + 4].copy_from_slice(&number.to_le_bytes());
    Answer::read(&answer, &worked_image()).expect_err("a wrong number").to_string()
}

#[test]
fn faults_say_what_is_wrong() {
    let (first, second) = (72, 144);
    for (at, number, said) in [
        (0, 3, "another number of concatenations, at byte 0"),
        (4, 4, "more components than the image, at byte 4"),
        (4, 3, "shorter than its tables, at byte 217"),
        (4, 1, "more components than counted, at byte 52"),
        (16, 8, "an unknown flag, at byte 16"),
        (20, 6, "an unknown alignment, at byte 20"),
        (28, 1, "an absent starting value with a text, at byte 24"),
        (32, 0, "a concatenation without components, at byte 32"),
        (40, 4, "an unknown flag, at byte 40"),
        (first, 4, "an unknown kind, at byte 72"),
        (first + 8, 1, "a literal with a text, at byte 76"),
        (first + 12, 0, "a literal of no width, at byte 84"),
        (first + 12, 9, "a literal cut off, at byte 216"),
        (first + 12, 7, "a spare bit that is set, at byte 216"),
        (first + 16, 1, "a literal at another place, at byte 88"),
        (first + 20, 2, "an end neither present nor absent, at byte 92"),
        (first + 20, 0, "an absent end that is not zeros, at byte 120"),
        (first + 24, 1, "an empty text with a start, at byte 96"),
        (first + 28, 16, "a text outside the image's, at byte 96"),
        (second, 1, "a literal with a text, at byte 148"),
        (second, 3, "a variable without text or a filler with one, at byte 148"),
        (second + 8, u32::MAX, "a text outside the image's, at byte 148"),
        (second + 12, 1, "no literal, with literal bytes, at byte 156"),
    ] {
        assert_eq!(fault(at, number), said, "{number} at byte {at}");
    }
    assert_eq!(fault(first, 2), "a variable without text or a filler with one, at byte 76");
}

#[test]
fn faults_of_lengths_counts_and_images() {
    let said = |answer: &[u8], image: &[u8]| {
        Answer::read(answer, image).expect_err("something wrong").to_string()
    };
    let (answer, image) = (worked_answer(), worked_image());
    assert_eq!(said(&answer[..31], &image), "shorter than its head, at byte 31");
    assert_eq!(said(&answer[..215], &image), "shorter than its tables, at byte 215");
    assert_eq!(
        said(&answer, &image[..39]),
        "no image, which is shorter than its header, at byte 0"
    );
    for (at, number) in [(12, 16), (12, u32::MAX), (32, 41), (32, u32::MAX)] {
        let mut wrong = image.clone();
        wrong[at..at + 4].copy_from_slice(&number.to_le_bytes());
        assert_eq!(said(&answer, &wrong), "no image, whose text lies outside it, at byte 0");
    }
    // both components stay, but only the first concatenation
    let one = |bytes: &[u8]| [&1u32.to_le_bytes(), &bytes[4..]].concat();
    let fewer = [&one(&answer)[..52], &answer[72..]].concat();
    assert_eq!(said(&fewer, &one(&image)), "fewer components than counted, at byte 4");
}

/// Walks all that an answer hands out.
fn walk(answer: &Answer) -> usize {
    answer.to_string().len() + format!("{answer:?}").len() + answer.components().rev().count()
}

/// Images that the Rust accepted, with answers made up from the worked one, both
/// flipped and cut at random: read or refused, and never a panic.
#[test]
fn no_bytes_make_it_panic() {
    let mut seed = 0x2545_f491_4f6c_dd1d_u64;
    let mut below = |limit: usize| {
        seed ^= seed << 13;
        seed ^= seed >> 7;
        seed ^= seed << 17;
        (seed >> 11) as usize % limit.max(1)
    };
    let images: Vec<&[u8]> = cases().iter().filter(|c| c.accepted()).map(|c| c.image).collect();
    let (mut read, mut faults) = (0, 0);
    for round in 0..60_000 {
        let mut answer = worked_answer();
        let mut image =
            if round % 3 == 0 { images[below(images.len())].to_vec() } else { worked_image() };
        for _ in 0..below(4) {
            let at = below(answer.len());
            answer[at] = if below(2) == 0 { answer[at] ^ 1 << below(8) } else { below(256) as u8 };
        }
        if below(3) == 0 {
            let at = below(40.min(image.len()));
            image[at] = [0, 1, 0x7f, 0x80, 0xff][below(5)];
        }
        answer.truncate(if below(8) == 0 { below(answer.len()) } else { answer.len() });
        image.truncate(if below(8) == 0 { below(image.len()) } else { image.len() });
        match Answer::read(&answer, &image) {
            Ok(answer) => read += usize::from(walk(&answer) > 0),
            Err(fault) => faults += usize::from(!fault.to_string().is_empty()),
        }
    }
    assert!(read > 5_000 && faults > 5_000, "{read} read, {faults} faults");
}
