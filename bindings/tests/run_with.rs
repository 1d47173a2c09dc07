//! The run under a default (document 02, L1), over the static library: the rows
//! of the request's table, then all that the unchanged Rust answered.
//!
//! A row's outcome is the Rust's: of the line itself, or, where that is refused
//! with 40, of the line with a prefix, which the listing then does not show.

mod common;

use std::ptr;

use common::cases;
use layout_reader::{answer_with, run, run_with, Answer, Refusal, ANY_AREA};

/// What stands in an area before it is lent, and round all that is lent.
const LENT: u8 = 0xa5;
const GUARD: usize = 64;

/// A mode byte and the image of a line. tests/link.d/lines has the line and the
/// command that makes this of it.
macro_rules! input {
    ($name:literal) => {
        include_bytes!(concat!("../../tests/link.d/", $name, ".in"))
    };
}

/// Lines 2 and on of two listings.
const SOURCE: &str =
    "c 0 2 8 none D Z\nvariable +0 +4 a\nfiller +0 +4\nc 1 1 8 none D Z\nvariable +0 +8 b\n";
const FIELD: &str = "c 0 1 8 none D Z\nvariable +0 +8 a\n";

/// The starting value in force, by what it is a part of.
#[derive(Debug, Clone, Copy, PartialEq)]
enum Value {
    /// After a refusal there is none.
    Nothing,
    /// These bytes of the image's text: where they start, if they are any.
    Image(usize, &'static [u8]),
    Default,
}
use Value::{Default, Image, Nothing};

/// A line's input, the mode and the default; the outcome, as line 1 and the
/// lines that follow; the starting value in force.
struct Row(&'static [u8], u32, &'static [u8], &'static str, &'static str, Value);

/// The rows in the order of the table, which begins at 1.
const ROWS: [Row; 14] = [
    Row(input!("filler"), 1, b"", "refused 40 0 1", "", Nothing),
    Row(input!("filler"), 1, b"umax", "layout 2 3 8 none D Z -", SOURCE, Default),
    Row(input!("word"), 1, b"umax", "layout 2 3 8 none D Z =z", SOURCE, Image(6, b"z")),
    Row(input!("empty"), 1, b"umax", "layout 2 3 8 none D Z =", SOURCE, Image(0, b"")),
    Row(input!("field"), 0, b"umax", "layout 1 1 8 none D Z -", FIELD, Default),
    Row(input!("field"), 0, b"", "layout 1 1 8 none D Z -", FIELD, Default),
    Row(input!("path"), 1, b"umax", "layout 1 1 8 none D Z =x::y", FIELD, Image(0, b"x::y")),
    Row(input!("no_width"), 2, b"z", "refused 42 0 0", "", Nothing),
    Row(input!("alone"), 1, b"z", "refused 43 0 0", "", Nothing),
    Row(input!("opposite"), 1, b"z", "refused 45 0 1", "", Nothing),
    Row(input!("widths"), 1, b"z", "refused 41 0 1", "", Nothing),
    Row(input!("colon"), 1, b"q", "refused 10 0 0", "", Nothing),
    Row(input!("field"), 3, b"q", "refused 1 0 0", "", Nothing),
    Row(input!("field"), 0, &[0xff; 70_000], "layout 1 1 8 none D Z -", FIELD, Default),
];

/// Bytes between guard bytes.
#[derive(PartialEq)]
struct Lent(Vec<u8>);

impl Lent {
    fn new(bytes: &[u8]) -> Self {
        Self([&[LENT; GUARD], bytes, &[LENT; GUARD]].concat())
    }

    fn bytes(&self) -> &[u8] {
        &self.0[GUARD..self.0.len() - GUARD]
    }

    fn bytes_mut(&mut self) -> &mut [u8] {
        let end = self.0.len() - GUARD;
        &mut self.0[GUARD..end]
    }
}

/// Whether a part lies in a whole, by its place and not by its bytes.
fn lies_in(part: &[u8], whole: &[u8]) -> bool {
    let (part, whole) = (part.as_ptr_range(), whole.as_ptr_range());
    whole.start <= part.start && part.end <= whole.end
}

/// Whether a part of the image or of the default is the one that is expected.
fn is(value: Value, part: &[u8], image: &[u8], default: &[u8]) -> bool {
    match value {
        Nothing => false,
        Default => ptr::eq(part, default),
        Image(_, b"") => part.is_empty() && lies_in(part, image),
        Image(start, bytes) => {
            // the header's ninth number is where the text begins
            let text = u32::from_le_bytes(image[32..36].try_into().unwrap()) as usize;
            part == bytes && ptr::eq(part, &image[text + start..][..bytes.len()])
        }
    }
}

/// Runs a row (from 1), sees to all that the table says of it, and hands out the
/// area as it is then.
fn tried(number: usize) -> Vec<u8> {
    let Row([_, line @ ..], mode, word, first, rest, expected) = ROWS[number - 1] else {
        panic!("{number}: no input");
    };
    let (image, default) = (Lent::new(line), Lent::new(word));
    let mut area = Lent::new(&[LENT; ANY_AREA]);
    let (listing, length) = match run_with(image.bytes(), mode, default.bytes(), area.bytes_mut()) {
        Ok((length, value)) => {
            assert!(is(expected, value, image.bytes(), default.bytes()), "{number}: {value:?}");
            let answer = Answer::read(&area.bytes()[..length], image.bytes()).expect("an answer");
            (answer.to_string(), length)
        }
        Err(refusal) => {
            assert_eq!(expected, Nothing, "{number}");
            (format!("{refusal}\n"), 0)
        }
    };
    assert_eq!(listing, format!("{first}\n{rest}"), "{number}");
    let mut untouched = area.0[..GUARD].iter().chain(&area.0[GUARD + length..]);
    assert!(untouched.all(|byte| *byte == LENT), "{number}: the area beyond the answer");
    assert!(image == Lent::new(line) && default == Lent::new(word), "{number}: what is read");

    let mut other = [LENT; ANY_AREA];
    match answer_with(image.bytes(), mode, default.bytes(), &mut other) {
        Ok((answer, value)) => {
            assert_eq!(answer.to_string(), listing, "{number}");
            assert!(is(expected, value, image.bytes(), default.bytes()), "{number}: {value:?}");
        }
        Err(refusal) => assert_eq!(format!("{refusal}\n"), listing, "{number}"),
    }
    area.bytes().to_vec()
}

#[test]
fn rows_of_the_table() {
    for number in 1..=ROWS.len() {
        tried(number);
    }
}

/// Flags, alignment, the starting value's start and length: a default is in none
/// of them.
#[test]
fn heads() {
    for (row, head) in [(2, [3, 0, 0, 0]), (3, [7, 0, 6, 1]), (4, [7, 0, 0, 0])] {
        let bytes: Vec<u8> = head.iter().flat_map(|number: &u32| number.to_le_bytes()).collect();
        assert_eq!(tried(row)[16..32], bytes, "{row}");
    }
    assert_eq!(tried(5), tried(6));
    assert_eq!(tried(5), tried(14));
}

/// An empty default means none: the run is `run`. Hands out what it came to, and
/// the area as it is then.
fn as_without(image: &[u8], mode: u32, length: usize) -> (Result<usize, Refusal>, Vec<u8>) {
    let (mut area, mut other) = (vec![LENT; length], vec![LENT; length]);
    let outcome = run(image, mode, &mut area);
    let with = run_with(image, mode, &[], &mut other);
    assert_eq!(with.map(|(length, _)| length), outcome);
    assert_eq!(area, other);
    (outcome, area)
}

#[test]
fn empty_defaults() {
    let examples: [&[u8]; 2] =
        [include_bytes!("../../examples/whole.in"), include_bytes!("../../examples/cut.in")];
    for example in examples {
        assert!(as_without(&example[1..], 0, ANY_AREA).0.is_ok());
        assert!(as_without(&example[1..], 3, ANY_AREA).0.is_err());
        assert!(as_without(&example[1..], 0, 40).0.is_err());
    }
    assert!(as_without(&[], 0, 0).0.is_err());
    assert!(as_without(&input!("filler")[1..], 1, ANY_AREA).0.is_err());
}

/// What the Rust answered, under no default and under one: the same outcome and
/// area but where that was 40; the line's own prefix in force, else the default.
#[test]
fn all_answers_under_a_default() {
    let default = &b"umax"[..];
    let (mut own, mut lent, mut passed, mut later) = (0, 0, 0, 0);
    for case in cases() {
        let (without, before) = as_without(case.image, case.mode, case.area);
        let mut area = vec![LENT; case.area];
        let with = run_with(case.image, case.mode, default, &mut area);
        match without {
            Err(Refusal { number: 40, .. }) => match with {
                Ok(_) => passed += 1,
                Err(refusal) => {
                    assert!((41..=45).contains(&refusal.number) && area == before, "{refusal}");
                    later += 1;
                }
            },
            _ => {
                assert_eq!(with.map(|(length, _)| length), without);
                assert_eq!(area, before);
            }
        }
        let Ok((length, value)) = with else { continue };
        match Answer::read(&area[..length], case.image).expect("an answer").starting_value() {
            Some(prefix) => {
                assert!(value == prefix && lies_in(value, case.image), "{value:?}");
                own += 1;
            }
            None => {
                assert!(ptr::eq(value, default), "{value:?}");
                lent += 1;
            }
        }
    }
    let counts = format!("{own} prefixes, {lent} defaults; of 40 {passed} passed, {later} later");
    assert!(own >= 500 && lent >= 500 && passed >= 20 && later >= 20, "{counts}");
}
