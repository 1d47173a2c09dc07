//! Default texts to lend: any bytes, of any length.

use super::rng::Rng;
use crate::{check::check, run::stages, with_default::prefix_of};

/// The longest that is drawn.
pub const LONGEST: usize = 100_000;

const WORDS: [&str; 8] = ["zero", "umax", "x", "word", "a::b", "ноль", "rec", "0"];

/// Texts that would mean something in a line.
const MARKS: [&str; 10] = [":", "::", "word:", "..", "-", "=", " ", "a, b; c", "z: ..4", "\n"];

/// Bytes that are no UTF-8.
const NO_TEXT: [&[u8]; 5] = [b"\xff", b"\xc3(", b"zero\x80", b"\xed\xa0\x80", b"\xe2\x82"];

/// Lengths at which a length could be cut off to nothing, or next to them.
const LENGTHS: [usize; 9] = [255, 256, 512, 65_535, 65_536, 65_537, 70_000, 99_999, LONGEST];

/// Draws a default for an input; one in five is empty.
pub fn default(rng: &Rng, input: &[u8]) -> Vec<u8> {
    let bytes = |count: usize| (0..count).map(|_| rng.next() as u8).collect::<Vec<_>>();
    match rng.below(20) {
        0..=3 => vec![],
        4..=7 => rng.pick(&WORDS).into(),
        8 | 9 => {
            let words: Vec<_> = (0..rng.within(2, 5)).map(|_| rng.pick(&WORDS)).collect();
            words.join(" ").into()
        }
        10 => rng.pick(&NO_TEXT).to_vec(),
        11 => bytes(rng.within(1, 40)),
        12 => [vec![0; rng.within(1, 4)], bytes(rng.below(3))].concat(),
        13 | 14 => own_text(input),
        15 => rng.pick(&MARKS).into(),
        16 => input.get(1..).unwrap_or_default().to_vec(),
        17 | 18 => vec![b"z "[rng.below(2)]; rng.within(1, 300)],
        _ => long(rng),
    }
}

/// Long ones, of one byte or of many.
fn long(rng: &Rng) -> Vec<u8> {
    let length = match rng.below(3) {
        0 => rng.within(1, LONGEST),
        _ => LENGTHS[rng.below(LENGTHS.len())],
    };
    match rng.below(3) {
        0 => (0..length).map(|_| rng.next() as u8).collect(),
        _ => vec![[0, b'z', 0xff][rng.below(3)]; length],
    }
}

/// The image's own prefix, or else the text of its first record.
fn own_text(input: &[u8]) -> Vec<u8> {
    let image = input.get(1..).unwrap_or_default();
    let Ok(tree) = check(image) else { return b"zero".to_vec() };
    let prefix = tree.is_utf8().then(|| prefix_of(&stages(0, &tree).0)).flatten();
    match (prefix, &tree.concatenations[0][0].items[0]) {
        (Some((_, text)), _) => text,
        (None, crate::image::Item::Chars(text)) => text.clone(),
        (None, _) => b"(".to_vec(),
    }
}
