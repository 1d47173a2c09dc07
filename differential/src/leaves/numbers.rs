//! Texts for `i128_try_parse`: the papers' readings, all short texts over a
//! telling alphabet, the ends of the halves and of the range in every radix
//! and with every sign, and drawn ones.

use std::{collections::HashSet, iter};

use crate::generate::Rng;

/// The longest text, in bytes.
const LONGEST: usize = 300;

/// Document 01's edge readings, and what stands close to them.
const READINGS: [&str; 60] = [
    "",
    "07",
    "007",
    "--5",
    "0x-5",
    "0x",
    "-170141183460469231731687303715884105728",
    "0x-80000000000000000000000000000000",
    "-0x-80000000000000000000000000000000",
    "-0x80000000000000000000000000000000",
    "()",
    "a-",
    "10-n",
    "-n",
    "8+n&3",
    "---5",
    "-+5",
    "+-5",
    "0x--5",
    "-0x-5",
    "-0x+5",
    "0x+",
    "0x-",
    "0b",
    "0o",
    "-0x",
    "-07",
    "-007",
    "+007",
    "0X1f",
    "0O7",
    "0B1",
    "0x1F",
    "0xfF",
    "0x1g",
    "0b12",
    "0b2",
    "0o8",
    "0o78",
    "0xx1",
    "0x0x1",
    "0d1",
    "1_000",
    "0x_1",
    "0xff_ff",
    "_1",
    "1_",
    "0b1_0",
    "5u8",
    "0x1u8",
    "0b1i128",
    "5i128",
    "1e3",
    "1.0",
    " 1",
    "1 ",
    "0x 1",
    "-\u{0}",
    "1\n",
    "n",
];

/// Characters of more than one byte, two of them decimal digits elsewhere.
const WIDE: [&str; 6] = ["é", "٣", "０", "€", "日", "🍞"];

/// All texts over an alphabet, of so many characters.
fn all(alphabet: &str, length: usize) -> Vec<String> {
    let mut texts = vec![String::new()];
    for _ in 0..length {
        let longer = |t: &String| alphabet.chars().map(|c| format!("{t}{c}")).collect::<Vec<_>>();
        texts = texts.iter().flat_map(longer).collect();
    }
    texts
}

fn short() -> Vec<String> {
    let mut texts = all("-+01789abfgxobzAFXZ_ \u{0}é", 1);
    texts.extend(all("-+0123789abfgxobF_ é", 2));
    texts.extend(all("-+017xb_", 3));
    texts.extend(all("-0x8+", 4));
    texts.extend(all("-0b1", 5));
    texts
}

/// The digits of low + 2^64 middle + 2^128 high.
fn digits(mut limbs: [u64; 3], radix: u64) -> String {
    let mut digits = vec![];
    while digits.is_empty() || limbs != [0; 3] {
        let mut rest = 0;
        for limb in limbs.iter_mut().rev() {
            let part = (u128::from(rest) << 64) | u128::from(*limb);
            *limb = (part / u128::from(radix)) as u64;
            rest = (part % u128::from(radix)) as u64;
        }
        digits.push(char::from_digit(rest as u32, radix as u32).expect("a digit"));
    }
    digits.iter().rev().collect()
}

fn limbs(x: u128) -> [u64; 3] {
    [x as u64, (x >> 64) as u64, 0]
}

/// Numbers around 0, 2^63, 2^64, 2^127 and 2^128.
fn ends() -> Vec<[u64; 3]> {
    let around = |x: u128| [x - 2, x - 1, x, x + 1, x + 2].map(limbs);
    let mut ends = [0, 1, 2, 7, 8, 9, 10, 15, 16].map(limbs).to_vec();
    ends.extend([1 << 63, 1 << 64, 1 << 127].map(around).concat());
    ends.extend([u128::MAX - 1, u128::MAX].map(limbs));
    ends.extend([[0, 0, 1], [1, 0, 1], [2, 0, 1], [u64::MAX; 3]]);
    ends
}

const RADICES: [(&str, u64); 4] = [("", 10), ("0x", 16), ("0o", 8), ("0b", 2)];

/// Each end in each radix, with each pair of signs around the radix.
fn signed_ends() -> Vec<String> {
    let mut texts = vec![];
    for end in ends() {
        for (prefix, radix) in RADICES {
            let digits = digits(end, radix);
            for outer in ["", "-", "+", "--"] {
                for inner in ["", "-", "+"] {
                    texts.push(format!("{outer}{prefix}{inner}{digits}"));
                }
            }
            texts.push(format!("{prefix}{}", digits.to_uppercase()));
        }
    }
    texts
}

/// Runs of zeros, of signs and of digits, up to the longest text.
fn long() -> Vec<String> {
    let mut texts = vec![];
    for n in [1, 2, 3, 31, 32, 127, 128, 200, 297, 300] {
        for start in ["", "-", "+", "0x", "-0x-", "0o", "0b", "-0b", "x"] {
            for end in ["", "7", "1", "g", "_", "é"] {
                texts.push(format!("{start}{}{end}", "0".repeat(n)));
            }
        }
        for run in ["9", "f", "1", "-", "+", "0x", "_", "é", "٣"] {
            texts.push(run.repeat(n));
            texts.push(format!("0x{}", run.repeat(n)));
        }
    }
    texts.retain(|text| text.len() <= LONGEST);
    texts
}

fn wide() -> Vec<String> {
    let mut texts = vec![];
    for c in WIDE {
        for (before, after) in [
            ("", ""),
            ("1", ""),
            ("", "1"),
            ("0", ""),
            ("0x", ""),
            ("-", ""),
            ("0", "x1"),
            ("", "x1"),
        ] {
            texts.push(format!("{before}{c}{after}"));
        }
        texts.push(format!("0x1{c}1"));
    }
    texts
}

/// A number of any size with any signs, and often one character more, less or
/// another.
pub fn drawn(rng: &Rng) -> String {
    let x = (u128::from(rng.next()) << 64 | u128::from(rng.next())) >> rng.below(128);
    let (prefix, radix) = RADICES[rng.below(4)];
    let outer = rng.pick(&["", "", "-", "-", "+", "--"]);
    let inner = rng.pick(&["", "", "-", "+"]);
    let zeros = if rng.chance(20) { rng.below(40) } else { 0 };
    let text = format!("{outer}{prefix}{inner}{}{}", "0".repeat(zeros), digits(limbs(x), radix));
    let mut chars: Vec<char> = text.chars().collect();
    let other = "-+0123456789abcdefgxobzAF_ é٣".chars().collect::<Vec<_>>();
    let other = other[rng.below(other.len())];
    let at = rng.below(chars.len());
    match rng.below(6) {
        0 => chars.insert(at, other),
        1 => chars[at] = other,
        2 => drop(chars.remove(at)),
        _ => (),
    }
    chars.into_iter().collect()
}

/// The fixed texts and `count` drawn ones, no text twice.
pub fn texts(count: usize, seed: u64) -> Vec<String> {
    let mut fixed: Vec<String> = READINGS.map(str::to_owned).to_vec();
    for more in [short(), signed_ends(), long(), wide()] {
        fixed.extend(more);
    }
    let mut seen = HashSet::new();
    fixed.retain(|text| seen.insert(text.clone()));
    let rng = Rng::new(seed);
    let new = iter::repeat_with(|| drawn(&rng)).filter(|text| seen.insert(text.clone()));
    fixed.into_iter().chain(new.take(count)).collect()
}
