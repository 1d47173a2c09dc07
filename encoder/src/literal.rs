//! A small reader of literals for the encoder. It is ours, not the crate's:
//! an optional `-`; decimal, or `0x`, `0o`, `0b` digits, with underscores; `u`
//! or `i`; a decimal width. What it does not read has width 0.

use crate::image::MAX_WIDTH;

/// Width and bytes (lowest first) of a literal's text.
pub fn read_literal(text: &str) -> Option<(usize, Vec<u8>)> {
    let (negative, text) = match text.strip_prefix('-') {
        Some(rest) => (true, rest),
        None => (false, text),
    };
    let (radix, text) = match text.get(..2) {
        Some("0x") => (16, &text[2..]),
        Some("0o") => (8, &text[2..]),
        Some("0b") => (2, &text[2..]),
        _ => (10, text),
    };
    let (digits, width) = text.split_once(['u', 'i'])?;
    let signed = text[digits.len()..].starts_with('i');
    let all_digits = |s: &str| !s.is_empty() && s.bytes().all(|b| b.is_ascii_digit());
    let width = width.parse().ok().filter(|w| all_digits(width) && (1..=MAX_WIDTH).contains(w))?;
    let (mut value, overflow) = magnitude(digits, radix, width)?;
    let zero = value.iter().all(|bit| !bit);
    if negative {
        negate(&mut value);
    }
    // what is signed must have come out with its own sign
    let fits = if signed { value[width - 1] == (negative && !zero) } else { !negative };
    (fits && !overflow).then(|| (width, packed(&value)))
}

/// The digits' value as `width` bits, lowest first, and whether it has more.
fn magnitude(digits: &str, radix: u32, width: usize) -> Option<(Vec<bool>, bool)> {
    let (mut value, mut overflow) = (vec![false; width], false);
    if !digits.starts_with(|c: char| c.is_digit(radix)) {
        return None;
    }
    for c in digits.chars().filter(|c| *c != '_') {
        let mut carry = c.to_digit(radix)?;
        for bit in &mut value {
            carry += u32::from(*bit) * radix;
            *bit = carry & 1 == 1;
            carry >>= 1;
        }
        overflow |= carry > 0;
    }
    Some((value, overflow))
}

/// Two's complement.
fn negate(value: &mut [bool]) {
    let mut carry = true;
    for bit in value {
        (*bit, carry) = (!*bit ^ carry, !*bit && carry);
    }
}

fn packed(bits: &[bool]) -> Vec<u8> {
    let byte = |bits: &[bool]| bits.iter().rev().fold(0, |byte, bit| byte << 1 | u8::from(*bit));
    bits.chunks(8).map(byte).collect()
}
