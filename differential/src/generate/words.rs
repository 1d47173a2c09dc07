//! The small words of a case: numbers, bounds, variables, literals, fillers,
//! all in the encoder's notation.

use super::rng::Rng;

/// 2^127 - 1, the greatest number of a bound.
pub const MAX: u128 = i128::MAX as u128;

/// -2^127, the least; only the sign after the radix makes it readable.
pub const LEAST: &str = "«0x-80000000000000000000000000000000»";

const NAMES: [&str; 10] = ["a", "b", "x", "rec", "buf", "n_1", "ключ", "α", "self.0", "r#fn"];
const TEXTS: [&str; 8] = ["n", "len", "β", "a.b", "n*2", "n&3", "f(x)", "(k)"];

pub fn name(rng: &Rng) -> String {
    rng.pick(&NAMES).to_owned()
}

/// A text that is no number and holds no sign at its top level.
pub fn text(rng: &Rng) -> String {
    rng.pick(&TEXTS).to_owned()
}

/// The middle of a variable: it ends in no bracket, has no lone colon and no
/// top-level dots, and begins with no minus or digit.
pub fn variable(rng: &Rng) -> String {
    let n = name(rng);
    if rng.chance(70) {
        return n;
    }
    rng.one_of([
        format!("f({n})"),
        format!("&mut {n}"),
        format!("*{n}"),
        format!("{n}::y"),
        format!("⟨{n}⟩"),
        format!("{{{n}}}"),
        format!("{n}[i].z"),
        format!("(({n}))"),
        format!("«{n}..{n}»"),
        format!("{n} as usize"),
        "\"é, ;\"".to_owned(),
        "«\\f0\\9f\\98\\80»".to_owned(),
    ])
}

/// One token that reads as the number.
pub fn number(rng: &Rng, x: u128) -> String {
    match rng.below(12) {
        0 | 1 => format!("0x{x:x}"),
        2 => format!("0o{x:o}"),
        3 if x < 256 => format!("0b{x:b}"),
        4 => format!("0x00{x:X}"),
        5 if x < 10 => format!("0{x}"),
        6 => format!("«+{x}»"),
        7 => format!("«--{x}»"),
        8 => format!("«-0x-{x:x}»"),
        _ => x.to_string(),
    }
}

/// 2^127 - 1 in some radix.
pub fn max(rng: &Rng) -> String {
    rng.one_of([format!("{MAX}"), format!("0x{MAX:x}"), format!("0o{MAX:o}"), format!("0b{MAX:b}")])
}

/// A bound that is the number, as one token or as a group of a few shapes.
pub fn bound(rng: &Rng, x: u128) -> String {
    if rng.chance(60) {
        return number(rng, x);
    }
    let part = rng.below(9) as u128;
    let low = part.min(x);
    let (whole, small, rest) = (number(rng, x), number(rng, low), number(rng, x - low));
    let more = number(rng, (x + part).min(MAX));
    let less = number(rng, (x + part).min(MAX) - x);
    match rng.below(9) {
        0 if x == 0 => "()".to_owned(),
        1 if x == 0 => rng.pick(&["-", "+", "(-)"]).to_owned(),
        0 | 1 => format!("({whole})"),
        2 => format!("({whole}+)"),
        3 => format!("(+{whole})"),
        4 => format!("({whole}-)"),
        5 => format!("({more} - {less})"),
        6 => format!("({rest} - -{low})"),
        _ => format!("({small} + {rest})"),
    }
}

/// A bound of text `t` plus `x`.
pub fn text_bound(rng: &Rng, t: &str, x: i128) -> String {
    let size = number(rng, x.unsigned_abs());
    match (x, rng.below(3)) {
        (0, 0) => format!("({t}+)"),
        (0, 1) => format!("({t}-0)"),
        (0, _) => format!("({t})"),
        (1.., 0) => format!("({size}+{t})"),
        (1.., 1) => format!("({t} - -{})", x),
        (1.., _) => format!("({t}+{size})"),
        (_, 0) => format!("({t}+«{x}»)"),
        (_, _) => format!("({t}-{size})"),
    }
}

/// The inside of a bracket, or a filler, of known width `w`, which is not 0.
pub fn range(rng: &Rng, w: u128) -> String {
    let start = rng.below(12) as u128;
    let t = text(rng);
    let x = rng.below(9) as i128 - 4;
    let w_signed = w as i128;
    match rng.below(8) {
        0 => format!("{}..{}", bound(rng, start), bound(rng, start + w)),
        1 => format!("{}..={}", bound(rng, start), bound(rng, start + w - 1)),
        2 => format!("..={}", bound(rng, w - 1)),
        3 => format!("{}..{}", bound(rng, 0), bound(rng, w)),
        4 => format!("{}..{}", text_bound(rng, &t, x), text_bound(rng, &t, x + w_signed)),
        5 => format!("{}..={}", text_bound(rng, &t, x), text_bound(rng, &t, x + w_signed - 1)),
        _ => format!("..{}", bound(rng, w)),
    }
}

/// A variable of known width.
pub fn known_variable(rng: &Rng, w: u128) -> String {
    let middle = variable(rng);
    match rng.below(4) {
        0 if w == 1 => format!("{middle}[{}]", bound(rng, 5)),
        1 if w == 1 => format!("{middle}[{}+1]", text(rng)),
        _ => format!("{middle}[{}]", range(rng, w)),
    }
}

/// A literal of `w` bits without a range.
pub fn literal(rng: &Rng, w: usize) -> String {
    let bits = w.min(100);
    let random = u128::from(rng.next()) << 64 | u128::from(rng.next());
    let value = random & ((1 << bits) - 1);
    match rng.below(8) {
        0 => format!("{value}u{w}"),
        1 => format!("0o{value:o}u{w}"),
        2 if w < 20 => format!("0b{value:b}u{w}"),
        3 => format!("{}i{w}", value >> 1),
        4 => format!("-{}i{w}", value >> 1),
        5 => format!("0 ⟦{w}:{}⟧", hex(value, w)),
        _ => format!("0x{value:x}u{w}"),
    }
}

fn hex(value: u128, w: usize) -> String {
    format!("{value:0digits$x}", digits = w.div_ceil(8) * 2)
}

/// A literal that is cut to `w` bits by its range.
pub fn sliced_literal(rng: &Rng, w: usize) -> String {
    let (below, above) = (rng.within(1, 9), rng.within(1, 9));
    let whole = below + w + above;
    let value = rng.next() & ((1 << (below + w).min(60)) - 1);
    let (start, end) = (below as u128, (below + w) as u128);
    match rng.below(3) {
        0 => format!("0x{value:x}u{whole}[{start}..={}]", bound(rng, end - 1)),
        1 => format!("{value}u{whole}[{}..{}]", bound(rng, start), bound(rng, end)),
        _ => format!("0x{value:x}u{}[{}..]", below + w, bound(rng, start)),
    }
}

/// A known width in parts: literals where `source` allows them, fillers where
/// `fillers` does.
pub fn parts(rng: &Rng, w: usize, source: bool, fillers: bool) -> Vec<String> {
    let mut parts = vec![];
    let mut left = w;
    while left > 0 {
        let take = if parts.len() == 2 || rng.chance(40) { left } else { rng.within(1, left) };
        left -= take;
        parts.push(match rng.below(5) {
            0 | 1 if source => literal(rng, take),
            2 if source => sliced_literal(rng, take),
            3 if fillers => range(rng, take as u128),
            _ => known_variable(rng, take as u128),
        });
    }
    parts
}

/// The range of a variable or of a literal, or a filler.
pub fn ranged(rng: &Rng, range: String) -> String {
    match rng.below(4) {
        // a bracket at a filler's end would be the range of something else
        0 if !range.ends_with(']') => range,
        1 => format!("0xau4[{range}]"),
        _ => format!("{}[{range}]", variable(rng)),
    }
}
