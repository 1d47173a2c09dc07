//! Cases that aim at nothing: soups of tokens, and right images with a few
//! bytes changed.

use std::mem;

use super::{
    Aim::Any,
    Recipe, accepted_recipes,
    edit::Edit,
    line::{Line, prefix},
    refused_recipes,
    rng::Rng,
    words::{literal, name, number},
};
use crate::check::check;

pub const RECIPES: [Recipe; 4] = [
    Recipe { name: "soup of range tokens", aim: Any, make: range_soup },
    Recipe { name: "text changed", aim: Any, make: changed_text },
    Recipe { name: "soup of tokens", aim: Any, make: soup },
    Recipe { name: "bytes changed", aim: Any, make: changed_bytes },
];

const TOKENS: [&str; 14] =
    ["..", "..=", ".", "-", "+", "=", ":", "::", "&", "«-4»", "«..»", "007", "0x", "«--3»"];

fn token(rng: &Rng, depth: usize) -> String {
    let small = rng.below(12) as u128;
    match rng.below(10) {
        0..=3 => rng.pick(&TOKENS).to_owned(),
        4 | 5 => number(rng, small),
        6 if depth > 0 => format!("({})", tokens(rng, depth - 1)),
        7 if depth > 0 => {
            let (open, close) = [('[', ']'), ('{', '}'), ('⟨', '⟩')][rng.below(3)];
            format!("{open}{}{close}", tokens(rng, depth - 1))
        }
        _ => name(rng),
    }
}

fn tokens(rng: &Rng, depth: usize) -> String {
    let tokens: Vec<_> = (0..rng.below(5)).map(|_| token(rng, depth)).collect();
    tokens.join(" ")
}

fn soup_component(rng: &Rng) -> String {
    let w = rng.within(1, 9);
    let middle = match rng.below(4) {
        0 => literal(rng, w),
        1 => name(rng),
        _ => format!("{} {}", token(rng, 1), tokens(rng, 1)),
    };
    if middle.ends_with('⟧') || rng.chance(40) {
        return middle;
    }
    format!("{middle}[{}]", tokens(rng, 2))
}

fn soup(rng: &Rng) -> Vec<u8> {
    let mut concats = vec![];
    for _ in 0..rng.within(1, 2) {
        concats.push((0..rng.within(1, 2)).map(|_| soup_component(rng)).collect());
    }
    let line = Line::new(concats).mode(rng.below(3));
    if rng.chance(20) { line.prefix(&prefix(rng)).input() } else { line.input() }
}

/// A component whose range has a good chance of being one.
fn range_soup(rng: &Rng) -> Vec<u8> {
    let side = |rng: &Rng| match rng.below(4) {
        0 => String::new(),
        1 => token(rng, 1),
        _ => format!("({})", tokens(rng, 1)),
    };
    let dots = rng.pick(&["..", "..", "..="]);
    let range = format!("{} {dots} {}", side(rng), side(rng));
    let middle = rng.one_of([name(rng), "0x5bu9".into(), String::new()]);
    let comp = if middle.is_empty() { range } else { format!("{middle}[{range}]") };
    Line::new(vec![vec![comp], vec![name(rng)]]).any_mode(rng, 1).input()
}

/// Some recipe's case.
pub fn some_case(rng: &Rng) -> Vec<u8> {
    let list = if rng.chance(70) { accepted_recipes() } else { refused_recipes() };
    (list[rng.below(list.len())].make)(rng)
}

/// Changes bytes until the result is no image with text that is no UTF-8.
fn changed(rng: &Rng, mut change: impl FnMut(&Rng, &mut Vec<u8>)) -> Vec<u8> {
    loop {
        let mut input = some_case(rng);
        change(rng, &mut input);
        let image = input.get(1..).unwrap_or_default();
        if check(image).is_ok_and(|tree| !tree.is_utf8()) {
            continue;
        }
        return input;
    }
}

pub fn changed_bytes(rng: &Rng) -> Vec<u8> {
    changed(rng, |rng, input| {
        for _ in 0..rng.within(1, 3) {
            let at = rng.below(input.len().max(1));
            if let Some(byte) = input.get_mut(at) {
                let old = *byte;
                *byte = [0, 1, 2, 5, 255, old ^ 1, old.wrapping_add(1)][rng.below(7)];
            }
        }
    })
}

/// Changes bytes of the text table to such as mean something.
pub fn changed_text(rng: &Rng) -> Vec<u8> {
    changed(rng, |rng, input| {
        if check(input.get(1..).unwrap_or_default()).is_err() {
            return;
        }
        let mut edit = Edit { input: mem::take(input) };
        for _ in 0..rng.within(1, 3) {
            let at = edit.table(3) + rng.below(edit.count(3));
            if !b"()[]{} ".contains(&edit.input[at]) {
                edit.input[at] = b"..--++=:079xbn"[rng.below(14)];
            }
        }
        *input = edit.input;
    })
}
