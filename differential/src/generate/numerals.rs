//! Bounds of all kinds of numerals: every radix and sign, close to the ends of
//! the range, and texts that are almost numbers.

use std::sync::OnceLock;

use super::{Aim::Any, Recipe, rng::Rng};
use crate::{
    image::{Comp, Item, Kind, Tree, image_of},
    leaves::{drawn, read, texts},
};

pub const RECIPES: [Recipe; 3] = [
    Recipe { name: "numeral bounds of a variable", aim: Any, make: variable },
    Recipe { name: "numeral bounds of a filler", aim: Any, make: filler },
    Recipe { name: "numeral bounds of a literal", aim: Any, make: literal },
];

/// A text that is a number or nearly one, never empty: a fixed one, one of
/// those close to the ends of the range, a small one, a drawn one.
fn numeral(rng: &Rng) -> Vec<u8> {
    static FIXED: OnceLock<[Vec<String>; 2]> = OnceLock::new();
    let [fixed, far] = FIXED.get_or_init(|| {
        let fixed: Vec<String> = texts(0, 0).into_iter().filter(|t| !t.is_empty()).collect();
        let is_far = |text: &&String| read(text).is_some_and(|x| x.unsigned_abs() > 1 << 126);
        [fixed.clone(), fixed.iter().filter(is_far).cloned().collect()]
    });
    let text = match rng.below(6) {
        0 | 1 => fixed[rng.below(fixed.len())].clone(),
        2 => far[rng.below(far.len())].clone(),
        3 => rng.below(40).to_string(),
        _ => drawn(rng),
    };
    if text.is_empty() { b"0".to_vec() } else { text.into_bytes() }
}

fn chars(text: &[u8]) -> Item {
    Item::Chars(text.to_vec())
}

/// A sum or difference of numerals and a name, at the top level of a group.
fn sum(rng: &Rng) -> Item {
    let part = |rng: &Rng| match rng.below(6) {
        0 => vec![chars(b"n")],
        1 => vec![],
        2 => vec![Item::Group(Kind::Parenthesis, vec![chars(&numeral(rng))])],
        _ => vec![chars(&numeral(rng))],
    };
    let mut items = part(rng);
    for _ in 0..[1, 1, 1, 2, 3, 0][rng.below(6)] {
        items.push(chars([b"+", b"-"][rng.below(2)]));
        items.extend(part(rng));
    }
    Item::Group(Kind::Parenthesis, items)
}

fn bound(rng: &Rng) -> Vec<Item> {
    match rng.below(8) {
        0 => vec![],
        1..=4 => vec![chars(&numeral(rng))],
        _ => vec![sum(rng)],
    }
}

/// `..` or `..=` between two bounds.
fn range(rng: &Rng) -> Vec<Item> {
    let mut items = bound(rng);
    items.extend([chars(b"."), chars(b".")]);
    if rng.chance(40) {
        items.push(chars(b"="));
    }
    items.extend(bound(rng));
    items
}

/// A range, or for a variable or literal sometimes a bracket without dots.
fn bracket(rng: &Rng) -> Item {
    let inside = if rng.chance(15) { vec![chars(&numeral(rng))] } else { range(rng) };
    Item::Group(Kind::Bracket, inside)
}

/// The component in a source, some variable beside it, in some mode.
fn input(rng: &Rng, comp: Comp) -> Vec<u8> {
    let beside = Comp { items: vec![chars(b"v")], ..Comp::default() };
    let mut comps = vec![comp];
    if rng.chance(60) {
        comps.insert(rng.below(2), beside.clone());
    }
    let mut concatenations = vec![comps];
    if rng.chance(40) {
        concatenations.push(vec![beside]);
    }
    [vec![rng.below(2) as u8], image_of(&Tree { concatenations })].concat()
}

fn variable(rng: &Rng) -> Vec<u8> {
    let items = vec![chars(b"a"), bracket(rng)];
    input(rng, Comp { items, ..Comp::default() })
}

fn filler(rng: &Rng) -> Vec<u8> {
    input(rng, Comp { items: range(rng), ..Comp::default() })
}

fn literal(rng: &Rng) -> Vec<u8> {
    let width = rng.within(1, 70);
    let mut bits: Vec<u8> = (0..width.div_ceil(8)).map(|_| rng.next() as u8).collect();
    let spare = 8 * bits.len() - width;
    bits.iter_mut().last().into_iter().for_each(|top| *top &= 0xff >> spare);
    input(rng, Comp { items: vec![chars(b"1"), bracket(rng)], width, bits })
}
