//! Images at the header's limits and one past them.

use super::{
    Aim::{Accepted, Any},
    Recipe,
    accepted_texts::nest,
    line::{Line, harmless},
    rng::Rng,
    words::name,
};
use crate::{
    image::{
        Comp, Item, MAX_COMPONENTS, MAX_CONCATENATIONS, MAX_DEPTH, MAX_LITERAL_BYTES, MAX_RECORDS,
        MAX_TEXT, MAX_WIDTH, Tree, image_of,
    },
    leaves::{Size, sized_tree},
};

pub const RECIPES: [Recipe; 7] = [
    Recipe { name: "one count at its limit", aim: Any, make: one_count },
    Recipe { name: "any sizes", aim: Any, make: of_any_size },
    Recipe { name: "literals up to the limits", aim: Any, make: literals },
    Recipe { name: "nesting at the limit", aim: Any, make: nesting },
    Recipe { name: "bounds of many records", aim: Any, make: wide_bounds },
    Recipe { name: "texts at the limit", aim: Any, make: long_texts },
    LONG,
];

/// More components than most lines have.
pub const LONG: Recipe = Recipe { name: "many components", aim: Accepted, make: many_components };

/// Exactly the limit most often, else a little below or one more.
fn near(rng: &Rng, limit: usize) -> usize {
    match rng.below(10) {
        0..=4 => limit,
        5 | 6 => limit + 1,
        _ => limit - rng.below(4),
    }
}

fn input(rng: &Rng, tree: &Tree) -> Vec<u8> {
    [vec![rng.below(3) as u8], image_of(tree)].concat()
}

/// One count near its limit, the others as small as they can be.
fn one_count(rng: &Rng) -> Vec<u8> {
    let mut size = Size { concatenations: 1, components: 1, records: 1, text: 1, literals: 0 };
    match rng.below(5) {
        0 => size.concatenations = near(rng, MAX_CONCATENATIONS),
        1 => size.components = near(rng, MAX_COMPONENTS),
        2 => size.records = near(rng, MAX_RECORDS),
        3 => size.text = near(rng, MAX_TEXT),
        _ => size.literals = near(rng, MAX_LITERAL_BYTES),
    }
    size.components = size.components.max(size.concatenations);
    // no literal has more bytes than the widest
    size.components = size.components.max(size.literals.div_ceil(MAX_WIDTH / 8));
    size.records = size.records.max(size.components);
    size.text = size.text.max(size.records);
    input(rng, &sized_tree(&size))
}

/// Each count anywhere up to its limit, or at it.
pub fn of_any_size(rng: &Rng) -> Vec<u8> {
    let upto = |low: usize, limit: usize| match rng.below(4) {
        0 => limit,
        1 => rng.within(low, limit),
        _ => rng.within(low, limit.min(low + limit / 20 + 3)),
    };
    let concatenations = upto(1, MAX_CONCATENATIONS);
    let components = upto(concatenations, MAX_COMPONENTS);
    let records = upto(components, MAX_RECORDS);
    let text = upto(records, MAX_TEXT);
    let literals = upto(0, MAX_LITERAL_BYTES).min(components * MAX_WIDTH / 8);
    let size = Size { concatenations, components, records, text, literals };
    input(rng, &sized_tree(&size))
}

/// A source of literals: as many as there may be, or as wide.
fn literals(rng: &Rng) -> Vec<u8> {
    let (count, width) = match rng.below(6) {
        0 => (MAX_LITERAL_BYTES * 8 / MAX_WIDTH, MAX_WIDTH),
        1 => (rng.within(1, 3), near(rng, MAX_WIDTH)),
        2 => (rng.within(1, MAX_COMPONENTS), 8 * rng.within(1, 32)),
        3 => (near(rng, MAX_COMPONENTS), rng.within(1, 9)),
        _ => (rng.within(2, 12), rng.within(1, 300)),
    };
    let literal = |_| {
        let mut bits: Vec<u8> = (0..width.div_ceil(8)).map(|_| rng.next() as u8).collect();
        if !width.is_multiple_of(8)
            && let Some(top) = bits.last_mut()
        {
            *top &= (1 << (width % 8)) - 1;
        }
        Comp { items: vec![Item::Chars(b"0".to_vec())], width, bits }
    };
    input(rng, &Tree { concatenations: vec![(0..count).map(literal).collect()] })
}

fn nesting(rng: &Rng) -> Vec<u8> {
    let depth = near(rng, MAX_DEPTH);
    let comp = match rng.below(4) {
        0 => format!("a[{}]", nest(rng, depth - 1)),
        1 => format!("a[..({})]", nest(rng, depth - 2)),
        2 => format!("1u4[({})..]", nest(rng, depth - 2)),
        _ => nest(rng, depth),
    };
    let mut source = vec![comp];
    source.extend((0..rng.below(3)).map(|_| harmless(rng, true)));
    Line::new(vec![source]).mode(rng.below(3)).input()
}

/// A bound of so many tokens that the records come near their limit.
fn wide_bounds(rng: &Rng) -> Vec<u8> {
    let tokens = ["+", "-", "7", "n", "0x1f", "()"];
    let many = rng.within(1, 3);
    let bound = || {
        let token = || tokens[rng.below(tokens.len())];
        (0..rng.within(1, 600)).map(|_| token()).collect::<Vec<_>>().join(" ")
    };
    let comps = (0..many).map(|_| format!("a[({})..({})]", bound(), bound())).collect();
    Line::new(vec![comps]).mode(rng.below(3)).input()
}

/// Long records, some of characters of two bytes.
fn long_texts(rng: &Rng) -> Vec<u8> {
    let letter = ["a", "é", "\\\\", "0", "-"][rng.below(5)];
    let total = near(rng, MAX_TEXT) / letter.len() / rng.within(1, 4);
    let text = letter.repeat(total);
    let items = match rng.below(3) {
        0 => vec![Item::Chars(text.into_bytes())],
        1 => vec![Item::Chars(b"a".to_vec()), Item::Chars(text.into_bytes())],
        _ => {
            let dots = [".", "."].map(|dot| Item::Chars(dot.into()));
            let end = vec![Item::Chars(text.into_bytes())];
            [dots.to_vec(), end].concat()
        }
    };
    let width = 8 * rng.below(3);
    let comp = Comp { items, width, bits: vec![0x5a; width / 8] };
    input(rng, &Tree { concatenations: vec![vec![comp]] })
}

fn many_components(rng: &Rng) -> Vec<u8> {
    let many = |source: bool| {
        let mut comps: Vec<_> = (0..rng.within(8, 60)).map(|_| harmless(rng, source)).collect();
        // of unknown width, so that nothing is unequal
        comps.insert(rng.below(comps.len() + 1), name(rng));
        comps
    };
    let mut concats = vec![many(true)];
    concats.extend((0..rng.below(3)).map(|_| many(false)));
    Line::new(concats).input()
}
