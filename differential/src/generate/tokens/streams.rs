//! Streams of all kinds, within the limits and with no component empty.

use proc_macro2::{Delimiter, TokenStream};

use super::{
    Made, TokenRecipe,
    build::{
        Trees, any_delimiter, any_ident, any_literal, any_punct, component, concatenations,
        divided, divider, group, ident, inside, literal, punct, run, some,
    },
    lay::{laid, utf8},
};
use crate::{
    generate::{Aim::Accepted, Rng},
    image::MAX_DEPTH,
    tokens::Texts,
};

pub const RECIPES: [TokenRecipe; 10] = [
    TokenRecipe { name: "a stream", aim: Accepted, make: stream },
    TokenRecipe { name: "runs of identifiers", aim: Accepted, make: runs },
    TokenRecipe { name: "groups without delimiters", aim: Accepted, make: no_delimiters },
    TokenRecipe { name: "dividers in groups", aim: Accepted, make: dividers_in_groups },
    TokenRecipe { name: "literals side by side", aim: Accepted, make: literals },
    TokenRecipe { name: "commas that are no punctuation", aim: Accepted, make: no_punctuation },
    TokenRecipe { name: "long texts", aim: Accepted, make: long_texts },
    TokenRecipe { name: "deep groups", aim: Accepted, make: deep },
    TokenRecipe { name: "many components", aim: Accepted, make: many },
    TokenRecipe { name: "texts that are no UTF-8", aim: Accepted, make: no_utf8 },
];

fn of(rng: &Rng, concats: usize, comps: usize, make: impl Fn(&Rng) -> Trees) -> Made {
    utf8(rng, divided(&concatenations(rng, concats, comps, make)))
}

/// A small one, for other recipes to start from.
pub fn small(rng: &Rng) -> TokenStream {
    divided(&concatenations(rng, 3, 3, component))
}

fn stream(rng: &Rng) -> Made {
    of(rng, 4, 4, component)
}

/// Runs broken by punctuation, a literal, a group, a group's end.
fn runs(rng: &Rng) -> Made {
    of(rng, 2, 3, |rng| {
        let mut trees = run(rng);
        for _ in 0..rng.below(4) {
            match rng.below(4) {
                0 => trees.push(any_punct(rng)),
                1 => trees.push(any_literal(rng)),
                2 => trees.push(group(any_delimiter(rng), run(rng))),
                _ => trees.push(group(any_delimiter(rng), vec![])),
            }
            trees.extend(run(rng));
        }
        trees
    })
}

fn no_delimiters(rng: &Rng) -> Made {
    of(rng, 2, 3, |rng| {
        let mut trees = if rng.chance(50) { run(rng) } else { vec![] };
        for _ in 0..rng.within(1, 3) {
            let mut group_ = group(Delimiter::None, inside(rng, 1));
            for _ in 0..rng.below(3) {
                group_ = group(Delimiter::None, vec![group_]);
            }
            trees.push(group_);
        }
        trees.extend(if rng.chance(50) { run(rng) } else { vec![] });
        trees
    })
}

fn dividers_in_groups(rng: &Rng) -> Made {
    of(rng, 2, 2, |rng| {
        let mut in_group = some(rng, 1);
        for _ in 0..rng.within(1, 4) {
            in_group.push(divider(rng));
            in_group.extend(if rng.chance(70) { some(rng, 1) } else { vec![] });
        }
        if rng.chance(30) {
            in_group = vec![group(any_delimiter(rng), in_group)];
        }
        let mut trees = vec![group(any_delimiter(rng), in_group)];
        trees.extend(if rng.chance(50) { run(rng) } else { vec![] });
        trees
    })
}

fn literals(rng: &Rng) -> Made {
    of(rng, 2, 3, |rng| {
        let one = |_| if rng.chance(70) { any_literal(rng) } else { any_ident(rng) };
        (0..rng.within(2, 8)).map(one).collect()
    })
}

fn no_punctuation(rng: &Rng) -> Made {
    of(rng, 2, 3, |rng| {
        let text = [",", ";", ",,", "a,b", "; "];
        let one = |_| match rng.below(4) {
            0 => ident(rng.pick(&text)),
            1 => literal(rng.pick(&text)),
            2 => any_ident(rng),
            _ => any_punct(rng),
        };
        (0..rng.within(1, 5)).map(one).collect()
    })
}

/// At most three texts of at most 5,000 bytes.
fn long_texts(rng: &Rng) -> Made {
    let long = |rng: &Rng| {
        let text = rng.pick(&["x", "ab", "é", "\"", "0_"]).repeat(rng.within(1, 2_500));
        if rng.chance(50) { ident(&text) } else { literal(&text) }
    };
    let mut trees = run(rng);
    trees.push(long(rng));
    if rng.chance(50) {
        trees.push(any_ident(rng));
    }
    let more = if rng.chance(30) { vec![long(rng), punct('+'), long(rng)] } else { run(rng) };
    trees.push(if rng.chance(50) { divider(rng) } else { punct('-') });
    trees.extend(more);
    utf8(rng, trees.into_iter().collect())
}

/// Up to 32 groups in each other, with something beside some.
fn deep(rng: &Rng) -> Made {
    let mut trees = inside(rng, 0);
    for level in 0..rng.within(1, MAX_DEPTH) {
        trees = vec![group(any_delimiter(rng), trees)];
        if rng.chance(30) {
            trees.splice(..0, run(rng));
        }
        if rng.chance(30) {
            trees.push(if level > 0 { any_literal(rng) } else { any_ident(rng) });
        }
    }
    let others = concatenations(rng, 2, 2, component);
    let mut concats = vec![vec![trees]];
    concats.extend(if rng.chance(50) { others } else { vec![] });
    utf8(rng, divided(&concats))
}

fn many(rng: &Rng) -> Made {
    of(rng, 16, 16, |rng| match rng.below(3) {
        0 => run(rng),
        1 => vec![any_literal(rng)],
        _ => vec![any_ident(rng), group(any_delimiter(rng), vec![any_punct(rng)])],
    })
}

/// Each character of these is one byte of any number.
fn no_utf8(rng: &Rng) -> Made {
    let text = |rng: &Rng| -> String {
        (0..rng.within(1, 6)).map(|_| char::from(rng.next() as u8)).collect()
    };
    let stream = divided(&concatenations(rng, 2, 3, |rng| {
        let one = |_| match rng.below(5) {
            0 | 1 => ident(&text(rng)),
            2 => literal(&text(rng)),
            3 => punct(char::from(rng.within(128, 255) as u8)),
            _ => group(any_delimiter(rng), vec![ident(&text(rng)), punct(','), ident("a")]),
        };
        (0..rng.within(1, 5)).map(one).collect()
    }));
    laid(rng, stream, Texts::Bytes)
}
