//! Streams of a given size: at document 01's limits and over them (52), with
//! components empty (51), and with something wrong besides (50).

use proc_macro2::TokenStream;

use super::{
    Made, TokenRecipe,
    bad::WRONGS,
    build::{Trees, any_delimiter, divided, group, ident, literal, punct},
    empty::with_empty,
    lay::utf8,
};
use crate::{
    generate::{
        Aim::{Accepted, Refused},
        Rng,
    },
    image::{MAX_COMPONENTS, MAX_CONCATENATIONS, MAX_DEPTH, MAX_RECORDS, MAX_TEXT},
};

pub const RECIPES: [TokenRecipe; 4] = [
    TokenRecipe { name: "at a limit", aim: Accepted, make: at_one },
    TokenRecipe { name: "one over a limit", aim: Refused(52), make: over_one },
    TokenRecipe { name: "at all limits", aim: Accepted, make: at_all },
    TokenRecipe { name: "over limits", aim: Refused(52), make: over_some },
];

pub const ORDER: [TokenRecipe; 3] = [
    TokenRecipe { name: "over limits, with an empty component", aim: Refused(51), make: empty },
    TokenRecipe { name: "over limits, with something wrong", aim: Refused(50), make: bad },
    TokenRecipe { name: "all wrong at once", aim: Refused(50), make: all_wrong },
];

/// Concatenations, components, records, bytes of text, groups in each other.
pub type Size = [usize; 5];

const LIMITS: Size = [MAX_CONCATENATIONS, MAX_COMPONENTS, MAX_RECORDS, MAX_TEXT, MAX_DEPTH];

/// The part of a total that falls to place `i` of `n`.
fn share(total: usize, n: usize, i: usize) -> usize {
    total / n + usize::from(i < total % n)
}

/// A run of identifiers that is so many bytes with its spaces.
fn run(rng: &Rng, bytes: usize) -> Trees {
    let (mut trees, mut left) = (vec![], bytes);
    while left > 0 {
        // a space and one byte must be left, or nothing
        let length = if left < 3 { left } else { rng.within(1, 2.min(left - 2)) };
        trees.push(ident(&"xy"[..length]));
        left -= (length + 1).min(left);
    }
    trees
}

/// So many records without groups, of so many bytes. No two runs of
/// identifiers stand side by side.
fn words(rng: &Rng, records: usize, bytes: usize) -> Vec<Trees> {
    let mut after_run = false;
    let word = |i| {
        let bytes = share(bytes, records, i);
        after_run = !after_run && rng.chance(60);
        match bytes {
            _ if after_run => run(rng, bytes),
            1 if rng.chance(50) => vec![punct(':')],
            _ => vec![literal(&"0".repeat(bytes))],
        }
    };
    (0..records).map(word).collect()
}

/// A size that can be: what is asked for, or more where the others need it.
fn possible([concats, comps, records, text, depth]: Size) -> Size {
    let comps = comps.max(concats).max(1);
    let records = records.max(comps + 2 * depth);
    [concats.max(1), comps, records, text.max(records), depth]
}

/// Components of just this size, which is possible. All groups are in one.
fn sized(rng: &Rng, size: Size) -> Vec<Vec<Trees>> {
    let [concats, comps, records, text, depth] = size;
    let (records, text) = (records - 2 * depth, text - 2 * depth);
    let nested = rng.below(comps);
    let mut comp = (0..comps).map(|i| {
        let words = words(rng, share(records, comps, i), share(text, comps, i));
        if i != nested || depth == 0 {
            return words.concat();
        }
        let (inside, beside) = words.split_at(rng.below(words.len() + 1));
        let nest = |inside, _| vec![group(any_delimiter(rng), inside)];
        [(0..depth).fold(inside.concat(), nest), beside.concat()].concat()
    });
    (0..concats).map(|i| comp.by_ref().take(share(comps, concats, i)).collect()).collect()
}

/// Something small that is not at a limit.
fn small(rng: &Rng) -> Size {
    let records = rng.within(1, 30);
    [rng.within(1, 3), rng.within(1, 6), records, records + rng.below(60), rng.below(4)]
}

fn stream(rng: &Rng, size: Size) -> TokenStream {
    divided(&sized(rng, possible(size)))
}

/// One count at its limit, the others small.
fn at(rng: &Rng, more: usize) -> Size {
    let (mut size, which) = (small(rng), rng.below(LIMITS.len()));
    size[which] = LIMITS[which] + more;
    size
}

fn at_one(rng: &Rng) -> Made {
    utf8(rng, stream(rng, at(rng, 0)))
}

fn over_one(rng: &Rng) -> Made {
    utf8(rng, stream(rng, at(rng, 1)))
}

/// All at their limits, or some of them.
fn at_all(rng: &Rng) -> Made {
    let small = small(rng);
    let all = rng.chance(50);
    let size = [0, 1, 2, 3, 4].map(|i| if all || rng.chance(50) { LIMITS[i] } else { small[i] });
    utf8(rng, stream(rng, size))
}

/// Some over, by one or by many, some at their limits, some small.
fn over(rng: &Rng) -> Size {
    let mut size = small(rng);
    let far = [40, 300, 2_500, 30_000, 150];
    for i in 0..LIMITS.len() {
        match rng.below(6) {
            0 => size[i] = LIMITS[i],
            1 => size[i] = LIMITS[i] + 1,
            2 => size[i] = rng.within(LIMITS[i] + 1, far[i]),
            _ => (),
        }
    }
    let one = rng.below(LIMITS.len());
    size[one] = size[one].max(LIMITS[one] + 1);
    size
}

fn over_some(rng: &Rng) -> Made {
    utf8(rng, stream(rng, over(rng)))
}

fn empty(rng: &Rng) -> Made {
    let concats = sized(rng, possible(over(rng)));
    utf8(rng, with_empty(rng, concats))
}

fn wrong(rng: &Rng, stream: TokenStream) -> Made {
    let lent = utf8(rng, stream).lent;
    Made { lent: WRONGS[rng.below(WRONGS.len())](rng, lent), stream: None }
}

fn bad(rng: &Rng) -> Made {
    wrong(rng, stream(rng, over(rng)))
}

fn all_wrong(rng: &Rng) -> Made {
    let concats = sized(rng, possible(over(rng)));
    wrong(rng, with_empty(rng, concats))
}
