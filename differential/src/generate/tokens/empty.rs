//! Lists with an empty component: number 51.

use proc_macro2::TokenStream;

use super::{
    Made, TokenRecipe,
    build::{Trees, component, concatenations, divided, divider},
    lay::utf8,
    streams,
};
use crate::{
    generate::{Aim::Refused, Rng},
    tokens::Lent,
};

pub const RECIPES: [TokenRecipe; 5] = [
    TokenRecipe { name: "an empty list", aim: Refused(51), make: nothing },
    TokenRecipe { name: "a divider at the end", aim: Refused(51), make: at_the_end },
    TokenRecipe { name: "a divider first", aim: Refused(51), make: first },
    TokenRecipe { name: "an empty component", aim: Refused(51), make: empty },
    TokenRecipe { name: "nothing but dividers", aim: Refused(51), make: dividers },
];

fn nothing(rng: &Rng) -> Made {
    let text = (0..rng.below(4)).map(|_| rng.next() as u8).collect();
    Made { lent: Lent { list: vec![], text }, stream: None }
}

fn at_the_end(rng: &Rng) -> Made {
    utf8(rng, streams::small(rng).into_iter().chain([divider(rng)]).collect())
}

fn first(rng: &Rng) -> Made {
    utf8(rng, [divider(rng)].into_iter().chain(streams::small(rng)).collect())
}

fn empty(rng: &Rng) -> Made {
    utf8(rng, with_empty(rng, concatenations(rng, 4, 4, component)))
}

fn dividers(rng: &Rng) -> Made {
    utf8(rng, (0..rng.within(1, 20)).map(|_| divider(rng)).collect())
}

/// One component more, an empty one: in the first concatenation, in the last,
/// or in any, and there in the same way; perhaps also a divider at the end.
pub fn with_empty(rng: &Rng, mut concats: Vec<Vec<Trees>>) -> TokenStream {
    let place = |length: usize| [0, length - 1, rng.below(length)][rng.below(3)];
    let concat = place(concats.len());
    let comp = place(concats[concat].len() + 1);
    concats[concat].insert(comp, vec![]);
    let end = rng.chance(30).then(|| divider(rng));
    divided(&concats).into_iter().chain(end).collect()
}
