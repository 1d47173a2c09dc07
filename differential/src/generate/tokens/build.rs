//! Streams of tokens under construction.

use proc_macro2::{Delimiter, Group, Ident, Literal, Punct, TokenStream, TokenTree};

use crate::{generate::Rng, tokens::OPENERS};

pub type Trees = Vec<TokenTree>;

pub fn ident(text: &str) -> TokenTree {
    TokenTree::Ident(Ident::new(text))
}

pub fn literal(text: &str) -> TokenTree {
    TokenTree::Literal(Literal::new(text))
}

pub fn punct(punct: char) -> TokenTree {
    TokenTree::Punct(Punct::new(punct))
}

pub fn group(delimiter: Delimiter, inside: Trees) -> TokenTree {
    TokenTree::Group(Group::new(delimiter, inside.into_iter().collect()))
}

/// Names as a lexer gives them, then texts that none would.
const IDENTS: [&str; 20] = [
    "a", "b", "x", "rec", "as", "usize", "true", "_", "self", "r#type", "ключ", "日", "n_1", ",",
    ";", "(", " ", "a b", "7", "'",
];

const LITERALS: [&str; 16] = [
    "5u8", "0x1f", "7", "\"s,;\"", "'q'", "1.5e-3", "b\"x\"", "\"é\"", "10u4", "007", ",", ";",
    " ", "-5", "[", "a",
];

/// Letters among them; `,` and `;` apart.
const PUNCTS: &str = "+-*/=<>.:'&|^!#$?@%~:..=z7 \n\0";

pub fn any_ident(rng: &Rng) -> TokenTree {
    ident(rng.pick(&IDENTS))
}

pub fn any_literal(rng: &Rng) -> TokenTree {
    literal(rng.pick(&LITERALS))
}

pub fn any_punct(rng: &Rng) -> TokenTree {
    let chars: Vec<char> = PUNCTS.chars().collect();
    punct(chars[rng.below(chars.len())])
}

pub fn divider(rng: &Rng) -> TokenTree {
    punct([',', ';'][rng.below(2)])
}

pub fn any_delimiter(rng: &Rng) -> Delimiter {
    OPENERS[rng.below(OPENERS.len())]
}

/// A run of 1 to 5 identifiers.
pub fn run(rng: &Rng) -> Trees {
    (0..rng.within(1, 5)).map(|_| any_ident(rng)).collect()
}

/// What stands in a group: nothing, or up to 4 things, dividers among them.
pub fn inside(rng: &Rng, depth: usize) -> Trees {
    let mut trees = vec![];
    for _ in 0..rng.below(5) {
        match rng.below(4) {
            0 => trees.push(divider(rng)),
            _ => trees.extend(some(rng, depth)),
        }
    }
    trees
}

/// One thing that divides nothing: a run, punctuation, a literal, a group.
pub fn some(rng: &Rng, depth: usize) -> Trees {
    match rng.below(8) {
        0..=2 => run(rng),
        3 | 4 => vec![any_punct(rng)],
        5 => vec![any_literal(rng)],
        _ if depth == 0 => vec![any_ident(rng)],
        _ => vec![group(any_delimiter(rng), inside(rng, depth - 1))],
    }
}

/// A component, which is not empty.
pub fn component(rng: &Rng) -> Trees {
    (0..rng.within(1, 4)).flat_map(|_| some(rng, 3)).collect()
}

/// Up to so many concatenations of up to so many components, each from `make`.
pub fn concatenations(
    rng: &Rng,
    concatenations: usize,
    components: usize,
    make: impl Fn(&Rng) -> Trees,
) -> Vec<Vec<Trees>> {
    let concat = |_| (0..rng.within(1, components)).map(|_| make(rng)).collect();
    (0..rng.within(1, concatenations)).map(concat).collect()
}

/// All in one stream, with commas and semicolons between.
pub fn divided(concatenations: &[Vec<Trees>]) -> TokenStream {
    let mut all: Trees = vec![];
    for (i, comps) in concatenations.iter().enumerate() {
        for (j, comp) in comps.iter().enumerate() {
            let divider = if j > 0 { Some(',') } else { (i > 0).then_some(';') };
            all.extend(divider.map(punct));
            all.extend(comp.iter().cloned());
        }
    }
    all.into_iter().collect()
}
