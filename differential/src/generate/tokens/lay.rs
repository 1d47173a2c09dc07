//! A stream laid down as a flat list and its text, in many ways.

use proc_macro2::{TokenStream, TokenTree};

use super::Made;
use crate::{
    generate::Rng,
    tokens::{CLOSER, FIRST_OPENER, IDENTIFIER, LITERAL, Lent, OPENERS, PUNCTUATION, Texts},
};

/// Above so many tokens no text is looked for in what is there.
const MOST_SHARED: usize = 300;

/// The kinds and texts of a stream's tokens; groups have no text.
fn flat(stream: &TokenStream, texts: Texts, into: &mut Vec<(u32, Vec<u8>)>) {
    let bytes = |text: String| texts.bytes(&text.chars().collect::<Vec<_>>());
    for tree in stream.clone() {
        match tree {
            TokenTree::Ident(ident) => into.push((IDENTIFIER, bytes(ident.to_string()))),
            TokenTree::Punct(punct) => into.push((PUNCTUATION, bytes(punct.as_char().into()))),
            TokenTree::Literal(literal) => into.push((LITERAL, bytes(literal.to_string()))),
            TokenTree::Group(group) => {
                let kind = OPENERS.iter().position(|known| *known == group.delimiter());
                into.push((FIRST_OPENER + kind.expect("one of four") as u32, vec![]));
                flat(&group.stream(), texts, into);
                into.push((CLOSER, vec![]));
            }
        }
    }
}

/// Bytes that no token points at.
fn gap(rng: &Rng, most: usize) -> Vec<u8> {
    (0..rng.below(most + 1)).map(|_| rng.next() as u8).collect()
}

/// A number that is not to be looked at.
fn garbage(rng: &Rng) -> u32 {
    [0, 1, u32::MAX, rng.next() as u32][rng.below(4)]
}

/// The order in which the texts are put down: as they come, the other way
/// round, shuffled, or the longest first.
fn order(rng: &Rng, tokens: &[(u32, Vec<u8>)], way: usize) -> Vec<usize> {
    let mut order: Vec<usize> = (0..tokens.len()).collect();
    match way {
        0 | 1 => (),
        2 => order.reverse(),
        3 => (1..order.len()).rev().for_each(|i| order.swap(i, rng.below(i + 1))),
        _ => order.sort_by_key(|i| usize::MAX - tokens[*i].1.len()),
    }
    order
}

/// The text, with gaps or without, and where in it each token's text begins.
/// Texts may be shared: what is already there is not put down again, also
/// where it is a part of two others.
fn text(rng: &Rng, tokens: &[(u32, Vec<u8>)]) -> (Vec<u8>, Vec<usize>) {
    let way = rng.below(if tokens.len() <= MOST_SHARED { 6 } else { 4 });
    let shared = way > 3;
    let gaps = rng.below(3);
    let (mut text, mut starts) = (gap(rng, gaps), vec![0; tokens.len()]);
    for i in order(rng, tokens, way) {
        let token = &tokens[i].1;
        let mut parts = text.windows(token.len().max(1));
        starts[i] = match shared.then(|| parts.position(|part| part == token)) {
            Some(Some(at)) => at,
            _ => {
                text.extend(gap(rng, gaps));
                text.extend(token);
                text.len() - token.len()
            }
        };
    }
    text.extend(gap(rng, gaps));
    (text, starts)
}

/// Some list and text of a stream.
pub fn laid(rng: &Rng, stream: TokenStream, texts: Texts) -> Made {
    let mut tokens = vec![];
    flat(&stream, texts, &mut tokens);
    let (text, starts) = text(rng, &tokens);
    let mut lent = Lent { list: vec![], text };
    let tidy = rng.chance(30);
    for ((kind, text), start) in tokens.iter().zip(starts) {
        lent.push(match *kind > LITERAL {
            true if tidy => [*kind, 0, 0],
            true => [*kind, garbage(rng), garbage(rng)],
            false => [*kind, start as u32, text.len() as u32],
        });
    }
    Made { lent, stream: Some((stream, texts)) }
}

/// The same where the texts are UTF-8.
pub fn utf8(rng: &Rng, stream: TokenStream) -> Made {
    laid(rng, stream, Texts::Utf8)
}
