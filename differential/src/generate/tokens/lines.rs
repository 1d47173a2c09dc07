//! The other classes' lines, through the encoder's lexer: the text is the line.

use std::iter;

use super::{Made, TokenRecipe};
use crate::{
    generate::{
        Aim::Accepted, Recipe, Rng, accepted_recipes, free_recipes, readings, refused_recipes,
    },
    text::decode,
    tokens::{CLOSER, FIRST_OPENER, IDENTIFIER, LITERAL, Lent, PUNCTUATION},
};
use layout_line::{Placed, Token, tokens};

pub const RECIPES: [TokenRecipe; 4] = [
    TokenRecipe { name: "a line", aim: Accepted, make: line },
    TokenRecipe { name: "a line that a stage refuses", aim: Accepted, make: refused_line },
    TokenRecipe { name: "a reading", aim: Accepted, make: reading },
    TokenRecipe { name: "a soup", aim: Accepted, make: soup },
];

/// The tokens of a line. A record between our marks is a literal, and a literal's
/// bits are left out. None where the line has a text that is not as it stands.
pub fn lent_of(line: &str) -> Option<Lent> {
    let mut lent = Lent { list: vec![], text: line.into() };
    for Placed { token, place } in tokens(line).ok()? {
        let (start, length) = (place.start as u32, place.len() as u32);
        let marks = "«".len() as u32;
        lent.push(match token {
            Token::Ident(_) => [IDENTIFIER, start, length],
            Token::Punct(punct) if punct.is_ascii() => [PUNCTUATION, start, length],
            Token::Punct(_) => return None,
            Token::Literal(_) => [LITERAL, start, length],
            Token::Open(kind) => [FIRST_OPENER + kind as u32 - 1, start, length],
            Token::Close(_) => [CLOSER, start, length],
            Token::Record(text) if text.len() as u32 == length - 2 * marks => {
                [LITERAL, start + marks, text.len() as u32]
            }
            Token::Record(_) => return None,
            Token::Bits(..) => continue,
        });
    }
    Some(lent)
}

/// Tries until there is one.
fn from(input: impl Fn() -> Vec<u8>) -> Made {
    let lent = |input: Vec<u8>| lent_of(&decode(&input).ok()?);
    let lent = iter::repeat_with(input).find_map(lent).expect("no end");
    Made { lent, stream: None }
}

fn of(rng: &Rng, recipes: &[&Recipe]) -> Made {
    from(|| (recipes[rng.below(recipes.len())].make)(rng))
}

fn line(rng: &Rng) -> Made {
    of(rng, &accepted_recipes())
}

fn refused_line(rng: &Rng) -> Made {
    of(rng, &refused_recipes())
}

fn reading(rng: &Rng) -> Made {
    let readings = readings();
    from(|| readings[rng.below(readings.len())].input.clone())
}

fn soup(rng: &Rng) -> Made {
    of(rng, &free_recipes())
}
