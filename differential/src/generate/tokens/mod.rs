//! Lists of tokens for the class `tokens`, without end.

mod bad;
mod build;
mod damage;
mod edit;
mod empty;
mod lay;
mod limits;
mod lines;
mod streams;

pub use lines::lent_of;

use proc_macro2::TokenStream;

use super::{Aim, Rng};
use crate::{
    image::{
        COMPONENT_ENTRY, CONCATENATION_ENTRY, HEADER, MAX_COMPONENTS, MAX_CONCATENATIONS,
        MAX_RECORDS, MAX_TEXT, RECORD_ENTRY,
    },
    tokens::{Lent, Texts, Told, told, told_of_stream},
};

/// A list with its text, and the stream that it was made from if there was
/// one, with what its characters are.
pub struct Made {
    pub lent: Lent,
    pub stream: Option<(TokenStream, Texts)>,
}

impl Made {
    /// What the Rust says: of the stream, if the list was made from one.
    pub fn told(&self) -> Option<Told> {
        match &self.stream {
            Some((stream, texts)) => told_of_stream(stream.clone(), *texts),
            None => told(&self.lent),
        }
    }
}

/// The aim is what comes of it over an area that is long enough.
pub struct TokenRecipe {
    pub name: &'static str,
    pub aim: Aim,
    pub make: fn(&Rng) -> Made,
}

pub struct TokenCase {
    pub name: &'static str,
    pub made: Made,
}

/// Whose turn it is: `s`treams, `l`ines, `b`ad lists, `e`mpty components,
/// `m`ost allowed and more, the `o`rder of testing, `d`amage.
const TURNS: &[u8; 24] = b"slsbmdslsmsesdslsbsoslsd";

fn lists() -> [(u8, Vec<&'static TokenRecipe>); 7] {
    [
        (b's', streams::RECIPES.iter().collect()),
        (b'l', lines::RECIPES.iter().collect()),
        (b'b', bad::RECIPES.iter().collect()),
        (b'e', empty::RECIPES.iter().collect()),
        (b'm', limits::RECIPES.iter().collect()),
        (b'o', limits::ORDER.iter().collect()),
        (b'd', damage::RECIPES.iter().collect()),
    ]
}

pub fn token_recipes() -> Vec<&'static TokenRecipe> {
    lists().into_iter().flat_map(|(_, recipes)| recipes).collect()
}

/// The cases of a seed, in order and without end. Each list goes round by
/// itself and has numbers of its own.
pub fn token_cases(seed: u64) -> impl Iterator<Item = TokenCase> {
    let numbers = |n: u64| Rng::new(seed ^ (201 + n) << 32);
    let mut lists = lists().map(|(turn, recipes)| (turn, recipes, 0));
    let rngs: Vec<Rng> = (0..lists.len() as u64).map(numbers).collect();
    (0..).map(move |i: usize| {
        let turn = TURNS[i % TURNS.len()];
        let list = lists.iter().position(|list| list.0 == turn).expect("a list");
        let (_, recipes, next) = &mut lists[list];
        let recipe = recipes[*next % recipes.len()];
        *next += 1;
        TokenCase { name: recipe.name, made: (recipe.make)(&rngs[list]) }
    })
}

/// As long as the largest image that is written.
pub const LARGEST_WRITTEN: usize = HEADER
    + CONCATENATION_ENTRY * MAX_CONCATENATIONS
    + COMPONENT_ENTRY * MAX_COMPONENTS
    + RECORD_ENTRY * MAX_RECORDS
    + MAX_TEXT;

/// Draws an area's length: just as long as the image, shorter or longer. There
/// is an image also where a list is refused with 51 or 52.
pub fn token_area(rng: &Rng, told: Option<&Told>) -> usize {
    let exact = told.map_or(0, |told| told.image.len());
    match rng.below(20) {
        0..=9 => exact,
        10 => exact + 1,
        11 => exact.max(LARGEST_WRITTEN),
        12..=16 => exact + rng.below(300),
        17 => exact.saturating_sub(1),
        18 => exact.saturating_sub(1 + rng.below(70)),
        _ => rng.below(exact + 1),
    }
}
