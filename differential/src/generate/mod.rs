//! Cases from a seed: named recipes in turn, fixed readings, and random soups
//! and mutations.

mod accepted;
mod accepted_literals;
mod accepted_texts;
mod classes;
mod cut_pairs;
mod damage;
mod default_readings;
mod defaults;
mod edit;
mod faults;
mod flips;
mod lifted;
mod limits;
mod line;
mod numerals;
mod readings;
mod rng;
mod soup;
mod stage1_refusals;
mod stage2_refusals;
mod tokens;
mod tree_refusals;
mod words;

pub use classes::{Class, Pair, class_cases};
pub use cut_pairs::{CutPair, cut_pair};
pub use default_readings::{DefaultReading, Part, default_readings};
pub use lifted::LIFTED;
pub use readings::{Reading, readings};
pub use rng::Rng;
pub use tokens::{
    LARGEST_WRITTEN, Made, TokenCase, TokenRecipe, lent_of, token_area, token_cases, token_recipes,
};

/// One input for the run, and the recipe that it comes from.
pub struct Case {
    pub name: String,
    pub input: Vec<u8>,
}

/// What a recipe is made to bring about.
#[derive(Debug, Clone, Copy, PartialEq, Eq)]
pub enum Aim {
    Accepted,
    Refused(u32),
    /// Whatever comes.
    Any,
}

pub struct Recipe {
    pub name: &'static str,
    pub aim: Aim,
    pub make: fn(&Rng) -> Vec<u8>,
}

/// The recipes that aim at a refusal.
pub fn refused_recipes() -> Vec<&'static Recipe> {
    let early = damage::RECIPES.iter().chain(&stage1_refusals::RECIPES);
    early.chain(&stage2_refusals::RECIPES).chain(&tree_refusals::RECIPES).collect()
}

/// The recipes that aim at acceptance.
pub fn accepted_recipes() -> Vec<&'static Recipe> {
    let widths = accepted::RECIPES.iter().chain(&accepted_literals::RECIPES);
    widths.chain(&accepted_texts::RECIPES).collect()
}

/// The recipes that aim at nothing.
pub fn free_recipes() -> Vec<&'static Recipe> {
    soup::RECIPES.iter().collect()
}

/// Whose turn it is: of 25 cases twelve are `r`efused recipes, eight
/// `a`ccepted ones, four `R`eadings and one a `f`ree recipe.
const TURNS: &[u8; 25] = b"raRrarraRrarfarRrarraRrar";

/// The cases of a seed, in order. Each list goes round by itself, so that 500
/// cases hold every reading and each recipe several times.
pub fn cases(count: u64, seed: u64) -> impl Iterator<Item = Case> {
    let rng = Rng::new(seed);
    let lists = [refused_recipes(), accepted_recipes(), free_recipes()];
    let readings = readings();
    // where each list begins is the seed's choice
    let mut next =
        [lists[0].len(), lists[1].len(), lists[2].len(), readings.len()].map(|n| rng.below(n));
    (0..count as usize).map(move |i| {
        let list = match TURNS[i % TURNS.len()] {
            b'r' => 0,
            b'a' => 1,
            b'f' => 2,
            _ => 3,
        };
        let turn = next[list];
        next[list] += 1;
        if list == 3 {
            let reading = &readings[turn % readings.len()];
            return Case {
                name: format!("reading: {}", reading.name),
                input: reading.input.clone(),
            };
        }
        let recipe = lists[list][turn % lists[list].len()];
        Case { name: recipe.name.to_owned(), input: (recipe.make)(&rng) }
    })
}
