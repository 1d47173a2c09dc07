//! Cases by class, without end, for the comparison of the whole run.

use super::{
    Aim, Case, CutPair, Recipe, accepted_recipes, cases, cut_pair, default_readings,
    defaults::default, faults, flips, free_recipes, lifted, limits, numerals, refused_recipes,
    rng::Rng,
};
use crate::run::{Outcome, run};

#[derive(Debug, Clone, Copy, PartialEq, Eq)]
pub enum Class {
    Mixed,
    Accepted,
    /// The refusals of one stage.
    Stage(u32),
    /// Several faults in one image.
    Order,
    /// Bytes flipped, cut off and added; counts, offsets and skips wrong.
    Damaged,
    /// The header's limits and one more.
    Limits,
    /// Bounds of all kinds of numerals.
    Numbers,
    /// Pairs of images, one with a literal written as pieces.
    Cut,
    /// Runs under a default.
    Default,
}

impl Class {
    pub const NAMES: [(&str, Class); 12] = [
        ("mixed", Class::Mixed),
        ("accepted", Class::Accepted),
        ("stage1", Class::Stage(1)),
        ("stage2", Class::Stage(2)),
        ("stage3", Class::Stage(3)),
        ("stage4", Class::Stage(4)),
        ("order", Class::Order),
        ("damaged", Class::Damaged),
        ("limits", Class::Limits),
        ("numbers", Class::Numbers),
        ("cut", Class::Cut),
        ("default", Class::Default),
    ];

    pub fn named(name: &str) -> Option<Self> {
        Self::NAMES.into_iter().find(|(known, _)| *known == name).map(|(_, class)| class)
    }

    /// How many of a hundred areas are lent too short.
    pub fn short_areas(self) -> usize {
        match self {
            Class::Limits => 30,
            Class::Order => 10,
            Class::Mixed | Class::Damaged | Class::Default => 3,
            _ => 0,
        }
    }

    fn recipes(self) -> Vec<&'static Recipe> {
        let of_stage = |stage: u32| {
            let aims = 10 * stage..10 * (stage + 1);
            move |recipe: &&Recipe| matches!(recipe.aim, Aim::Refused(n) if aims.contains(&n))
        };
        match self {
            Class::Accepted => accepted_recipes().into_iter().chain([&limits::LONG]).collect(),
            Class::Stage(stage) => refused_recipes().into_iter().filter(of_stage(stage)).collect(),
            Class::Order => faults::RECIPES.iter().collect(),
            Class::Damaged => {
                let before_stages = |r: &&Recipe| matches!(r.aim, Aim::Refused(1..=7));
                let single = refused_recipes().into_iter().filter(before_stages);
                single.chain(&flips::RECIPES).collect()
            }
            Class::Limits => limits::RECIPES.iter().collect(),
            Class::Numbers => numerals::RECIPES.iter().collect(),
            Class::Mixed | Class::Cut | Class::Default => vec![],
        }
    }
}

/// Whose turn it is in the mixed class: `g` the generator's own mixture.
const TURNS: &[u8; 24] = b"gagoggdgnglg1g2g3g4gfodn";

/// And in the class of runs under a default: `l`ifted and `o`ther recipes, the
/// `m`ixed class, `c`ut pairs, `r`eadings.
const UNDER_DEFAULT: &[u8; 24] = b"lolmlolmlolclolmlolmlolr";

/// A case; in a cut pair the same with its literal cut, in the class of runs
/// under a default what is lent.
pub struct Pair {
    pub case: Case,
    pub cut: Option<Case>,
    pub default: Option<Vec<u8>>,
}

/// The cases of a class and seed, in order and without end.
pub fn class_cases(class: Class, seed: u64) -> Box<dyn Iterator<Item = Pair>> {
    match class {
        Class::Mixed => Box::new(mixed(seed)),
        Class::Cut => Box::new(cut_pairs(seed)),
        Class::Default => Box::new(under_default(seed)),
        _ => Box::new(in_turn(class.recipes(), seed).map(single)),
    }
}

fn single(case: Case) -> Pair {
    Pair { case, cut: None, default: None }
}

fn in_turn(recipes: Vec<&'static Recipe>, seed: u64) -> impl Iterator<Item = Case> {
    let rng = Rng::new(seed);
    (0..).map(move |i: usize| {
        let recipe = recipes[i % recipes.len()];
        Case { name: recipe.name.to_owned(), input: (recipe.make)(&rng) }
    })
}

fn mixed(seed: u64) -> impl Iterator<Item = Pair> {
    let lists = [
        Class::Accepted,
        Class::Order,
        Class::Damaged,
        Class::Numbers,
        Class::Limits,
        Class::Stage(1),
        Class::Stage(2),
        Class::Stage(3),
        Class::Stage(4),
    ];
    // each list has numbers of its own
    let streams = (1..).zip(lists).map(|(n, class)| in_turn(class.recipes(), seed ^ n << 32));
    let mut streams: Vec<_> = streams.collect();
    let mut free = in_turn(free_recipes(), seed ^ 99 << 32);
    let mut generated = cases(u64::MAX, seed);
    let next = move |i: usize| match TURNS[i % TURNS.len()] {
        b'g' => generated.next(),
        b'f' => free.next(),
        turn => streams[b"aodnl1234".iter().position(|t| *t == turn).expect("a list")].next(),
    };
    (0..).map_while(next).map(single)
}

/// The two cases of a cut pair.
fn both(pair: CutPair) -> (Case, Option<Case>) {
    let case = |name: &str, input| Case { name: name.to_owned(), input };
    (case("cut pair", pair.whole), Some(case("cut pair, in pieces", pair.cut)))
}

/// Pairs whose uncut image the Rust accepts: the promise is of those.
fn cut_pairs(seed: u64) -> impl Iterator<Item = Pair> {
    let rng = Rng::new(seed);
    let pair = move || {
        let (case, cut) = both(cut_pair(&rng));
        Pair { case, cut, default: None }
    };
    std::iter::repeat_with(pair)
        .filter(|pair| matches!(run(&pair.case.input), Outcome::Accepted(_)))
}

/// Each list has numbers of its own here too, and the defaults have.
fn under_default(seed: u64) -> impl Iterator<Item = Pair> {
    let mut lifted = in_turn(lifted::LIFTED.iter().collect(), seed ^ 101 << 32);
    let mut others = in_turn(lifted::OTHERS.iter().collect(), seed ^ 102 << 32);
    let mut mixed = mixed(seed).map(|pair| pair.case);
    let rng = Rng::new(seed ^ 103 << 32);
    let readings = default_readings();
    let next = move |i: usize| {
        let case = match UNDER_DEFAULT[i % UNDER_DEFAULT.len()] {
            b'l' => lifted.next(),
            b'o' => others.next(),
            b'm' => mixed.next(),
            b'c' => {
                let (pair, default) = lifted::cut_pair_under(&rng);
                let (case, cut) = both(pair);
                return Some(Pair { case, cut, default: Some(default) });
            }
            _ => {
                let reading = &readings[i / UNDER_DEFAULT.len() % readings.len()];
                let (name, input) = (format!("reading: {}", reading.line), reading.input.clone());
                let default = Some(reading.default.to_vec());
                return Some(Pair { case: Case { name, input }, cut: None, default });
            }
        }?;
        let default = Some(default(&rng, &case.input));
        Some(Pair { case, cut: None, default })
    };
    (0..).map_while(next)
}
