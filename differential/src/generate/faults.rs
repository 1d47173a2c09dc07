//! Images with several faults, for the order of refusals.

use super::{
    Aim::{Any, Refused},
    Recipe, accepted_recipes,
    line::{Line, harmless, prefix, refused_by_stage1, refused_by_stage2},
    refused_recipes,
    rng::Rng,
    tree_refusals::unbounded,
    words::literal,
};
use crate::{
    check::check,
    image::{Comp, MAX_CONCATENATIONS, Tree, image_of},
    leaves::changed,
};

pub const RECIPES: [Recipe; 4] = [
    Recipe { name: "components of several cases", aim: Any, make: spliced },
    Recipe { name: "concatenations of several cases", aim: Any, make: appended },
    Recipe { name: "faults of several stages", aim: Any, make: faulty_line },
    Recipe { name: "several damages", aim: Any, make: damaged_often },
];

/// A case that a stage refuses, or sometimes an accepted one.
fn staged(rng: &Rng) -> Vec<u8> {
    let list = if rng.chance(25) { accepted_recipes() } else { refused_recipes() };
    let by_stage = |recipe: &&&Recipe| !matches!(recipe.aim, Refused(..10));
    let list: Vec<_> = list.iter().filter(by_stage).collect();
    (list[rng.below(list.len())].make)(rng)
}

/// The mode and the tree of such a case.
fn staged_tree(rng: &Rng) -> (u8, Tree) {
    let input = staged(rng);
    let tree = check(&input[1..]).unwrap_or_else(|_| panic!("stages get what passes the check"));
    (input[0], tree)
}

fn input(mode: u8, concatenations: Vec<Vec<Comp>>) -> Vec<u8> {
    let mut input = vec![mode];
    input.extend(image_of(&Tree { concatenations }));
    input
}

/// Puts the components of some cases into one another's concatenations.
fn spliced(rng: &Rng) -> Vec<u8> {
    let (mode, tree) = staged_tree(rng);
    let mut concatenations = tree.concatenations;
    for _ in 0..rng.within(1, 3) {
        let (_, other) = staged_tree(rng);
        for (i, comps) in other.concatenations.into_iter().enumerate() {
            if i == concatenations.len() {
                concatenations.push(vec![]);
            }
            for comp in comps {
                let at = rng.below(concatenations[i].len() + 1);
                concatenations[i].insert(at, comp);
            }
        }
    }
    input(mode, concatenations)
}

fn appended(rng: &Rng) -> Vec<u8> {
    let (mode, tree) = staged_tree(rng);
    let mut concatenations = tree.concatenations;
    for _ in 0..rng.within(1, 3) {
        let (_, other) = staged_tree(rng);
        let at = rng.below(concatenations.len() + 1);
        concatenations.splice(at..at, other.concatenations);
    }
    concatenations.truncate(MAX_CONCATENATIONS);
    input(mode, concatenations)
}

fn faulty_line(rng: &Rng) -> Vec<u8> {
    let component = |rng: &Rng, source: bool| match rng.below(12) {
        0 => refused_by_stage1(rng),
        1 | 2 => refused_by_stage2(rng),
        3 | 4 => unbounded(rng),
        5 => literal(rng, rng.within(1, 9)),
        6 => format!("a[..{}]", u64::MAX),
        _ => harmless(rng, source),
    };
    let mut concats = vec![];
    for i in 0..rng.within(1, 4) {
        concats.push((0..rng.within(1, 4)).map(|_| component(rng, i == 0)).collect());
    }
    let line = Line::new(concats).mode(rng.below(3));
    if rng.chance(40) { line.prefix(&prefix(rng)).input() } else { line.input() }
}

/// Damages some case more than once; the mode may be wrong too.
fn damaged_often(rng: &Rng) -> Vec<u8> {
    let made = staged(rng);
    let mut image = made[1..].to_vec();
    for _ in 0..rng.within(1, 3) {
        image = changed(rng, image);
    }
    let mode = if rng.chance(10) { rng.within(0, 4) as u8 } else { made[0] };
    [vec![mode], image].concat()
}
