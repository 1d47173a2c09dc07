//! Lists with something changed, whatever comes of it.

use super::{Made, TokenRecipe, edit::Edit, lay::utf8, lines, streams};
use crate::{
    generate::{Aim::Any, Rng},
    tokens::{Lent, TOKEN},
};

pub const RECIPES: [TokenRecipe; 4] = [
    TokenRecipe { name: "one number changed", aim: Any, make: number },
    TokenRecipe { name: "bits changed", aim: Any, make: bits },
    TokenRecipe { name: "tokens moved", aim: Any, make: moved },
    TokenRecipe { name: "cut off", aim: Any, make: cut },
];

/// A right list, which is not empty.
fn right(rng: &Rng) -> Lent {
    match rng.below(3) {
        0 => (lines::RECIPES[rng.below(lines::RECIPES.len())].make)(rng).lent,
        1 => (streams::RECIPES[rng.below(streams::RECIPES.len())].make)(rng).lent,
        _ => utf8(rng, streams::small(rng)).lent,
    }
}

fn made(lent: Lent) -> Made {
    Made { lent, stream: None }
}

fn number(rng: &Rng) -> Made {
    let mut lent = right(rng);
    let (at, field) = (rng.below(lent.count()), rng.below(3));
    let old = lent.token(at)[field];
    let end = lent.text.len() as u32;
    let new = match field {
        0 => [rng.below(8) as u32, rng.below(9) as u32, 256 + old][rng.below(3)],
        _ => {
            let small = rng.below(12) as u32;
            let [more, less] = [old.wrapping_add(1), old.wrapping_sub(1)];
            let all = [more, less, 0, 1, small, end, end.saturating_sub(1), u32::MAX];
            all[rng.below(all.len())]
        }
    };
    lent.set(at, field, new);
    made(lent)
}

fn bits(rng: &Rng) -> Made {
    let mut lent = right(rng);
    for _ in 0..rng.within(1, 3) {
        let in_text = rng.chance(40) && !lent.text.is_empty();
        let bytes = if in_text { &mut lent.text } else { &mut lent.list };
        let at = rng.below(bytes.len());
        bytes[at] ^= 1 << rng.below(8);
    }
    made(lent)
}

/// A token taken out, put in again elsewhere, or two turned.
fn moved(rng: &Rng) -> Made {
    let mut lent = right(rng);
    for _ in 0..rng.within(1, 3) {
        let (at, to) = (rng.below(lent.count()), rng.below(lent.count()));
        let (token, other) = (lent.token(at), lent.token(to));
        match rng.below(3) {
            0 if lent.count() > 1 => lent.remove(at),
            1 => lent.insert(to, token),
            _ => {
                lent.put(at, other);
                lent.put(to, token);
            }
        }
    }
    made(lent)
}

/// The list after some token, often, or anywhere; or the text.
fn cut(rng: &Rng) -> Made {
    let mut lent = right(rng);
    match rng.below(4) {
        0 | 1 => lent.list.truncate(TOKEN * rng.below(lent.count())),
        2 => lent.list.truncate(rng.below(lent.list.len())),
        _ => lent.text.truncate(rng.below(lent.text.len() + 1)),
    }
    made(lent)
}
