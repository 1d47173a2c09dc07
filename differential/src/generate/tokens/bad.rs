//! Lists with one thing wrong: number 50.

use super::{Made, TokenRecipe, edit::Edit, lay::utf8, streams};
use crate::{
    generate::{Aim::Refused, Rng},
    image::MAX_DEPTH,
    tokens::{CLOSER, FIRST_OPENER, IDENTIFIER, LITERAL, Lent, PUNCTUATION, TOKEN},
};

pub const RECIPES: [TokenRecipe; 9] = [
    TokenRecipe { name: "a list not in twelves", aim: Refused(50), make: not_in_twelves },
    TokenRecipe { name: "an unknown kind", aim: Refused(50), make: unknown_kind },
    TokenRecipe { name: "an empty text", aim: Refused(50), make: empty_text },
    TokenRecipe { name: "a text outside", aim: Refused(50), make: outside },
    TokenRecipe { name: "punctuation of more bytes", aim: Refused(50), make: long_punctuation },
    TokenRecipe { name: "a closer of nothing", aim: Refused(50), make: closer },
    TokenRecipe { name: "an opener not closed", aim: Refused(50), make: opener },
    TokenRecipe { name: "a closer before its opener", aim: Refused(50), make: turned },
    TokenRecipe { name: "nothing but openers or closers", aim: Refused(50), make: one_kind },
];

/// A right list with one token of kind 0 to 2 at the least.
fn right(rng: &Rng) -> Lent {
    utf8(rng, streams::small(rng)).lent
}

/// Makes something wrong of a list that is not empty.
pub const WRONGS: [fn(&Rng, Lent) -> Lent; 6] =
    [cut, with_unknown_kind, with_empty_text, with_text_outside, with_closer, with_opener];

fn made(lent: Lent) -> Made {
    Made { lent, stream: None }
}

/// A few bytes too many or too few, or nothing but a few.
fn cut(rng: &Rng, mut lent: Lent) -> Lent {
    let some = rng.within(1, TOKEN - 1);
    match rng.below(3) {
        0 => lent.list.truncate(lent.list.len() - some),
        1 => lent.list.extend((0..some).map(|_| rng.below(8) as u8)),
        _ => lent.list.truncate(some),
    }
    lent
}

fn not_in_twelves(rng: &Rng) -> Made {
    made(cut(rng, right(rng)))
}

/// Kinds that are known in their low byte, too.
fn with_unknown_kind(rng: &Rng, mut lent: Lent) -> Lent {
    let low = rng.below(8) as u32;
    let kinds = [8, 9, 255, 256 + low, low << 8 | 1 << 16, 1 << 31 | low, u32::MAX];
    lent.set(rng.below(lent.count()), 0, kinds[rng.below(kinds.len())]);
    lent
}

fn unknown_kind(rng: &Rng) -> Made {
    made(with_unknown_kind(rng, right(rng)))
}

/// Some token with a text; one is put first where there is none.
fn with_leaf(rng: &Rng, lent: &mut Lent) -> usize {
    match lent.some(rng, |kind| kind <= LITERAL) {
        Some(at) => at,
        None => {
            lent.text.push(b'a');
            let kind = rng.below(3) as u32;
            lent.insert(0, [kind, lent.text.len() as u32 - 1, 1]);
            0
        }
    }
}

fn with_empty_text(rng: &Rng, mut lent: Lent) -> Lent {
    let at = with_leaf(rng, &mut lent);
    lent.set(at, 2, 0);
    if rng.chance(30) {
        lent.set(at, 1, [0, lent.text.len() as u32, u32::MAX][rng.below(3)]);
    }
    lent
}

fn empty_text(rng: &Rng) -> Made {
    made(with_empty_text(rng, right(rng)))
}

/// By one byte, by many, or such that the sum passes 2^32.
fn with_text_outside(rng: &Rng, mut lent: Lent) -> Lent {
    let at = with_leaf(rng, &mut lent);
    let end = lent.text.len() as u32;
    let [kind, _, length] = lent.token(at);
    let places = [
        (end - length.min(end) + 1, length),
        (end, 1),
        (end + 1, 1),
        (0, end + 1),
        (u32::MAX, 2),
        (u32::MAX - length + 1, length),
        (1 << 31, 1 << 31),
        (1, u32::MAX),
        (u32::MAX, u32::MAX),
        (1 << 31, 1),
    ];
    let (start, length) = places[rng.below(places.len())];
    // of punctuation the place alone is to be wrong
    let length = if kind == PUNCTUATION { 1 } else { length };
    lent.set(at, 1, if kind == PUNCTUATION { start.max(end) } else { start });
    lent.set(at, 2, length);
    lent
}

fn outside(rng: &Rng) -> Made {
    made(with_text_outside(rng, right(rng)))
}

/// In the text, so that nothing else is wrong; a character of two bytes, too.
fn long_punctuation(rng: &Rng) -> Made {
    let mut lent = right(rng);
    let start = lent.text.len() as u32;
    let text = rng.pick(&["::", "é", ",,", "..=", "€", "+ "]);
    lent.text.extend(text.as_bytes());
    let token = [PUNCTUATION, start, text.len() as u32];
    match lent.some(rng, |kind| kind == PUNCTUATION) {
        Some(at) if rng.chance(50) => lent.put(at, token),
        _ => lent.insert(rng.below(lent.count() + 1), token),
    }
    made(lent)
}

/// At the end, or anywhere at the top.
fn with_closer(rng: &Rng, mut lent: Lent) -> Lent {
    let tops = lent.tops();
    let at = if rng.chance(50) { lent.count() } else { tops[rng.below(tops.len())] };
    lent.insert(at, [CLOSER, 0, 0]);
    lent
}

fn closer(rng: &Rng) -> Made {
    made(with_closer(rng, right(rng)))
}

fn some_opener(rng: &Rng) -> [u32; 3] {
    [FIRST_OPENER + rng.below(4) as u32, rng.next() as u32, rng.next() as u32]
}

/// One more opener, or one closer less.
fn with_opener(rng: &Rng, mut lent: Lent) -> Lent {
    match lent.some(rng, |kind| kind == CLOSER) {
        Some(at) if rng.chance(50) => lent.remove(at),
        _ => lent.insert(rng.below(lent.count() + 1), some_opener(rng)),
    }
    lent
}

fn opener(rng: &Rng) -> Made {
    made(with_opener(rng, right(rng)))
}

/// As many closers as openers, but one too early.
fn turned(rng: &Rng) -> Made {
    let mut lent = with_closer(rng, right(rng));
    lent.push(some_opener(rng));
    made(lent)
}

/// Thousands, or as many as the limit and one more, with one closer too few.
fn one_kind(rng: &Rng) -> Made {
    let mut lent = Lent { list: vec![], text: b"a".to_vec() };
    let many = [1, MAX_DEPTH, MAX_DEPTH + 1, rng.within(2, 200), 10_000][rng.below(5)];
    match rng.below(3) {
        0 => (0..many).for_each(|_| lent.push([CLOSER, 0, 0])),
        1 => (0..many).for_each(|_| lent.push(some_opener(rng))),
        _ => {
            (0..many).for_each(|_| lent.push(some_opener(rng)));
            lent.push([IDENTIFIER, 0, 1]);
            (1..many).for_each(|_| lent.push([CLOSER, 0, 0]));
        }
    }
    made(lent)
}
