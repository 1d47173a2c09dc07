//! Images for the check: a few at the header's limits, nests, and drawn ones
//! from the generator, from its damaging recipes, and with bytes changed.

use std::{collections::HashSet, iter};

use crate::{
    generate::{Aim, Recipe, Rng, cases, refused_recipes},
    image::{Comp, Item, Kind, MAX_DEPTH, Tree, image_of},
};

/// The counts of a large image; concatenations 1 to components, one record and
/// one text byte or more for each component.
pub struct Size {
    pub concatenations: usize,
    pub components: usize,
    pub records: usize,
    pub text: usize,
    pub literals: usize,
}

const LARGEST: Size =
    Size { concatenations: 16, components: 256, records: 2_048, text: 16_384, literals: 8_192 };
const SMALL: Size = Size { concatenations: 1, components: 1, records: 1, text: 1, literals: 0 };

/// The part of a total that falls to place `i` of `n`: all alike, the first
/// ones one more.
fn share(total: usize, n: usize, i: usize) -> usize {
    total / n + usize::from(i < total % n)
}

/// So many records: groups within groups up to the depth, then characters; of
/// the text that is not delimiters each has its share.
fn items(records: usize, text: usize) -> Vec<Item> {
    let depth = ((records - 1) / 2).min(MAX_DEPTH);
    let words = records - 2 * depth;
    let word = |i| Item::Chars(vec![b'a' + (i % 26) as u8; share(text - 2 * depth, words, i)]);
    let mut items: Vec<Item> = (0..words).map(word).collect();
    let beside = items.split_off(words.div_ceil(2));
    for level in 0..depth {
        items = vec![Item::Group(Kind::ALL[level % 4], items)];
    }
    items.extend(beside);
    items
}

/// A tree of exactly this size. Each literal's width has spare bits where its
/// bytes have not all bits.
pub fn sized_tree(size: &Size) -> Tree {
    let mut index = 0;
    let mut comp = || {
        let bytes = share(size.literals, size.components, index);
        let records = share(size.records, size.components, index);
        let text = share(size.text, size.components, index);
        index += 1;
        let spare = index % 8;
        let mut bits = vec![0xff; bytes];
        if let Some(top) = bits.last_mut() {
            *top >>= spare;
        }
        let width = if bytes == 0 { 0 } else { 8 * bytes - spare };
        Comp { items: items(records, text), width, bits }
    };
    let concat = |i| {
        let comps = share(size.components, size.concatenations, i);
        iter::repeat_with(&mut comp).take(comps).collect()
    };
    Tree { concatenations: (0..size.concatenations).map(concat).collect() }
}

/// Each count at its limit with the others small, and one past it.
fn single_limits() -> Vec<Vec<u8>> {
    let mut sizes = vec![SMALL, LARGEST];
    for past in [0, 1] {
        sizes.extend([
            Size { concatenations: 16 + past, components: 20, records: 20, text: 20, ..SMALL },
            Size { components: 256 + past, records: 257, text: 257, ..SMALL },
            Size { records: 2_048 + past, text: 2_049, ..SMALL },
            Size { text: 16_384 + past, ..SMALL },
            Size { components: 20, records: 20, text: 20, literals: 8_192 + past, ..SMALL },
            Size { literals: 512 + past, ..SMALL },
        ]);
    }
    sizes.iter().map(|size| image_of(&sized_tree(size))).collect()
}

/// One a little below all limits, and the largest with its last `)` wrong.
fn large() -> Vec<Vec<u8>> {
    let near =
        Size { concatenations: 15, components: 255, records: 2_047, text: 16_383, literals: 8_191 };
    let mut wrong = image_of(&sized_tree(&LARGEST));
    let text = ..wrong.len() - LARGEST.literals;
    let last = wrong[text].iter().rposition(|b| *b == b')').expect("a group");
    wrong[last] = b'x';
    vec![image_of(&sized_tree(&near)), wrong]
}

/// Groups within groups of each kind, up to the depth and past it.
fn nests() -> Vec<Vec<u8>> {
    let mut images = vec![];
    for kind in Kind::ALL {
        for depth in [1, MAX_DEPTH, MAX_DEPTH + 1] {
            for beside in [false, true] {
                let mut items = vec![];
                for _ in 0..depth {
                    items = vec![Item::Group(kind, items)];
                    if beside {
                        items.insert(0, Item::Chars(b"ab".to_vec()));
                        items.push(Item::Group(Kind::Brace, vec![]));
                    }
                }
                let comp = Comp { items, ..Comp::default() };
                images.push(image_of(&Tree { concatenations: vec![vec![comp]] }));
            }
        }
    }
    images
}

/// Sets a number of 4 bytes, or one byte, to something else; or cuts the image
/// off, or adds to it.
pub fn changed(rng: &Rng, mut image: Vec<u8>) -> Vec<u8> {
    for _ in 0..rng.within(1, 2) {
        let words = image.len() / 4;
        if words == 0 {
            return image;
        }
        let word = 4 * if rng.chance(30) { rng.below(words.min(10)) } else { rng.below(words) };
        match rng.below(8) {
            0..=4 => {
                let field = &mut image[word..word + 4];
                let old = u32::from_le_bytes(field.try_into().expect("four bytes"));
                let new = [old.wrapping_add(1), old.wrapping_sub(1), 0, 1, 2, 5, 1 << 31, u32::MAX];
                field.copy_from_slice(&new[rng.below(new.len())].to_le_bytes());
            }
            5 | 6 => {
                let at = rng.below(image.len());
                image[at] ^= 1 << rng.below(8);
            }
            _ if rng.chance(50) => image.truncate(rng.below(image.len())),
            _ => image.push(0),
        }
    }
    image
}

fn without_mode(input: &[u8]) -> Vec<u8> {
    input.get(1..).unwrap_or_default().to_vec()
}

/// The recipes that aim at the check's own numbers.
fn damaging() -> Vec<&'static Recipe> {
    let of_check = |recipe: &&Recipe| matches!(recipe.aim, Aim::Refused(2..=7));
    refused_recipes().into_iter().filter(of_check).collect()
}

/// The fixed images and `count` drawn ones, no image twice. The drawn ones
/// come in turn from the generator, from a damaging recipe, from the generator
/// with bytes changed, and from the next damaging recipe.
pub fn images(count: usize, seed: u64) -> Vec<Vec<u8>> {
    let mut images = single_limits();
    images.extend(large());
    images.extend(nests());
    let mut seen = HashSet::new();
    images.retain(|image| seen.insert(image.clone()));
    let rng = Rng::new(seed);
    let mut generated = cases(u64::MAX, seed).map(|case| without_mode(&case.input));
    let recipes = damaging();
    for turn in 0..count {
        let make = || match turn % 4 {
            0 => generated.next().expect("no end"),
            2 => changed(&rng, generated.next().expect("no end")),
            _ => without_mode(&(recipes[turn / 2 % recipes.len()].make)(&rng)),
        };
        images.extend(iter::repeat_with(make).find(|image| seen.insert(image.clone())));
    }
    images
}
