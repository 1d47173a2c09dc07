//! Lists of tokens with what the unchanged Rust makes of them.

use std::collections::HashSet;

use crate::{
    generate::{LARGEST_WRITTEN, Rng, token_area, token_cases},
    image::{MAX_COMPONENTS, MAX_CONCATENATIONS, MAX_DEPTH, MAX_RECORDS, MAX_TEXT},
    tokens::{CLOSER, IDENTIFIER, LITERAL, Lent, PUNCTUATION, told, worked},
};

/// A list, its area's length, and the written image or the number.
pub struct Asked {
    pub lent: Lent,
    pub area: usize,
    pub answer: Result<Vec<u8>, u32>,
}

impl Asked {
    fn new(lent: Lent, area: usize) -> Self {
        let told = told(&lent).expect("the Rust does not panic");
        let answer = told.over_area(area).map(<[u8]>::to_vec);
        Self { lent, area, answer }
    }
}

/// Of the drawn ones only those are kept that have no more bytes, with the
/// image where there is one.
const SHORT: usize = 360;

/// The text of the lists below.
const TEXT: &[u8] = b"a,;";
const NAME: [u32; 3] = [IDENTIFIER, 0, 1];
const COMMA: [u32; 3] = [PUNCTUATION, 1, 1];
const SEMICOLON: [u32; 3] = [PUNCTUATION, 2, 1];

fn list(tokens: impl IntoIterator<Item = [u32; 3]>) -> Lent {
    let mut lent = Lent { list: vec![], text: TEXT.to_vec() };
    tokens.into_iter().for_each(|token| lent.push(token));
    lent
}

/// So many names, a divider after each but the last.
fn names(count: usize, divider: impl Fn(usize) -> [u32; 3]) -> Lent {
    list((1..2 * count).map(|i| if i % 2 == 1 { NAME } else { divider(i / 2) }))
}

/// So many bytes of text, by one joining space; two literals share a text.
fn long(bytes: usize) -> Lent {
    let (one, two) = ((bytes - 3) / 2, (bytes - 3).div_ceil(2));
    let literal = |length: usize| [LITERAL, 0, length as u32];
    let mut lent = list([literal(one), NAME, NAME, literal(two)]);
    lent.text.extend(std::iter::repeat_n(b'7', two));
    lent
}

/// So many groups in each other, of each kind in turn.
fn nest(depth: usize) -> Lent {
    let openers = (0..depth).map(|i| [3 + i as u32 % 4, u32::MAX, 0]);
    list(openers.chain([NAME]).chain((0..depth).map(|_| [CLOSER, 0, u32::MAX])))
}

/// Each count at its limit and one more; at its limit also over an area that is
/// one byte too short. Sixteen concatenations of sixteen components.
fn limits() -> Vec<(Lent, usize)> {
    let of = |more: usize| {
        [
            names(MAX_CONCATENATIONS + more, |_| SEMICOLON),
            names(MAX_COMPONENTS + more, |_| COMMA),
            list((0..MAX_RECORDS + more).map(|_| [LITERAL, 0, 1])),
            long(MAX_TEXT + more),
            nest(MAX_DEPTH + more),
        ]
    };
    let square = names(MAX_COMPONENTS, |i| if i % 16 == 0 { SEMICOLON } else { COMMA });
    let mut all = vec![];
    for lent in of(0).into_iter().chain([square]) {
        let exact = told(&lent).expect("the Rust does not panic").image.len();
        if lent.list.len() < 1_000 {
            all.push((lent.clone(), exact - 1));
        }
        all.push((lent, exact));
    }
    all.extend(of(1).map(|lent| (lent, LARGEST_WRITTEN)));
    all
}

/// Over a limit, with no area; also with an empty component, which is 51, and
/// with an unknown token at the end, which is 50.
fn order() -> Vec<(Lent, usize)> {
    let mut all = vec![];
    let some = (17..=20).map(|count| names(count, |_| SEMICOLON));
    for lent in some.chain([33, 34, 40, 60].map(nest)) {
        let with = |token| {
            let mut lent = lent.clone();
            lent.push(token);
            (lent, 0)
        };
        all.extend([with(COMMA), with([8, 0, 1])]);
        all.push((lent, 0));
    }
    all
}

/// The worked lists, those at the limits, and `count` drawn ones, none twice.
pub fn lists(count: usize, seed: u64) -> Vec<Asked> {
    let worked = worked().into_iter().map(|worked| (worked.lent, worked.area));
    let fixed = worked.chain(limits()).chain(order());
    let mut all: Vec<Asked> = fixed.map(|(lent, area)| Asked::new(lent, area)).collect();
    let mut seen: HashSet<(Lent, usize)> =
        all.iter().map(|asked| (asked.lent.clone(), asked.area)).collect();
    let rng = Rng::new(!seed);
    let bytes = |lent: &Lent| lent.list.len() + lent.text.len();
    let drawn = token_cases(seed).filter(|case| bytes(&case.made.lent) <= SHORT).map(|case| {
        let area = token_area(&rng, case.made.told().as_ref());
        Asked::new(case.made.lent, area)
    });
    let short = |Asked { lent, answer, .. }: &Asked| {
        bytes(lent) + answer.as_ref().map_or(0, Vec::len) <= SHORT
    };
    let new = |asked: &Asked| seen.insert((asked.lent.clone(), asked.area));
    all.extend(drawn.filter(short).filter(new).take(count));
    all
}
