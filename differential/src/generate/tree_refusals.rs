//! Recipes for the refusals of stages 3 and 4, which look at concatenations
//! and at the whole tree.

use super::{
    Aim::Refused,
    Recipe,
    line::{Line, harmless, prefix},
    rng::Rng,
    words::{
        known_variable, literal, name, number, parts, range, sliced_literal, text, text_bound,
        variable,
    },
};

pub const RECIPES: [Recipe; 10] = [
    Recipe { name: "literal in a sink", aim: Refused(30), make: literal_in_sink },
    Recipe { name: "sink of one unbounded filler", aim: Refused(31), make: lone_filler_sink },
    Recipe { name: "second unbounded filler", aim: Refused(32), make: second_filler },
    Recipe { name: "sum of widths past 64 bits", aim: Refused(34), make: sum_overflow },
    Recipe {
        name: "filler in a source without starting value",
        aim: Refused(40),
        make: source_filler,
    },
    Recipe { name: "unequal widths", aim: Refused(41), make: unequal },
    Recipe { name: "static width asked, none known", aim: Refused(42), make: no_common_width },
    Recipe { name: "one concatenation, not deterministic", aim: Refused(43), make: only_source },
    Recipe {
        name: "filler in the middle, not deterministic",
        aim: Refused(44),
        make: middle_filler,
    },
    Recipe { name: "opposite fillers, not deterministic", aim: Refused(45), make: opposite },
];

const UNBOUNDED: [&str; 5] = ["..", "..=", "0..", "()..", "0x0..="];

pub fn unbounded(rng: &Rng) -> String {
    rng.pick(&UNBOUNDED).to_owned()
}

fn comps(rng: &Rng, most: usize, source: bool) -> Vec<String> {
    (0..rng.within(1, most)).map(|_| harmless(rng, source)).collect()
}

/// A source and perhaps a sink that stage 3 lets pass; stage 4 might not.
fn passed_before(rng: &Rng) -> Vec<Vec<String>> {
    let mut concats = vec![comps(rng, 2, true)];
    if rng.chance(30) {
        concats.push(comps(rng, 1, false));
    }
    concats
}

fn insert(rng: &Rng, into: &mut Vec<String>, what: String) {
    let at = rng.below(into.len() + 1);
    into.insert(at, what);
}

fn literal_in_sink(rng: &Rng) -> Vec<u8> {
    let mut concats = passed_before(rng);
    let w = rng.within(1, 20);
    let bad = match rng.below(3) {
        0 => sliced_literal(rng, w),
        1 => "9u5[n..]".into(),
        _ => literal(rng, w),
    };
    let mut sink = if rng.chance(60) { comps(rng, 2, false) } else { vec![] };
    insert(rng, &mut sink, bad);
    concats.push(sink);
    Line::new(concats).any_mode(rng, 2).input()
}

fn lone_filler_sink(rng: &Rng) -> Vec<u8> {
    let mut concats = passed_before(rng);
    concats.push(vec![unbounded(rng)]);
    if rng.chance(30) {
        concats.push(vec!["1u3".into()]);
    }
    Line::new(concats).any_mode(rng, 2).input()
}

fn second_filler(rng: &Rng) -> Vec<u8> {
    let mut concats = passed_before(rng);
    let source = rng.chance(40);
    let mut double = if rng.chance(70) { comps(rng, 2, source) } else { vec![] };
    for _ in 0..rng.within(2, 3) {
        let filler = unbounded(rng);
        insert(rng, &mut double, filler);
    }
    if source {
        concats[0] = double;
    } else {
        concats.push(double);
    }
    Line::new(concats).any_mode(rng, 2).input()
}

/// 34 comes before 30 and 31 of the same component, and is not given above an
/// unknown width.
fn sum_overflow(rng: &Rng) -> Vec<u8> {
    let all = u128::from(u64::MAX);
    let huge = rng.one_of([
        format!("a[..{}]", number(rng, all + 1)),
        format!("..{}", number(rng, all + 5)),
        format!("3..{}", number(rng, i128::MAX as u128)),
        format!("b[(n-5)..(n+{})]", all),
    ]);
    let mut over = match rng.below(3) {
        0 => vec![format!("a[..{}]", number(rng, all)), "b[4]".into()],
        1 => vec![format!("..{}", number(rng, all - 3)), "c[..2]".into(), "b[..=1]".into()],
        _ => vec![huge],
    };
    if rng.chance(40) {
        // above the overflow anything goes
        let above = rng.one_of(["x".into(), "..".into(), "7u3".into()]);
        over.insert(0, above);
    }
    if rng.chance(30) {
        over.push(range(rng, 3));
    }
    let mut concats = if rng.chance(50) { passed_before(rng) } else { vec![] };
    concats.push(over);
    Line::new(concats).any_mode(rng, 2).input()
}

/// 40 comes before the widths of later concatenations are compared.
fn source_filler(rng: &Rng) -> Vec<u8> {
    let mut source = comps(rng, 2, true);
    let filler = rng.one_of([unbounded(rng), range(rng, 4), "..n".into()]);
    insert(rng, &mut source, filler);
    let mut concats = vec![source];
    if rng.chance(50) {
        concats.push(comps(rng, 2, false));
    }
    Line::new(concats).mode(rng.within(1, 2)).input()
}

/// A concatenation whose width is not known: a variable without end, or an
/// unbounded filler where one may stand.
pub fn unknown(rng: &Rng, filler: bool) -> Vec<String> {
    let t = text(rng);
    let mut comps = vec![match rng.below(4) {
        0 => format!("{}[{}..]", variable(rng), text_bound(rng, &t, 3)),
        1 => format!("{}[2..{}]", variable(rng), text_bound(rng, &t, 3)),
        _ => name(rng),
    }];
    if filler {
        insert(rng, &mut comps, "..".into());
    }
    if rng.chance(40) {
        let known = known_variable(rng, 3);
        insert(rng, &mut comps, known);
    }
    comps
}

fn unequal(rng: &Rng) -> Vec<u8> {
    let w = rng.within(2, 30);
    let mut concats = vec![];
    for _ in 0..rng.below(3) {
        let filler = rng.chance(50);
        concats.push(unknown(rng, filler));
    }
    for width in [w, w + rng.within(1, 3)] {
        let source = concats.is_empty();
        concats.push(parts(rng, width, source, true));
        if rng.chance(30) {
            concats.push(unknown(rng, true));
        }
    }
    Line::new(concats).any_mode(rng, 2).input()
}

fn no_common_width(rng: &Rng) -> Vec<u8> {
    let mut concats = vec![];
    for _ in 0..rng.within(1, 3) {
        let filler = rng.chance(40);
        concats.push(unknown(rng, filler));
    }
    Line::new(concats).mode(2).prefix(&prefix(rng)).input()
}

fn only_source(rng: &Rng) -> Vec<u8> {
    let mut source = if rng.chance(70) { comps(rng, 3, true) } else { vec![] };
    let filler = unbounded(rng);
    insert(rng, &mut source, filler);
    Line::new(vec![source]).any_mode(rng, 1).input()
}

/// A concatenation with an unbounded filler at an end.
pub fn aligned(rng: &Rng, low: bool, source: bool) -> Vec<String> {
    let mut aligned = comps(rng, 2, source);
    let at = if low { aligned.len() } else { 0 };
    aligned.insert(at, unbounded(rng));
    aligned
}

fn middle_filler(rng: &Rng) -> Vec<u8> {
    let count = rng.within(2, 3);
    let middle = rng.below(count);
    let mut concats = vec![];
    for i in 0..count {
        if i == middle || rng.chance(20) {
            let mut comps = vec![harmless(rng, i == 0), unbounded(rng), harmless(rng, i == 0)];
            if rng.chance(30) {
                comps.push(range(rng, 5));
            }
            concats.push(comps);
        } else if i == 0 && rng.chance(40) {
            concats.push(vec![unbounded(rng)]);
        } else {
            let low = rng.chance(50);
            concats.push(aligned(rng, low, i == 0));
        }
    }
    Line::new(concats).any_mode(rng, 1).input()
}

fn opposite(rng: &Rng) -> Vec<u8> {
    let low = rng.chance(50);
    let mut concats = vec![aligned(rng, low, true)];
    match rng.below(3) {
        0 => concats.insert(0, vec![unbounded(rng)]),
        1 => concats.push(aligned(rng, low, false)),
        _ => (),
    }
    if concats[0].len() == 1 {
        concats[1] = aligned(rng, low, false);
    }
    concats.push(aligned(rng, !low, false));
    Line::new(concats).any_mode(rng, 1).input()
}
