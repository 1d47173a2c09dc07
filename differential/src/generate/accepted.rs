//! Recipes for accepted cases: widths, alignments and fillers.

use super::{
    Aim::Accepted,
    Recipe,
    line::{Line, harmless, prefix},
    rng::Rng,
    tree_refusals::{aligned, unbounded, unknown},
    words::{known_variable, name, number, parts, range},
};

pub const RECIPES: [Recipe; 11] = [
    Recipe { name: "alignment none, known width", aim: Accepted, make: known_widths },
    Recipe { name: "alignment single", aim: Accepted, make: single },
    Recipe { name: "alignment lsb", aim: Accepted, make: lsb },
    Recipe { name: "alignment msb", aim: Accepted, make: msb },
    Recipe { name: "single, then lsb or msb", aim: Accepted, make: single_then },
    Recipe { name: "alignment mid beside a known width", aim: Accepted, make: mid },
    Recipe { name: "opposite fillers beside a known width", aim: Accepted, make: opposite_known },
    Recipe { name: "fillers in a source with starting value", aim: Accepted, make: source_fillers },
    Recipe { name: "width sum up to 2^64-1", aim: Accepted, make: widest },
    Recipe { name: "many concatenations", aim: Accepted, make: many },
    Recipe { name: "any known widths in any mode", aim: Accepted, make: any_known },
];

fn known_widths(rng: &Rng) -> Vec<u8> {
    let w = rng.within(2, 40);
    let mut concats = vec![parts(rng, w, true, true)];
    for _ in 0..rng.within(1, 2) {
        concats.push(parts(rng, w, false, true));
    }
    Line::new(concats).any_mode(rng, 2).input()
}

fn single(rng: &Rng) -> Vec<u8> {
    let w = rng.within(2, 20);
    let sink = parts(rng, w, false, true);
    Line::new(vec![vec![unbounded(rng)], sink]).any_mode(rng, 2).input()
}

fn same_end(rng: &Rng, low: bool) -> Vec<u8> {
    let mut concats = vec![aligned(rng, low, true)];
    for _ in 0..rng.within(1, 2) {
        concats.push(aligned(rng, low, false));
    }
    Line::new(concats).any_mode(rng, 1).input()
}

fn lsb(rng: &Rng) -> Vec<u8> {
    same_end(rng, true)
}

fn msb(rng: &Rng) -> Vec<u8> {
    same_end(rng, false)
}

fn single_then(rng: &Rng) -> Vec<u8> {
    let low = rng.chance(50);
    let mut concats = vec![vec![unbounded(rng)]];
    for _ in 0..rng.within(1, 2) {
        concats.push(aligned(rng, low, false));
    }
    Line::new(concats).any_mode(rng, 1).input()
}

fn mid(rng: &Rng) -> Vec<u8> {
    let middle = vec![name(rng), unbounded(rng), harmless(rng, false)];
    let known = vec![known_variable(rng, 16)];
    let concats = if rng.chance(50) { vec![middle, known] } else { vec![known, middle] };
    Line::new(concats).any_mode(rng, 2).input()
}

/// A later filler does not undo overall alignment none.
fn opposite_known(rng: &Rng) -> Vec<u8> {
    let low = rng.chance(50);
    let mut concats = vec![aligned(rng, low, false), aligned(rng, !low, false)];
    let (known, most) = [("..64", 2), ("q[..33]", 2), ("..n", 1), ("q", 1)][rng.below(4)];
    concats.insert(rng.below(3), vec![known.into()]);
    Line::new(concats).any_mode(rng, most).input()
}

fn source_fillers(rng: &Rng) -> Vec<u8> {
    let w = rng.within(1, 20) as u128;
    let filler = rng.one_of([range(rng, w), "..n".into(), "2..(n+9)".into()]);
    let mut source = vec![filler, harmless(rng, true)];
    source.rotate_left(rng.below(2));
    Line::new(vec![source]).mode(1).prefix(&prefix(rng)).input()
}

fn widest(rng: &Rng) -> Vec<u8> {
    let all = u128::from(u64::MAX);
    let source = match rng.below(4) {
        0 => vec![format!("a[..{}]", number(rng, all))],
        1 => vec!["a[3]".into(), format!("b[1..{}]", number(rng, all))],
        2 => vec!["5u7".into(), format!("..={}", number(rng, all - 8))],
        // above an unknown width nothing is added up
        _ => vec![format!("b[..{}]", number(rng, all)), "a[..9]".into(), "n".into()],
    };
    Line::new(vec![source]).any_mode(rng, 1).input()
}

fn many(rng: &Rng) -> Vec<u8> {
    let mut concats = vec![vec!["x[..9]".to_owned()]];
    for _ in 0..rng.within(3, 8) {
        concats.push(vec![rng.one_of([
            name(rng),
            "..9".into(),
            "y[1..10]".into(),
            "z[n..]".into(),
        ])]);
    }
    Line::new(concats).mode(rng.below(3)).input()
}

fn any_known(rng: &Rng) -> Vec<u8> {
    let w = rng.within(1, 40);
    let mut concats = vec![parts(rng, w, true, false)];
    for _ in 0..rng.below(3) {
        let unknown = rng.chance(30);
        concats.push(if unknown { self::unknown(rng, true) } else { parts(rng, w, false, true) });
    }
    Line::new(concats).mode(rng.below(3)).input()
}
