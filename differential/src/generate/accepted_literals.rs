//! Recipes for accepted cases: literals, their cuts and their runs.

use super::{
    Aim::Accepted,
    Recipe,
    line::Line,
    rng::Rng,
    words::{bound, known_variable, literal, name, parts, range, sliced_literal, text, text_bound},
};

pub const RECIPES: [Recipe; 6] = [
    Recipe { name: "run of literals with odd widths", aim: Accepted, make: literal_run },
    Recipe { name: "runs of literals, parted", aim: Accepted, make: parted_runs },
    Recipe { name: "literals cut at both ends", aim: Accepted, make: sliced },
    Recipe { name: "literals with text bounds", aim: Accepted, make: text_literals },
    Recipe { name: "literal width on no literal", aim: Accepted, make: ignored_width },
    Recipe { name: "wide literals", aim: Accepted, make: wide_literals },
];

/// The source with a sink of the same known width, or of unknown width.
fn with_sink(rng: &Rng, source: Vec<String>, w: usize) -> Line {
    let mut concats = vec![source];
    match rng.below(4) {
        0 => (),
        1 => concats.push(vec![name(rng)]),
        2 => concats.push(parts(rng, w, false, true)),
        _ => concats.push(vec![known_variable(rng, w as u128)]),
    }
    Line::new(concats)
}

fn odd(rng: &Rng) -> usize {
    rng.below(11) * 2 + 1
}

fn literal_run(rng: &Rng) -> Vec<u8> {
    let widths: Vec<_> = (0..rng.within(3, 5)).map(|_| odd(rng)).collect();
    let source = widths.iter().map(|&w| literal(rng, w)).collect();
    with_sink(rng, source, widths.iter().sum()).mode(rng.below(3)).input()
}

/// What parts two runs: a variable, or a literal whose range is not static.
fn parted_runs(rng: &Rng) -> Vec<u8> {
    let mut source = vec![];
    for i in 0..rng.within(2, 3) {
        if i > 0 {
            source.push(rng.one_of([
                name(rng),
                "0x5u5[n..]".into(),
                "6u7[..n]".into(),
                "3u9[k..(k+4)]".into(),
            ]));
        }
        for _ in 0..rng.within(1, 3) {
            let w = odd(rng);
            source.push(if rng.chance(70) { literal(rng, w) } else { sliced_literal(rng, w) });
        }
    }
    Line::new(vec![source]).mode(rng.below(2)).input()
}

fn sliced(rng: &Rng) -> Vec<u8> {
    let widths: Vec<_> = (0..rng.within(1, 3)).map(|_| rng.within(1, 25)).collect();
    let source = widths.iter().map(|&w| sliced_literal(rng, w)).collect();
    with_sink(rng, source, widths.iter().sum()).mode(rng.below(3)).input()
}

fn text_literals(rng: &Rng) -> Vec<u8> {
    let w = rng.within(6, 30);
    let t = text(rng);
    let range = rng.one_of([
        format!("..{}", text_bound(rng, &t, 1)),
        format!("{}..", text_bound(rng, &t, 0)),
        format!("{}..{}", text_bound(rng, &t, -2), bound(rng, 5)),
        format!("{}..{}", bound(rng, 5), text_bound(rng, &t, 0)),
        format!("{}..={}", text_bound(rng, &t, 1), text_bound(rng, &t, 5)),
        "n".into(),
    ]);
    let mut source = vec![format!("{}u{w}[{range}]", rng.below(60))];
    if rng.chance(50) {
        source.insert(0, literal(rng, 7));
    }
    Line::new(vec![source]).mode(rng.below(2)).input()
}

fn ignored_width(rng: &Rng) -> Vec<u8> {
    let w = rng.within(1, 20);
    let bits =
        format!("⟦{w}:{:0digits$x}⟧", rng.next() & ((1 << w) - 1), digits = w.div_ceil(8) * 2);
    let comp = rng.one_of([name(rng), range(rng, 5), known_variable(rng, 4)]) + &bits;
    let source = vec![name(rng), literal(rng, 3)];
    Line::new(vec![source, vec![comp]]).mode(rng.below(2)).input()
}

fn wide_literals(rng: &Rng) -> Vec<u8> {
    let widths = [rng.within(33, 70), rng.within(60, 140)];
    let source = widths.iter().map(|&w| literal(rng, w)).collect();
    with_sink(rng, source, widths.iter().sum()).mode(rng.below(3)).input()
}
