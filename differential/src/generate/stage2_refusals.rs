//! Recipes for the refusals of stage 2: one component is refused, and stands
//! among others that are not, or not yet.

use super::{
    Aim::Refused,
    Recipe,
    line::among,
    rng::Rng,
    words::{LEAST, MAX, bound, literal, max, number, ranged, text, text_bound, variable},
};

pub const RECIPES: [Recipe; 9] = [
    Recipe { name: "overflow of text and number", aim: Refused(20), make: late_overflow },
    Recipe { name: "negative bound", aim: Refused(21), make: negative },
    Recipe { name: "reversed range", aim: Refused(22), make: reversed },
    Recipe { name: "zero width", aim: Refused(23), make: zero_width },
    Recipe { name: "literal's start too high", aim: Refused(24), make: start_too_high },
    Recipe { name: "literal's end too high", aim: Refused(25), make: end_too_high },
    Recipe { name: "literal's range too wide", aim: Refused(26), make: too_wide },
    Recipe { name: "literal's end 0 with a text start", aim: Refused(27), make: end_zero },
    Recipe { name: "filler with a start and no end", aim: Refused(28), make: start_only },
];

fn ranged_late(rng: &Rng, range: String) -> Vec<u8> {
    let bad = ranged(rng, range);
    among(rng, 2, bad).input()
}

fn late_overflow(rng: &Rng) -> Vec<u8> {
    let max = max(rng);
    let range = rng.one_of([
        format!("..={max}"),
        format!("«-5»..={max}"),
        max.clone(),
        format!("(5--00{MAX}).."),
        format!("7..(1--00{MAX})"),
        format!("n..={max}"),
    ]);
    let middle = rng.one_of([variable(rng), "3u4".into()]);
    among(rng, 2, format!("{middle}[{range}]")).input()
}

fn negative(rng: &Rng) -> Vec<u8> {
    let x = rng.within(1, 9);
    let low = rng.one_of([
        format!("«-{x}»"),
        format!("(0-{x})"),
        format!("(3-1{x})"),
        format!("«0x-{x}»"),
        format!("(-{x})"),
        format!("(«-{x}»+0)"),
        LEAST.into(),
    ]);
    let range = rng.one_of([
        format!("{low}.."),
        format!("..{low}"),
        format!("{low}..n"),
        format!("n..{low}"),
        format!("7..{low}"),
        format!("{low}..{low}"),
    ]);
    ranged_late(rng, range)
}

fn reversed(rng: &Rng) -> Vec<u8> {
    let (low, gap) = (rng.below(20) as u128, rng.within(1, 9) as u128);
    let t = text(rng);
    let x = rng.below(9) as i128 - 4;
    let range = rng.one_of([
        format!("{}..{}", bound(rng, low + gap), bound(rng, low)),
        format!("{}..={}", bound(rng, low + gap + 1), bound(rng, low)),
        format!("{}..{}", text_bound(rng, &t, x), text_bound(rng, &t, x - 3)),
        format!("{}..", number(rng, MAX)) + "1",
    ]);
    ranged_late(rng, range)
}

fn zero_width(rng: &Rng) -> Vec<u8> {
    let low = rng.below(20) as u128;
    let t = text(rng);
    let x = rng.below(9) as i128 - 4;
    let range = rng.one_of([
        format!("{}..{}", bound(rng, low), bound(rng, low)),
        format!("{}..={}", bound(rng, low + 1), bound(rng, low)),
        format!("{}..{}", text_bound(rng, &t, x), text_bound(rng, &t, x)),
        format!("..{}", bound(rng, 0)),
        "..=«-1»".into(),
    ]);
    ranged_late(rng, range)
}

/// A literal of some width with a range made for that width.
fn literal_with(rng: &Rng, range: impl Fn(&Rng, u128) -> String) -> Vec<u8> {
    let w = rng.within(1, 30);
    let mut middle = literal(rng, w);
    // a width given by hand stands at the component's end
    let given = middle.find('⟦').map(|at| middle.split_off(at)).unwrap_or_default();
    let bad = format!("{middle}[{}]{given}", range(rng, w as u128));
    among(rng, 2, bad).input()
}

fn start_too_high(rng: &Rng) -> Vec<u8> {
    literal_with(rng, |rng, w| {
        let over = rng.below(4) as u128;
        let start = bound(rng, w + over);
        let end = rng.one_of([String::new(), "n".into(), bound(rng, w + over + 1)]);
        format!("{start}..{end}")
    })
}

fn end_too_high(rng: &Rng) -> Vec<u8> {
    literal_with(rng, |rng, w| {
        let over = rng.within(1, 4) as u128;
        let t = text(rng);
        let start = rng.one_of([String::new(), text_bound(rng, &t, 1), bound(rng, w - 1)]);
        match rng.below(2) {
            0 => format!("{start}..{}", bound(rng, w + over)),
            _ => format!("{start}..={}", bound(rng, w + over - 1)),
        }
    })
}

fn too_wide(rng: &Rng) -> Vec<u8> {
    literal_with(rng, |rng, w| {
        let t = text(rng);
        let x = rng.below(9) as i128 - 4;
        let over = rng.within(1, 4) as i128;
        format!("{}..{}", text_bound(rng, &t, x), text_bound(rng, &t, x + w as i128 + over))
    })
}

fn end_zero(rng: &Rng) -> Vec<u8> {
    literal_with(rng, |rng, _| {
        let t = text(rng);
        let start = text_bound(rng, &t, 2);
        let end = bound(rng, 0);
        rng.one_of([format!("{start}..{end}"), format!("{start}..=«-1»"), format!("a..{end}")])
    })
}

fn start_only(rng: &Rng) -> Vec<u8> {
    let low = rng.within(1, 9) as u128;
    let t = text(rng);
    let start = rng.one_of([bound(rng, low), text_bound(rng, &t, 0), text_bound(rng, &t, -3)]);
    let dots = rng.pick(&["..", "..="]);
    among(rng, 2, format!("{start}{dots}")).input()
}
