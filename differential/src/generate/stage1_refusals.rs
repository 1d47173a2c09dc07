//! Recipes for the refusals of stage 1: one component is refused, and stands
//! among others that are not, or not yet.

use super::{
    Aim::Refused,
    Recipe,
    line::{Line, among, prefix},
    rng::Rng,
    words::{LEAST, MAX, max, range, ranged, text, variable},
};

pub const RECIPES: [Recipe; 8] = [
    Recipe { name: "colon with nothing after", aim: Refused(10), make: empty_after_colon },
    Recipe { name: "range with nothing before", aim: Refused(11), make: nothing_before },
    Recipe { name: "empty range", aim: Refused(12), make: empty_range },
    Recipe { name: "second dots", aim: Refused(13), make: second_dots },
    Recipe { name: "three dots", aim: Refused(14), make: three_dots },
    Recipe { name: "bound of two tokens or of another group", aim: Refused(15), make: no_bound },
    Recipe { name: "overflow in a bound", aim: Refused(16), make: bound_overflow },
    Recipe { name: "no literal", aim: Refused(17), make: no_literal },
];

/// Stage 1 tests this before all else, so later faults may stand anywhere.
fn empty_after_colon(rng: &Rng) -> Vec<u8> {
    let p = prefix(rng);
    let alone = rng.one_of([format!("{p}:"), format!("{p}:[..4]"), format!("{p}:[]")]);
    let mut line = Line::new(vec![vec![alone]]).mode(rng.below(3));
    for _ in 0..rng.below(3) {
        let low =
            rng.one_of(["a".into(), "x[]".into(), "3u4".into(), "[..3]".into(), "...".into()]);
        line.concats[0].push(low);
    }
    if rng.chance(40) {
        line.concats.push(vec![variable(rng)]);
    }
    line.input()
}

fn nothing_before(rng: &Rng) -> Vec<u8> {
    let inside = rng.one_of([String::new(), range(rng, 4), "3".into(), "1...2".into()]);
    among(rng, 1, format!("[{inside}]")).input()
}

fn empty_range(rng: &Rng) -> Vec<u8> {
    let middle = rng.one_of([variable(rng), "5u4".into(), "-".into(), "..".into(), "a[3]".into()]);
    with_prefix(rng, format!("{middle}[]"))
}

/// A component refused by stage 1, perhaps with a starting value.
fn with_prefix(rng: &Rng, bad: String) -> Vec<u8> {
    let mut line = among(rng, 1, bad);
    if rng.chance(25) {
        line.prefix = Some(prefix(rng));
    }
    line.input()
}

fn ranged_early(rng: &Rng, range: String) -> Vec<u8> {
    let bad = ranged(rng, range);
    with_prefix(rng, bad)
}

fn second_dots(rng: &Rng) -> Vec<u8> {
    let t = text(rng);
    let range = rng.one_of([
        format!("1..2..{t}"),
        "..=..".into(),
        format!("..{t}..="),
        format!("{t}..=3..=4"),
        "..b..c...".into(),
        "..(1..2)..".into(),
        "- 5..6..".into(),
    ]);
    ranged_early(rng, range)
}

fn three_dots(rng: &Rng) -> Vec<u8> {
    let t = text(rng);
    let range = rng.one_of([
        "...".into(),
        format!("1...{t}"),
        "..=...".into(),
        "..b...".into(),
        format!("{t}....5"),
        "...=8".into(),
        "..=...a..".into(),
    ]);
    ranged_early(rng, range)
}

fn no_bound(rng: &Rng) -> Vec<u8> {
    let t = rng.pick(&["n", "len", "β", "7"]);
    let wrong = rng.one_of([
        format!("- {t}"),
        format!("{t} + 1"),
        format!("[{t}]"),
        format!("{{{t}}}"),
        format!("⟨{t}⟩"),
        format!("f({t})"),
        format!("({t})({t})"),
        "a.b".into(),
        "()[]".into(),
    ]);
    // an overflow stands after it, or the end of it would be looked at first
    let range = rng.one_of([
        format!("{wrong}.."),
        format!("{wrong}..({MAX}+1)"),
        format!("..{wrong}"),
        format!("3..={wrong}"),
        format!("{wrong}..{wrong}"),
    ]);
    ranged_early(rng, range)
}

fn bound_overflow(rng: &Rng) -> Vec<u8> {
    let max = max(rng);
    let over = rng.one_of([
        format!("({max}+1)"),
        format!("(1+{max})"),
        format!("({max} - -{})", rng.within(1, 9)),
        format!("(z-{LEAST})"),
        format!("({LEAST}-1)"),
        format!("({LEAST}+«-1»)"),
        format!("(«-{MAX}»-2)"),
    ]);
    let range = rng.one_of([
        format!("{over}.."),
        format!("..{over}"),
        format!("..=(0+{max})"),
        format!("2..=({max}-0)"),
        format!("n..=(n+{max})"),
        format!("{over}..- 5"),
    ]);
    ranged_early(rng, range)
}

fn no_literal(rng: &Rng) -> Vec<u8> {
    let t = rng.pick(&[
        "5",
        "-x",
        "9z",
        "0x",
        "- 3",
        "5u8⟦0:⟧",
        "1.5",
        "0b12u4",
        "-(3)",
        "«-»",
        "8u3",
        "7u0",
    ]);
    let bad = match rng.below(3) {
        0 if !t.ends_with('⟧') => format!("{t}[{}]", range(rng, 2)),
        _ => t.to_owned(),
    };
    with_prefix(rng, bad)
}
