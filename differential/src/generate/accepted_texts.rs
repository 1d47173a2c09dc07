//! Recipes for accepted cases: texts, prefixes, groups, and the shapes of
//! numbers and bounds.

use super::{
    Aim::Accepted,
    Recipe,
    line::{Line, harmless},
    rng::Rng,
    words::{LEAST, MAX, bound, known_variable, literal, name, number, text, text_bound, variable},
};

pub const RECIPES: [Recipe; 15] = [
    Recipe { name: "variables with text bounds", aim: Accepted, make: text_variables },
    Recipe { name: "prefix with ::", aim: Accepted, make: path_prefix },
    Recipe { name: "empty prefix", aim: Accepted, make: empty_prefix },
    Recipe { name: "colons that are plain text", aim: Accepted, make: colons },
    Recipe { name: "multi-byte text", aim: Accepted, make: multi_byte },
    Recipe { name: "numbers round 2^127", aim: Accepted, make: near_max },
    Recipe { name: "no number, so a text", aim: Accepted, make: no_number },
    Recipe { name: "Space and brace groups", aim: Accepted, make: groups },
    Recipe { name: "nested groups", aim: Accepted, make: nested },
    Recipe { name: "inclusive ranges with and without end", aim: Accepted, make: inclusive },
    Recipe { name: "bracket without dots", aim: Accepted, make: one_bit },
    Recipe { name: "difference past 128 bits", aim: Accepted, make: unknown_difference },
    Recipe { name: "nesting up to 32", aim: Accepted, make: deep },
    Recipe { name: "shapes of number bounds", aim: Accepted, make: bound_shapes },
    Recipe { name: "text that stage 2 reads as a number", aim: Accepted, make: late_number },
];

fn text_variables(rng: &Rng) -> Vec<u8> {
    let w = rng.within(1, 12) as i128;
    let (t, u) = (text(rng), text(rng));
    let x = rng.below(9) as i128 - 4;
    let range = rng.one_of([
        format!("{}..{}", text_bound(rng, &t, x), text_bound(rng, &t, x + w)),
        format!("{}..{}", text_bound(rng, &t, x), text_bound(rng, &format!("{u}.q"), 2)),
        format!("({t}-{u})..=({t}-{u})"),
        format!("({t}+{u}).."),
        format!("({w}-{t}).."),
        format!("..({t}-{u}-3)"),
    ]);
    let comp = format!("{}[{range}]", variable(rng));
    let other = harmless(rng, true);
    Line::new(vec![vec![comp, other], vec![name(rng)]]).any_mode(rng, 1).input()
}

fn path_prefix(rng: &Rng) -> Vec<u8> {
    let p = rng.pick(&["a::b", "::a", "a::b::c", "::", "x::<u8>::y", "::α::β", "a::(b:c)"]);
    let mut line = Line::new(vec![vec![harmless(rng, true)]]).prefix(p);
    if rng.chance(50) {
        line.concats[0].push(harmless(rng, true));
    }
    line.mode(rng.below(2)).input()
}

fn empty_prefix(rng: &Rng) -> Vec<u8> {
    let source =
        rng.one_of(["a".into(), "..8".into(), "5u4".into(), literal(rng, 9), "x[2..]".into()]);
    let line = Line::new(vec![vec![source, harmless(rng, true)]]).prefix("");
    line.mode(rng.below(2)).input()
}

fn colons(rng: &Rng) -> Vec<u8> {
    let n = name(rng);
    let high = rng.one_of([
        format!("{n}:b:c"),
        format!("{n}::b"),
        format!("{n}:b::c"),
        "(a:b)".into(),
        "«a:b»".into(),
    ]);
    let low =
        rng.one_of([format!("{n}:c"), ":d".into(), "e:".into(), "f:g[..4]".into(), ":".into()]);
    let sink = rng.one_of([format!("{n}:z"), "::y:x".into()]);
    Line::new(vec![vec![high, low], vec![sink]]).mode(rng.below(2)).input()
}

fn multi_byte(rng: &Rng) -> Vec<u8> {
    let v = rng.pick(&[
        "ключ",
        "日本[α..β]",
        "«€»[..é]",
        "\"ñ\"[«ß\\20»]",
        "«\\f0\\9f\\8d\\9e».x",
        "α[(β+3)..(β+9)]",
    ]);
    let line = Line::of(&[&[v], &["ω"]]).mode(rng.below(2));
    if rng.chance(50) { line.prefix("ноль::é").input() } else { line.input() }
}

fn near_max(rng: &Rng) -> Vec<u8> {
    let max =
        |x: u128| [format!("{x}"), format!("0x{x:x}"), format!("0o{x:o}"), format!("0b{x:b}")];
    let gap = rng.within(1, 9) as u128;
    let (low, high) = (rng.one_of(max(MAX - gap)), rng.one_of(max(MAX)));
    let range = rng.one_of([
        format!("{low}..{high}"),
        format!("{low}..=(0x{:x})", MAX - 1),
        format!("(n+{high}).."),
        format!("(n-{high})..(n-{low})"),
        format!("(n+{LEAST}).."),
        format!("n..({high}-{gap})"),
        format!("(n+{LEAST})..(n+«0o-1{}»)", "7".repeat(42)),
    ]);
    Line::new(vec![vec![format!("{}[{range}]", name(rng))]]).mode(rng.below(2)).input()
}

/// Texts that look like numbers but are none: past the range, underscores,
/// suffixes, leading zeros, a bare radix.
fn no_number(rng: &Rng) -> Vec<u8> {
    let over = MAX + 1;
    let t = rng.one_of([
        format!("{over}"),
        format!("0x{over:x}"),
        format!("0o{over:o}"),
        format!("0b{over:b}"),
        format!("«-{over}»"),
        "007".into(),
        "1_000".into(),
        "5u8".into(),
        "«0x»".into(),
        "«0b2»".into(),
        "«---5»".into(),
        "0X1f".into(),
        "«0x -1»".into(),
    ]);
    let range = rng.one_of([
        format!("{t}.."),
        format!("..{t}"),
        format!("{t}..({t}+4)"),
        format!("3..=({t})"),
        t,
    ]);
    Line::new(vec![vec![format!("{}[{range}]", name(rng))]]).mode(rng.below(2)).input()
}

fn groups(rng: &Rng) -> Vec<u8> {
    let v = rng.pick(&[
        "⟨a b⟩",
        "{a; b, c}",
        "⟨⟩",
        "{}[..7]",
        "⟨{x}⟩[⟨5⟩]",
        "f⟨1⟩[({n}+2)..]",
        "{ m }[..(⟨n⟩)]",
        "()",
    ]);
    Line::new(vec![vec![v.to_owned()], vec![name(rng)]]).mode(rng.below(2)).input()
}

fn nested(rng: &Rng) -> Vec<u8> {
    let v = rng.pick(&[
        "f(g(h[1]))",
        "a[i][..(len(b)-1)]",
        "a[(f(3)+1)..]",
        "a[((3))..((n))]",
        "m{[(⟨x⟩)]}",
        "a[([])..({})]",
        "a[(x[3])]",
        "a[(-(b-c)).. (4-(d))]",
    ]);
    Line::new(vec![vec![v.to_owned(), harmless(rng, true)], vec![name(rng)]])
        .any_mode(rng, 1)
        .input()
}

fn inclusive(rng: &Rng) -> Vec<u8> {
    let low = rng.below(9) as u128;
    let range = rng.one_of([
        format!("{}..=", bound(rng, low)),
        format!("{}..={}", bound(rng, low), bound(rng, low + 6)),
        "..=".into(),
        "n..=n".into(),
        format!("..={}", number(rng, 0)),
        "(n+1)..=".into(),
        "..=(n-1)".into(),
    ]);
    let filler = rng.one_of(["..=7".into(), "2..=n".into(), "..=(n-1)".into()]);
    Line::new(vec![vec![format!("{}[{range}]", variable(rng))], vec![filler, name(rng)]])
        .mode(rng.below(2))
        .input()
}

fn one_bit(rng: &Rng) -> Vec<u8> {
    let inside = rng.one_of([
        "7".into(),
        "(5)".into(),
        "n+1".into(),
        "- -5".into(),
        "f(x)".into(),
        "0x0".into(),
        "{3}".into(),
        "a b".into(),
        "()".into(),
        "1.".into(),
        "n.".into(),
    ]);
    let middle = rng.one_of([name(rng), "300u9".into()]);
    let sink = known_variable(rng, 1);
    Line::new(vec![vec![format!("{middle}[{inside}]")], vec![sink]]).mode(rng.below(2)).input()
}

fn unknown_difference(rng: &Rng) -> Vec<u8> {
    let x = MAX - rng.below(5) as u128;
    let y = number(rng, MAX);
    let range = rng.one_of([
        format!("(n-{x})..(n+{y})"),
        format!("(n+{y})..(n-{x})"),
        format!("(n-{y})..=(n+9)"),
    ]);
    Line::new(vec![vec![format!("{}[{range}]", name(rng))], vec![name(rng)]])
        .mode(rng.below(2))
        .input()
}

/// Groups within groups, `depth` of them.
pub fn nest(rng: &Rng, depth: usize) -> String {
    let mut line = "z".to_owned();
    for _ in 0..depth {
        line = rng.one_of([
            format!("({line})"),
            format!("[{line}]"),
            format!("{{{line}}}"),
            format!("⟨{line}⟩"),
        ]);
    }
    line
}

fn deep(rng: &Rng) -> Vec<u8> {
    let depth = if rng.chance(50) { 32 } else { rng.within(8, 31) };
    let comp = match rng.below(3) {
        0 => format!("a[{}]", nest(rng, depth - 1)),
        1 => format!("a[..({})]", nest(rng, depth - 2)),
        _ => format!("{}.b", nest(rng, depth)),
    };
    Line::new(vec![vec![comp]]).mode(rng.below(2)).input()
}

fn bound_shapes(rng: &Rng) -> Vec<u8> {
    let (low, w) = (rng.below(30) as u128, rng.within(1, 30) as u128);
    let comps = vec![
        format!("{}[{}..{}]", name(rng), bound(rng, low), bound(rng, low + w)),
        format!("{}[{}..]", name(rng), bound(rng, low)),
    ];
    Line::new(vec![comps]).mode(rng.below(2)).input()
}

fn late_number(rng: &Rng) -> Vec<u8> {
    let (x, y) = (rng.below(9), rng.within(1, 99));
    let w = x + y;
    let source = vec![format!("a[..({x}--00{y})]")];
    let sink = vec![known_variable(rng, w as u128)];
    Line::new(vec![source, sink]).mode(rng.below(3)).input()
}
