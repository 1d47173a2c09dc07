//! Lines for runs under a default: a filler in the source and no starting
//! value under modes 1 and 2, so that the default is seen; lines with a
//! starting value of their own; lines that begin with colons.

use super::{
    Aim::{self, Accepted, Any, Refused},
    CutPair, Recipe, accepted, cut_pair,
    defaults::default,
    line::{Line, harmless, prefix},
    rng::Rng,
    soup::some_case,
    tree_refusals,
    words::{known_variable, literal, name, range},
};
use crate::{
    check::check,
    image::{Comp, Item, MAX_RECORDS, MAX_TEXT, Tree, image_of},
    leaves::changed,
    run::{Outcome, run, stages},
    text::tree_of,
    with_default::{prefix_of, told},
};

/// Refused with 40 as they are; a default lifts it, and the next test answers.
pub const LIFTED: [Recipe; 8] = [
    Recipe { name: "accepted but for 40", aim: Refused(40), make: |rng| but_for_40(rng, Accepted) },
    Recipe { name: "41 but for 40", aim: Refused(40), make: |rng| but_for_40(rng, Refused(41)) },
    Recipe { name: "42 but for 40", aim: Refused(40), make: |rng| but_for_40(rng, Refused(42)) },
    Recipe { name: "fillers but for 40", aim: Refused(40), make: fillers },
    Recipe { name: "43 but for 40", aim: Refused(40), make: |rng| but_for_40(rng, Refused(43)) },
    Recipe { name: "44 but for 40", aim: Refused(40), make: |rng| but_for_40(rng, Refused(44)) },
    Recipe { name: "45 but for 40", aim: Refused(40), make: |rng| but_for_40(rng, Refused(45)) },
    Recipe { name: "at a limit but for 40", aim: Refused(40), make: at_a_limit },
];

/// Prefixes of the image's own, colons, damage.
pub const OTHERS: [Recipe; 8] = [
    Recipe { name: "its own prefix", aim: Any, make: |rng| put_before(rng, &prefix(rng)) },
    Recipe { name: "a text that begins with ::", aim: Refused(40), make: path_first },
    Recipe { name: "its own prefix, empty", aim: Any, make: |rng| put_before(rng, "") },
    Recipe { name: "prefix taken off", aim: Any, make: taken_off },
    Recipe { name: "its own prefix, with ::", aim: Any, make: put_path_before },
    Recipe { name: "colons and brackets first", aim: Any, make: colons_first },
    Recipe { name: "damaged, else 40", aim: Any, make: damaged },
    // outside the Rust's domain
    Recipe { name: "its own prefix, no UTF-8", aim: Any, make: |rng| put_before(rng, "«z\\ff»") },
];

fn input(mode: u8, tree: &Tree) -> Vec<u8> {
    [vec![mode], image_of(tree)].concat()
}

/// An input without its starting value, if it has one.
fn without_prefix(input: &[u8]) -> Option<Vec<u8>> {
    let (mode, image) = input.split_first()?;
    let mut tree = check(image).ok().filter(Tree::is_utf8)?;
    let (before_colon, _) = prefix_of(&stages(0, &tree).0)?;
    tree.concatenations[0].last_mut()?.items.drain(..=before_colon);
    Some(self::input(*mode, &tree))
}

fn is_40(input: &[u8]) -> bool {
    matches!(run(input), Outcome::Refused(refusal) if refusal.number == 40)
}

/// A recipe's line, with a filler in its source, without its starting value.
fn but_for_40(rng: &Rng, aim: Aim) -> Vec<u8> {
    let recipes = accepted::RECIPES.iter().chain(&tree_refusals::RECIPES);
    let recipes: Vec<_> = recipes.filter(|recipe| recipe.aim == aim).collect();
    loop {
        let made = (recipes[rng.below(recipes.len())].make)(rng);
        if let Some(input) = without_prefix(&made)
            && is_40(&input)
        {
            return input;
        }
    }
}

/// Fillers of known width among literals and variables of the source.
fn fillers(rng: &Rng) -> Vec<u8> {
    let mut width = 0;
    let mut drawn = || {
        let w = rng.within(1, 9);
        width += w;
        w
    };
    let mut source = vec![range(rng, drawn() as u128)];
    for _ in 0..rng.within(1, 5) {
        let w = drawn();
        let comp = match rng.below(4) {
            0 => range(rng, w as u128),
            1 => known_variable(rng, w as u128),
            _ => literal(rng, w),
        };
        source.insert(rng.below(source.len() + 1), comp);
    }
    let mut concats = vec![source];
    for _ in 0..rng.below(3) {
        concats.push(vec![known_variable(rng, width as u128)]);
    }
    Line::new(concats).mode(rng.within(1, 2)).input()
}

/// As many records or text bytes as there may be, or a few less: most images
/// could not hold a word and a colon more.
fn at_a_limit(rng: &Rng) -> Vec<u8> {
    let (filler, dots) = (["..4", "..n", "1..9"][rng.below(3)], 4);
    let mut comps = tree_of(filler).expect("a filler").concatenations.remove(0);
    let (records, text) = match rng.below(2) {
        0 => (MAX_RECORDS - dots - rng.below(3), MAX_TEXT / rng.within(2, 4)),
        _ => (rng.within(1, 20), MAX_TEXT - dots - rng.below(8)),
    };
    let mut items = vec![Item::Chars(b"a".to_vec()); records - 1];
    items.insert(0, Item::Chars(vec![b'b'; text - (records - 1)]));
    comps.insert(rng.below(2), Comp { items, ..Comp::default() });
    input(1, &Tree { concatenations: vec![comps] })
}

/// Some line with this starting value put before it, whatever comes of it.
fn put_before(rng: &Rng, prefix: &str) -> Vec<u8> {
    let made = if rng.chance(60) { but_for_40(rng, Accepted) } else { some_case(rng) };
    let Some((mode, image)) = made.split_first() else { return made };
    let Ok(mut tree) = check(image) else { return made };
    let mut put = tree_of(&format!("{prefix}: q")).expect("a starting value").concatenations;
    let mut items = put.remove(0).remove(0).items;
    items.pop();
    tree.concatenations[0].last_mut().expect("not empty").items.splice(..0, items);
    input(*mode, &tree)
}

fn put_path_before(rng: &Rng) -> Vec<u8> {
    put_before(rng, rng.pick(&["a::b", "::a", "::", "x::<u8>::y", "::α::β", "a::(b:c)", "::::"]))
}

/// Some line with a starting value, which is taken off.
fn taken_off(rng: &Rng) -> Vec<u8> {
    loop {
        if let Some(input) = without_prefix(&some_case(rng)) {
            return input;
        }
    }
}

/// Behind `word:` the colons of such a text would pair up another way.
fn path_first(rng: &Rng) -> Vec<u8> {
    let n = name(rng);
    let first = rng.one_of([
        format!("::{n}"),
        format!("::::{n}"),
        format!("::{n}::y"),
        format!("::{n}[..4]"),
        "::".into(),
        "::[3]".into(),
        "::(a:b)[n..]".into(),
    ]);
    let filler = rng.one_of([range(rng, 4), "..n".into(), "..".into()]);
    let mut concats = vec![vec![first, filler]];
    if rng.chance(50) {
        concats.push(vec![harmless(rng, false)]);
    }
    Line::new(concats).mode(rng.within(1, 2)).input()
}

/// What stage 1 would see in another way behind `word:`, and colons with
/// nothing after them.
fn colons_first(rng: &Rng) -> Vec<u8> {
    const FIRST: [&str; 14] = [
        "[..4]", "[]", "[a]", "::..4", "::..", "::..=n", "::...", ":", "::", ":::", "z:",
        "z:[..4]", "x::y:[2]", "::z:",
    ];
    let mut source = vec![rng.pick(&FIRST).to_owned()];
    for _ in 0..rng.below(3) {
        source.push(rng.one_of([harmless(rng, true), "q[]".into(), "9z".into(), "..4".into()]));
    }
    Line::new(vec![source, vec![name(rng)]]).mode(rng.below(3)).input()
}

fn damaged(rng: &Rng) -> Vec<u8> {
    let made = (LIFTED[rng.below(LIFTED.len() - 1)].make)(rng);
    [vec![made[0]], changed(rng, made[1..].to_vec())].concat()
}

/// A cut pair and a default under which the uncut line is accepted; of most
/// the starting value is taken off.
pub fn cut_pair_under(rng: &Rng) -> (CutPair, Vec<u8>) {
    loop {
        let CutPair { mut whole, mut cut } = cut_pair(rng);
        if rng.chance(70)
            && let (Some(bare), Some(bare_cut)) = (without_prefix(&whole), without_prefix(&cut))
        {
            (whole, cut) = (bare, bare_cut);
        }
        let default = default(rng, &whole);
        if told(&whole, &default).is_some_and(|told| told.listing.starts_with("layout ")) {
            return (CutPair { whole, cut }, default);
        }
    }
}
