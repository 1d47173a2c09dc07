//! Runs under a default: the readings are as the papers say, the ways of asking
//! the Rust agree, and the class holds what it must.

use std::collections::BTreeMap;

use layout_rust::{
    check::check,
    generate::{Class, LIFTED, Part, Rng, class_cases, default_readings},
    image::{Item, Tree, image_of},
    listing::listing,
    run::{run, stages},
    stats::outcome_of,
    text::encode,
    with_default::{InForce, Told, Way, prefix_of, told},
};

fn under(mode: u8, line: &str, default: &[u8]) -> Told {
    told(&encode(mode, line).unwrap(), default).unwrap()
}

#[test]
fn readings_are_as_the_papers_say() {
    for reading in default_readings() {
        let (line, told) = (reading.line, told(&reading.input, reading.default).unwrap());
        for expected in reading.expect {
            let found = told.listing.lines().any(|line| line == expected);
            assert!(found, "{line}: {expected}, not\n{}", told.listing);
        }
        let image = &reading.input[1..];
        let text = u32::from_le_bytes(image[32..36].try_into().unwrap()) as usize;
        let in_force = match reading.in_force {
            Part::Nothing => InForce::Nothing,
            Part::Text(start, prefix) => InForce::Image(text + start, prefix.into()),
            Part::Default => InForce::Default,
        };
        assert_eq!(told.in_force, in_force, "{line}");
    }
}

#[test]
fn the_way_of_asking_fits_the_line() {
    let ways = [
        ("a, ..4", Way::Word),
        ("a::b:c", Way::OwnColon),
        ("z:", Way::OwnColon),
        (": a", Way::OwnColon),
        ("::a", Way::WordAndPath),
        ("::[4]", Way::WordAndPath),
        ("::..4", Way::Stage1),
        ("[..4]", Way::Stage1),
        ("[..4], 9z", Way::Stage1),
        // not the most significant component of concatenation 0
        ("a, b:c; d:e", Way::Word),
    ];
    for (line, way) in ways {
        assert_eq!(under(1, line, b"z").way, way, "{line}");
        assert_eq!(under(1, line, b"").way, Way::NoDefault, "{line}");
        assert_eq!(under(3, line, b"z").way, Way::BeforeStages, "{line}");
    }
}

/// As they are: 40. Under a default: what their names say.
#[test]
fn lifted_recipes_meet_their_aims() {
    let rng = Rng::new(7);
    for recipe in &LIFTED {
        let number = recipe.name.split(' ').next().and_then(|word| word.parse::<u32>().ok());
        let aim = number.map_or("accepted".to_owned(), |number| format!("refused {number}"));
        for _ in 0..100 {
            let input = (recipe.make)(&rng);
            assert_eq!(outcome_of(&listing(&run(&input))), "refused 40", "{}", recipe.name);
            let told = told(&input, b"z").unwrap();
            assert_eq!(outcome_of(&told.listing), aim, "{}", recipe.name);
            assert!(told.lifted);
        }
    }
}

/// The tree without its prefix, if it has one.
fn without_prefix(tree: &Tree) -> Option<Tree> {
    let (before_colon, _) = prefix_of(&stages(0, tree).0)?;
    let mut tree = tree.clone();
    tree.concatenations[0].last_mut()?.items.drain(..=before_colon);
    Some(tree)
}

/// A line's own prefix does what `word:` does: without it, and under a default,
/// all is as it was but for the end of line 1. Lines of two colons are left out,
/// of which one is then the prefix's.
#[test]
fn any_prefix_does_what_word_does() {
    let mut seen = BTreeMap::new();
    for pair in class_cases(Class::Default, 5).take(3_000) {
        let Some((mode, image)) = pair.case.input.split_first() else { continue };
        let Some(tree) = check(image).ok().filter(Tree::is_utf8) else { continue };
        let Some(bare) = without_prefix(&tree).filter(|_| *mode <= 2) else { continue };
        let with_prefix = listing(&run(&pair.case.input));
        let (first, rest) = with_prefix.split_once('\n').unwrap();
        let expected = match first.rsplit_once(" =") {
            Some((first, _)) => format!("{first} -\n{rest}"),
            None => with_prefix.clone(),
        };
        let told = told(&[vec![*mode], image_of(&bare)].concat(), b"z").unwrap();
        if told.way == Way::OwnColon {
            continue;
        }
        assert_eq!(told.listing, expected, "{}", pair.case.name);
        *seen.entry(told.lifted).or_insert(0) += 1;
    }
    assert!(seen[&true] >= 100 && seen[&false] >= 150, "{seen:?}");
}

/// The two ways agree, or a listing would be none (with_default.rs, `agreed`).
/// A prefix is where it is said to be.
#[test]
fn the_rust_agrees_with_itself() {
    for pair in class_cases(Class::Default, 2).take(3_000) {
        let default = pair.default.unwrap();
        let Some(told) = told(&pair.case.input, &default) else { continue };
        let accepted = told.listing.starts_with("layout ");
        assert!(accepted || told.listing.starts_with("refused "), "{}", told.listing);
        assert_eq!(told.in_force == InForce::Nothing, !accepted);
        if let InForce::Image(at, text) = &told.in_force {
            let image = &pair.case.input[1..];
            assert!(at + text.len() <= image.len() && image[*at..].starts_with(text));
            assert!(text.is_empty() || matches!(image[at + text.len()], b':'));
        }
    }
}

/// What the class holds, in so many cases.
#[test]
fn the_class_holds_what_it_must() {
    let (mut lifted, mut ways, mut in_force) = (BTreeMap::new(), BTreeMap::new(), BTreeMap::new());
    let (mut empty, mut long, mut no_text, mut forty, mut pairs) = (0, 0, 0, 0, 0);
    for pair in class_cases(Class::Default, 1).take(3_000) {
        let default = pair.default.unwrap();
        empty += usize::from(default.is_empty());
        long += usize::from(default.len() > 65_535);
        no_text += usize::from(str::from_utf8(&default).is_err());
        pairs += usize::from(pair.cut.is_some());
        let Some(told) = told(&pair.case.input, &default) else { continue };
        let outcome = outcome_of(&told.listing);
        forty += usize::from(outcome == "refused 40" && default.is_empty());
        *ways.entry(told.way).or_insert(0) += 1;
        let where_ = match &told.in_force {
            InForce::Nothing => "nothing",
            InForce::Image(_, text) if text.is_empty() => "an empty prefix",
            InForce::Image(_, text) if text.windows(2).any(|two| two == b"::") => "a path",
            InForce::Image(_, text) if *text == default => "as the default",
            InForce::Image(..) => "another prefix",
            InForce::Default => "the default",
        };
        *in_force.entry(where_).or_insert(0) += 1;
        if told.lifted {
            *lifted.entry(outcome).or_insert(0) += 1;
        }
    }
    assert!(lifted["accepted"] >= 400, "{lifted:?}");
    assert!((41..=45).all(|number| lifted[&format!("refused {number}")] >= 100), "{lifted:?}");
    assert!(ways.len() == 6 && ways.values().all(|count| *count >= 30), "{ways:?}");
    assert!(in_force.len() == 6 && in_force.values().all(|count| *count >= 8), "{in_force:?}");
    assert!(empty >= 400 && long >= 30 && no_text >= 200, "{empty} {long} {no_text}");
    assert!(forty >= 150 && pairs >= 100, "{forty} {pairs}");
}

/// Images that could not hold a word and a colon more are lifted too.
#[test]
fn images_at_their_limits_are_asked() {
    let full = |input: &[u8]| {
        let tree = check(&input[1..]).unwrap();
        let mut longer = tree.concatenations.clone();
        let put = [b"word".to_vec(), b":".to_vec()].map(Item::Chars);
        longer[0].last_mut().unwrap().items.splice(..0, put);
        check(&image_of(&Tree { concatenations: longer })).is_err()
    };
    let limits = class_cases(Class::Default, 1)
        .take(3_000)
        .filter(|pair| pair.case.name == "at a limit but for 40" && full(&pair.case.input));
    let asked = limits.map(|pair| told(&pair.case.input, b"z").unwrap());
    assert!(asked.filter(|told| told.lifted && told.listing.starts_with("layout ")).count() >= 50);
}
