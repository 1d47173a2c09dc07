//! Every recipe brings about what it aims at, and the cases of a seed hold
//! what they must.

use std::collections::{BTreeMap, BTreeSet};

use layout_rust::{
    generate::{Aim, Rng, accepted_recipes, cases, readings, refused_recipes},
    image::image_of,
    listing::listing,
    run::run,
    stats::outcome_of,
    text::{decode, encode},
};

#[test]
fn recipes_meet_their_aims() {
    let rng = Rng::new(7);
    let mut missed = BTreeSet::new();
    for recipe in refused_recipes().into_iter().chain(accepted_recipes()) {
        let aim = match recipe.aim {
            Aim::Accepted => "accepted".to_owned(),
            Aim::Refused(number) => format!("refused {number:>2}"),
            Aim::Any => continue,
        };
        for _ in 0..200 {
            let input = (recipe.make)(&rng);
            let came = outcome_of(&listing(&run(&input)));
            if came != aim {
                missed.insert(format!("{}: {came}: {:?}", recipe.name, decode(&input)));
            }
        }
    }
    assert!(missed.is_empty(), "{missed:#?}");
}

/// The refusals that can occur; 33 cannot, and 8 is not given here.
fn refusals() -> impl Iterator<Item = u32> {
    (1..=7).chain(10..=17).chain(20..=28).chain(30..=32).chain([34]).chain(40..=45)
}

#[test]
fn five_hundred_cases_hold_what_they_must() {
    for seed in 1..=6 {
        let mut counts = BTreeMap::new();
        for case in cases(500, seed) {
            *counts.entry(outcome_of(&listing(&run(&case.input)))).or_insert(0) += 1;
        }
        assert!(counts["accepted"] >= 150, "seed {seed}: {counts:?}");
        for number in refusals() {
            let count = counts.get(&format!("refused {number:>2}")).copied().unwrap_or(0);
            assert!(count >= 7, "seed {seed}: {number} occurs {count} times");
        }
        assert_eq!(counts.len(), 1 + refusals().count(), "seed {seed}: {counts:?}");
    }
}

#[test]
fn five_hundred_cases_hold_every_reading_and_recipe() {
    for seed in 1..=6 {
        let names: BTreeSet<String> = cases(500, seed).map(|case| case.name).collect();
        for reading in readings() {
            assert!(names.contains(&format!("reading: {}", reading.name)), "{}", reading.name);
        }
        for recipe in refused_recipes().into_iter().chain(accepted_recipes()) {
            assert!(names.contains(recipe.name), "{}", recipe.name);
        }
    }
}

/// All that an accepted answer can show: `multiple` never, and overall neither
/// `single` nor `mid`, since those trees are refused with 43 to 45.
#[test]
fn accepted_cases_show_every_alignment_and_mode() {
    for seed in 1..=6 {
        let mut seen = BTreeSet::new();
        for case in cases(500, seed) {
            let listing = listing(&run(&case.input));
            for line in listing.lines() {
                let words: Vec<&str> = line.split(' ').collect();
                if matches!(words[0], "layout" | "c") {
                    seen.insert(format!("{} {}", words[0], words[4]));
                }
                if words[0] == "layout" {
                    seen.insert(format!("mode {}", case.input[0]));
                }
            }
        }
        let all = "c lsb,c mid,c msb,c none,c single,layout lsb,layout msb,layout none,\
                   mode 0,mode 1,mode 2";
        assert_eq!(seen.into_iter().collect::<Vec<_>>().join(","), all);
    }
}

/// A decoded line is encoded as the image that it came from.
#[test]
fn decode_then_encode_is_the_same_image() {
    for case in cases(2_000, 3) {
        if let Ok(line) = decode(&case.input) {
            assert_eq!(encode(case.input[0], &line).as_ref(), Ok(&case.input), "{line}");
        }
    }
}

/// The check finds the tree that an image was written from.
#[test]
fn check_then_image_of_is_the_same_image() {
    for case in cases(2_000, 4) {
        let image = case.input.get(1..).unwrap_or_default();
        if let Ok(tree) = layout_rust::check::check(image) {
            assert_eq!(image_of(&tree), image);
        }
    }
}
