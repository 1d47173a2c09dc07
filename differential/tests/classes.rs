//! The classes of cases hold what their names say.

use std::collections::{BTreeMap, BTreeSet};

use layout_rust::{
    check::check,
    generate::{Class, class_cases},
    listing::listing,
    run::run,
    stats::outcome_of,
};

/// How often each outcome occurs in so many cases.
fn outcomes(class: Class, count: usize) -> BTreeMap<String, usize> {
    let mut counts = BTreeMap::new();
    for pair in class_cases(class, 1).take(count) {
        *counts.entry(outcome_of(&listing(&run(&pair.case.input)))).or_insert(0) += 1;
    }
    counts
}

fn names(class: Class, count: usize) -> BTreeSet<String> {
    outcomes(class, count).into_keys().collect()
}

fn refusals(numbers: impl IntoIterator<Item = u32>) -> BTreeSet<String> {
    numbers.into_iter().map(|number| format!("refused {number:>2}")).collect()
}

#[test]
fn stages_and_accepted() {
    assert_eq!(names(Class::Stage(1), 400), refusals(10..=17));
    assert_eq!(names(Class::Stage(2), 400), refusals(20..=28));
    assert_eq!(names(Class::Stage(3), 400), refusals([30, 31, 32, 34]));
    assert_eq!(names(Class::Stage(4), 400), refusals(40..=45));
    assert_eq!(names(Class::Accepted, 400), BTreeSet::from(["accepted".to_owned()]));
}

/// Every number that an image alone can bring about.
fn all_refusals() -> BTreeSet<String> {
    let of_stages = (10..=17).chain(20..=28).chain(30..=32).chain([34]).chain(40..=45);
    refusals((1..=7).chain(of_stages))
}

#[test]
fn mixed_has_every_outcome() {
    let names = names(Class::Mixed, 3_000);
    assert!(all_refusals().is_subset(&names) && names.contains("accepted"), "{names:?}");
}

#[test]
fn order_has_nearly_every_outcome() {
    let missing: BTreeSet<_> = &all_refusals() - &names(Class::Order, 6_000);
    assert!(missing.is_subset(&refusals([7])), "{missing:?}");
}

#[test]
fn damaged_and_limits() {
    let damaged = names(Class::Damaged, 3_000);
    assert!(refusals(1..=7).is_subset(&damaged), "{damaged:?}");
    assert!(damaged.contains("accepted") && damaged.contains("outside"), "{damaged:?}");
    let limits = outcomes(Class::Limits, 300);
    assert!(limits["accepted"] > 50 && limits["refused  3"] > 5, "{limits:?}");
}

#[test]
fn cut_pairs_are_accepted_with_one_listing() {
    for pair in class_cases(Class::Cut, 1).take(300) {
        let cut = pair.cut.expect("a pair").input;
        let both = [&pair.case.input, &cut].map(|input| listing(&run(input)));
        assert!(both[0] == both[1] && both[0].starts_with("layout"), "{both:?}");
        assert!(check(&cut[1..]).is_ok() && pair.case.input != cut);
    }
}
