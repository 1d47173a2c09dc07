//! The files of `replay` hold what the replay of the run must show.

use std::{
    collections::{BTreeMap, BTreeSet},
    env, fs,
    path::Path,
};

use layout_rust::{
    listing::listing,
    replay::{any_area, cuts, defaults, runs, write},
    run::run,
    stats::outcome_of,
    text::decode,
};

#[test]
fn runs_hold_every_outcome() {
    let mut counts = BTreeMap::new();
    let runs = runs(2400, 1);
    assert!(runs.len() >= 2000);
    for run in &runs {
        *counts.entry(outcome_of(&run.listing)).or_insert(0) += 1;
    }
    assert!(counts["accepted"] >= 600, "{counts:?}");
    let numbers = (1..=8).chain(10..=17).chain(20..=28).chain(30..=32).chain([34]).chain(40..=45);
    for number in numbers {
        let count = counts.get(&format!("refused {number:>2}")).copied().unwrap_or(0);
        assert!(count >= 15, "{number} occurs {count} times");
    }
}

#[test]
fn short_areas_are_number_8_and_others_are_the_stages() {
    for run_ in runs(500, 2) {
        let whole = listing(&run(&run_.input));
        if run_.listing == "refused 8 0 0\n" {
            assert!(run_.area < any_area());
        } else {
            assert_eq!(run_.listing, whole);
        }
    }
}

#[test]
fn cut_pairs_differ_in_their_images_only() {
    let pairs = cuts(400, 1);
    let mut pieces = BTreeSet::new();
    for (pair, listing_) in &pairs {
        assert_ne!(pair.whole, pair.cut);
        assert_eq!(listing(&run(&pair.whole)), *listing_);
        assert_eq!(listing(&run(&pair.cut)), *listing_);
        // the cut line has more components: one more for each place
        let components = |input: &[u8]| u32::from_le_bytes(input[5..9].try_into().unwrap());
        pieces.insert(components(&pair.cut) - components(&pair.whole) + 1);
        assert!(decode(&pair.cut).is_ok());
    }
    assert!(pieces.len() >= 8 && *pieces.first().unwrap() == 2, "{pieces:?}");
}

#[test]
fn defaults_hold_what_they_must() {
    let (mut lifted, mut values) = (BTreeMap::new(), BTreeMap::new());
    let all = defaults(400, 1);
    assert_eq!(all.len(), 400);
    for lent in &all {
        let value = lent.told.value(&lent.default);
        let kind = (lent.default.is_empty(), value.is_empty(), value == lent.default);
        *values.entry(kind).or_insert(0) += 1;
        if lent.told.lifted {
            *lifted.entry(outcome_of(&lent.told.listing)).or_insert(0) += 1;
        }
    }
    assert!(lifted["accepted"] >= 40, "{lifted:?}");
    assert!((41..=45).all(|number| lifted[&format!("refused {number}")] >= 15), "{lifted:?}");
    // the default, a prefix under it, a prefix without one, nothing
    for kind in [(false, false, true), (false, false, false), (true, false, false)] {
        assert!(values[&kind] >= 5, "{values:?}");
    }
    assert!(all.iter().any(|lent| lent.default.len() > 65_535));
}

/// The replayed files are those that README.md's command writes, and what is
/// printed for them is what it says.
#[test]
fn the_replayed_files_are_these() {
    let replay = Path::new(env!("CARGO_MANIFEST_DIR")).join("../crates/run_replay");
    let folder = env::temp_dir().join(format!("layout-replay-{}", std::process::id()));
    fs::create_dir(&folder).unwrap();
    let told = write(2_400, 1, &folder).unwrap();
    let same = |name: &str| {
        fs::read(folder.join(name)).unwrap() == fs::read(replay.join("data").join(name)).unwrap()
    };
    let all = ["runs", "cuts", "defaults"].map(same);
    fs::remove_dir_all(&folder).unwrap();
    assert_eq!(all, [true; 3]);
    assert_eq!(told, fs::read_to_string(replay.join("stdout")).unwrap());
}
