//! Lists of tokens: the worked ones are as the papers say, the recipes bring
//! about what they aim at, and the class holds what it must.

use std::collections::{BTreeMap, BTreeSet};

use layout_rust::{
    check::check,
    generate::{Aim, LARGEST_WRITTEN, Rng, cases, lent_of, token_area, token_cases, token_recipes},
    image::{Tree, image_of},
    text::decode,
    tokens::{CLOSER, Expect, LITERAL, Lent, Texts, stream_of, told, worked},
};

fn number(bytes: &[u8], at: usize) -> usize {
    u32::from_le_bytes(bytes[at..at + 4].try_into().unwrap()) as usize
}

fn hex(bytes: &[u8]) -> String {
    bytes.iter().map(|byte| format!("{byte:02x}")).collect()
}

#[test]
fn worked_lists_are_as_the_papers_say() {
    for worked in worked() {
        let told = told(&worked.lent).unwrap();
        let answer = told.over_area(worked.area);
        match worked.expect {
            Expect::Refused(number) => assert_eq!(answer, Err(number), "{}", worked.name),
            Expect::Hex(image) => assert_eq!(hex(answer.unwrap()), image, "{}", worked.name),
            Expect::Image(length, text, records) => {
                let image = answer.unwrap();
                let [records_at, text_at, end] = [28, 32, 36].map(|at| number(image, at));
                let record = |at| [0, 4, 8].map(|field| number(image, at + field) as u32);
                let all: Vec<_> = (records_at..text_at).step_by(12).map(record).collect();
                assert_eq!((image.len(), end), (length, length), "{}", worked.name);
                assert_eq!(&image[text_at..], text.as_bytes(), "{}", worked.name);
                assert_eq!(all, records, "{}", worked.name);
            }
        }
    }
}

#[test]
fn recipes_meet_their_aims() {
    let rng = Rng::new(7);
    for recipe in token_recipes() {
        let aim = match recipe.aim {
            Aim::Accepted => None,
            Aim::Refused(number) => Some(number),
            Aim::Any => continue,
        };
        for _ in 0..100 {
            let made = (recipe.make)(&rng);
            let came = made.told().unwrap().over_area(LARGEST_WRITTEN).err();
            assert_eq!(came, aim, "{}: {:?}", recipe.name, made.lent);
        }
    }
}

/// A list is read as the stream that it was made from, and what is written
/// passes the check.
#[test]
fn lists_are_read_as_their_streams() {
    let mut streams = 0;
    for case in token_cases(3).take(3_000) {
        let (lent, told_of_stream) = (&case.made.lent, case.made.told().unwrap());
        let told = told(lent).unwrap();
        assert_eq!(told.refused, told_of_stream.refused, "{}", case.name);
        assert!(told.image == told_of_stream.image, "{}", case.name);
        assert_eq!(told.refused.is_none(), check(&told.image).is_ok(), "{}", case.name);
        if let Some((stream, Texts::Utf8)) = case.made.stream {
            assert!(stream_of(lent, Texts::Utf8) == Some(stream), "{}", case.name);
            streams += 1;
        }
    }
    assert!(streams > 1_000, "{streams}");
}

/// The encoder, which follows token_stream.rs, makes the same image of a line
/// but for the literals.
#[test]
fn the_encoder_makes_the_same_image() {
    let mut compared = 0;
    for case in cases(3_000, 5) {
        let Ok(line) = decode(&case.input) else { continue };
        let Some(lent) = lent_of(&line) else { continue };
        let mut tree: Tree = check(&case.input[1..]).unwrap();
        for comp in tree.concatenations.iter_mut().flatten() {
            (comp.width, comp.bits) = (0, vec![]);
        }
        assert!(told(&lent).unwrap().image == image_of(&tree), "{line}");
        compared += 1;
    }
    assert!(compared > 1_500, "{compared}");
}

/// How a list's texts lie: whether one begins before the one before it, and
/// whether two share a byte.
fn lie(lent: &Lent) -> [bool; 2] {
    let leaf = |[kind, start, length]: [u32; 3]| (kind <= LITERAL).then_some((start, length));
    let mut places: Vec<_> = lent.tokens().filter_map(leaf).collect();
    let disordered = places.windows(2).any(|two| two[1].0 < two[0].0);
    places.sort();
    [disordered, places.windows(2).any(|two| two[0].0 + two[0].1 > two[1].0)]
}

/// In so many cases.
#[test]
fn the_class_holds_what_it_must() {
    let rng = Rng::new(1);
    let (mut outcomes, mut over, mut full) = (BTreeMap::new(), BTreeMap::new(), BTreeMap::new());
    let (mut disordered, mut shared, mut garbage, mut no_utf8) = (0, 0, 0, 0);
    for case in token_cases(1).take(5_000) {
        let told = case.made.told().unwrap();
        let lent = &case.made.lent;
        let area = token_area(&rng, Some(&told));
        *outcomes.entry(told.over_area(area).err().unwrap_or(0)).or_insert(0) += 1;
        if let ([one], Some(52)) = (&told.over[..], told.refused) {
            *over.entry(*one).or_insert(0) += 1;
        }
        if told.refused.is_none() {
            let limits = [16, 256, 2_048, 16_384];
            let at = |i: &usize| number(&told.image, 4 * i) == limits[*i];
            (0..4).filter(at).for_each(|i| *full.entry(i).or_insert(0) += 1);
            let [d, s] = lie(lent);
            disordered += usize::from(d);
            shared += usize::from(s);
            let outside = |[kind, start, _]: [u32; 3]| {
                kind > LITERAL && kind <= CLOSER && start as usize > lent.text.len()
            };
            garbage += usize::from(lent.tokens().any(outside));
            no_utf8 += usize::from(Texts::of(lent) == Texts::Bytes);
        }
    }
    assert_eq!(outcomes.keys().copied().collect::<Vec<_>>(), [0, 50, 51, 52, 53]);
    assert!(outcomes[&0] >= 2_200 && outcomes.values().all(|n| *n >= 100), "{outcomes:?}");
    assert!(over.len() == 5 && over.values().all(|n| *n >= 10), "{over:?}");
    assert!(full.len() == 4 && full.values().all(|n| *n >= 20), "{full:?}");
    let told = [disordered, shared, garbage, no_utf8];
    assert!(told.iter().all(|n| *n >= 150), "{told:?}");
}

/// The names of the recipes are all there, none twice.
#[test]
fn every_recipe_has_its_turn() {
    let names: BTreeSet<_> = token_cases(2).take(600).map(|case| case.name).collect();
    assert_eq!(names.len(), token_recipes().len());
    assert!(token_recipes().iter().all(|recipe| names.contains(recipe.name)));
}
