//! The files that `leaves` writes: read back entry by entry, held to the Rust
//! and to the check, and to what they must contain.

use std::{
    collections::{BTreeMap, HashSet},
    fs,
    path::Path,
};

use layout_rust::{
    check::check,
    i128_try_parse,
    leaves::{images, images_file, lists, numbers_file, texts, tokens_file},
    tokens::{Lent, told, worked},
};

/// Takes so many bytes off the front.
fn take<'a>(file: &mut &'a [u8], count: usize) -> &'a [u8] {
    let (front, rest) = file.split_at(count);
    *file = rest;
    front
}

fn number_entries(mut file: &[u8]) -> Vec<(String, Option<i128>)> {
    let mut entries = vec![];
    while !file.is_empty() {
        let length = u16::from_le_bytes(take(&mut file, 2).try_into().unwrap());
        let text = String::from_utf8(take(&mut file, length.into()).to_vec()).unwrap();
        let found = take(&mut file, 1)[0];
        let number = i128::from_le_bytes(take(&mut file, 16).try_into().unwrap());
        assert!(found == 1 || (found == 0 && number == 0), "{text}");
        entries.push((text, (found == 1).then_some(number)));
    }
    entries
}

fn image_entries(mut file: &[u8]) -> Vec<(&[u8], u8)> {
    let mut entries = vec![];
    while !file.is_empty() {
        let length = u32::from_le_bytes(take(&mut file, 4).try_into().unwrap());
        entries.push((take(&mut file, length as usize), take(&mut file, 1)[0]));
    }
    entries
}

type TokenEntry = (Lent, usize, Result<Vec<u8>, u32>);

fn token_entries(mut file: &[u8]) -> Vec<TokenEntry> {
    let mut entries = vec![];
    while !file.is_empty() {
        let mut number = || u32::from_le_bytes(take(&mut file, 4).try_into().unwrap()) as usize;
        let [list, text, area, refused, image] = [number(), number(), number(), number(), number()];
        let [list, text, image] = [list, text, image].map(|count| take(&mut file, count).to_vec());
        assert!(refused == 0 || image.is_empty());
        let answer = if refused == 0 { Ok(image) } else { Err(refused as u32) };
        entries.push((Lent { list, text }, area, answer));
    }
    entries
}

#[test]
fn numbers_are_what_the_rust_reads() {
    for seed in 1..=3 {
        let entries = number_entries(&numbers_file(2_000, seed));
        assert!(entries.len() >= 4_000);
        assert_eq!(texts(2_000, seed), entries.iter().map(|e| e.0.clone()).collect::<Vec<_>>());
        let distinct: HashSet<&String> = entries.iter().map(|e| &e.0).collect();
        assert_eq!(distinct.len(), entries.len());
        for (text, number) in &entries {
            assert_eq!(i128_try_parse(&text.chars().collect::<Vec<_>>()), *number, "{text}");
        }
        let read = entries.iter().filter(|e| e.1.is_some()).count();
        assert!(read >= 1_000 && entries.len() - read >= 1_000, "{read}");
        assert!(entries.iter().all(|e| e.0.len() <= 300));
        assert!(entries.iter().any(|e| e.0.len() == 300 && e.1.is_some()));
    }
}

/// Document 01's "Edge readings" of single numbers.
#[test]
fn numbers_hold_the_edge_readings() {
    let entries: BTreeMap<String, Option<i128>> =
        number_entries(&numbers_file(0, 1)).into_iter().collect();
    let readings = [
        ("", None),
        ("07", Some(7)),
        ("007", None),
        ("--5", Some(5)),
        ("0x-5", Some(-5)),
        ("0x", None),
        ("-170141183460469231731687303715884105728", None),
        ("0x-80000000000000000000000000000000", Some(i128::MIN)),
        ("170141183460469231731687303715884105727", Some(i128::MAX)),
        ("-", None),
    ];
    for (text, number) in readings {
        assert_eq!(entries.get(text), Some(&number), "{text}");
    }
}

#[test]
fn images_are_what_the_check_says() {
    for seed in 1..=3 {
        let file = images_file(2_000, seed);
        assert!(file.len() < 1_050_000, "{}", file.len());
        let entries = image_entries(&file);
        assert_eq!(images(2_000, seed), entries.iter().map(|e| e.0).collect::<Vec<_>>());
        let distinct: HashSet<&[u8]> = entries.iter().map(|e| e.0).collect();
        assert!(distinct.len() == entries.len() && distinct.len() >= 2_000);
        let mut counts = BTreeMap::new();
        for (image, number) in &entries {
            assert_eq!(check(image).err().map_or(0, |refusal| refusal.number), (*number).into());
            *counts.entry(*number).or_insert(0) += 1;
        }
        assert_eq!(counts.keys().copied().collect::<Vec<_>>(), [0, 2, 3, 4, 5, 6, 7]);
        assert!(counts.values().all(|count| *count >= 100), "seed {seed}: {counts:?}");
    }
}

/// The largest image there is passes; each count at its limit passes by
/// itself, and one past it is refused.
#[test]
fn images_reach_the_limits() {
    let field =
        |image: &[u8], i: usize| u32::from_le_bytes(image[4 * i..4 * i + 4].try_into().unwrap());
    let file = images_file(0, 1);
    let entries = image_entries(&file);
    let largest = entries.iter().find(|(image, _)| image.len() == 51_304).unwrap();
    assert_eq!(
        (0..5).map(|i| field(largest.0, i)).collect::<Vec<_>>(),
        [16, 256, 2048, 16384, 8192]
    );
    assert_eq!(largest.1, 0);
    for (i, limit) in [16, 256, 2_048, 16_384, 8_192].into_iter().enumerate() {
        let with = |count: u32, number: u8| {
            let fits = |(image, n): &&(&[u8], u8)| field(image, i) == count && *n == number;
            entries.iter().find(fits).is_some_and(|(image, _)| image.len() <= 51_306)
        };
        assert!(with(limit, 0) && with(limit + 1, 3), "field {i}");
    }
    // nests of 32 pass, of 33 not
    let numbered = |number: u8| entries.iter().filter(|e| e.1 == number).count();
    assert!(numbered(7) == 8 && numbered(6) == 1, "{} {}", numbered(7), numbered(6));
}

#[test]
fn tokens_are_what_the_rust_makes() {
    for seed in 1..=3 {
        let file = tokens_file(2_000, seed);
        assert!(file.len() < 540_000, "{}", file.len());
        let entries = token_entries(&file);
        assert_eq!(entries.len(), lists(1_500, seed).len());
        let distinct: HashSet<_> = entries.iter().map(|(lent, area, _)| (lent, area)).collect();
        assert_eq!(distinct.len(), entries.len());
        let mut counts = BTreeMap::new();
        for (lent, area, answer) in &entries {
            // what leaves_replay has room for
            let image = answer.as_ref().map_or(0, Vec::len);
            assert!(lent.list.len() + lent.text.len() + image <= 51_306 && *area <= 43_200);
            let told = told(lent).unwrap();
            assert_eq!(told.over_area(*area), answer.as_ref().map(Vec::as_slice).map_err(|n| *n));
            *counts.entry(answer.as_ref().err().copied().unwrap_or(0)).or_insert(0) += 1;
        }
        assert_eq!(counts.keys().copied().collect::<Vec<_>>(), [0, 50, 51, 52, 53]);
        assert!(counts.values().all(|count| *count >= 13) && counts[&0] >= 600, "{counts:?}");
        // 50 is judged without the Rust
        assert!(entries.len() - counts[&50] >= 1_100, "{counts:?}");
        let first: Vec<_> = entries.iter().map(|(lent, area, _)| (lent.clone(), *area)).collect();
        let worked: Vec<_> =
            worked().into_iter().map(|worked| (worked.lent, worked.area)).collect();
        assert!(first.starts_with(&worked));
    }
}

#[test]
fn a_seed_gives_the_same_files() {
    assert!(numbers_file(300, 5) == numbers_file(300, 5));
    assert!(images_file(300, 5) == images_file(300, 5));
    assert!(images_file(300, 5) != images_file(300, 6));
    assert!(tokens_file(300, 5) == tokens_file(300, 5));
    assert!(tokens_file(300, 5) != tokens_file(300, 6));
}

/// The replayed files are those that README.md's command writes.
#[test]
fn the_replayed_files_are_these() {
    let data = Path::new(env!("CARGO_MANIFEST_DIR")).join("../crates/leaves_replay/data");
    assert!(fs::read(data.join("numbers")).unwrap() == numbers_file(2_000, 1));
    assert!(fs::read(data.join("images")).unwrap() == images_file(2_000, 1));
    assert!(fs::read(data.join("tokens")).unwrap() == tokens_file(2_000, 1));
}
