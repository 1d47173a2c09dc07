//! Images that are damaged anywhere: bits flipped, bytes cut off, taken out or
//! added, numbers of a table changed.

use super::{
    Aim::Any,
    Recipe,
    edit::{Edit, Field},
    limits,
    rng::Rng,
    soup::{changed_bytes, changed_text, some_case},
};
use crate::{check::check, image::RECORD_ENTRY, leaves::changed};

pub const RECIPES: [Recipe; 10] = [
    Recipe { name: "bits flipped", aim: Any, make: flipped },
    Recipe { name: "cut off", aim: Any, make: cut_off },
    Recipe { name: "lengthened", aim: Any, make: lengthened },
    Recipe { name: "bytes taken out or put in", aim: Any, make: shifted },
    Recipe { name: "header or table number changed", aim: Any, make: number_changed },
    Recipe { name: "record changed", aim: Any, make: record_changed },
    Recipe { name: "record put in, offsets right", aim: Any, make: record_added },
    Recipe { name: "bytes of the text or of any table changed", aim: Any, make: bytes_changed },
    Recipe { name: "text of any bytes", aim: Any, make: any_text },
    Recipe { name: "anything", aim: Any, make: anything },
];

/// Some case; now and then a large one.
fn any_case(rng: &Rng) -> Vec<u8> {
    if rng.chance(3) { limits::of_any_size(rng) } else { some_case(rng) }
}

fn flipped(rng: &Rng) -> Vec<u8> {
    let mut input = any_case(rng);
    for _ in 0..rng.within(1, 8) {
        let at = rng.below(input.len().max(1));
        if let Some(byte) = input.get_mut(at) {
            *byte ^= 1 << rng.below(8);
        }
    }
    input
}

fn cut_off(rng: &Rng) -> Vec<u8> {
    let mut input = any_case(rng);
    input.truncate(rng.below(input.len() + 1));
    input
}

fn lengthened(rng: &Rng) -> Vec<u8> {
    let mut input = any_case(rng);
    input.extend((0..rng.within(1, 40)).map(|_| rng.next() as u8));
    input
}

fn shifted(rng: &Rng) -> Vec<u8> {
    let mut input = any_case(rng);
    let at = rng.below(input.len() + 1);
    let bytes = rng.within(1, 12);
    if rng.chance(50) {
        input.drain(at..(at + bytes).min(input.len()));
    } else {
        let put = (0..bytes).map(|_| rng.next() as u8 & [0xff, 3][rng.below(2)]);
        input.splice(at..at, put.collect::<Vec<_>>());
    }
    input
}

fn number_changed(rng: &Rng) -> Vec<u8> {
    let input = any_case(rng);
    let Some((mode, image)) = input.split_first() else { return input };
    [vec![*mode], changed(rng, image.to_vec())].concat()
}

/// A case that passes the check, to change.
fn right(rng: &Rng) -> Edit {
    loop {
        let input = any_case(rng);
        if check(input.get(1..).unwrap_or_default()).is_ok() {
            return Edit { input };
        }
    }
}

/// One or two fields of records, to values close by.
fn record_changed(rng: &Rng) -> Vec<u8> {
    let mut edit = right(rng);
    for _ in 0..rng.within(1, 2) {
        let record = rng.below(edit.count(2));
        let field = [Field::Kind, Field::Start, Field::Skip, Field::Skip][rng.below(4)];
        let at = edit.record(record, field);
        let old = edit.get(at);
        let new = [old + 1, old.wrapping_sub(1), old + rng.below(6), 0, 1, rng.below(6)];
        edit.set(at, new[rng.below(new.len())]);
    }
    edit.input
}

/// One record more, or one less, with the header as it should then be.
fn record_added(rng: &Rng) -> Vec<u8> {
    let mut edit = right(rng);
    let records = edit.count(2);
    let record = rng.below(records);
    let at = edit.record(record, Field::Kind);
    let more = records == 1 || rng.chance(60);
    if more {
        let copy = edit.input[at..at + RECORD_ENTRY].to_vec();
        edit.input.splice(at..at, copy);
    } else {
        edit.input.drain(at..at + RECORD_ENTRY);
    }
    let moved = |n: usize, by: usize| if more { n + by } else { n - by };
    edit.set(Edit::header(2), moved(records, 1));
    for table in [3, 4] {
        let offset = edit.get(Edit::header(5 + table));
        edit.set(Edit::header(5 + table), moved(offset, RECORD_ENTRY));
    }
    if rng.chance(70) {
        let comp = edit.component(rng.below(edit.count(1)));
        edit.set(comp, moved(edit.get(comp), 1));
    }
    edit.input
}

fn bytes_changed(rng: &Rng) -> Vec<u8> {
    if rng.chance(50) { changed_text(rng) } else { changed_bytes(rng) }
}

/// Bytes of the text become any, so that some texts are no UTF-8.
fn any_text(rng: &Rng) -> Vec<u8> {
    let mut edit = right(rng);
    for _ in 0..rng.within(1, 3) {
        let at = edit.table(3) + rng.below(edit.count(3));
        edit.input[at] = rng.next() as u8;
    }
    edit.input
}

/// Bytes that come from nowhere, perhaps after a true header.
fn anything(rng: &Rng) -> Vec<u8> {
    let kept = if rng.chance(60) { rng.within(0, 60) } else { 0 };
    let mut input = any_case(rng);
    input.truncate(kept);
    input.extend((0..rng.below(160)).map(|_| rng.next() as u8 & [0xff, 7, 1][rng.below(3)]));
    input
}
