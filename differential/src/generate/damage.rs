//! Recipes for the refusals before the stages: a wrong mode, and images that
//! are damaged in one place (numbers 1 to 7).

use super::{
    Aim::Refused,
    Recipe,
    accepted_texts::nest,
    edit::{Edit, Field},
    line::{Line, harmless},
    rng::Rng,
};
use crate::image::{
    HEADER, MAX_COMPONENTS, MAX_CONCATENATIONS, MAX_LITERAL_BYTES, MAX_RECORDS, MAX_TEXT, MAX_WIDTH,
};

pub const RECIPES: [Recipe; 7] = [
    Recipe { name: "mode above 2", aim: Refused(1), make: wrong_mode },
    Recipe { name: "shorter than a header", aim: Refused(2), make: short },
    Recipe { name: "count outside its range", aim: Refused(3), make: wrong_count },
    Recipe { name: "wrong offset or length", aim: Refused(4), make: wrong_offset },
    Recipe { name: "wrong entry, sum or spare bit", aim: Refused(5), make: wrong_entry },
    Recipe { name: "wrong record", aim: Refused(6), make: wrong_record },
    Recipe { name: "nesting above 32", aim: Refused(7), make: too_deep },
];

/// A right image to damage: some literals, a group, a range.
fn right(rng: &Rng) -> Edit {
    let w = rng.within(1, 7) + 8 * rng.below(3);
    let mut source = vec![format!("f(x)[{}]", rng.within(2, 9)), format!("1u{w}")];
    if rng.chance(40) {
        source.push(harmless(rng, true));
    }
    let mut concats = vec![source];
    if rng.chance(50) {
        concats.push(vec![harmless(rng, false)]);
    }
    Edit { input: Line::new(concats).mode(rng.below(3)).input() }
}

fn wrong_mode(rng: &Rng) -> Vec<u8> {
    let mut edit = right(rng);
    match rng.below(3) {
        0 => edit.input.truncate(rng.within(1, 60)),
        1 => edit.input[Edit::header(0)] = 0,
        _ => (),
    }
    edit.input[0] = if rng.chance(40) { 3 } else { rng.within(3, 255) as u8 };
    edit.input
}

fn short(rng: &Rng) -> Vec<u8> {
    let mut edit = right(rng);
    let length = [0, 1, HEADER, 1 + rng.below(HEADER)][rng.below(4)];
    edit.input.truncate(length);
    edit.input
}

/// A count of 0 or above its range; sometimes the image is also cut off.
fn wrong_count(rng: &Rng) -> Vec<u8> {
    let mut edit = right(rng);
    let field = rng.below(5);
    let most = [MAX_CONCATENATIONS, MAX_COMPONENTS, MAX_RECORDS, MAX_TEXT, MAX_LITERAL_BYTES];
    let above = most[field] + 1;
    let wrong = [above, above + rng.below(1_000), u32::MAX as usize, 0][rng.below(4)];
    let wrong = if wrong == 0 && field == 4 { above } else { wrong };
    edit.set(Edit::header(field), wrong);
    if rng.chance(20) {
        edit.input.truncate(rng.within(1 + HEADER, edit.input.len()));
    }
    edit.input
}

fn wrong_offset(rng: &Rng) -> Vec<u8> {
    let mut edit = right(rng);
    match rng.below(4) {
        0 => edit.input.truncate(rng.within(1 + HEADER, edit.input.len() - 1)),
        1 => edit.input.extend(vec![0; rng.within(1, 3)]),
        2 => {
            // a count that is allowed but does not fit the tables
            let field = rng.below(5);
            let count = edit.count(field);
            edit.set(Edit::header(field), count + 1);
        }
        _ => {
            let field = Edit::header(rng.within(5, 9));
            let offset = edit.get(field);
            let wrong = [offset + 1, offset - 1, 0, u32::MAX as usize, offset + 4][rng.below(5)];
            edit.set(field, wrong);
        }
    }
    edit.input
}

fn wrong_entry(rng: &Rng) -> Vec<u8> {
    let mut edit = right(rng);
    let concat = edit.table(0);
    let comp = edit.component(rng.below(edit.count(1)));
    let (comps, records) = (edit.get(concat), edit.get(comp));
    let wide = edit.get(comp + 4) + 8;
    match rng.below(8) {
        0 => edit.set(concat, 0),
        1 => edit.set(concat, comps + 1),
        2 => edit.set(comp, records + 1),
        3 => edit.set(comp, 0),
        4 => edit.set(comp + 4, rng.within(MAX_WIDTH + 1, 9_000)),
        5 => edit.set(comp + 4, wide),
        6 => {
            // one literal byte more than the widths need
            let bytes = edit.count(4);
            edit.set(Edit::header(4), bytes + 1);
            edit.input.push(0);
        }
        // `right` has a literal with spare bits
        _ => spare_bit(&mut edit),
    }
    edit.input
}

/// Sets the highest spare bit of the first literal that has one.
fn spare_bit(edit: &mut Edit) {
    let mut at = edit.table(4);
    for comp in 0..edit.count(1) {
        let width = edit.get(edit.component(comp) + 4);
        at += width.div_ceil(8);
        if !width.is_multiple_of(8) {
            edit.input[at - 1] |= 0x80;
            return;
        }
    }
}

fn wrong_record(rng: &Rng) -> Vec<u8> {
    match rng.below(8) {
        0 => return wrong_at_depth(rng),
        1 => return closer_elsewhere(rng),
        _ => (),
    }
    let mut edit = right(rng);
    let (chars, opener, closer) =
        (edit.find(rng, 0..=0), edit.find(rng, 1..=4), edit.find(rng, 5..=5));
    let any = rng.below(edit.count(2));
    let (field, value) = match rng.below(12) {
        0 => (edit.record(any, Field::Kind), rng.within(6, 9)),
        1 => (edit.record(chars, Field::Kind), rng.within(1, 5)),
        2 => (edit.record(closer, Field::Kind), rng.within(0, 4)),
        3 => (edit.record(0, Field::Start), rng.within(1, 9)),
        4 => (
            edit.record(any.max(1), Field::Start),
            edit.get(edit.record(any.max(1) - 1, Field::Start)),
        ),
        5 => (edit.record(any.max(1), Field::Start), edit.count(3) + rng.below(3)),
        6 => (edit.record(chars, Field::Skip), [0, 2][rng.below(2)]),
        7 => (edit.record(closer, Field::Skip), [0, 2][rng.below(2)]),
        8 => (edit.record(opener, Field::Skip), [0, 1, 900, u32::MAX as usize][rng.below(4)]),
        9 => (edit.record(opener, Field::Skip), edit.get(edit.record(opener, Field::Skip)) + 1),
        10 => (edit.record(opener, Field::Skip), edit.get(edit.record(opener, Field::Skip)) - 1),
        _ => {
            let delimiter = edit.text([opener, closer][rng.below(2)]);
            let others: Vec<u8> =
                b"()[]{} x".iter().copied().filter(|b| *b != edit.input[delimiter]).collect();
            edit.input[delimiter] = others[rng.below(others.len())];
            return edit.input;
        }
    };
    edit.set(field, value);
    edit.input
}

/// A component that ends before its group's closer, which the next one has.
fn closer_elsewhere(rng: &Rng) -> Vec<u8> {
    let concats = vec![vec![harmless(rng, true), "q(x)".to_owned()]];
    let mut edit = Edit { input: Line::new(concats).mode(rng.below(3)).input() };
    let (low, high) = (edit.component(0), edit.component(1));
    edit.set(low, edit.get(low) - 1);
    edit.set(high, edit.get(high) + 1);
    edit.input
}

/// At the 33rd opener its own text, skip and closer's kind come before 7.
fn wrong_at_depth(rng: &Rng) -> Vec<u8> {
    let mut edit = Edit { input: Line::new(vec![vec![nest(rng, 33)]]).mode(rng.below(3)).input() };
    let opener = 32;
    match rng.below(3) {
        0 => {
            let text = edit.text(opener);
            edit.input[text] = b'x';
        }
        1 => edit.set(edit.record(opener, Field::Skip), 2),
        _ => edit.set(edit.record(opener + 2, Field::Kind), 0),
    }
    edit.input
}

/// More than 32 groups within each other.
fn too_deep(rng: &Rng) -> Vec<u8> {
    let depth = if rng.chance(60) { 33 } else { rng.within(34, 36) };
    let mut concats = vec![vec![nest(rng, depth)]];
    if rng.chance(30) {
        concats[0].push(harmless(rng, true));
    }
    if rng.chance(30) {
        concats.push(vec![harmless(rng, false)]);
    }
    let alone = concats.len() == 1 && concats[0].len() == 1;
    let mut edit = Edit { input: Line::new(concats).mode(rng.below(3)).input() };
    if alone && rng.chance(50) {
        // a closer's wrong text stands further on and is not reached
        let text = edit.text(edit.find(rng, 5..=5));
        edit.input[text] = b'x';
    }
    edit.input
}
