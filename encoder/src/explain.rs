//! What a refusal says about a text: the words of its number, the text with
//! carets under what its places name, and these places in words.

use std::ops::Range;

use crate::{
    fault::Fault,
    image::{
        Item, MAX_COMPONENTS, MAX_CONCATENATIONS, MAX_DEPTH, MAX_LITERAL_BYTES, MAX_RECORDS,
        MAX_TEXT, Tree, count_records,
    },
    line::{Line, middle_text},
    show::{describe, show},
    slips::literal_and_more,
};

/// What the two places of a refusal name.
#[derive(Debug, Clone, Copy, PartialEq, Eq)]
enum Named {
    Nothing,
    /// A component of a concatenation.
    Component(usize, usize),
    Concatenation(usize),
    Concatenations(usize, usize),
}

/// A refusal of the run, explained.
pub fn refusal(text: &str, line: &Line, number: u32, first: usize, second: usize) -> String {
    let named = named(line, number, first, second);
    let mut said = format!("{number}: {}\n", layout_reader::words(number));
    if let Some(places) = places(line, named) {
        said += &show(text, &places);
        said += &in_words(text, named, &places);
    }
    if number == 3 {
        said += &counts_above(&line.tree);
    }
    if let Some(hint) = hint(line, number, named) {
        said += &format!("hint: {hint}\n");
    }
    said
}

/// A refusal of the encoder, explained.
pub fn fault(text: &str, fault: &Fault) -> String {
    let places: Vec<_> = fault.places.iter().map(|place| describe(text, place)).collect();
    let places =
        if places.is_empty() { String::new() } else { format!(" ({})", places.join("; ")) };
    format!("cannot be read: {}{places}\n{}", fault.words, show(text, &fault.places))
}

/// What the places of a number name (document 01, "How each operation
/// refuses"). The image check has no places; too deep a group is looked for.
fn named(line: &Line, number: u32, first: usize, second: usize) -> Named {
    match number {
        7 => deep_component(&line.tree).map_or(Named::Nothing, |(i, k)| Named::Component(i, k)),
        10..=17 | 20..=28 | 30..=32 | 40 | 44 => Named::Component(first, second),
        33 | 34 | 43 => Named::Concatenation(first),
        41 | 45 => Named::Concatenations(first, second),
        _ => Named::Nothing,
    }
}

/// The first component, in the check's order, with a group above the limit.
fn deep_component(tree: &Tree) -> Option<(usize, usize)> {
    fn depth(items: &[Item]) -> usize {
        let deeper = |item: &Item| match item {
            Item::Chars(_) => 0,
            Item::Group(_, inside) => depth(inside) + 1,
        };
        items.iter().map(deeper).max().unwrap_or(0)
    }
    for (i, comps) in tree.concatenations.iter().enumerate() {
        for (k, comp) in comps.iter().enumerate() {
            if depth(&comp.items) > MAX_DEPTH {
                return Some((i, k));
            }
        }
    }
    None
}

/// The bytes of what is named, if there is something and the line has it.
fn places(line: &Line, named: Named) -> Option<Vec<Range<usize>>> {
    let concatenation = |i: usize| line.concatenations.get(i).cloned();
    match named {
        Named::Nothing => None,
        Named::Component(i, k) => Some(vec![line.components.get(i)?.get(k)?.clone()]),
        Named::Concatenation(i) => Some(vec![concatenation(i)?]),
        Named::Concatenations(i, j) => Some(vec![concatenation(i)?, concatenation(j)?]),
    }
}

fn in_words(text: &str, named: Named, places: &[Range<usize>]) -> String {
    let described: Vec<_> = places.iter().map(|place| describe(text, place)).collect();
    match named {
        Named::Nothing => String::new(),
        Named::Component(i, k) => format!(
            "component {k} of concatenation {i} ({}); both are counted from 0, components from the right\n",
            described[0]
        ),
        Named::Concatenation(i) => {
            format!("concatenation {i} ({}), counted from 0\n", described[0])
        }
        Named::Concatenations(i, j) => format!(
            "concatenation {i} ({}) and concatenation {j} ({}), counted from 0\n",
            described[0], described[1]
        ),
    }
}

/// Number 3: which counts are above document 01's limits.
fn counts_above(tree: &Tree) -> String {
    fn text_bytes(items: &[Item]) -> usize {
        let bytes = |item: &Item| match item {
            Item::Chars(text) => text.len(),
            Item::Group(_, inside) => text_bytes(inside) + 2,
        };
        items.iter().map(bytes).sum()
    }
    let sum = |count: fn(&[Item]) -> usize| tree.components().map(|c| count(&c.items)).sum();
    let literal_bytes = tree.components().map(|comp| comp.bits.len()).sum();
    let counts: [(usize, &str, usize); 5] = [
        (tree.concatenations.len(), "concatenations", MAX_CONCATENATIONS),
        (tree.components().count(), "components", MAX_COMPONENTS),
        (sum(count_records), "records (tokens, openers, closers)", MAX_RECORDS),
        (sum(text_bytes), "bytes of text", MAX_TEXT),
        (literal_bytes, "bytes of literals", MAX_LITERAL_BYTES),
    ];
    let above = counts.iter().filter(|(count, _, most)| count > most);
    above
        .map(|(count, what, most)| format!("the line has {count} {what}; the most is {most}\n"))
        .collect()
}

/// What may be done about a number, where its words do not say it.
fn hint(line: &Line, number: u32, named: Named) -> Option<&'static str> {
    Some(match number {
        11 => "a filler is written without brackets, as in `..8`",
        15 => "a bound of several tokens stands in parentheses, as in `a[(n-1)..]`",
        17 => literal_hint(line, named)?,
        30 => "a filler of the literal's width may stand there, as in `..8`",
        40 => "a starting value and its colon begin the line, as in `zero: a, ..4`",
        42..=45 => "one more concatenation of a filler fixes the width, as in `; ..64`",
        _ => return None,
    })
}

/// Number 17: whether the literal is one, and has a width at all.
fn literal_hint(line: &Line, named: Named) -> Option<&'static str> {
    let Named::Component(i, k) = named else { return None };
    let comps = line.tree.concatenations.get(i)?;
    let comp = comps.get(k)?;
    if literal_and_more(comp) {
        return Some("more follows the literal: is a `,` missing after it?");
    }
    let text = middle_text(&comp.items, i == 0 && k + 1 == comps.len());
    let width =
        text.as_deref().and_then(|text| text.rsplit_once(['u', 'i'])).map(|(_, width)| width);
    let has_width = width.is_some_and(|w| !w.is_empty() && w.bytes().all(|b| b.is_ascii_digit()));
    Some(match has_width {
        false => "a literal ends in `u` or `i` and its width in bits, as in `0x1234u16`",
        true => {
            "its digits are of its base and fit its width of 1 to 4096 bits; below 0 it has an `i`"
        }
    })
}
