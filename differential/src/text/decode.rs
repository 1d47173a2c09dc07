//! From an image back to a line of text, from which `encode` makes the image
//! again.

use layout_line::{literal_of, tree_of};

use crate::{
    check::check,
    image::{Comp, Item, Kind, Tree},
};

/// The line of an input's image, which must pass the check.
pub fn decode(input: &[u8]) -> Result<String, String> {
    let image = input.get(1..).ok_or("no mode byte")?;
    let tree = check(image).map_err(|r| format!("the image is refused: {}", r.number))?;
    let concats = tree.concatenations.iter().enumerate();
    let lines = concats.map(|(i, comps)| {
        let parts = comps.iter().enumerate().rev();
        let parts = parts.map(|(j, comp)| component(comp, i == 0 && j + 1 == comps.len()));
        parts.collect::<Vec<_>>().join(", ")
    });
    Ok(lines.collect::<Vec<_>>().join("; "))
}

/// How records are set beside each other, the most readable way first.
#[derive(Clone, Copy)]
enum Style {
    Joined,
    Spaced,
    Marked,
}

/// The first style of writing that is read back as the same records.
fn component(comp: &Comp, may_have_prefix: bool) -> String {
    let written = |style: Style| {
        let mut line = items(&comp.items, style);
        if literal_of(&comp.items, may_have_prefix).unwrap_or_default() != literal(comp) {
            let hex = comp.bits.iter().rev().map(|byte| format!("{byte:02x}"));
            line += &format!(" ⟦{}:{}⟧", comp.width, hex.collect::<String>());
        }
        line
    };
    let reads_back = |line: &String| {
        let again = tree_of(line).map(|tree: Tree| tree.concatenations);
        let items =
            |c: &Vec<Vec<Comp>>| c.len() == 1 && c[0].len() == 1 && c[0][0].items == comp.items;
        again.is_ok_and(|c| items(&c))
    };
    let plain = [Style::Joined, Style::Spaced].map(written).into_iter().find(reads_back);
    plain.unwrap_or_else(|| written(Style::Marked))
}

fn literal(comp: &Comp) -> (usize, Vec<u8>) {
    (comp.width, comp.bits.clone())
}

fn items(items: &[Item], style: Style) -> String {
    let written = items.iter().map(|item| match (item, style) {
        (Item::Group(kind, inside), _) => {
            let (open, close) = marks(*kind);
            format!("{open}{}{close}", self::items(inside, style))
        }
        (Item::Chars(text), Style::Marked) => marked(text),
        (Item::Chars(text), _) => record(text),
    });
    let between = if matches!(style, Style::Spaced) { " " } else { "" };
    written.collect::<Vec<_>>().join(between)
}

/// A record as it stands, if alone it is read as this one record.
fn record(text: &[u8]) -> String {
    let alone = str::from_utf8(text).ok().and_then(|line| Some((line, tree_of(line).ok()?)));
    match alone {
        Some((line, tree))
            if tree.components().count() == 1
                && tree.components().all(|c| c.items == [Item::Chars(text.to_vec())]) =>
        {
            line.to_owned()
        }
        _ => marked(text),
    }
}

fn marked(text: &[u8]) -> String {
    let plain = |c: char| !c.is_control() && !matches!(c, '\\' | '«' | '»');
    let hex = |bytes: &[u8]| bytes.iter().map(|b| format!("\\{b:02x}")).collect::<String>();
    let mut line = String::from("«");
    for chunk in text.utf8_chunks() {
        for c in chunk.valid().chars() {
            match plain(c) {
                true => line.push(c),
                false => line += &hex(c.encode_utf8(&mut [0; 4]).as_bytes()),
            }
        }
        line += &hex(chunk.invalid());
    }
    line + "»"
}

fn marks(kind: Kind) -> (char, char) {
    match kind {
        Kind::Space => ('⟨', '⟩'),
        Kind::Parenthesis => ('(', ')'),
        Kind::Bracket => ('[', ']'),
        Kind::Brace => ('{', '}'),
    }
}
