//! Readings that are accepted and yet may not be what was meant.

use crate::{
    image::Comp,
    lexer::BYTE_ORDER_MARK,
    line::{Line, single_colon},
    listing::{bound_texts, static_widths},
    show::is_invisible,
    slips::{SLIPS, look_alikes, one_bit, short, written},
};

/// Hints about an accepted text, a sentence each: the first of each sort, and
/// how many more there are.
pub fn hints(text: &str, line: &Line, mode: u8, listing: &str) -> Vec<String> {
    let mut hints: Vec<_> = names_of_digits(listing).into_iter().filter_map(first_of).collect();
    hints.extend(hints_but(text, line, &agreed(line, listing)));
    hints.extend(nothing_copied(line, mode));
    hints
}

/// Those for which no listing is needed. They also tell why widths are not as
/// meant.
pub fn hints_of_text(text: &str, line: &Line) -> Vec<String> {
    hints_but(text, line, &[])
}

/// Those of the text, but nothing about single bits of the concatenations that
/// are agreed.
fn hints_but(text: &str, line: &Line, agreed: &[usize]) -> Vec<String> {
    let components = || line.tree.components();
    let of_sort = |slip: &fn(&Comp) -> Option<String>| components().filter_map(slip).collect();
    let mut sorts: Vec<Vec<String>> = SLIPS.iter().map(of_sort).collect();
    let concatenations = line.tree.concatenations.iter().enumerate();
    let open = concatenations.filter(|(i, _)| !agreed.contains(i));
    sorts.push(open.flat_map(|(_, comps)| comps).filter_map(one_bit).collect());
    sorts.push(colons_elsewhere(line));
    sorts.into_iter().filter_map(first_of).chain(hints_of_characters(text, line)).collect()
}

/// Those about single characters, which may be why a text is refused.
pub fn hints_of_characters(text: &str, line: &Line) -> Vec<String> {
    let others = line.tree.components().flat_map(|comp| look_alikes(&comp.items)).collect();
    first_of(others).into_iter().chain(invisible(text)).collect()
}

/// The concatenations whose width is known and is that of one without single
/// bits: these were meant.
fn agreed(line: &Line, listing: &str) -> Vec<usize> {
    let widths = static_widths(listing);
    let all = 0..line.tree.concatenations.len();
    let known: Vec<usize> = all.filter(|i| widths.get(*i).is_some_and(Option::is_some)).collect();
    let plain = |i: &usize| line.tree.concatenations[*i].iter().all(|comp| one_bit(comp).is_none());
    if known.iter().any(plain) { known } else { vec![] }
}

fn first_of(mut hints: Vec<String>) -> Option<String> {
    // in a bracket without dots both bounds have the one text
    hints.dedup();
    let more = hints.len().checked_sub(1)?;
    let first = hints.swap_remove(0);
    Some(if more > 0 { format!("{first} ({more} more like this)") } else { first })
}

/// Bounds that look like numbers, but are texts, by the reason why.
fn names_of_digits(listing: &str) -> Vec<Vec<String>> {
    let word = |c: char| c.is_ascii_alphanumeric() || c == '_' || c == '.';
    let looks_like_one =
        |text: &&str| text.starts_with(|c: char| c.is_ascii_digit()) && text.chars().all(word);
    let texts: Vec<&str> = bound_texts(listing).into_iter().filter(looks_like_one).collect();
    let of_reason = |reason: &&str| {
        let texts = texts.iter().filter(|text| why(text) == *reason);
        let said = |text: &&str| {
            format!("the bound `{}` is read as a name, not as a number: {reason}", short(text))
        };
        texts.map(said).collect()
    };
    REASONS.iter().map(of_reason).collect()
}

/// Why a text that begins with a digit is no number (document 01, "Numbers and
/// bounds").
const REASONS: [&str; 5] = [
    "numbers have no underscores",
    "numbers of a bound have no width",
    "no number of three or more digits begins with 0",
    "it does not fit 128 bits",
    "no number is written so",
];

fn why(text: &str) -> &'static str {
    let all = |digits: &str, radix| !digits.is_empty() && digits.chars().all(|c| c.is_digit(radix));
    let right_digits = match text.get(..2) {
        Some("0x") => all(&text[2..], 16),
        Some("0o") => all(&text[2..], 8),
        Some("0b") => all(&text[2..], 2),
        _ => all(text, 10) && !text.starts_with('0'),
    };
    let has_width = text.rsplit_once(['u', 'i']).is_some_and(|(_, width)| all(width, 10));
    REASONS[match () {
        () if text.contains('_') => 0,
        () if has_width => 1,
        () if all(text, 10) && text.starts_with('0') => 2,
        () if right_digits => 3,
        () => 4,
    }]
}

/// A character that nobody sees and that is no white space.
fn invisible(text: &str) -> Option<String> {
    let text = text.strip_prefix(BYTE_ORDER_MARK).unwrap_or(text);
    let found = text.chars().find(|c| is_invisible(*c) && !c.is_whitespace())?;
    Some(format!(
        "the line has an invisible character, U+{:04X}, which is part of a name",
        found as u32
    ))
}

/// `a, zero: b`: a colon in another component than the line's first.
fn colons_elsewhere(line: &Line) -> Vec<String> {
    let rest = line.tree.concatenations.iter().enumerate().flat_map(|(i, comps)| {
        let first = usize::from(i == 0);
        &comps[..comps.len() - first]
    });
    let said = |comp: &Comp| {
        let at = single_colon(&comp.items)?;
        let shown = written(&comp.items[..=at]);
        Some(format!("`{shown}` is part of a name: a starting value and its colon begin the line"))
    };
    rest.filter_map(said).collect()
}

/// A comma where a semicolon was meant. With a return type one concatenation is
/// the common case, and one component alone is hardly a slip.
fn nothing_copied(line: &Line, mode: u8) -> Option<String> {
    let said =
        "there is one concatenation, so nothing is copied: a `;` begins where it is copied to";
    let alone = line.tree.concatenations.len() == 1 && line.tree.components().count() > 1;
    (alone && mode == 0).then(|| said.to_owned())
}
