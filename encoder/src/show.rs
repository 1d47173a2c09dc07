//! Lines of a text with carets under places, and places in words.

use std::ops::Range;

use crate::{cells::cells, lexer::BYTE_ORDER_MARK};

/// A longer line is shown in part.
const MOST_COLUMNS: usize = 100;
/// Columns of such a line that are shown before the place.
const BEFORE: usize = 20;

/// Every line of the text that the places touch, with carets under them.
pub fn show(text: &str, places: &[Range<usize>]) -> String {
    let places: Vec<_> = places.iter().map(|place| seen(text, place).1).collect();
    let (text, _) = seen(text, &(0..0));
    let gutter = text.split('\n').count().to_string().len();
    let mut shown = String::new();
    let mut start = 0;
    for (i, line) in text.split('\n').enumerate() {
        let spans: Vec<_> = places.iter().filter_map(|place| span(line, start, place)).collect();
        start += line.len() + 1;
        let chars: Vec<char> = line.trim_end().chars().map(printable).collect();
        let together = if chars.len() > MOST_COLUMNS { 1 } else { spans.len().max(1) };
        for spans in spans.chunks(together) {
            let window = window(chars.len(), &spans[0]);
            shown += &format!("{:gutter$} | {}\n", i + 1, part(&chars, &window));
            shown += &format!("{:gutter$} | {}\n", "", carets(&chars, &window, spans));
        }
    }
    shown
}

/// A text and a place in it without the mark that some editors put first:
/// nobody sees it, so no column counts it.
fn seen<'a>(text: &'a str, place: &Range<usize>) -> (&'a str, Range<usize>) {
    let rest = text.strip_prefix(BYTE_ORDER_MARK).unwrap_or(text);
    let gone = text.len() - rest.len();
    (rest, place.start.saturating_sub(gone)..place.end.saturating_sub(gone))
}

/// A character as it is shown: one that is not seen, or that would move the
/// cursor or turn the text round, as a replacement. A tab stays.
pub fn printable(c: char) -> char {
    if c != '\t' && is_invisible(c) { char::REPLACEMENT_CHARACTER } else { c }
}

/// Control characters, and those of no width that pasted text brings along.
pub fn is_invisible(c: char) -> bool {
    let no_width = ['\u{ad}', '\u{61c}', '\u{feff}'].contains(&c)
        || ('\u{200b}'..='\u{200f}').contains(&c)
        || ('\u{2028}'..='\u{202e}').contains(&c)
        || ('\u{2060}'..='\u{206f}').contains(&c)
        || ('\u{e0000}'..='\u{e007f}').contains(&c);
    c.is_control() || no_width
}

/// The characters of a line, which begins at byte `start` of the text, that a
/// place covers, white space at its ends left out.
fn span(line: &str, start: usize, place: &Range<usize>) -> Option<Range<usize>> {
    let from = place.start.max(start) - start;
    let to = place.end.min(start + line.len()).checked_sub(start)?;
    let covered = line.get(from..to)?;
    let from = from + (covered.len() - covered.trim_start().len());
    let covered = covered.trim();
    let before = line[..from].chars().count();
    let count = covered.chars().count();
    (count > 0).then(|| before..before + count)
}

/// The columns that are shown: all, or those round the place.
fn window(length: usize, span: &Range<usize>) -> Range<usize> {
    if length <= MOST_COLUMNS {
        return 0..length;
    }
    let start = span.start.saturating_sub(BEFORE).min(length - MOST_COLUMNS);
    start..start + MOST_COLUMNS
}

fn part(chars: &[char], window: &Range<usize>) -> String {
    let before = if window.start > 0 { "..." } else { "" };
    let after = if window.end < chars.len() { "..." } else { "" };
    let shown: String = chars[window.clone()].iter().collect();
    format!("{before}{shown}{after}")
}

/// Carets below the spans. A tab stays a tab, and a character has as many
/// carets as it takes columns, so that they line up.
fn carets(chars: &[char], window: &Range<usize>, spans: &[Range<usize>]) -> String {
    let below = |i: usize| match chars[i] {
        '\t' => "\t".to_owned(),
        c if spans.iter().any(|span| span.contains(&i)) => "^".repeat(cells(c)),
        c => " ".repeat(cells(c)),
    };
    let before = if window.start > 0 { "   " } else { "" };
    let line = before.to_owned() + &window.clone().map(below).collect::<String>();
    line.trim_end().to_owned()
}

/// A place in words, lines and columns (characters) counted from 1.
pub fn describe(text: &str, place: &Range<usize>) -> String {
    let (text, place) = seen(text, place);
    let last = text[place.clone()].char_indices().next_back().map_or(0, |(at, _)| at);
    let (line, column) = position(text, place.start);
    let (last_line, last_column) = position(text, place.start + last);
    if line != last_line {
        format!("line {line}, column {column} to line {last_line}, column {last_column}")
    } else if column != last_column {
        format!("line {line}, columns {column} to {last_column}")
    } else {
        format!("line {line}, column {column}")
    }
}

fn position(text: &str, at: usize) -> (usize, usize) {
    let before = &text[..at];
    let line_start = before.rfind('\n').map_or(0, |newline| newline + 1);
    (before.matches('\n').count() + 1, before[line_start..].chars().count() + 1)
}
