//! Carets under places, places in words, and refusals explained. Columns are
//! counted by hand.

use std::ops::Range;

use layout_line::{
    explain, read_line,
    show::{describe, show},
};

/// The one place of a part of a text.
fn place(text: &str, part: &str) -> Range<usize> {
    let start = text.find(part).unwrap();
    start..start + part.len()
}

/// The lines with carets under one place.
fn under(text: &str, place: Range<usize>) -> String {
    show(text, &[place])
}

#[test]
fn carets_stand_under_the_place() {
    let text = "a, bc, d";
    assert_eq!(under(text, place(text, "bc")), "1 | a, bc, d\n  |    ^^\n");
    let both = [place(text, "a"), place(text, "d")];
    assert_eq!(show(text, &both), "1 | a, bc, d\n  | ^      ^\n");
    assert_eq!(show(text, &[]), "");
}

#[test]
fn carets_stand_under_tabs_and_other_letters() {
    let text = "\tключ,\tβ[..\t8]";
    assert_eq!(
        show(text, &[place(text, "β[..\t8]")]),
        format!("1 | {text}\n  | \t     \t^^^^\t^^\n")
    );
}

/// Two letters of two columns, and one that has none.
#[test]
fn carets_stand_under_wide_letters_and_marks() {
    let text = "名前, e\u{301}[8], 😀, x";
    assert_eq!(under(text, place(text, "名前")), format!("1 | {text}\n  | ^^^^\n"));
    assert_eq!(under(text, place(text, "e\u{301}[8]")), format!("1 | {text}\n  |       ^^^^\n"));
    assert_eq!(under(text, place(text, "x")), format!("1 | {text}\n  |                 ^\n"));
}

/// Only lines that the place touches, without the white space at their ends.
#[test]
fn a_place_over_several_lines() {
    let text = "x\n a[ \n\n  ..8\r\n]; b\n";
    let place = place(text, "a[ \n\n  ..8\r\n]");
    assert_eq!(
        under(text, place.clone()),
        "2 |  a[\n  |  ^^\n4 |   ..8\n  |   ^^^\n5 | ]; b\n  | ^\n"
    );
    assert_eq!(describe(text, &place), "line 2, column 2 to line 5, column 1");
}

#[test]
fn the_gutter_is_as_wide_as_the_last_number() {
    let text = "a\n".repeat(11);
    assert_eq!(under(&text, 0..1), " 1 | a\n   | ^\n");
    assert_eq!(under(&text, 18..19), "10 | a\n   | ^\n");
}

#[test]
fn a_long_line_is_shown_round_the_place() {
    let text = format!("{}xyz{}", "a".repeat(150), "b".repeat(150));
    let shown = under(&text, 150..153);
    let expected =
        format!("1 | ...{}xyz{}...\n  | {}^^^\n", "a".repeat(20), "b".repeat(77), " ".repeat(23));
    assert_eq!(shown, expected);
    // 100 columns are not long
    let text = "a".repeat(100);
    assert_eq!(under(&text, 99..100), format!("1 | {text}\n  | {}^\n", " ".repeat(99)));
    // a place that is longer itself
    let text = "a".repeat(101);
    assert_eq!(
        under(&text, 0..101),
        format!("1 | {}...\n  | {}\n", "a".repeat(100), "^".repeat(100))
    );
}

#[test]
fn what_is_not_seen_is_shown() {
    assert_eq!(under("a\u{1b}\u{200b}\u{202e}b", 0..1), "1 | a\u{fffd}\u{fffd}\u{fffd}b\n  | ^\n");
}

#[test]
fn places_in_words() {
    let text = "é, bc\nd";
    assert_eq!(describe(text, &place(text, "é")), "line 1, column 1");
    assert_eq!(describe(text, &place(text, "bc")), "line 1, columns 4 to 5");
    assert_eq!(describe(text, &place(text, "d")), "line 2, column 1");
}

fn explained(text: &str, number: u32, first: usize, second: usize) -> String {
    explain::refusal(text, &read_line(text).unwrap(), number, first, second)
}

/// The first line of carets, if there is one.
fn carets(explained: &str) -> Option<&str> {
    explained.lines().nth(2).filter(|line| line.starts_with("  | "))
}

/// What document 01 says that the places of each number name.
#[test]
fn what_places_name() {
    let text = "a, bc; d, ef";
    for number in (10..=17).chain(20..=28).chain([30, 31, 32, 40, 44]) {
        assert_eq!(carets(&explained(text, number, 1, 0)), Some("  |           ^^"), "{number}");
        assert_eq!(carets(&explained(text, number, 0, 1)), Some("  | ^"), "{number}");
    }
    for number in [33, 34, 43] {
        assert_eq!(carets(&explained(text, number, 1, 0)), Some("  |        ^^^^^"), "{number}");
    }
    for number in [41, 45] {
        assert_eq!(carets(&explained(text, number, 0, 1)), Some("  | ^^^^^  ^^^^^"), "{number}");
    }
    for number in (1..=8).chain([42, 9, 99]) {
        assert_eq!(carets(&explained(text, number, 0, 0)), None, "{number}");
    }
    // places that the line does not have, from a program that is not ours
    assert_eq!(explained(text, 25, 7, 0), "25: a literal's range ends above its width\n");
}

#[test]
fn counts_above_their_limits() {
    let said = |text: &str| explained(text, 3, 0, 0).lines().nth(1).unwrap_or_default().to_owned();
    let joined = |word: &str, between: &str, count: usize| vec![word; count].join(between);
    assert_eq!(said(&joined("a", ";", 17)), "the line has 17 concatenations; the most is 16");
    assert_eq!(said(&joined("a", ",", 257)), "the line has 257 components; the most is 256");
    assert_eq!(
        said(&joined("+", " ", 2_049)),
        "the line has 2049 records (tokens, openers, closers); the most is 2048"
    );
    assert_eq!(said(&"a".repeat(16_385)), "the line has 16385 bytes of text; the most is 16384");
    assert_eq!(
        said(&joined("0u4096", ",", 17)),
        "the line has 8704 bytes of literals; the most is 8192"
    );
    // each at its limit
    for text in
        [joined("a", ";", 16), joined("a", ",", 256), joined("+", " ", 2_048), "a".repeat(16_384)]
    {
        assert_eq!(said(&text), "");
    }
}
