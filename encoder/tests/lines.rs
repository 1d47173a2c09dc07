//! Where tokens, components and concatenations stand in a text, and what the
//! encoder refuses. Byte places are counted by hand.

use layout_line::{Token, encode, read_line, tokens};

/// The text of each token, by its place.
fn cut(text: &str) -> Vec<&str> {
    tokens(text).unwrap().into_iter().map(|placed| &text[placed.place]).collect()
}

/// The words of a fault and the text at its places.
fn fault(text: &str) -> (String, Vec<&str>) {
    let fault = read_line(text).unwrap_err();
    (fault.words, fault.places.into_iter().map(|place| &text[place]).collect())
}

#[test]
fn tokens_have_their_places() {
    assert_eq!(cut(" a_1[..=8]\n;"), ["a_1", "[", ".", ".", "=", "8", "]", ";"]);
    assert_eq!(cut("1..2 1.5 1.x 2e-3 0x1e-3"), words("1 . . 2 1.5 1 . x 2e-3 0x1e - 3"));
    assert_eq!(
        cut("r#fn b\"x\" br#\"\"\"# 'a' b'\\n' '\\u{e9}'"),
        words("r#fn b\"x\" br#\"\"\"# 'a' b'\\n' '\\u{e9}'")
    );
    assert_eq!(cut("ключ«a b»⟦8:05⟧"), ["ключ", "«a b»", "⟦8:05⟧"]);
    assert_eq!(tokens("é (").unwrap()[1].place, 3..4);
    assert_eq!(tokens("\u{feff}a").unwrap()[0].place, 3..4);
}

fn words(line: &str) -> Vec<&str> {
    line.split(' ').collect()
}

#[test]
fn marks_are_read() {
    let tokens = tokens("«a\\ff»⟦9:1a5⟧").unwrap();
    assert_eq!(tokens[0].token, Token::Record(vec![b'a', 0xff]));
    assert_eq!(tokens[1].token, Token::Bits(9, vec![0xa5, 1]));
}

/// Components count from the right, and a line has its commas in groups too.
#[test]
fn components_have_their_places() {
    let text = "zero: f(x, y) ,\n b[\n..8];c";
    let line = read_line(text).unwrap();
    let written = |places: &[std::ops::Range<usize>]| {
        places.iter().map(|place| text[place.clone()].to_owned()).collect::<Vec<_>>()
    };
    assert_eq!(written(&line.components[0]), ["b[\n..8]", "zero: f(x, y)"]);
    assert_eq!(written(&line.components[1]), ["c"]);
    assert_eq!(written(&line.concatenations), ["zero: f(x, y) ,\n b[\n..8]", "c"]);
    assert_eq!(line.tree.concatenations[0].len(), 2);
}

#[test]
fn newlines_are_white_space() {
    let line = "0x1234u16, amount[..24]; card as u[..40]";
    let over_lines = line.replace(' ', "\r\n\t\n");
    assert_eq!(encode(0, line), encode(0, &over_lines));
}

#[test]
fn comments_and_quotes_are_refused() {
    assert_eq!(fault("a // b\nc"), ("a comment: a line has none".into(), vec!["// b"]));
    assert_eq!(fault("a /* b\n*/c"), ("a comment: a line has none".into(), vec!["/* b\n*/"]));
    assert_eq!(fault("a /* b").1, ["/*"]);
    for (text, at) in [("f(\"a\\\")", "\""), ("x 'a", "'"), ("b'", "b'"), ("r##\"a\"#", "r##\"")] {
        assert_eq!(fault(text), ("a quote that is not closed".into(), vec![at]), "{text}");
    }
    assert_eq!(fault("'ab' c").1, ["'ab'"]);
    assert_eq!(fault("''").1, ["''"]);
}

#[test]
fn groups_are_refused() {
    assert_eq!(fault("a[(b)"), ("`[` is not closed".into(), vec!["["]));
    assert_eq!(fault("a)"), ("`)` closes nothing".into(), vec![")"]));
    assert_eq!(fault("{a]"), ("`{` is closed by `]`, not `}`".into(), vec!["{", "]"]));
    assert_eq!(fault("⟨a"), ("`⟨` is not closed".into(), vec!["⟨"]));
    let deep = |n: usize| "(".repeat(n) + &")".repeat(n);
    assert!(read_line(&deep(1_024)).is_ok());
    assert_eq!(fault(&deep(1_025)).0, "more than 1,024 groups in each other");
}

#[test]
fn empty_components_are_refused() {
    assert_eq!(fault("a, ,b"), ("nothing stands between `,` and `,`".into(), vec![",", ","]));
    assert_eq!(fault("a;b,"), ("nothing stands after `,`".into(), vec![","]));
    assert_eq!(fault(";a"), ("nothing stands before `;`".into(), vec![";"]));
    assert_eq!(fault(" \n"), ("there is no line, or nothing but white space".into(), vec![]));
    assert_eq!(fault("a, ⟦8:01⟧").0, "nothing stands before ⟦ ⟧");
    assert_eq!(fault("a, «»").0, "an image holds no empty record");
    assert_eq!(fault("a⟦8:01⟧b").0, "⟦ ⟧ stands only at a component's end");
}

/// Document 01's example, byte for byte.
#[test]
fn an_image() {
    let mut expected = vec![0];
    // C, N, R, T, B and five offsets
    let header = [2, 3, 8, 15, 2, 40, 48, 72, 168, 183];
    // components of each concatenation; records and width of each component
    let entries = [2, 1, 1, 4, 1, 4, 6, 0];
    // kind, text start, skip
    let records = [
        [0, 0, 1],
        [0, 3, 1],
        [0, 7, 1],
        [3, 10, 5],
        [0, 11, 1],
        [0, 12, 1],
        [0, 13, 1],
        [5, 14, 1],
    ];
    for number in header.iter().chain(&entries).chain(records.as_flattened()) {
        expected.extend(u32::to_le_bytes(*number));
    }
    expected.extend(b"5u410u4rec[..8]");
    expected.extend([5, 10]);
    assert_eq!(encode(0, "10u4, 5u4; rec[..8]").unwrap(), expected);
}
