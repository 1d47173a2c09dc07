//! Hints about odd readings, and none about right lines. The listings are
//! document 01's of these lines, as far as a hint reads them.

use layout_line::{
    hints::{hints, hints_of_text},
    listing::{Outcome, bound_texts, outcome, static_widths},
    read_line,
};

fn hinted(text: &str, mode: u8, listing: &str) -> Vec<String> {
    hints(text, &read_line(text).unwrap(), mode, listing)
}

fn of_text(text: &str) -> Vec<String> {
    hints_of_text(text, &read_line(text).unwrap())
}

#[test]
fn listings_are_read() {
    assert_eq!(outcome("layout 1 1 - none D Z -\nc 0 1 - none D Z\n"), Outcome::Accepted);
    assert_eq!(outcome("refused 25 0 1\n"), Outcome::Refused { number: 25, first: 0, second: 1 });
    for listing in ["", "refused", "refused 25 0", "refused x 0 0", "layout", "outside\n"] {
        assert_eq!(outcome(listing), Outcome::Unknown, "{listing}");
    }
    let listing = "variable n-5 - a\nfiller +0 -n+10\nliteral +0 +8 a5\nvariable +0 1_0+0 x+y\n";
    assert_eq!(bound_texts(listing), ["n", "-n", "1_0"]);
    let listing = "layout 2 2 8 none D Z -\nc 0 1 - none D Z\nvariable +0 - c\nc 1 1 8 none D Z\n";
    assert_eq!(static_widths(listing), [None, Some("8")]);
}

#[test]
fn bounds_that_look_like_numbers() {
    let reason = |bound: &str| {
        let said = hinted("a[n]; b", 0, &format!("variable +0 {bound}+0 a\n")).pop()?;
        said.split_once(": ").map(|(_, reason)| reason.to_owned())
    };
    let expected = [
        ("1_0", "numbers have no underscores"),
        ("0x1_0", "numbers have no underscores"),
        ("8u32", "numbers of a bound have no width"),
        ("0x8i4", "numbers of a bound have no width"),
        ("007", "no number of three or more digits begins with 0"),
        ("170141183460469231731687303715884105728", "it does not fit 128 bits"),
        ("0x80000000000000000000000000000000", "it does not fit 128 bits"),
        ("0x", "no number is written so"),
        ("0b2", "no number is written so"),
        ("1e5", "no number is written so"),
        ("1.5", "no number is written so"),
    ];
    for (bound, why) in expected {
        assert_eq!(reason(bound).as_deref(), Some(why), "{bound}");
    }
    for name in ["n", "n1", "_1", "2*n", "-n", "", "(3)"] {
        assert_eq!(reason(name), None, "{name}");
    }
}

#[test]
fn ranges_that_are_none() {
    let name =
        |group: &str| vec![format!("`{group}` is a name: a range stands in square brackets")];
    assert_eq!(of_text("a(..8); b"), name("a(..8)"));
    assert_eq!(of_text("a, x{0..=n}; b"), name("x{0..=n}"));
    let missing = |group: &str| {
        vec![format!(
            "`{group}` is part of a name, for more follows it: is a `,` missing after it?"
        )]
    };
    assert_eq!(of_text("a[..8] b; c"), missing("[..8]"));
    assert_eq!(of_text("a[..8][..4]; c"), missing("[..8]"));
    assert_eq!(of_text("a[8]; b"), ["`[8]` is one bit, bit 8; 8 bits are `[..8]`"]);
    assert_eq!(
        of_text("a[8], b[8]; c[2]"),
        ["`[8]` is one bit, bit 8; 8 bits are `[..8]` (1 more like this)"]
    );
    assert_eq!(of_text("a[5..=]; b"), ["`..=` with nothing after it is a range without an end"]);
    assert_eq!(of_text("a[1]; b"), ["`[1]` is one bit, bit 1; 1 bit is `[..1]`"]);
    let one_bit =
        |group: &str| vec![format!("`{group}` is one bit: a range has two dots, as in `[0..8]`")];
    assert_eq!(of_text("a[7:0]; b"), one_bit("[7:0]"));
    assert_eq!(of_text("a[0-8]; b"), one_bit("[0-8]"));
    assert_eq!(of_text("a[0, 8]; b"), one_bit("[0,8]"));
    assert_eq!(of_text("a[8 4]; b"), one_bit("[84]"));
    let filler = |filler: &str, meant: &str| {
        vec![format!("`{filler}` is a filler; a variable's range has brackets, as in `{meant}`")]
    };
    assert_eq!(of_text("zero: a ..8; b"), filler("a..8", "a[..8]"));
    assert_eq!(of_text("c, a..; b"), filler("a..", "a[..]"));
    assert_eq!(
        of_text("a[…8]; b"),
        ["`…` is one character and part of a name: a range has two dots, `..`"]
    );
    assert_eq!(
        of_text("a\u{200b}; b"),
        ["the line has an invisible character, U+200B, which is part of a name"]
    );
}

#[test]
fn commas_colons_and_characters() {
    let missing = |name: &str| vec![format!("`{name}` is one name: is a `,` missing in it?")];
    assert_eq!(of_text("amount card[..40]; b"), missing("amount card"));
    assert_eq!(of_text("amount 5u8; b"), missing("amount 5u8"));
    assert_eq!(of_text("a; f(x) c"), missing("f(x) c"));
    assert_eq!(of_text("a[3] c; b"), missing("a[3] c"));
    let colon = "`zero:` is part of a name: a starting value and its colon begin the line";
    assert_eq!(of_text("a, zero: b; c"), [colon]);
    assert_eq!(of_text("a; zero: b"), [colon]);
    assert_eq!(of_text("a –5i8; b"), ["`–` is part of a name: it is not `-`"]);
    assert_eq!(of_text("a； b"), ["`；` is part of a name: it is not `;`"]);
    assert_eq!(of_text("f(“a”); b"), ["`“` is part of a name: it is not `\"` (1 more like this)"]);
}

/// A single bit is doubted only where no other width says that it is one.
#[test]
fn single_bits_that_agree_with_a_width() {
    let bit = "`[3]` is one bit, bit 3; 3 bits are `[..3]`";
    let known = "layout 2 3 9 none D Z -\nc 0 2 9 none D Z\nc 1 1 9 none D Z\n";
    assert_eq!(hinted("0x12u8, flag[3]; rec[..9]", 0, known), [""; 0]);
    assert_eq!(hinted("flag[3]; rec[4]", 0, known), [format!("{bit} (1 more like this)")]);
    let unknown = "layout 2 3 9 none D Z -\nc 0 2 - none D Z\nc 1 1 9 none D Z\n";
    assert_eq!(hinted("a, flag[3]; rec[..9]", 0, unknown), [bit]);
}

#[test]
fn right_lines_have_no_hint() {
    for text in [
        "0x1234u16, amount[..24]; card[..40]",
        "f(8), g(), a[i].b[..4], x[0], (a..b)[n]; ..64",
        "zero: a[n..=(n+3)], ..; b\r\n",
        "\u{feff}a; b",
        "a[i], a[n-1], a[n + 1], a[x::Y], 4..8, ..n, n::m; b",
        "&mut x, y as u8, f(z) as u16, 5 u8, if a { b } else { c }, self.a.0; r#type",
        "f(\"…, a b\"), g('–'); b",
        "f(0..3)[..8], s { x: 1, ..d }, g(1..2, x); b",
        "zero[..8]: a[..8]; b",
    ] {
        assert_eq!(of_text(text), [""; 0], "{text}");
    }
}

#[test]
fn one_concatenation() {
    let said =
        "there is one concatenation, so nothing is copied: a `;` begins where it is copied to";
    assert_eq!(hinted("a, b", 0, ""), [said]);
    for (text, mode) in [("a, b", 1), ("a, b", 2), ("a", 0), ("a, b; c", 0)] {
        assert_eq!(hinted(text, mode, ""), [""; 0], "{text}");
    }
}
