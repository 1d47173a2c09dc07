//! The papers' own readings, run on the unchanged Rust. What is expected is
//! taken from the papers only.

use layout_rust::{
    generate::readings,
    image::{Comp, Item, Tree, image_of},
    listing::listing,
    run::run,
    text::{encode, read_literal},
};

fn listed(mode: u8, line: &str) -> String {
    listing(&run(&encode(mode, line).unwrap()))
}

#[test]
fn worked_listing_of_document_01() {
    let expected = "layout 2 2 8 none D Z -\n\
                    c 0 1 8 none D Z\n\
                    literal +0 +8 a5\n\
                    c 1 1 8 none D Z\n\
                    variable +0 +8 rec\n";
    assert_eq!(listed(0, "10u4, 5u4; rec[..8]"), expected);
}

#[test]
fn readings_are_as_the_papers_say() {
    let mut different = vec![];
    for reading in readings() {
        let listing = listing(&run(&reading.input));
        for expected in reading.expect {
            if !listing.lines().any(|line| line == expected) {
                different.push(format!("{}: {expected}, not\n{listing}", reading.name));
            }
        }
    }
    assert!(different.is_empty(), "{}", different.join("\n"));
}

#[test]
fn equal_texts_are_told_apart_as_literals() {
    let listing = listed(0, "0⟦4:a⟧, 0⟦4:5⟧, x, 0⟦3:7⟧");
    assert!(
        listing.ends_with("literal +0 +3 07\nvariable +0 - x\nliteral +0 +8 a5\n"),
        "{listing}"
    );
}

#[test]
fn texts_are_escaped_bytes() {
    assert!(listed(0, "α «\\5c\\7f»").ends_with("variable +0 - \\ce\\b1\\5c\\7f\n"));
}

#[test]
fn a_text_that_is_no_utf8_is_outside() {
    assert_eq!(listed(0, "«\\ff»"), "outside\n");
    assert_eq!(listed(3, "«\\ff»"), "refused 1 0 0\n");
}

/// The largest image fills 51,305 bytes of input; what stands beyond 51,306
/// is not looked at.
#[test]
fn input_is_judged_on_its_first_51306_bytes() {
    let comp = |i: usize| {
        let text = if i == 0 { 16_384 - 2_047 } else { 1 };
        let mut items = vec![Item::Chars(vec![b'a'; text])];
        items.extend(vec![Item::Chars(b"b".to_vec()); 7]);
        Comp { items, width: 256, bits: vec![0; 32] }
    };
    let comps: Vec<Comp> = (0..256).map(comp).collect();
    let tree = Tree { concatenations: comps.chunks(16).map(<[Comp]>::to_vec).collect() };
    let mut input = vec![0];
    input.extend(image_of(&tree));
    assert_eq!(input.len(), 51_305);
    assert!(listing(&run(&input)).starts_with("layout 16 256 - none D Z -\n"));
    input.resize(60_000, 0);
    assert_eq!(listing(&run(&input)), "refused 4 0 0\n");
}

#[test]
fn literals_of_the_encoder() {
    assert_eq!(read_literal("5u4"), Some((4, vec![5])));
    assert_eq!(read_literal("0xff_u8"), Some((8, vec![255])));
    assert_eq!(read_literal("-3i8"), Some((8, vec![253])));
    assert_eq!(read_literal("-128i8"), Some((8, vec![128])));
    assert_eq!(read_literal("0b1_0000_0001u9"), Some((9, vec![1, 1])));
    assert_eq!(read_literal("0o7i4"), Some((4, vec![7])));
    for no_literal in ["5", "16u4", "8i4", "-129i8", "-1u8", "5u0", "5u4097", "u8", "_1u8", "5u+8"]
    {
        assert_eq!(read_literal(no_literal), None, "{no_literal}");
    }
}
