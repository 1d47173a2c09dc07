//! The image of a layout editor's tokens (document 02, L2), over the static
//! library: the fourteen worked examples of the request's page, areas, limits, the
//! page's open cases.

mod common;

use common::examples::{list_of, Example, EXAMPLES, KINDS};
use layout_reader::{
    answer, check, tokens, Refusal, Token, TokenKind, ANY_AREA, ANY_IMAGE, TOKEN_SIZE,
};

/// The C header, whose kinds the crate has too.
const HEADER: &str = include_str!("../../include/layout.h");

/// What stands in an area before it is lent, and round it.
const LENT: u8 = 0xa5;
const GUARD: usize = 64;

/// The page's own bytes of examples 1 and 2.
const HEX: [&str; 2] = [
    "0100000001000000010000000100000000000000280000002c000000340000004000000041000000010000000100\
     00000000000000000000000000000100000061",
    "02000000030000000300000003000000000000002800000030000000480000006c0000006f000000020000000100\
     00000100000000000000010000000000000001000000000000000000000000000000010000000000000001000000\
     01000000000000000200000001000000626163",
];

fn hex(bytes: &[u8]) -> String {
    bytes.iter().map(|byte| format!("{byte:02x}")).collect()
}

/// Hands list and text over, with an area of this length between guard bytes: the
/// image, or the number. A refusal has no places and leaves the area as lent; the
/// bytes beyond an image are as lent too.
fn called(list: &[u8], text: &[u8], length: usize) -> Result<Vec<u8>, u32> {
    let mut area = vec![LENT; GUARD + length + GUARD];
    let got = match tokens(list, text, &mut area[GUARD..GUARD + length]) {
        Ok(image) => Ok(image.to_vec()),
        Err(Refusal { number, concatenation: 0, component: 0 }) => Err(number),
        Err(refusal) => panic!("{refusal}: a place"),
    };
    let written = got.as_ref().map_or(0, Vec::len);
    if let Ok(image) = &got {
        assert_eq!(area[GUARD..GUARD + written], **image, "it stands from the first byte");
        assert_eq!(check(image), Ok(()));
    }
    let mut beyond = area[..GUARD].iter().chain(&area[GUARD + written..]);
    assert!(beyond.all(|byte| *byte == LENT), "bytes as lent");
    got
}

/// What a list in the page's notation comes to: the image's length, or a number.
fn came_to(tokens: &str, text: &str) -> Result<usize, u32> {
    called(&list_of(tokens), text.as_bytes(), ANY_IMAGE).map(|image| image.len())
}

/// Examples 1 to 10 and one more: the image, and areas that are long enough, just
/// so, too short.
#[test]
fn images() {
    for (number, example) in (1..).zip(&EXAMPLES) {
        let (list, text) = (list_of(example.tokens), example.text.as_bytes());
        let (expected, length) = (example.image(), example.length);
        assert_eq!(expected.len(), length, "{number}");
        for area in [length, length + 1, length + 35, ANY_IMAGE] {
            let got = called(&list, text, area).expect("an image");
            assert_eq!(hex(&got), hex(&expected), "{number}, area {area}");
        }
        for area in [length - 1, length / 2, 0] {
            assert_eq!(called(&list, text, area), Err(53), "{number}, area {area}");
        }
    }
    for (example, expected) in EXAMPLES.iter().zip(HEX) {
        assert_eq!(hex(&example.image()), expected);
    }
}

/// Examples 2 and 9 go on to the run.
#[test]
fn images_are_run() {
    let listing = "layout 2 3 - none D Z -\nc 0 2 - none D Z\nvariable +0 - b\nvariable +0 - a\n\
                   c 1 1 - none D Z\nvariable +0 - c\n";
    let (mut area, mut room) = ([LENT; ANY_IMAGE], [LENT; ANY_AREA]);
    let mut run_of = |number: usize| {
        let Example { text, tokens: list, .. } = EXAMPLES[number - 1];
        let image = tokens(&list_of(list), text.as_bytes(), &mut area).expect("an image");
        answer(image, 0, &mut room).map(|answer| answer.to_string())
    };
    assert_eq!(run_of(2).as_deref(), Ok(listing));
    assert_eq!(run_of(9), Err(Refusal { number: 17, concatenation: 0, component: 0 }));
}

/// Example 11.
#[test]
fn empty_components() {
    assert_eq!(came_to("", ""), Err(51));
    assert_eq!(came_to("0:0+1 1:1+1", "a,"), Err(51));
    assert_eq!(came_to("1:0+1 0:1+1", ",a"), Err(51));
    assert_eq!(came_to("1:0+1 0:1+1", ";a"), Err(51));
    assert_eq!(came_to("0:0+1 1:1+1", "a;"), Err(51));
    assert_eq!(came_to("0:0+1 1:1+1 1:2+1 0:3+1", "a,,b"), Err(51));
}

/// Example 12; the last list has an empty component too.
#[test]
fn wrong_tokens() {
    let unknown = [[8].as_slice(), &[0; 7], &[1, 0, 0, 0]].concat();
    assert_eq!(called(&[0], b"a", ANY_IMAGE), Err(50));
    assert_eq!(called(&unknown, b"a", ANY_IMAGE), Err(50));
    assert_eq!(came_to("7", ""), Err(50));
    assert_eq!(came_to("4", ""), Err(50));
    assert_eq!(came_to("0:0+0", "a"), Err(50));
    assert_eq!(came_to("0:1+2", "ab"), Err(50));
    assert_eq!(came_to("1:0+2", "ab"), Err(50));
    let both = [list_of("1:1+1"), unknown].concat();
    assert_eq!(called(&both, b"a,", ANY_IMAGE), Err(50));
}

/// Example 13, and nothing lent at all.
#[test]
fn areas() {
    let list = list_of("0:0+1");
    assert_eq!(called(&list, b"a", 64), Err(53));
    assert_eq!(called(&list, b"a", 65).map(|image| image.len()), Ok(65));
    let mut area = [LENT; 100];
    assert_eq!(tokens(&list, b"a", &mut area).map(<[u8]>::len), Ok(65));
    assert_eq!(area[64], b'a');
    assert_eq!(area[65..], [LENT; 35]);
    assert_eq!(called(&list, b"a", 0), Err(53));
    assert_eq!(called(&list, b"", 0), Err(50));
    assert_eq!(called(&[], b"", 0), Err(51));
}

/// `a` in so many groups of all kinds, with so many closers.
fn nested(openers: usize, closers: usize) -> String {
    let kinds = ["3 ", "4 ", "5 ", "6 "].into_iter().cycle();
    kinds.take(openers).collect::<String>() + "0:0+1" + &" 7".repeat(closers)
}

/// `a` so many times, parted by the text's second byte.
fn parted(count: usize) -> String {
    vec!["0:0+1"; count].join(" 1:1+1 ")
}

/// Example 14.
#[test]
fn over_limits() {
    assert_eq!(came_to(&nested(33, 33), "a"), Err(52));
    assert_eq!(came_to(&nested(33, 32), "a"), Err(50));
    assert_eq!(came_to(&parted(18), "a;"), Err(52));
    assert_eq!(came_to(&(parted(18) + " 1:1+1"), "a;"), Err(51));
}

/// Each of document 01's limits, reached and passed. A length is 40, and 4, 8, 12
/// and 1 for each concatenation, component, record and byte of text.
#[test]
fn limits() {
    let long = "a".repeat(16_385);
    assert_eq!(came_to(&nested(32, 32), "a"), Ok(40 + 4 + 8 + (12 + 1) * 65));
    assert_eq!(came_to(&parted(16), "a;"), Ok(40 + (4 + 8 + 12 + 1) * 16));
    assert_eq!(came_to(&parted(17), "a;"), Err(52));
    assert_eq!(came_to(&parted(256), "a,"), Ok(40 + 4 + (8 + 12 + 1) * 256));
    assert_eq!(came_to(&parted(257), "a,"), Err(52));
    assert_eq!(came_to(&"1:0+1 ".repeat(2_048), "."), Ok(40 + 4 + 8 + (12 + 1) * 2_048));
    assert_eq!(came_to(&"1:0+1 ".repeat(2_049), "."), Err(52));
    assert_eq!(came_to("2:0+16384", &long), Ok(40 + 4 + 8 + 12 + 16_384));
    assert_eq!(came_to("2:0+16385", &long), Err(52));
    // 8,191 bytes with a space after each, and 2 or 3
    let run = "0:0+1 ".repeat(8_191);
    assert_eq!(came_to(&(run.clone() + "0:0+2"), &long), Ok(40 + 4 + 8 + 12 + 16_384));
    assert_eq!(came_to(&(run + "0:0+3"), &long), Err(52));
    // 16 times 16 components of 8 records of 8 bytes
    let components = vec!["2:2+8 ".repeat(8); 16].join("1:0+1 ");
    let largest = vec![components; 16].join("1:1+1 ");
    assert_eq!(came_to(&largest, &(",;".to_string() + &long)), Ok(43_112));
    assert_eq!(came_to(&(largest + "2:2+1"), &(",;".to_string() + &long)), Err(52));
}

/// The page's table of open cases.
#[test]
fn readings() {
    let joined = |tokens: &str, text: &str| {
        let image = called(&list_of(tokens), text.as_bytes(), ANY_IMAGE).expect("an image");
        let offset = u32::from_le_bytes(image[32..36].try_into().unwrap());
        String::from_utf8(image[offset as usize..].to_vec()).unwrap()
    };
    // an identifier or a literal whose text is a comma divides nothing
    assert_eq!(joined("0:1+1 0:0+1", "a,"), ", a");
    assert_eq!(joined("2:1+1 0:0+1", "a,"), ",a");
    // texts overlap, repeat and stand in any order
    assert_eq!(joined("0:2+2 0:0+3 1:4+1 0:2+2", "abcd,"), "cdcd abc");
    // each closer closes the innermost group
    assert_eq!(joined("6 5 7 4 7 7", ""), "{[]()}");
    // start and length together pass 2^32
    assert_eq!(came_to("0:4294967295+2", "abc"), Err(50));
    assert_eq!(came_to("0:1+4294967295", "abc"), Err(50));
}

/// Lists that are long, or deeper than any stack.
#[test]
fn long_lists() {
    let (deep, closers) = (list_of("4").repeat(1 << 20), list_of("7").repeat(1 << 20));
    assert_eq!(called(&deep, b"", ANY_IMAGE), Err(50));
    assert_eq!(called(&[deep, closers].concat(), b"", ANY_IMAGE), Err(52));
    assert_eq!(called(&list_of("0:0+1").repeat(1 << 20), b"a", ANY_IMAGE), Err(52));
}

/// The kinds are those of the header, which names each with its number.
#[test]
fn kinds_of_the_header() {
    for (number, kind) in (0..).zip(KINDS) {
        let name = format!("LAYOUT_TOKEN_{kind:?} = {number}").to_uppercase();
        let named = HEADER.lines().any(|line| line.trim().split(',').next() == Some(&name));
        assert!(named, "{name}");
        let bytes: [u8; TOKEN_SIZE] = [number, 0, 0, 0, 4, 3, 2, 1, 5, 0, 0, 0];
        assert_eq!(Token::new(kind, 0x0102_0304, 5).to_bytes(), bytes);
    }
    assert_eq!(Token::group(TokenKind::Closer).to_bytes(), [7, 0, 0, 0, 0, 0, 0, 0, 0, 0, 0, 0]);
}
