//! Lists worked out on paper, with what is to come of them.

use super::Lent;

/// What is to come of a list.
pub enum Expect {
    /// An image, byte by byte, in hex.
    Hex(&'static str),
    /// An image of this length with this text and these records (kind, text
    /// start, skip).
    Image(usize, &'static str, &'static [[u32; 3]]),
    Refused(u32),
}

pub struct Worked {
    pub name: &'static str,
    pub lent: Lent,
    /// The lent area's length.
    pub area: usize,
    pub expect: Expect,
}

/// Kind, or kind:start+length, parted by spaces.
fn list(words: &str) -> Vec<u8> {
    let mut lent = Lent::default();
    for word in words.split_whitespace() {
        let numbers = word.split([':', '+']).map(|n| n.parse().expect("a number"));
        let mut token = [0; 3];
        token.iter_mut().zip(numbers).for_each(|(to, number)| *to = number);
        lent.push(token);
    }
    lent.list
}

/// Longer than any image of these.
const ROOM: usize = 300;

/// Name, text, tokens, area, what is to come.
type Entry = (&'static str, &'static str, &'static str, usize, Expect);

const ACCEPTED: [Entry; 12] = [
    (
        "one name",
        "a",
        "0:0+1",
        ROOM,
        Expect::Hex(
            "0100000001000000010000000100000000000000280000002c000000340000004000000041000000\
             01000000010000000000000000000000000000000100000061",
        ),
    ),
    (
        "components turned, concatenations not",
        "a , b ; c",
        "0:0+1 1:2+1 0:4+1 1:6+1 0:8+1",
        ROOM,
        Expect::Hex(
            "02000000030000000300000003000000000000002800000030000000480000006c0000006f000000\
             020000000100000001000000000000000100000000000000010000000000000000000000000000000\
             1000000000000000100000001000000000000000200000001000000626163",
        ),
    ),
    ("()", "", "4 7", ROOM, Expect::Image(78, "()", &[[2, 0, 2], [5, 1, 1]])),
    (
        "a group without delimiters",
        "x y z",
        "3 0:0+1 0:2+1 7 0:4+1",
        ROOM,
        Expect::Image(106, " x y z", &[[1, 0, 3], [0, 1, 1], [5, 4, 1], [0, 5, 1]]),
    ),
    (
        "an empty group without delimiters",
        "",
        "3 7",
        ROOM,
        Expect::Image(78, "  ", &[[1, 0, 2], [5, 1, 1]]),
    ),
    (
        "a b (c) d e",
        "a b (c) d e",
        "0:0+1 0:2+1 4 0:5+1 7 0:8+1 0:10+1",
        ROOM,
        Expect::Image(121, "a b(c)d e", &[[0, 0, 1], [2, 3, 3], [0, 4, 1], [5, 5, 1], [0, 6, 1]]),
    ),
    (
        "f(a, b; c)",
        "f(a, b; c)",
        "0:0+1 4:1+1 0:2+1 1:3+1 0:5+1 1:6+1 0:8+1 7:9+1",
        ROOM,
        Expect::Image(
            156,
            "f(a,b;c)",
            &[
                [0, 0, 1],
                [2, 1, 7],
                [0, 2, 1],
                [0, 3, 1],
                [0, 4, 1],
                [0, 5, 1],
                [0, 6, 1],
                [5, 7, 1],
            ],
        ),
    ),
    (
        "x as usize[(n as u16+1)..=7]",
        "x as usize[(n as u16+1)..=7]",
        "0:0+1 0:2+2 0:5+5 5 4 0:12+1 0:14+2 0:17+3 1:20+1 2:21+1 7 1:23+1 1:24+1 1:25+1 2:26+1 7",
        ROOM,
        Expect::Image(
            224,
            "x as usize[(n as u16+1)..=7]",
            &[
                [0, 0, 1],
                [3, 10, 11],
                [2, 11, 5],
                [0, 12, 1],
                [0, 20, 1],
                [0, 21, 1],
                [5, 22, 1],
                [0, 23, 1],
                [0, 24, 1],
                [0, 25, 1],
                [0, 26, 1],
                [5, 27, 1],
            ],
        ),
    ),
    (
        "10u4, 5u4; rec[..8]",
        "10u4, 5u4; rec[..8]",
        "2:0+4 1:4+1 2:6+3 1:9+1 0:11+3 5 1:15+1 1:16+1 2:17+1 7",
        ROOM,
        Expect::Image(
            183,
            "5u410u4rec[..8]",
            &[
                [0, 0, 1],
                [0, 3, 1],
                [0, 7, 1],
                [3, 10, 5],
                [0, 11, 1],
                [0, 12, 1],
                [0, 13, 1],
                [5, 14, 1],
            ],
        ),
    ),
    (
        "'q, \"s,;\"",
        "'q, \"s,;\"",
        "1:0+1 0:1+1 1:2+1 2:4+5",
        ROOM,
        Expect::Image(103, "\"s,;\"'q", &[[0, 0, 1], [0, 5, 1], [0, 6, 1]]),
    ),
    ("an area just long enough", "a", "0:0+1", 65, Expect::Image(65, "a", &[[0, 0, 1]])),
    ("bytes beyond", "a", "0:0+1", 100, Expect::Image(65, "a", &[[0, 0, 1]])),
];

const REFUSED: [Entry; 16] = [
    ("an empty list", "", "", ROOM, Expect::Refused(51)),
    ("a,", "a,", "0:0+1 1:1+1", ROOM, Expect::Refused(51)),
    (",a", ",a", "1:0+1 0:1+1", ROOM, Expect::Refused(51)),
    (";a", ";a", "1:0+1 0:1+1", ROOM, Expect::Refused(51)),
    ("a;", "a;", "0:0+1 1:1+1", ROOM, Expect::Refused(51)),
    ("a,,b", "a,,b", "0:0+1 1:1+1 1:2+1 0:3+1", ROOM, Expect::Refused(51)),
    ("an unknown token", "a", "8:0+1", ROOM, Expect::Refused(50)),
    ("a closer alone", "", "7", ROOM, Expect::Refused(50)),
    ("an opener alone", "", "4", ROOM, Expect::Refused(50)),
    ("an empty text", "a", "0:0+0", ROOM, Expect::Refused(50)),
    ("a text outside", "ab", "0:1+2", ROOM, Expect::Refused(50)),
    ("punctuation of two bytes", "::", "1:0+2", ROOM, Expect::Refused(50)),
    ("an empty component and an unknown token", "a,", "1:1+1 8", ROOM, Expect::Refused(50)),
    ("an area one byte too short", "a", "0:0+1", 64, Expect::Refused(53)),
    ("no area", "a", "0:0+1", 0, Expect::Refused(53)),
    ("start and length past 2^32", "ab", "0:4294967295+2", ROOM, Expect::Refused(50)),
];

/// The lists of the papers' fourteen worked examples, in their order but with
/// the refused ones last.
pub fn worked() -> Vec<Worked> {
    let entry = |(name, text, words, area, expect): Entry| {
        let lent = Lent { list: list(words), text: text.into() };
        Worked { name, lent, area, expect }
    };
    let refused = |name, list: String, number| {
        entry((name, "a,;", "", ROOM, Expect::Refused(number))).with(list)
    };
    let nest =
        |open: usize, close: usize| format!("{}0:0+1{}", "4 ".repeat(open), " 7".repeat(close));
    let mut all: Vec<Worked> = ACCEPTED.into_iter().chain(REFUSED).map(entry).collect();
    all.push(Worked {
        name: "one byte",
        lent: Lent { list: vec![0], text: b"a".to_vec() },
        area: ROOM,
        expect: Expect::Refused(50),
    });
    let many = vec!["0:0+1"; 18].join(" 1:2+1 ");
    all.push(refused("33 groups in each other", nest(33, 33), 52));
    all.push(refused("33 openers, 32 closers", nest(33, 32), 50));
    all.push(refused("18 concatenations", many.clone(), 52));
    all.push(refused("18 concatenations and a semicolon", many + " 1:2+1", 51));
    all
}

impl Worked {
    /// The same with another list.
    fn with(mut self, words: String) -> Self {
        self.lent.list = list(&words);
        self
    }
}
