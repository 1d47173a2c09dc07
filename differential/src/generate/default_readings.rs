//! Fixed runs under a default: the examples that the team worked out for
//! document 02, L1, and lines that are easy to get wrong, with what the papers
//! say of each.

use Part::{Default, Nothing, Text};

use crate::text::encode;

/// Where the starting value in force stands, a prefix by its start in the text.
#[derive(Debug, Clone, Copy, PartialEq, Eq)]
pub enum Part {
    Nothing,
    Text(usize, &'static str),
    Default,
}

pub struct DefaultReading {
    pub line: &'static str,
    pub input: Vec<u8>,
    pub default: &'static [u8],
    /// Lines that the listing must hold.
    pub expect: Vec<&'static str>,
    pub in_force: Part,
}

/// Mode, line of text, default, lines of the listing parted by ` / `, what is
/// in force.
type Entry = (u8, &'static str, &'static [u8], &'static str, Part);

const UMAX: &str = "layout 2 3 8 none D Z - / c 0 2 8 none D Z / variable +0 +4 a / filler +0 +4 \
                    / c 1 1 8 none D Z / variable +0 +8 b";

/// The worked examples, in their order.
const WORKED: [Entry; 14] = [
    (1, "..4, a[..4]; b[..8]", b"", "refused 40 0 1", Nothing),
    (1, "..4, a[..4]; b[..8]", b"umax", UMAX, Default),
    (1, "z: ..4, a[..4]; b[..8]", b"umax", "layout 2 3 8 none D Z =z", Text(6, "z")),
    (1, ": ..4, a[..4]; b[..8]", b"umax", "layout 2 3 8 none D Z =", Text(0, "")),
    (0, "a[..8]", b"umax", "layout 1 1 8 none D Z -", Default),
    (0, "a[..8]", b"", "layout 1 1 8 none D Z -", Default),
    (1, "x::y: a[..8]", b"umax", "layout 1 1 8 none D Z =x::y", Text(0, "x::y")),
    (2, "..; b", b"z", "refused 42 0 0", Nothing),
    (1, "..", b"z", "refused 43 0 0", Nothing),
    (1, ".., a; b, ..", b"z", "refused 45 0 1", Nothing),
    (1, "..4, a[..4]; b[..9]", b"z", "refused 41 0 1", Nothing),
    (1, "z:", b"q", "refused 10 0 0", Nothing),
    (3, "a[..8]", b"q", "refused 1 0 0", Nothing),
    (0, "a[..8]", &[0xff; 70_000], "layout 1 1 8 none D Z -", Default),
];

const EASY_TO_MISS: [Entry; 14] = [
    // a default is bytes and a length, not a text
    (1, "..4", b"\0", "layout 1 1 4 none D Z -", Default),
    (1, "..4", b"\xff\xfe", "layout 1 1 4 none D Z -", Default),
    (1, "..4", b":", "layout 1 1 4 none D Z -", Default),
    (1, "..4", b"", "refused 40 0 0", Nothing),
    // the same text as the prefix's, and longer
    (1, "zero: ..4", b"zero", "layout 1 1 4 none D Z =zero", Text(0, "zero")),
    (1, ": ..4", b"", "layout 1 1 4 none D Z =", Text(0, "")),
    (2, "z: ..4, a", b"q", "refused 42 0 0", Nothing),
    (2, "..4, a", b"q", "refused 42 0 0", Nothing),
    // the order of stage 4, and what stands before it
    (1, "a, .., b; c, ..", b"z", "refused 44 0 1", Nothing),
    (1, "..4, q[5..3]", b"z", "refused 22 0 0", Nothing),
    (1, "::a, ..4", b"z", "layout 1 2 - none D Z - / variable +0 - ::a", Default),
    (1, "::..4, ..4", b"z", "refused 15 0 1", Nothing),
    (1, "[..4], ..4", b"z", "refused 11 0 1", Nothing),
    (1, "..4; 3u4", b"z", "refused 30 1 0", Nothing),
];

/// All of them, as inputs.
pub fn default_readings() -> Vec<DefaultReading> {
    let reading = |&(mode, line, default, expect, in_force): &Entry| DefaultReading {
        line,
        input: encode(mode, line).expect("readings are well written"),
        default,
        expect: expect.split(" / ").collect(),
        in_force,
    };
    WORKED.iter().chain(&EASY_TO_MISS).map(reading).collect()
}
