//! Fixed cases: each of document 01's edge readings, and each of the readings
//! that the design page calls easy to miss, with what these papers say of it.

use super::edit::{Edit, Field};
use crate::text::encode;

pub struct Reading {
    pub name: String,
    pub input: Vec<u8>,
    /// Lines that the listing must hold.
    pub expect: Vec<String>,
}

/// Mode, line of text, and lines of the listing, parted by ` / `.
type Entry = (u8, &'static str, &'static str);

/// Document 01: the worked listing, "Edge readings", and the traps.
const DOCUMENT_01: [Entry; 32] = [
    (0, "10u4, 5u4; rec[..8]", "literal +0 +8 a5"),
    (0, "a[07..20]", "variable +7 +20 a"),
    (0, "a[007..20]", "variable 007+0 +20 a"),
    (0, "a[«--5»..20]", "variable +5 +20 a"),
    (0, "a[(n+«0x-5»)..]", "variable n-5 - a"),
    (0, "a[«0x-5»..]", "refused 21 0 0"),
    (0, "a[«0x»..]", "variable 0x+0 - a"),
    (
        0,
        "a[«-170141183460469231731687303715884105728»..]",
        "variable -170141183460469231731687303715884105728+0 - a",
    ),
    (
        0,
        "a[(n+«0x-80000000000000000000000000000000»)..]",
        "variable n-170141183460469231731687303715884105728 - a",
    ),
    (0, "b[()..4]", "variable +0 +4 b"),
    (0, "b[(a-)..]", "variable a+0 - b"),
    (0, "b[(10-n)..]", "variable -n+10 - b"),
    (0, "b[(8+n&3)..]", "variable n&3+8 - b"),
    (0, "b[-..4]", "variable +0 +4 b"),
    // the leftmost pair of minuses: a, less the number --5
    (0, "b[(a---5)..]", "variable a-5 - b"),
    (0, "a[5..=]", "variable +5 - a"),
    (0, "a[1..2..3]", "refused 13 0 0"),
    (0, "...", "refused 14 0 0"),
    (0, "a[7]", "variable +7 +8 a"),
    (0, "1u8[..8]", "literal +0 +8 01"),
    (0, "1u8[..9]", "refused 25 0 0"),
    (0, "1u8[8..]", "refused 24 0 0"),
    (0, "1u8[a..0]", "refused 27 0 0"),
    (0, "b[a..0]", "variable a+0 +0 b"),
    (0, "..", "refused 43 0 0"),
    (1, "..", "refused 40 0 0"),
    (0, "a; ..", "refused 31 1 0"),
    (0, "a, ..; .., b", "refused 45 0 1"),
    (0, "a, ..; .., b; ..64", "layout 3 5 64 none D Z -"),
    (0, "5u4, 3u4[n..], 1u4, 2u4", "c 0 3 - none D Z / literal n+0 +4 03 / literal +0 +8 12"),
    (0, "x[..8]; a, ..; b, ..", "layout 3 5 8 none D Z -"),
    (0, "a⟦9:1ff⟧, b[..2]⟦1:1⟧", "c 0 2 - none D Z"),
];

const MAX_20: &str = "a[..=170141183460469231731687303715884105727]";
const MAX_BOTH: &str = "a[«-5»..=170141183460469231731687303715884105727]";
const MAX_16: &str = "a[..=(0+170141183460469231731687303715884105727)]";
const LEAST_16: &str = "a[(z-«0x-80000000000000000000000000000000»)..]";
const PAST_128: &str = "a[(n-170141183460469231731687303715884105727)..(n+9)]";
const LITERAL_34: &str = "b; 1u8, a[..18446744073709551615]";

/// The design page, "Readings that are easy to miss".
const EASY_TO_MISS: [Entry; 37] = [
    (0, "zero:, b, c", "refused 10 0 2"),
    (0, "zero:[..4]", "refused 10 0 0"),
    (0, ":a", "layout 1 1 - none D Z ="),
    (0, ":::a", "layout 1 1 - none D Z =::"),
    (0, "a::b", "layout 1 1 - none D Z -"),
    (0, "a:b:c", "layout 1 1 - none D Z =a / variable +0 - b:c"),
    (0, "x, a:b; c:d", "layout 2 3 - none D Z - / variable +0 - a:b / variable +0 - c:d"),
    (0, "a[(5)]", "variable (5)+0 (5)+1 a"),
    (0, "a[x+1]", "variable x+1+0 x+1+1 a"),
    (0, "a[(n)..]", "variable n+0 - a"),
    (0, "a[((3))..]", "variable (3)+0 - a"),
    (0, "a[- 5..]", "refused 15 0 0"),
    (0, "a[«-5»..]", "refused 21 0 0"),
    (0, "a[[3]..]", "refused 15 0 0"),
    (0, "a[{3}..]", "refused 15 0 0"),
    (0, "a[⟨3⟩..]", "refused 15 0 0"),
    (0, "a[(3--007)..]", "variable +10 - a"),
    (0, MAX_20, "refused 20 0 0"),
    (0, MAX_BOTH, "refused 20 0 0"),
    (0, MAX_16, "refused 16 0 0"),
    (0, LEAST_16, "refused 16 0 0"),
    (0, "a[..b...]", "refused 14 0 0"),
    (0, "a[..b..c...]", "refused 13 0 0"),
    (0, "a[..=...]", "refused 14 0 0"),
    (0, LITERAL_34, "refused 34 1 0"),
    (0, "a[..18446744073709551616]", "refused 34 0 0"),
    (0, "a[..18446744073709551616], n", "c 0 2 - none D Z"),
    (0, PAST_128, "c 0 1 - none D -"),
    (1, "..4, a", "refused 40 0 1"),
    (1, "a, .., ..4, b", "refused 40 0 1"),
    (0, "a, .., ..3, 1u4, 2u4; b, ..", "refused 44 0 3"),
    (2, "zero: a", "refused 42 0 0"),
    (2, "zero: a, ..", "refused 42 0 0"),
    (1, "zero: a, ..", "refused 43 0 0"),
    // nesting
    (0, "((((((((((((((((((((((((((((((((z))))))))))))))))))))))))))))))))", "c 0 1 - none D Z"),
    (0, "(((((((((((((((((((((((((((((((((z)))))))))))))))))))))))))))))))))", "refused 7 0 0"),
    (0, "a, [..3], b", "refused 11 0 1"),
];

/// All readings, as inputs.
pub fn readings() -> Vec<Reading> {
    let entries = DOCUMENT_01.iter().chain(&EASY_TO_MISS);
    let reading = |(mode, line, expect): &Entry| Reading {
        name: (*line).to_owned(),
        input: encode(*mode, line).expect("readings are well written"),
        expect: lines(expect),
    };
    entries.map(reading).chain(deep_readings()).collect()
}

fn lines(expect: &str) -> Vec<String> {
    expect.split(" / ").map(str::to_owned).collect()
}

/// What comes first at the 33rd opener, whose closer is record 34.
fn deep_readings() -> Vec<Reading> {
    let line = format!("{}z{}", "(".repeat(33), ")".repeat(33));
    let damaged = |name: &str, expect: &str, damage: fn(&mut Edit)| {
        let mut edit = Edit { input: encode(0, &line).expect("a nest is well written") };
        damage(&mut edit);
        Reading { name: format!("depth 33, {name}"), input: edit.input, expect: lines(expect) }
    };
    vec![
        damaged("opener's text wrong", "refused 6 0 0", |edit| {
            let text = edit.text(32);
            edit.input[text] = b'[';
        }),
        damaged("opener's skip wrong", "refused 6 0 0", |edit| {
            edit.set(edit.record(32, Field::Skip), 4);
        }),
        damaged("closer's kind wrong", "refused 6 0 0", |edit| {
            edit.set(edit.record(34, Field::Kind), 0);
        }),
        damaged("closer's text wrong", "refused 7 0 0", |edit| {
            let text = edit.text(34);
            edit.input[text] = b']';
        }),
        Reading { name: "empty input".to_owned(), input: vec![], expect: lines("refused 2 0 0") },
    ]
}
