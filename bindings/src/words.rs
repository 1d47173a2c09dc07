//! What each number says, in plain words. include/layout.h and README.md have
//! the same words (tests/link holds them to these).

/// Every number of a refusal with its words, in rising order.
pub const WORDS: [(u32, &str); 40] = [
    (1, "the mode is above 2"),
    (2, "the image is shorter than its header"),
    (3, "a count in the header is out of its range"),
    (4, "a table's place or the image's length is wrong"),
    (5, "a concatenation's or component's entry, a sum of them, or a literal's spare bits are wrong"),
    (6, "a record or its text is wrong"),
    (7, "groups nest deeper than 32"),
    (8, "the lent area is too short for this image"),
    (10, "a starting value's colon with nothing after it"),
    (11, "a range with nothing before it"),
    (12, "an empty range"),
    (13, "a second `..` in a range"),
    (14, "`...` in a range"),
    (15, "a bound that is not one token or one group in parentheses"),
    (16, "a bound's number does not fit 128 bits"),
    (17, "it begins like a literal, but is none"),
    (20, "a bound's number, with its text read as a number, does not fit 128 bits"),
    (21, "a bound below 0"),
    (22, "a range that ends before it starts"),
    (23, "a range of width 0"),
    (24, "a literal's range starts at or above its width"),
    (25, "a literal's range ends above its width"),
    (26, "a literal's range is wider than the literal"),
    (27, "a literal's range from a text to 0"),
    (28, "a filler that does not start at 0 and has no end"),
    (30, "a literal where something is copied to"),
    (31, "nothing but an unbounded filler where something is copied to"),
    (32, "a second unbounded filler"),
    (33, "a total width of 0"),
    (34, "the widths add up to more than 2^64-1"),
    (40, "a filler in the source, with a return type and no starting value"),
    (41, "two concatenations of different known widths"),
    (42, "static width wanted, and none is known"),
    (43, "one concatenation alone, of no fixed width"),
    (44, "a filler in the middle, and no width is fixed"),
    (45, "fillers at opposite ends, and no width is fixed"),
    (50, "a token is unknown, ill-nested or has a wrong text, or the list ends within one"),
    (51, "a component without a token"),
    (52, "too many concatenations, components, records or text bytes for an image, or groups nest deeper than 32"),
    (53, "the lent area is too short for the tokens' image"),
];

/// The words of a number; of one that no refusal has, that it is unknown.
pub fn words(number: u32) -> &'static str {
    match WORDS.iter().find(|(known, _)| *known == number) {
        Some((_, words)) => words,
        None => "an unknown number",
    }
}
