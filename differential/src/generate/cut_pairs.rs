//! Pairs of lines: one with a fixed literal, and the same with that literal
//! written as neighbouring pieces (document 01, "Cutting a literal").

use super::{
    line::{Line, harmless, prefix},
    rng::Rng,
    words::{bound, known_variable, literal, name, number, parts},
};

/// The inputs of two lines that only differ in how one literal is written.
pub struct CutPair {
    pub whole: Vec<u8>,
    pub cut: Vec<u8>,
}

/// A literal's text, what it puts after its bracket, and its width.
struct Literal {
    text: String,
    bits: String,
    width: usize,
}

impl Literal {
    fn new(rng: &Rng) -> Self {
        let width = match rng.below(10) {
            0 => rng.within(100, 700),
            1 | 2 => rng.within(30, 99),
            _ => rng.within(2, 29),
        };
        let written = literal(rng, width);
        // bits that are given stand at the component's end, after the bracket
        let (text, bits) = written.split_once(" ⟦").unwrap_or((&written, ""));
        let bits = if bits.is_empty() { String::new() } else { format!(" ⟦{bits}") };
        Self { text: text.to_owned(), bits, width }
    }

    /// The component that is the literal's bits from one place to another.
    fn component(&self, rng: &Rng, from: usize, to: usize) -> String {
        let Self { text, bits, width } = self;
        let (start, end) = (place(rng, from), place(rng, to));
        let range = match rng.below(6) {
            // without dots a bracket's text is not taken apart
            0 if from + 1 == to => number(rng, from as u128),
            1 | 2 if from == 0 => format!("..{end}"),
            1 | 2 if to == *width => format!("{start}.."),
            3 => format!("{start}..={}", place(rng, to - 1)),
            4 if from == 0 && to == *width => return format!("{text}{bits}"),
            _ => format!("{start}..{end}"),
        };
        format!("{text}[{range}]{bits}")
    }
}

/// A bound that is the number, sometimes one that only stage 2 reads.
fn place(rng: &Rng, x: usize) -> String {
    if rng.chance(20) {
        let low = rng.within(0, x);
        return format!("({low}--00{})", x - low);
    }
    bound(rng, x as u128)
}

/// Strictly rising places from one to another, both included.
fn places(rng: &Rng, from: usize, to: usize) -> Vec<usize> {
    let mut places: Vec<_> = (from + 1..to).filter(|_| rng.chance(400 / (to - from) + 1)).collect();
    if places.is_empty() {
        places.push(rng.within(from + 1, to - 1));
    }
    while places.len() > 12 {
        places.remove(rng.below(places.len()));
    }
    places.insert(0, from);
    places.push(to);
    places
}

/// What stands beside the literal in its concatenation.
fn beside(rng: &Rng) -> Vec<String> {
    let other = |rng: &Rng| match rng.below(3) {
        0 => literal(rng, rng.within(1, 12)),
        _ => harmless(rng, true),
    };
    (0..rng.below(3)).map(|_| other(rng)).collect()
}

/// The other concatenations.
fn sinks(rng: &Rng, width: usize) -> Vec<Vec<String>> {
    match rng.below(4) {
        0 => vec![],
        1 => vec![vec![name(rng)]],
        2 => vec![vec![known_variable(rng, width as u128)]],
        _ => vec![parts(rng, width, false, true), vec![name(rng)]],
    }
}

/// Draws a pair; whether its lines are accepted is for the caller to see.
pub fn cut_pair(rng: &Rng) -> CutPair {
    let literal = Literal::new(rng);
    let (from, to) = match rng.below(3) {
        0 => {
            let from = rng.within(0, literal.width - 2);
            (from, rng.within(from + 2, literal.width))
        }
        _ => (0, literal.width),
    };
    let (above, below) = (beside(rng), beside(rng));
    let sinks = sinks(rng, to - from);
    let mode = rng.below(3);
    let start = (mode > 0 || rng.chance(20)).then(|| prefix(rng));
    let input = |written: Vec<String>| {
        let source = [above.clone(), written, below.clone()].concat();
        let mut line = Line::new([vec![source], sinks.clone()].concat()).mode(mode);
        line.prefix = start.clone();
        line.input()
    };
    let places = places(rng, from, to);
    // the most significant piece stands first
    let pieces = places.windows(2).rev().map(|ends| literal.component(rng, ends[0], ends[1]));
    CutPair { whole: input(vec![literal.component(rng, from, to)]), cut: input(pieces.collect()) }
}
