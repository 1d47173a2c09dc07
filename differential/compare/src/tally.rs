//! Counts by outcome, and the first differences with all that is needed to
//! see them again.

use std::{
    collections::BTreeMap,
    io::{self, Write},
};

use layout_rust::{stats::outcome_of, tokens::Lent};

use crate::compare::{Call, Expected};

/// How many differences are told in full.
const TOLD: usize = 5;

pub struct Tally {
    class: String,
    seed: u64,
    /// The place of the case in its class and seed.
    index: u64,
    outcomes: BTreeMap<String, u64>,
    /// Stands before the outcomes that are counted now.
    of: &'static str,
    /// What else the cases are counted as.
    counted: BTreeMap<String, u64>,
    cases: u64,
    outside: u64,
    printed: u64,
    /// Whether something of the present case differs.
    wrong: bool,
    different: u64,
    told: Vec<String>,
}

pub fn hex(bytes: &[u8]) -> String {
    let digits =
        |byte: &u8| [byte >> 4, byte & 15].map(|d| char::from(b"0123456789abcdef"[d as usize]));
    bytes.iter().flat_map(digits).collect()
}

/// How much of a default is told; `show` has all of it.
const SHOWN: usize = 64;

/// A call in words.
fn told(Call { mode, area, default }: Call) -> String {
    let default = default.map_or(String::new(), |default| {
        let from_front = hex(&default[..default.len().min(SHOWN)]);
        format!(", default of {} bytes {from_front}", default.len())
    });
    format!("mode {mode}, area {area}{default}")
}

impl Tally {
    pub fn new(class: &str, seed: u64) -> Self {
        Self {
            class: class.to_owned(),
            seed,
            index: 0,
            outcomes: BTreeMap::new(),
            of: "",
            counted: BTreeMap::new(),
            cases: 0,
            outside: 0,
            printed: 0,
            wrong: false,
            different: 0,
            told: vec![],
        }
    }

    fn differs(&mut self, what: String) {
        self.wrong = true;
        if self.told.len() < TOLD {
            let Self { class, seed, index, .. } = self;
            self.told.push(format!("different: {class} seed {seed} index {index}: {what}"));
        }
    }

    /// A case that the Rust answered.
    pub fn outcome(
        &mut self,
        name: &str,
        input: &[u8],
        call: Call,
        expected: &Expected,
        ours: &str,
    ) {
        self.count(outcome_of(&expected.listing), expected);
        if expected.listing != ours {
            let (call, input) = (told(call), hex(input));
            self.differ(format!("{name}, {call}, input {input}"), &expected.listing, ours);
        }
    }

    /// A list of tokens; the outcome in one word or two.
    pub fn tokens(
        &mut self,
        name: &str,
        lent: &Lent,
        area: usize,
        outcome: String,
        expected: &Expected,
        ours: &str,
    ) {
        self.count(outcome, expected);
        if expected.listing != ours {
            let (list, text) = (hex(&lent.list), hex(&lent.text));
            let what = format!("{name}, area {area}, list {list}, text {text}");
            self.differ(what, &expected.listing, ours);
        }
    }

    /// From here on the outcomes are of this.
    pub fn now_of(&mut self, of: &'static str) {
        self.of = of;
    }

    fn count(&mut self, outcome: String, expected: &Expected) {
        *self.outcomes.entry(format!("{}{outcome}", self.of)).or_insert(0) += 1;
        for what in &expected.counted {
            *self.counted.entry(what.clone()).or_insert(0) += 1;
        }
    }

    fn differ(&mut self, what: String, rust: &str, ours: &str) {
        self.differs(format!("{what}\nthe Rust:\n{rust}ours:\n{ours}"));
    }

    /// A case that only ours could be asked: nothing but its own area may
    /// have changed, and what it wrote can be read.
    pub fn outside(&mut self, name: &str, input: &[u8], call: Call, ours: &str) {
        self.outside += 1;
        if ours.starts_with("fault") {
            let (call, input) = (told(call), hex(input));
            self.differs(format!("{name}, {call}, input {input}\n{ours}"));
        }
    }

    /// The two images of a cut pair through ours.
    pub fn pair(&mut self, equal: bool, whole: &[u8], cut: &[u8]) {
        if !equal {
            self.differs(format!("cut pair, whole {}\ncut {}\n", hex(whole), hex(cut)));
        }
    }

    /// A case through the program.
    pub fn printed(&mut self, name: &str, input: &[u8], rust: &str, program: &str) {
        self.printed += 1;
        if rust != program {
            let input = hex(input);
            let both = format!("the Rust:\n{rust}the program:\n{program}");
            self.differs(format!("{name}, through the program, input {input}\n{both}"));
        }
    }

    /// The present case is done; those outside the domain count apart.
    pub fn next(&mut self, compared: bool) {
        self.index += 1;
        self.cases += u64::from(compared);
        self.different += u64::from(self.wrong);
        self.wrong = false;
    }

    /// Prints all; whether nothing differs.
    pub fn print(&self, to: &mut impl Write) -> io::Result<bool> {
        for (outcome, count) in &self.outcomes {
            writeln!(to, "{outcome}: {count}")?;
        }
        for (what, count) in &self.counted {
            writeln!(to, "{what}: {count}")?;
        }
        if self.outside > 0 {
            writeln!(to, "outside the Rust's domain, run for the guard bytes: {}", self.outside)?;
        }
        writeln!(to, "also through the program: {}", self.printed)?;
        for told in &self.told {
            write!(to, "{told}")?;
        }
        let equal = self.cases.saturating_sub(self.different);
        writeln!(to, "{equal} equal, {} different", self.different)?;
        Ok(self.different == 0)
    }
}
