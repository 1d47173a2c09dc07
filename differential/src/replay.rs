//! Three data files for the whole run in code: inputs with the listing that the
//! unchanged stages give them; pairs of inputs, the second with a fixed literal
//! cut in pieces, with the listing of both; inputs with a default, the listing
//! and the starting value in force. README.md has their layout.

use std::{
    collections::{BTreeMap, HashSet},
    fs, io,
    path::Path,
};

use crate::{
    area_needed,
    generate::{Class, CutPair, Rng, cases, class_cases, cut_pair, default_readings},
    image::{
        MAX_COMPONENTS, MAX_CONCATENATIONS, MAX_LITERAL_BYTES, MAX_RECORDS, MAX_TEXT, MAX_WIDTH,
    },
    listing::listing,
    run::{Outcome, run},
    stats::outcome_of,
    text::encode,
    with_default::{Told, told},
};

/// An area that is long enough for any image.
pub fn any_area() -> usize {
    area_needed(MAX_CONCATENATIONS, MAX_COMPONENTS, MAX_LITERAL_BYTES)
}

/// One run: its input, the length of the lent area, the listing.
pub struct Run {
    pub input: Vec<u8>,
    pub area: usize,
    pub listing: String,
}

impl Run {
    /// Over an area that is long enough: what the unchanged stages answer.
    fn new(input: Vec<u8>) -> Self {
        let listing = listing(&run(&input));
        assert!(!listing.starts_with("outside") && !listing.starts_with("panic"));
        Self { input, area: any_area(), listing }
    }

    /// The area that this input's image asks for, if it passes the check.
    fn needed(&self) -> Option<usize> {
        let (mode, image) = self.input.split_first()?;
        if *mode > 2 || crate::check::check(image).is_err() {
            return None;
        }
        let count = |i: usize| image[4 * i..4 * i + 4].try_into().map(u32::from_le_bytes);
        let count = |i| count(i).expect("four bytes") as usize;
        Some(area_needed(count(0), count(1), count(4)))
    }
}

/// Lines near the header's limits, as far as a line can reach them.
fn large() -> Vec<Vec<u8>> {
    let wide = format!("0x{}u{MAX_WIDTH}", "9c".repeat(MAX_WIDTH / 8));
    let groups = |one: &str, per: usize, n: usize| vec![vec![one; per].join(", "); n].join("; ");
    let lines = [
        groups("x[..4]", MAX_COMPONENTS / MAX_CONCATENATIONS, MAX_CONCATENATIONS),
        groups("n", 1, MAX_CONCATENATIONS),
        vec!["3u2"; MAX_COMPONENTS].join(", "),
        vec!["5u5[1..3]"; MAX_COMPONENTS].join(", "),
        vec!["7u3, 5u4[n..]"; MAX_COMPONENTS / 2].join(", "),
        vec![wide.as_str(); MAX_LITERAL_BYTES * 8 / MAX_WIDTH - 1].join(", "),
        format!("a[..({})]", "+".repeat(MAX_RECORDS - 8)),
        format!("\"{}\"", "\\".repeat(MAX_TEXT - 8)),
    ];
    lines.iter().filter_map(|line| encode(0, line).ok()).collect()
}

/// The runs of a seed, no input twice with one area. Of the images that pass
/// the check some are run again over an area that is just long enough, and
/// over shorter ones, which is number 8.
pub fn runs(count: usize, seed: u64) -> Vec<Run> {
    let mut inputs = large();
    inputs.extend(cases(count as u64, seed).map(|case| case.input));
    let mut seen = HashSet::new();
    inputs.retain(|input| !input.is_empty() && seen.insert(input.clone()));
    let mut all = vec![];
    for (i, input) in inputs.into_iter().enumerate() {
        let run = Run::new(input);
        if let Some(needed) = run.needed()
            && i % 20 < 3
        {
            let short = [needed - 1, needed / 2, 0][i % 3];
            let refused = "refused 8 0 0\n".to_owned();
            all.push(Run { input: run.input.clone(), area: short, listing: refused });
            all.push(Run { area: needed, input: run.input.clone(), listing: run.listing.clone() });
        }
        all.push(run);
    }
    all
}

/// Pairs that the unchanged stages accept; their listings are equal.
pub fn cuts(count: usize, seed: u64) -> Vec<(CutPair, String)> {
    let rng = Rng::new(seed);
    let mut all = vec![];
    while all.len() < count {
        let pair = cut_pair(&rng);
        let whole = run(&pair.whole);
        if let Outcome::Accepted(_) = whole {
            let told = listing(&whole);
            assert_eq!(told, listing(&run(&pair.cut)), "{:?}", crate::text::decode(&pair.cut));
            all.push((pair, told));
        }
    }
    all
}

/// A run under a default, and what the unchanged stages tell of it.
pub struct Lent {
    pub input: Vec<u8>,
    pub default: Vec<u8>,
    pub told: Told,
}

/// Of the drawn ones only those are kept that have no more bytes.
const SHORT: usize = 1_200;

/// Runs under a default, none twice: the readings, then cases of the class.
/// The area is long enough for any image.
pub fn defaults(count: usize, seed: u64) -> Vec<Lent> {
    let readings =
        default_readings().into_iter().map(|reading| (reading.input, reading.default.to_vec()));
    let drawn = class_cases(Class::Default, seed)
        .map(|pair| (pair.case.input, pair.default.unwrap_or_default()))
        .filter(|(input, default)| !input.is_empty() && input.len() + default.len() <= SHORT);
    let mut seen = HashSet::new();
    let new = |case: &(Vec<u8>, Vec<u8>)| seen.insert(case.clone());
    let lent = |(input, default): (Vec<u8>, Vec<u8>)| {
        let told = told(&input, &default)?;
        assert!(["layout ", "refused "].iter().any(|word| told.listing.starts_with(word)));
        Some(Lent { input, default, told })
    };
    readings.chain(drawn).filter(new).filter_map(lent).take(count).collect()
}

/// Lengths in 4 bytes each, then the parts.
fn push_entry<const N: usize>(file: &mut Vec<u8>, lengths: [usize; N], parts: &[&[u8]]) {
    for length in lengths {
        file.extend(u32::try_from(length).expect("parts are short").to_le_bytes());
    }
    file.extend(parts.concat());
}

/// Writes the files and tells how often each outcome of `runs` occurs, and how
/// many entries the others have, in the lines that `run_replay` prints where
/// nothing differs.
pub fn write(count: usize, seed: u64, folder: &Path) -> io::Result<String> {
    let (mut file, mut outcomes) = (vec![], BTreeMap::new());
    for Run { input, area, listing } in runs(count, seed) {
        push_entry(&mut file, [input.len(), area, listing.len()], &[&input, listing.as_bytes()]);
        *outcomes.entry(outcome_of(&listing)).or_insert(0) += 1;
    }
    fs::write(folder.join("runs"), file)?;
    let (mut file, cuts) = (vec![], cuts(count / 6, seed));
    for (CutPair { whole, cut }, listing) in &cuts {
        let lengths = [whole.len(), cut.len(), listing.len()];
        push_entry(&mut file, lengths, &[whole, cut, listing.as_bytes()]);
    }
    fs::write(folder.join("cuts"), file)?;
    let (mut file, defaults) = (vec![], defaults(count / 6, seed));
    for Lent { input, default, told } in &defaults {
        let parts = [input, default, told.listing.as_bytes(), told.value(default)];
        push_entry(&mut file, parts.map(<[u8]>::len), &parts);
    }
    fs::write(folder.join("defaults"), file)?;
    let mut lines = String::new();
    for (outcome, count) in outcomes {
        lines += &format!("{}: {count}\n", outcome.replace("  ", " "));
    }
    lines += &format!("cut pairs equal: {}\n", cuts.len());
    Ok(lines + &format!("under a default equal: {}\ndifferent: 0\n", defaults.len()))
}
