//! The class `tokens`: lists of tokens through the unchanged Rust and through
//! ours, and then the written image through both, as in the other classes.

use std::{
    fs::File,
    io::{self, BufWriter, Write},
    path::Path,
};

use layout_compare::{lent::Lender, ours::decoded};
use layout_rust::{
    generate::{Case, Class, Rng, TokenCase, token_area, token_cases},
    tokens::{Lent, Texts, Told},
};

use crate::{
    compare::{Comparison, Expected, sampled},
    tally::hex,
};

fn image(bytes: &[u8]) -> String {
    format!("image of {} bytes: {}\n", bytes.len(), hex(bytes))
}

/// The outcome in one word or two, and what is expected in full.
fn expected(lent: &Lent, told: Option<&Told>, area: usize) -> (String, Expected) {
    let Some(told) = told else {
        let listing = "the Rust panicked\n".to_owned();
        return ("panic".to_owned(), Expected { listing, counted: vec![] });
    };
    let mut counted = vec![];
    if told.refused != Some(50) && Texts::of(lent) == Texts::Bytes {
        counted.push("a text is no UTF-8, each byte asked as a character".to_owned());
    }
    if let (Some(52), [one]) = (told.refused, &told.over[..]) {
        counted.push(format!("52 for the {one} alone"));
    }
    match told.over_area(area) {
        Ok(bytes) => ("accepted".to_owned(), Expected { listing: image(bytes), counted }),
        Err(number) => {
            let listing = format!("refused {number} 0 0\n");
            (format!("refused {number}"), Expected { listing, counted })
        }
    }
}

/// What ours says, with what was changed and may not be.
fn said(lender: &mut Lender, lent: &Lent, area: usize) -> String {
    match lender.tokens(&lent.list, &lent.text, area) {
        Err(changed) => format!("fault: {changed}\n"),
        Ok((code, bytes)) => match decoded(code) {
            Ok(_) => image(bytes),
            Err(refusal) => {
                let (concatenation, component) = refusal.places;
                format!("refused {} {concatenation} {component}\n", refusal.number)
            }
        },
    }
}

impl Comparison<'_> {
    /// Compares one list. The input of its run, if an image was written: modes
    /// in turn, the image as the Rust's tree has it.
    fn tokens(&mut self, index: u64, case: &TokenCase) -> Option<Case> {
        let (lent, told) = (&case.made.lent, case.made.told());
        let area = token_area(&self.rng, told.as_ref());
        let ours = said(&mut self.lender, lent, area);
        let (outcome, expected) = expected(lent, told.as_ref(), area);
        self.tally.tokens(case.name, lent, area, outcome, &expected, &ours);
        let told = told?;
        let image = told.over_area(area).ok()?;
        let mode = [0, 1, 2, 0, 1, 2, 0, 3][index as usize % 8];
        Some(Case { name: case.name.to_owned(), input: [&[mode], image].concat() })
    }
}

/// Compares COUNT lists and the runs of their images; prints the counts.
pub fn run(count: u64, seed: u64, program: Option<&Path>) -> io::Result<bool> {
    let mut comparison = Comparison::new(Class::Mixed, "tokens", seed, program);
    for (index, case) in (0..count).zip(token_cases(seed)) {
        comparison.tally.now_of("");
        if let Some(case) = comparison.tokens(index, &case) {
            comparison.tally.now_of("its run, ");
            let (_, compared) = comparison.input(Class::Mixed, &case, None);
            if compared && sampled(index, count) {
                comparison.sample(&case)?;
            }
        }
        comparison.tally.next(true);
    }
    comparison.tally.print(&mut io::stdout().lock())
}

/// Writes a list and its text again: the list's length in 4 bytes, then both.
pub fn show(seed: u64, index: u64) -> io::Result<bool> {
    let case = token_cases(seed).nth(index as usize).expect("no end");
    let Lent { list, text } = case.made.lent;
    eprintln!("{}: a list of {} bytes, a text of {}", case.name, list.len(), text.len());
    io::stdout().write_all(&[&(list.len() as u32).to_le_bytes(), &list[..], &text].concat())?;
    Ok(true)
}

/// Stands for the mode where an entry is a list of tokens.
const TOKENS: u32 = u32::MAX;

/// COUNT cases for the C driver, as entries of driver.rs: the list in the
/// image's place, the text in the default's, nothing told.
pub fn write(count: u64, seed: u64, file: &Path) -> io::Result<bool> {
    let (rng, mut lender) = (Rng::new(!seed), Lender::default());
    let mut to = BufWriter::new(File::create(file)?);
    for TokenCase { made, .. } in token_cases(seed).take(count as usize) {
        let Lent { list, text } = &made.lent;
        let area = token_area(&rng, made.told().as_ref());
        let (code, image) = lender.tokens(list, text, area).map_err(io::Error::other)?;
        for number in [TOKENS, list.len() as u32, area as u32, text.len() as u32] {
            to.write_all(&number.to_le_bytes())?;
        }
        for number in [code, 0] {
            to.write_all(&number.to_le_bytes())?;
        }
        for bytes in [list, text, image] {
            to.write_all(bytes)?;
        }
    }
    to.flush()?;
    Ok(true)
}
