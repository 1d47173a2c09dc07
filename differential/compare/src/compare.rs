//! Case by case: what the Rust says, what ours says, whether they are equal.

use std::{
    io::{self, Write},
    path::Path,
    process::{Command, Stdio},
};

use layout_compare::{
    lent::{Lender, largest_area, needed},
    ours::decoded,
};
use layout_rust::{
    Answer,
    check::check,
    generate::{Case, Class, Pair, Rng, class_cases},
    listing::listing,
    run::{Outcome, run as rust_run},
};

use crate::{tally::Tally, under};

/// How ours is called on a case: the mode, the area's length, the default if
/// one is lent.
#[derive(Clone, Copy)]
pub struct Call<'a> {
    pub mode: u32,
    pub area: usize,
    pub default: Option<&'a [u8]>,
}

/// What ours said: its listing, the image and answer where it accepted, and
/// what it told of the starting value in force, under a default.
pub struct Said {
    pub listing: String,
    pub accepted: Option<(Vec<u8>, Vec<u8>)>,
    pub told: Option<u64>,
}

impl Said {
    /// The answer, read again from what was kept of it.
    fn answer(&self) -> Option<Answer<'_>> {
        let (image, answer) = self.accepted.as_ref()?;
        Answer::read(answer, image).ok()
    }

    /// The starting value in force, of an accepted run under a default.
    fn value<'a>(&'a self, default: Option<&'a [u8]>) -> Option<&'a [u8]> {
        under::value(self.told?, &self.accepted.as_ref()?.0, default?)
    }
}

/// What is expected of a case, and what it is counted as besides its outcome.
pub struct Expected {
    pub listing: String,
    pub counted: Vec<String>,
}

/// The mode and the image of an input; an empty one has mode 0.
pub fn parts(input: &[u8]) -> (u32, &[u8]) {
    match input.split_first() {
        Some((mode, image)) => (u32::from(*mode), image),
        None => (0, input),
    }
}

/// Draws the area's length, and for some cases a mode above one byte.
pub fn call_of<'a>(class: Class, rng: &Rng, input: &[u8], default: Option<&'a [u8]>) -> Call<'a> {
    let (byte, image) = parts(input);
    let far = class.short_areas() > 0 && rng.chance(if byte > 2 { 50 } else { 1 });
    let mode = if far { byte + (rng.within(1, 0xff_ffff) << 8) as u32 } else { byte };
    if check(image).is_err() {
        let area = [0, 31, 104, rng.below(600)][rng.below(4)];
        return Call { mode, area, default };
    }
    let exact = needed(image);
    if rng.chance(class.short_areas()) {
        let short = [exact - 1, exact - 1, rng.below(exact), 0];
        return Call { mode, area: short[rng.below(short.len())], default };
    }
    let area = match rng.below(10) {
        0..=5 => exact,
        6 => exact + 1,
        7 => largest_area(),
        _ => exact + rng.below(300),
    };
    Call { mode, area, default }
}

/// What the Rust says, number 1 and 8 judged as document 01 has it. None
/// where it cannot be asked: a text is no UTF-8.
pub fn expected(input: &[u8], call: Call) -> Option<Expected> {
    let plain = |listing: &str| Some(Expected { listing: listing.to_owned(), counted: vec![] });
    if let Some(default) = call.default {
        return under::expected(input, call, default);
    }
    if call.mode > 2 {
        return plain("refused 1 0 0\n");
    }
    let (_, image) = parts(input);
    let outcome = rust_run(input);
    let before_area = matches!(&outcome, Outcome::Refused(refusal) if refusal.number < 8);
    if !before_area && call.area < needed(image) {
        return plain("refused 8 0 0\n");
    }
    match outcome {
        Outcome::Outside => None,
        outcome => plain(&listing(&outcome)),
    }
}

/// Runs ours; what was changed and may not be, or an answer that cannot be
/// read, is what it said.
pub fn said(lender: &mut Lender, image: &[u8], call: Call) -> Said {
    let fault =
        |fault: &str| Said { listing: format!("fault: {fault}\n"), accepted: None, told: None };
    let done = match lender.run(image, call.mode, call.default, call.area) {
        Ok(done) => done,
        Err(changed) => return fault(changed),
    };
    let told = done.told;
    let said = match decoded(done.code) {
        Err(refusal) => {
            let (concatenation, component) = refusal.places;
            let listing = format!("refused {} {concatenation} {component}\n", refusal.number);
            Said { listing, accepted: None, told }
        }
        Ok(_) if check(image).is_err() => fault("an answer to a wrong image"),
        Ok(_) => match Answer::read(done.answer, image) {
            Ok(answer) => {
                let accepted = Some((image.to_vec(), done.answer.to_vec()));
                Said { listing: answer.to_string(), accepted, told }
            }
            Err(wrong) => fault(&wrong.to_string()),
        },
    };
    match said.told {
        Some(told) if !under::as_the_head_says(told, done.answer, image) => {
            fault(&format!("{}not what the answer's head says", under::in_force(told, image)))
        }
        _ => said,
    }
}

/// What the program prints for an input.
fn printed(program: &Path, input: &[u8]) -> io::Result<String> {
    let mut child = Command::new(program).stdin(Stdio::piped()).stdout(Stdio::piped()).spawn()?;
    // a program that stops reading early is judged by what it prints
    let _ = child.stdin.take().expect("piped").write_all(input);
    let output = child.wait_with_output()?;
    Ok(String::from_utf8_lossy(&output.stdout).into_owned())
}

/// One case in 500 goes through the program too, and 20 at the least.
pub fn sampled(index: u64, count: u64) -> bool {
    index.is_multiple_of((count / 20).clamp(1, 500))
}

/// The comparison of a class and seed.
pub struct Comparison<'a> {
    pub class: Class,
    pub rng: Rng,
    pub lender: Lender,
    pub program: Option<&'a Path>,
    pub tally: Tally,
}

impl<'a> Comparison<'a> {
    pub fn new(class: Class, name: &str, seed: u64, program: Option<&'a Path>) -> Self {
        let (rng, lender, tally) = (Rng::new(!seed), Lender::default(), Tally::new(name, seed));
        Self { class, rng, lender, program, tally }
    }

    /// Compares one input; what ours said of it. Whether the Rust could be
    /// asked is the second part.
    pub fn input(&mut self, class: Class, case: &Case, default: Option<&[u8]>) -> (Said, bool) {
        let Case { name, input } = case;
        let call = call_of(class, &self.rng, input, default);
        let image = parts(input).1;
        let said = said(&mut self.lender, image, call);
        let in_force = said.told.map_or(String::new(), |told| under::in_force(told, image));
        let ours = said.listing.clone() + &in_force;
        let Some(expected) = expected(input, call) else {
            self.tally.outside(name, input, call, &ours);
            return (said, false);
        };
        self.tally.outcome(name, input, call, &expected, &ours);
        (said, true)
    }

    /// Both images of a pair: equal listings, equal answers and starting values
    /// in force, with texts as bytes.
    fn pair(&mut self, pair: &Pair) -> bool {
        let default = pair.default.as_deref();
        let Some(cut) = &pair.cut else {
            return self.input(self.class, &pair.case, default).1;
        };
        // no area is too short for either
        let (whole, compared) = self.input(Class::Cut, &pair.case, default);
        let (pieces, _) = self.input(Class::Cut, cut, default);
        let equal = whole.listing == pieces.listing
            && whole.answer() == pieces.answer()
            && whole.value(default) == pieces.value(default)
            && whole.answer().is_some();
        self.tally.pair(equal, &pair.case.input, &cut.input);
        compared
    }

    /// The program's printed listing beside the Rust's.
    pub fn sample(&mut self, Case { name, input }: &Case) -> io::Result<()> {
        if let Some(program) = self.program {
            let expected = listing(&rust_run(input));
            self.tally.printed(name, input, &expected, &printed(program, input)?);
        }
        Ok(())
    }
}

/// Compares COUNT cases of a class; prints the counts. Cases outside the
/// domain of equality are run too, but do not count.
pub fn run(count: u64, seed: u64, class: Class, program: Option<&Path>) -> io::Result<bool> {
    let mut comparison = Comparison::new(class, &format!("{class:?}"), seed, program);
    let mut compared = 0;
    for pair in class_cases(class, seed) {
        if compared == count {
            break;
        }
        let counted = comparison.pair(&pair);
        if counted {
            if sampled(compared, count) {
                comparison.sample(&pair.case)?;
                pair.cut.as_ref().map_or(Ok(()), |cut| comparison.sample(cut))?;
            }
            compared += 1;
        }
        comparison.tally.next(counted);
    }
    comparison.tally.print(&mut io::stdout().lock())
}
