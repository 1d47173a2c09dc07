//! The listing of an answer, as the program `layout` prints it (docs/FORMAT.md,
//! "The listing"): what `Display` of an answer writes.

use core::fmt::{Display, Formatter, Result, Write};

use crate::{Alignment, Answer, Bound, Component, Kind};

impl Display for Answer<'_> {
    fn fmt(&self, f: &mut Formatter<'_>) -> Result {
        write!(f, "layout {} {} ", self.concatenations().len(), self.components().len())?;
        judged(f, self.width(), self.alignment(), self.deterministic(), self.nonzero())?;
        match self.starting_value() {
            Some(text) => writeln!(f, " ={}", Shown(text))?,
            None => writeln!(f, " -")?,
        }
        for (i, c) in self.concatenations().enumerate() {
            write!(f, "c {i} {} ", c.components().len())?;
            judged(f, c.width(), c.alignment(), c.deterministic(), c.nonzero())?;
            writeln!(f)?;
            c.components().try_for_each(|component| writeln!(f, "{component}"))?;
        }
        Ok(())
    }
}

/// Width, alignment and flags.
fn judged(
    f: &mut Formatter<'_>,
    width: Option<u64>,
    alignment: Alignment,
    deterministic: bool,
    nonzero: bool,
) -> Result {
    match width {
        Some(width) => write!(f, "{width} ")?,
        None => write!(f, "- ")?,
    }
    let flag = |set: bool, name: &'static str| if set { name } else { "-" };
    write!(f, "{alignment} {} {}", flag(deterministic, "D"), flag(nonzero, "Z"))
}

/// A component's line, without its newline.
impl Display for Component<'_> {
    fn fmt(&self, f: &mut Formatter<'_>) -> Result {
        let word = match self.kind() {
            Kind::Literal { .. } => "literal",
            Kind::Variable(_) => "variable",
            Kind::Filler => "filler",
        };
        write!(f, "{word} {} ", self.start())?;
        match self.end() {
            Some(end) => write!(f, "{end}")?,
            None => f.write_char('-')?,
        }
        match self.kind() {
            Kind::Literal { bytes, .. } => {
                f.write_char(' ')?;
                bytes.iter().rev().try_for_each(|byte| write!(f, "{byte:02x}"))
            }
            Kind::Variable(text) => write!(f, " {}", Shown(text)),
            Kind::Filler => Ok(()),
        }
    }
}

/// The text, then the number with its sign.
impl Display for Bound<'_> {
    fn fmt(&self, f: &mut Formatter<'_>) -> Result {
        write!(f, "{}{:+}", Shown(self.text), self.x)
    }
}

/// A text whose bytes outside 33 to 126, and the backslash, are shown as `\` and
/// two hex digits.
struct Shown<'a>(&'a [u8]);

impl Display for Shown<'_> {
    fn fmt(&self, f: &mut Formatter<'_>) -> Result {
        self.0.iter().try_for_each(|byte| match byte {
            b'\\' => f.write_str("\\5c"),
            33..=126 => f.write_char(char::from(*byte)),
            _ => write!(f, "\\{byte:02x}"),
        })
    }
}
