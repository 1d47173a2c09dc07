//! Whether bytes are an answer to an image: every byte is looked at, field by
//! field, as docs/FORMAT.md lays them out.

use core::{error::Error, fmt};

use crate::{
    answer::image_text,
    fields::{number, Alignment, DETERMINISTIC, FILLER, LITERAL, NONZERO, VALUE_GIVEN, VARIABLE},
    COMPONENT_SIZE, CONCATENATION_SIZE, HEAD_SIZE,
};

/// The bytes of an image's header.
const IMAGE_HEADER: usize = 40;

/// The flags that head and concatenations have.
const BOTH: u32 = DETERMINISTIC | NONZERO;

/// Why bytes are no answer to an image: what is wrong, and at which byte of the
/// answer it was met.
#[derive(Debug, Clone, Copy, PartialEq, Eq, Hash)]
pub struct Fault {
    pub what: &'static str,
    pub at: usize,
}

impl fmt::Display for Fault {
    fn fmt(&self, f: &mut fmt::Formatter<'_>) -> fmt::Result {
        write!(f, "{}, at byte {}", self.what, self.at)
    }
}

impl Error for Fault {}

fn need(right: bool, at: usize, what: &'static str) -> Result<(), Fault> {
    if right {
        Ok(())
    } else {
        Err(Fault { what, at })
    }
}

/// Checks an answer to an image. Of the image its header and its text are used.
pub fn answer(bytes: &[u8], image: &[u8]) -> Result<(), Fault> {
    need(image.len() >= IMAGE_HEADER, 0, "no image, which is shorter than its header")?;
    let text = image_text(image);
    need(text.is_some(), 0, "no image, whose text lies outside it")?;
    need(bytes.len() >= HEAD_SIZE, bytes.len(), "shorter than its head")?;
    let (concatenations, components) = (number(bytes, 0), number(bytes, 4));
    need(concatenations == number(image, 0), 0, "another number of concatenations")?;
    need(components <= number(image, 4), 4, "more components than the image")?;
    let tables = HEAD_SIZE as u64
        + CONCATENATION_SIZE as u64 * u64::from(concatenations)
        + COMPONENT_SIZE as u64 * u64::from(components);
    need(bytes.len() as u64 >= tables, bytes.len(), "shorter than its tables")?;
    let (tables, rest) = bytes.split_at(tables as usize);
    let check = Check { bytes: tables, literals: rest, text: text.unwrap_or_default().len() };
    check.head()?;
    check.concatenations(concatenations as usize, components)?;
    check.components(HEAD_SIZE + CONCATENATION_SIZE * concatenations as usize)
}

/// Head and tables, the literal block, the length of the image's text.
struct Check<'a> {
    bytes: &'a [u8],
    literals: &'a [u8],
    text: usize,
}

impl Check<'_> {
    fn number(&self, at: usize) -> u32 {
        number(self.bytes, at)
    }

    fn head(&self) -> Result<(), Fault> {
        self.flags(16, BOTH | VALUE_GIVEN)?;
        self.alignment(20)?;
        let given = self.number(16) & VALUE_GIVEN != 0;
        need(given || self.empty(24), 24, "an absent starting value with a text")?;
        self.text(24)
    }

    /// The entries, whose components add up to the head's.
    fn concatenations(&self, count: usize, components: u32) -> Result<(), Fault> {
        let mut left = components;
        for index in 0..count {
            let at = HEAD_SIZE + CONCATENATION_SIZE * index;
            need(self.number(at) > 0, at, "a concatenation without components")?;
            need(self.number(at) <= left, at, "more components than counted")?;
            left -= self.number(at);
            self.alignment(at + 4)?;
            self.flags(at + 8, BOTH)?;
        }
        need(left == 0, 4, "fewer components than counted")
    }

    /// The components from a place on, their literals one after the other.
    fn components(&self, from: usize) -> Result<(), Fault> {
        let mut literals = self.literals;
        for at in (from..self.bytes.len()).step_by(COMPONENT_SIZE) {
            literals = match self.number(at) {
                LITERAL => self.literal(at, literals)?,
                VARIABLE | FILLER => self.no_literal(at).map(|()| literals)?,
                _ => return Err(Fault { what: "an unknown kind", at }),
            };
            self.range(at)?;
        }
        let end = self.bytes.len() + self.literals.len() - literals.len();
        need(literals.is_empty(), end, "longer than its literals")
    }

    /// A literal's own fields and bytes; what is left of the block.
    fn literal<'a>(&self, at: usize, left: &'a [u8]) -> Result<&'a [u8], Fault> {
        need(self.empty(at + 4), at + 4, "a literal with a text")?;
        let width = self.number(at + 12);
        need(width > 0, at + 12, "a literal of no width")?;
        let offset = self.literals.len() - left.len();
        need(self.number(at + 16) as usize == offset, at + 16, "a literal at another place")?;
        let place = self.bytes.len() + offset;
        let bytes = width.div_ceil(8) as usize;
        need(left.len() >= bytes, place, "a literal cut off")?;
        let (literal, left) = left.split_at(bytes);
        let highest = literal.last().copied().unwrap_or(0);
        let spare = width % 8 != 0 && highest >> (width % 8) != 0;
        need(!spare, place + bytes - 1, "a spare bit that is set").map(|()| left)
    }

    /// A variable has a text, a filler none, neither has literal bytes.
    fn no_literal(&self, at: usize) -> Result<(), Fault> {
        self.text(at + 4)?;
        let filler = self.number(at) == FILLER;
        need(self.empty(at + 4) == filler, at + 4, "a variable without text or a filler with one")?;
        need(self.empty(at + 12), at + 12, "no literal, with literal bytes")
    }

    /// A component's start, its end, or zeros where there is none.
    fn range(&self, at: usize) -> Result<(), Fault> {
        self.text(at + 24)?;
        let (present, end) = (self.number(at + 20), at + 48);
        need(present < 2, at + 20, "an end neither present nor absent")?;
        let zeros = (end..at + COMPONENT_SIZE).step_by(8).all(|at| self.empty(at));
        need(present == 1 || zeros, end, "an absent end that is not zeros")?;
        self.text(end)
    }

    fn flags(&self, at: usize, known: u32) -> Result<(), Fault> {
        need(self.number(at) & !known == 0, at, "an unknown flag")
    }

    fn alignment(&self, at: usize) -> Result<(), Fault> {
        need((self.number(at) as usize) < Alignment::ALL.len(), at, "an unknown alignment")
    }

    /// Whether two numbers are 0, as those of an empty text.
    fn empty(&self, at: usize) -> bool {
        self.number(at) == 0 && self.number(at + 4) == 0
    }

    /// A text's start and length: 0, 0 where it is empty, else within the image's.
    fn text(&self, at: usize) -> Result<(), Fault> {
        let (start, length) = (self.number(at), self.number(at + 4));
        need(length > 0 || start == 0, at, "an empty text with a start")?;
        let end = u64::from(start) + u64::from(length);
        need(end <= self.text as u64, at, "a text outside the image's")
    }
}
