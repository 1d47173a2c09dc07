//! What an answer is made of: alignments, bounds, kinds, components, and the
//! reading of numbers.

use core::fmt;

pub(crate) const LITERAL: u32 = 1;
pub(crate) const VARIABLE: u32 = 2;
pub(crate) const FILLER: u32 = 3;

/// Flags of the head and of a concatenation; a starting value is given in the
/// head alone.
pub(crate) const DETERMINISTIC: u32 = 1;
pub(crate) const NONZERO: u32 = 2;
pub(crate) const VALUE_GIVEN: u32 = 4;

/// Where the unbounded filler of a concatenation stands (a filler without an
/// end), or what the concatenations say of it together.
#[derive(Debug, Clone, Copy, PartialEq, Eq, Hash)]
pub enum Alignment {
    /// There is none; of a whole answer, some concatenation has none.
    None,
    /// It is the only component.
    Single,
    /// It is the lowest component.
    Lsb,
    /// It is the highest component.
    Msb,
    /// It stands between others.
    Mid,
    /// Of a whole answer alone: the concatenations differ. None that is accepted
    /// has it.
    Multiple,
}

impl Alignment {
    /// In the order of their numbers, 0 to 5.
    pub const ALL: [Self; 6] =
        [Self::None, Self::Single, Self::Lsb, Self::Msb, Self::Mid, Self::Multiple];

    /// Its word in a listing.
    pub fn word(self) -> &'static str {
        ["none", "single", "lsb", "msb", "mid", "multiple"][self as usize]
    }

    pub(crate) fn of(number: u32) -> Self {
        Self::ALL.get(number as usize).copied().unwrap_or(Self::None)
    }
}

impl fmt::Display for Alignment {
    fn fmt(&self, f: &mut fmt::Formatter<'_>) -> fmt::Result {
        f.write_str(self.word())
    }
}

/// A text, which may be empty, plus a number.
#[derive(Debug, Clone, Copy, PartialEq, Eq, Hash)]
pub struct Bound<'a> {
    pub text: &'a [u8],
    pub x: i128,
}

#[derive(Debug, Clone, Copy, PartialEq, Eq, Hash)]
pub enum Kind<'a> {
    /// Width in bits; the bytes, the lowest first, spare high bits 0.
    Literal {
        width: u32,
        bytes: &'a [u8],
    },
    Variable(&'a [u8]),
    Filler,
}

/// One component after merging. Two are equal when all their fields are, texts
/// as bytes.
#[derive(Debug, Clone, Copy, PartialEq, Eq, Hash)]
pub struct Component<'a> {
    pub(crate) kind: Kind<'a>,
    pub(crate) start: Bound<'a>,
    pub(crate) end: Option<Bound<'a>>,
}

impl<'a> Component<'a> {
    pub fn kind(&self) -> Kind<'a> {
        self.kind
    }

    pub fn start(&self) -> Bound<'a> {
        self.start
    }

    /// Nothing where the range has no end.
    pub fn end(&self) -> Option<Bound<'a>> {
        self.end
    }
}

/// A number of four bytes, 0 where they are not all there.
pub(crate) fn number(bytes: &[u8], at: usize) -> u32 {
    bytes.get(at..).and_then(<[u8]>::first_chunk).map_or(0, |four| u32::from_le_bytes(*four))
}

/// A width, 0 for none.
pub(crate) fn width(bytes: &[u8], at: usize) -> Option<u64> {
    let width = u64::from(number(bytes, at)) | u64::from(number(bytes, at + 4)) << 32;
    (width > 0).then_some(width)
}

/// An entry of a table, empty where it is not all there.
pub(crate) fn entry(bytes: &[u8], at: usize, size: usize) -> &[u8] {
    bytes.get(at..).and_then(|rest| rest.get(..size)).unwrap_or_default()
}
