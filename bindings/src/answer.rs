//! An answer, read back as docs/FORMAT.md lays it out: its concatenations, their
//! components, texts as parts of the image's text. Nothing is copied.
//!
//! Every reader here is total: where bytes are missing a number is 0 and a text
//! is empty. `Answer::read` has seen to it that none are.

use core::{fmt, iter::FusedIterator, ops::Range};

use crate::{
    check,
    fields::{
        entry, number, width, Alignment, Bound, Component, Kind, DETERMINISTIC, LITERAL, NONZERO,
        VALUE_GIVEN, VARIABLE,
    },
    Fault, COMPONENT_SIZE, CONCATENATION_SIZE, HEAD_SIZE,
};

/// The header's numbers of an image that an answer needs: the text's length and
/// where it stands.
const TEXT_LENGTH: usize = 12;
const TEXT_OFFSET: usize = 32;

/// An answer and the text of its image. Two are equal when all their fields
/// are, texts as bytes: so the answers to a line and to the line with a literal
/// cut in pieces are equal, though their texts stand at other places.
#[derive(Clone, Copy)]
pub struct Answer<'a> {
    bytes: &'a [u8],
    text: &'a [u8],
}

impl<'a> Answer<'a> {
    /// The answer that stands in these bytes, to this image. Every byte of it is
    /// looked at: the answer has just the length that its counts give, absent
    /// parts are zeros, texts lie in the image's text, literals stand one after
    /// the other. Of the image, only its header and its text are.
    pub fn read(answer: &'a [u8], image: &'a [u8]) -> Result<Self, Fault> {
        check::answer(answer, image)?;
        Ok(Self::unchecked(answer, image))
    }

    /// The same without a look at anything, for what the run has just left.
    pub(crate) fn unchecked(bytes: &'a [u8], image: &'a [u8]) -> Self {
        Self { bytes, text: image_text(image).unwrap_or_default() }
    }

    /// The common width of all concatenations, if it is known.
    pub fn width(&self) -> Option<u64> {
        width(self.bytes, 8)
    }

    pub fn alignment(&self) -> Alignment {
        Alignment::of(number(self.bytes, 20))
    }

    pub fn deterministic(&self) -> bool {
        self.flag(DETERMINISTIC)
    }

    pub fn nonzero(&self) -> bool {
        self.flag(NONZERO)
    }

    /// The text of the line's own starting value, if it has one. A default is no
    /// part of an answer: `answer_with` tells which of the two is in force.
    pub fn starting_value(&self) -> Option<&'a [u8]> {
        self.flag(VALUE_GIVEN).then(|| self.text_at(self.bytes, 24))
    }

    /// The concatenations, in the order of the line: the source first.
    pub fn concatenations(&self) -> Concatenations<'a> {
        Concatenations { answer: *self, indices: 0..number(self.bytes, 0) as usize, first: 0 }
    }

    /// The components of all concatenations, the lowest of each first.
    pub fn components(&self) -> Components<'a> {
        Components { answer: *self, indices: 0..number(self.bytes, 4) as usize }
    }

    fn flag(&self, flag: u32) -> bool {
        number(self.bytes, 16) & flag != 0
    }

    /// Where component `index` stands.
    fn component_at(&self, index: usize) -> usize {
        let concatenations = number(self.bytes, 0) as usize;
        HEAD_SIZE + CONCATENATION_SIZE * concatenations + COMPONENT_SIZE * index
    }

    fn component(&self, index: usize) -> Component<'a> {
        let entry = entry(self.bytes, self.component_at(index), COMPONENT_SIZE);
        let kind = match number(entry, 0) {
            LITERAL => {
                let width = number(entry, 12);
                Kind::Literal { width, bytes: self.literal(number(entry, 16) as usize, width) }
            }
            VARIABLE => Kind::Variable(self.text_at(entry, 4)),
            _ => Kind::Filler,
        };
        let end = (number(entry, 20) != 0).then(|| self.bound(entry, 48));
        Component { kind, start: self.bound(entry, 24), end }
    }

    fn literal(&self, offset: usize, width: u32) -> &'a [u8] {
        let block = self.component_at(number(self.bytes, 4) as usize);
        entry(self.bytes, block + offset, width.div_ceil(8) as usize)
    }

    fn bound(&self, entry: &'a [u8], at: usize) -> Bound<'a> {
        let x = entry.get(at + 8..).and_then(<[u8]>::first_chunk);
        Bound { text: self.text_at(entry, at), x: x.map_or(0, |x| i128::from_le_bytes(*x)) }
    }

    /// The bytes that a start and a length name.
    fn text_at(&self, bytes: &[u8], at: usize) -> &'a [u8] {
        entry(self.text, number(bytes, at) as usize, number(bytes, at + 4) as usize)
    }
}

/// The text of an image, if it lies within it.
pub(crate) fn image_text(image: &[u8]) -> Option<&[u8]> {
    let (offset, length) = (number(image, TEXT_OFFSET), number(image, TEXT_LENGTH));
    image.get(offset as usize..)?.get(..length as usize)
}

impl PartialEq for Answer<'_> {
    fn eq(&self, other: &Self) -> bool {
        self.width() == other.width()
            && self.alignment() == other.alignment()
            && self.deterministic() == other.deterministic()
            && self.nonzero() == other.nonzero()
            && self.starting_value() == other.starting_value()
            && self.concatenations().eq(other.concatenations())
    }
}

impl Eq for Answer<'_> {}

impl fmt::Debug for Answer<'_> {
    fn fmt(&self, f: &mut fmt::Formatter<'_>) -> fmt::Result {
        f.debug_struct("Answer")
            .field("width", &self.width())
            .field("alignment", &self.alignment())
            .field("deterministic", &self.deterministic())
            .field("nonzero", &self.nonzero())
            .field("starting_value", &self.starting_value())
            .finish_non_exhaustive()
    }
}

/// One concatenation. Two are equal when all their fields and components are.
#[derive(Clone, Copy)]
pub struct Concatenation<'a> {
    answer: Answer<'a>,
    entry: &'a [u8],
    first: usize,
}

impl<'a> Concatenation<'a> {
    /// Its static width, if it is known.
    pub fn width(&self) -> Option<u64> {
        width(self.entry, 12)
    }

    pub fn alignment(&self) -> Alignment {
        Alignment::of(number(self.entry, 4))
    }

    pub fn deterministic(&self) -> bool {
        number(self.entry, 8) & DETERMINISTIC != 0
    }

    pub fn nonzero(&self) -> bool {
        number(self.entry, 8) & NONZERO != 0
    }

    /// Its components, the lowest first; `rev` gives them as a line has them.
    pub fn components(&self) -> Components<'a> {
        let end = self.first.saturating_add(number(self.entry, 0) as usize);
        Components { answer: self.answer, indices: self.first..end }
    }
}

impl PartialEq for Concatenation<'_> {
    fn eq(&self, other: &Self) -> bool {
        self.width() == other.width()
            && self.alignment() == other.alignment()
            && self.deterministic() == other.deterministic()
            && self.nonzero() == other.nonzero()
            && self.components().eq(other.components())
    }
}

impl Eq for Concatenation<'_> {}

impl fmt::Debug for Concatenation<'_> {
    fn fmt(&self, f: &mut fmt::Formatter<'_>) -> fmt::Result {
        f.debug_struct("Concatenation")
            .field("width", &self.width())
            .field("alignment", &self.alignment())
            .field("deterministic", &self.deterministic())
            .field("nonzero", &self.nonzero())
            .finish_non_exhaustive()
    }
}

/// The concatenations of an answer.
#[derive(Debug, Clone)]
pub struct Concatenations<'a> {
    answer: Answer<'a>,
    indices: Range<usize>,
    /// The first component of the next one.
    first: usize,
}

impl<'a> Iterator for Concatenations<'a> {
    type Item = Concatenation<'a>;

    fn next(&mut self) -> Option<Self::Item> {
        let at = HEAD_SIZE + CONCATENATION_SIZE * self.indices.next()?;
        let (answer, first) = (self.answer, self.first);
        let entry = entry(answer.bytes, at, CONCATENATION_SIZE);
        self.first = first.saturating_add(number(entry, 0) as usize);
        Some(Concatenation { answer, entry, first })
    }

    fn size_hint(&self) -> (usize, Option<usize>) {
        self.indices.size_hint()
    }
}

impl ExactSizeIterator for Concatenations<'_> {}
impl FusedIterator for Concatenations<'_> {}

/// The components of a concatenation or of a whole answer.
#[derive(Debug, Clone)]
pub struct Components<'a> {
    answer: Answer<'a>,
    indices: Range<usize>,
}

impl<'a> Iterator for Components<'a> {
    type Item = Component<'a>;

    fn next(&mut self) -> Option<Self::Item> {
        self.indices.next().map(|index| self.answer.component(index))
    }

    fn size_hint(&self) -> (usize, Option<usize>) {
        self.indices.size_hint()
    }
}

impl DoubleEndedIterator for Components<'_> {
    fn next_back(&mut self) -> Option<Self::Item> {
        self.indices.next_back().map(|index| self.answer.component(index))
    }
}

impl ExactSizeIterator for Components<'_> {}
impl FusedIterator for Components<'_> {}
