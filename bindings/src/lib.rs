#![cfg_attr(feature = "library", doc = include_str!("../README.md"))]
#![cfg_attr(
    not(feature = "library"),
    doc = "The layout reader's answers, tokens and words, without the run itself."
)]
#![no_std]

mod answer;
mod check;
mod fields;
#[cfg(feature = "library")]
mod library;
mod listing;
mod token;
mod words;

use core::{error::Error, fmt};

pub use answer::{Answer, Components, Concatenation, Concatenations};
pub use check::Fault;
pub use fields::{Alignment, Bound, Component, Kind};
#[cfg(feature = "library")]
pub use library::{answer, answer_with, check, listing, run, run_with, tokens};
pub use token::{Token, TokenKind};
pub use words::{words, WORDS};

/// The answer area in bytes: its head, each concatenation, each component.
pub const HEAD_SIZE: usize = 32;
pub const CONCATENATION_SIZE: usize = 20;
pub const COMPONENT_SIZE: usize = 72;

/// A length of area that is enough for any image.
pub const ANY_AREA: usize = area_needed(16, 256, 8_192);

/// A length of buffer that is enough for any listing.
pub const ANY_LISTING: usize = 140_577;

/// A token's bytes in a list.
pub const TOKEN_SIZE: usize = 12;

/// The length of the longest image, and so of an area that is enough for the
/// image of any tokens.
pub const ANY_IMAGE: usize = 51_304;

/// The stack in bytes that `run` and `run_with` (and so `answer` and
/// `answer_with`), `listing`, `check` and `tokens` take below their caller's
/// frame: measured, not proved, and rounded up. The area and the buffer that are
/// lent come on top, if they stand on the stack too.
pub const RUN_STACK: usize = 32_768;
pub const LISTING_STACK: usize = 65_536;
pub const CHECK_STACK: usize = 8_192;
pub const TOKENS_STACK: usize = 1_024;

/// The length of area that an image with these counts asks for; a shorter one
/// is refused with number 8.
pub const fn area_needed(concatenations: usize, components: usize, literal_bytes: usize) -> usize {
    HEAD_SIZE + CONCATENATION_SIZE * concatenations + COMPONENT_SIZE * components + literal_bytes
}

/// Why an image, or a list of tokens, was refused: a number, and the
/// concatenation and component that it is about, counted from 0 (0 where there
/// is none).
///
/// It is displayed as the program prints it, `refused 25 0 1`; `words` says
/// what the number means.
#[derive(Debug, Clone, Copy, PartialEq, Eq, Hash)]
pub struct Refusal {
    pub number: u32,
    pub concatenation: u32,
    pub component: u32,
}

impl Refusal {
    /// What the number says, in plain words.
    pub fn words(&self) -> &'static str {
        words(self.number)
    }
}

impl fmt::Display for Refusal {
    fn fmt(&self, f: &mut fmt::Formatter<'_>) -> fmt::Result {
        let Self { number, concatenation, component } = self;
        write!(f, "refused {number} {concatenation} {component}")
    }
}

impl Error for Refusal {}
