//! What the encoder itself refuses: words, and the places in the text.

use std::{error::Error, fmt, ops::Range};

/// Why a text has no image. It has no number: numbers are the run's.
#[derive(Debug, Clone, PartialEq, Eq)]
pub struct Fault {
    pub words: String,
    /// Byte ranges of the text, in order; none where all of it is meant.
    pub places: Vec<Range<usize>>,
}

impl Fault {
    pub fn at(place: Range<usize>, words: impl Into<String>) -> Self {
        Self { words: words.into(), places: vec![place] }
    }

    pub fn between(first: Range<usize>, second: Range<usize>, words: impl Into<String>) -> Self {
        Self { words: words.into(), places: vec![first, second] }
    }
}

impl fmt::Display for Fault {
    fn fmt(&self, f: &mut fmt::Formatter<'_>) -> fmt::Result {
        f.write_str(&self.words)
    }
}

impl Error for Fault {}
