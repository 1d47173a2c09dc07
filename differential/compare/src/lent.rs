//! An image, an area and a default between guard bytes, lent to our run, and
//! what is found in them afterwards; so also a list of tokens and its text.

use layout_rust::{
    area_needed,
    image::{MAX_COMPONENTS, MAX_CONCATENATIONS, MAX_LITERAL_BYTES},
};

use crate::ours;

/// Guard bytes on each side.
const GUARD: usize = 64;

/// As long as anything that is lent, with its guards.
const LONGEST: usize = 1 << 18;

/// Stands where something is to be told, and on each side of it. No run tells
/// this number: no image has so many bytes.
const UNTOLD: u64 = 0x5ac3_96e1_5a3c_691e;

/// An area that is long enough for every image.
pub fn largest_area() -> usize {
    area_needed(MAX_CONCATENATIONS, MAX_COMPONENTS, MAX_LITERAL_BYTES)
}

/// The area that an image with a whole header asks for.
pub fn needed(image: &[u8]) -> usize {
    let count = |i: usize| {
        u32::from_le_bytes(image[4 * i..4 * i + 4].try_into().expect("four bytes")) as usize
    };
    area_needed(count(0), count(1), count(4))
}

/// Bytes between two guards. All that is not the middle holds the pattern.
struct Guarded {
    bytes: Vec<u8>,
    middle: usize,
}

impl Guarded {
    /// Takes a middle of this length, filled with the pattern like all else.
    fn take(&mut self, pattern: &[u8], middle: usize) -> &mut [u8] {
        let used = GUARD + self.middle.max(middle) + GUARD;
        self.bytes[..used].copy_from_slice(&pattern[..used]);
        self.middle = middle;
        self.middle_mut()
    }

    fn middle(&self) -> &[u8] {
        &self.bytes[GUARD..GUARD + self.middle]
    }

    fn middle_mut(&mut self) -> &mut [u8] {
        &mut self.bytes[GUARD..GUARD + self.middle]
    }

    /// Whether the guards, and the middle from a place on, hold the pattern.
    fn as_lent_from(&self, pattern: &[u8], from: usize) -> bool {
        let same = |from: usize, to: usize| self.bytes[from..to] == pattern[from..to];
        same(0, GUARD) && same(GUARD + from, GUARD + self.middle + GUARD)
    }
}

/// Lends images, areas and defaults, again and again the same bytes.
pub struct Lender {
    pattern: Vec<u8>,
    image: Guarded,
    area: Guarded,
    default: Guarded,
}

/// What our run did: its code, the answer where it wrote one, and what a run
/// under a default told.
pub struct Done<'a> {
    pub code: u64,
    pub answer: &'a [u8],
    pub told: Option<u64>,
}

impl Default for Lender {
    fn default() -> Self {
        // of no period that a table of the image or of the answer has
        let byte = |i: usize| ((i * i * 31 + i * 167 + 89) >> 3) as u8;
        let pattern: Vec<u8> = (0..LONGEST).map(byte).collect();
        let guarded = || Guarded { bytes: pattern.clone(), middle: 0 };
        Self { image: guarded(), area: guarded(), default: guarded(), pattern }
    }
}

impl Lender {
    /// Runs ours on an image, an area of this length, and a default if one is
    /// given. An error names what was changed and should be as lent: the image,
    /// the default, a guard, the area after a refusal, the bytes beyond an
    /// answer.
    pub fn run(
        &mut self,
        image: &[u8],
        mode: u32,
        default: Option<&[u8]>,
        area: usize,
    ) -> Result<Done<'_>, &'static str> {
        self.image.take(&self.pattern, image.len()).copy_from_slice(image);
        self.area.take(&self.pattern, area);
        let (code, told) = match default {
            None => (ours::coded(self.image.middle(), mode, self.area.middle_mut()), None),
            Some(default) => {
                let (code, told) = self.under(mode, default)?;
                (code, Some(told))
            }
        };
        let Self { pattern, image: lent, area: into, .. } = self;
        let written = ours::decoded(code).unwrap_or(0);
        if lent.middle() != image || !lent.as_lent_from(pattern, image.len()) {
            return Err("the image or its guards were changed");
        }
        if written > area {
            return Err("an answer longer than its area");
        }
        if !into.as_lent_from(pattern, written) {
            return Err("the area beyond the answer, or its guards, were changed");
        }
        Ok(Done { code, answer: &into.middle()[..written], told })
    }

    /// Lends a list, its text and an area of this length. The code, and the
    /// image where one was written; an error as that of a run.
    pub fn tokens(
        &mut self,
        list: &[u8],
        text: &[u8],
        area: usize,
    ) -> Result<(u64, &[u8]), &'static str> {
        let Self { pattern, image: lent_list, default: lent_text, area: into } = self;
        lent_list.take(pattern, list.len()).copy_from_slice(list);
        lent_text.take(pattern, text.len()).copy_from_slice(text);
        into.take(pattern, area);
        let code = ours::coded_tokens(lent_list.middle(), lent_text.middle(), into.middle_mut());
        let written = ours::decoded(code).unwrap_or(0);
        for (lent, bytes) in [(lent_list, list), (lent_text, text)] {
            if lent.middle() != bytes || !lent.as_lent_from(pattern, bytes.len()) {
                return Err("the list, the text or their guards were changed");
            }
        }
        if written > area {
            return Err("an image longer than its area");
        }
        if !into.as_lent_from(pattern, written) {
            return Err("the area beyond the image, or its guards, were changed");
        }
        Ok((code, &into.middle()[..written]))
    }

    /// The run under a default: its code, and what it told.
    fn under(&mut self, mode: u32, default: &[u8]) -> Result<(u64, u64), &'static str> {
        let Self { pattern, image, area, default: lent } = self;
        lent.take(pattern, default.len()).copy_from_slice(default);
        let mut told = [UNTOLD; 3];
        let code =
            ours::coded_with(image.middle(), mode, lent.middle(), area.middle_mut(), &mut told[1]);
        if lent.middle() != default || !lent.as_lent_from(pattern, default.len()) {
            return Err("the default or its guards were changed");
        }
        match told {
            [_, UNTOLD, _] => Err("nothing was told"),
            [UNTOLD, told, UNTOLD] => Ok((code, told)),
            _ => Err("more than one number was told"),
        }
    }
}
