//! Our run, as crates/layout_c exports it.

use std::ptr;

use layout_rust::refusal::Refusal;

unsafe extern "C" {
    /// Below 2^32 the answer's length, else number·2^32 + concatenation·2^16 +
    /// component of a refusal.
    safe fn layout_run(
        image: *const u8,
        image_len: usize,
        mode: u32,
        area: *mut u8,
        area_len: usize,
    ) -> u64;

    /// The same under a default. What is told: 0 after a refusal, 2^63 where
    /// the whole default is in force, else place·2^32 + length in the image.
    safe fn layout_run_with(
        image: *const u8,
        image_len: usize,
        mode: u32,
        start: *const u8,
        start_len: usize,
        area: *mut u8,
        area_len: usize,
        told: *mut u64,
    ) -> u64;

    /// Below 2^32 the written image's length, else number·2^32.
    safe fn layout_tokens(
        list: *const u8,
        list_len: usize,
        text: *const u8,
        text_len: usize,
        area: *mut u8,
        area_len: usize,
    ) -> u64;
}

/// The whole run, its answer still as one number.
pub fn coded(image: &[u8], mode: u32, area: &mut [u8]) -> u64 {
    layout_run(image.as_ptr(), image.len(), mode, area.as_mut_ptr(), area.len())
}

/// Nothing is lent by a null pointer, which must not be looked at.
fn null_if_empty(bytes: &[u8]) -> *const u8 {
    if bytes.is_empty() { ptr::null() } else { bytes.as_ptr() }
}

/// The run under a default.
pub fn coded_with(image: &[u8], mode: u32, default: &[u8], area: &mut [u8], told: &mut u64) -> u64 {
    layout_run_with(
        image.as_ptr(),
        image.len(),
        mode,
        null_if_empty(default),
        default.len(),
        area.as_mut_ptr(),
        area.len(),
        told,
    )
}

/// A list of tokens with its text.
pub fn coded_tokens(list: &[u8], text: &[u8], area: &mut [u8]) -> u64 {
    let (list_at, text_at) = (null_if_empty(list), null_if_empty(text));
    layout_tokens(list_at, list.len(), text_at, text.len(), area.as_mut_ptr(), area.len())
}

/// The answer's length or the refusal that a number stands for.
pub fn decoded(code: u64) -> Result<usize, Refusal> {
    let part = |shift: u32, bits: u32| (code >> shift & ((1 << bits) - 1)) as usize;
    match code >> 32 {
        0 => Ok(part(0, 32)),
        _ => Err(Refusal { number: (code >> 32) as u32, places: (part(16, 16), part(0, 16)) }),
    }
}
