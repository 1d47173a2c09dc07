//! How deep our run's stack goes: a thread's stack is painted below the call,
//! and looked at afterwards.

use std::{
    hint::black_box,
    ptr::{read_volatile, write_volatile},
    thread,
};

use layout_compare::ours;

/// An image, a mode, the length of the area.
#[derive(Clone)]
pub struct Call {
    pub image: Vec<u8>,
    pub mode: u32,
    pub area: usize,
}

/// The thread's stack, and how much of it is painted.
const STACK: usize = 1 << 20;
const PAINTED: usize = 1 << 18;

/// Bytes next to the caller that are not painted: its own frame.
const BESIDE: usize = 192;

const PAINT: u64 = 0xa5c3_96e1_5a3c_691e;

/// The most bytes that any of the calls uses.
pub fn used(calls: &[Call]) -> usize {
    let calls = calls.to_vec();
    let most = move || calls.iter().map(measured).max().unwrap_or(0);
    let thread = thread::Builder::new().stack_size(STACK).spawn(most);
    thread.expect("a thread").join().expect("a run that ends")
}

/// Paints, runs, looks for the lowest word that lost its paint.
#[inline(never)]
fn measured(call: &Call) -> usize {
    let mut area = vec![0; call.area];
    let mark = black_box(0u64);
    let top = (&raw const mark as usize - BESIDE) & !7;
    let word = |i: usize| (top - PAINTED + 8 * i) as *mut u64;
    // SAFETY: the words lie below this frame, in the thread's own stack, where
    // nothing lives; no call is made between painting and the run.
    for i in 0..PAINTED / 8 {
        unsafe { write_volatile(word(i), PAINT) };
    }
    black_box(ours::coded(&call.image, call.mode, &mut area));
    for i in 0..PAINTED / 8 {
        // SAFETY: as above
        if unsafe { read_volatile(word(i)) } != PAINT {
            return PAINTED - 8 * i + BESIDE;
        }
    }
    black_box(mark) as usize + BESIDE
}
