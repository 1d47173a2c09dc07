//! What the tests share: the cases that the unchanged Rust answered, and worked
//! examples.
#![allow(dead_code)]

pub mod examples;

/// differential/README.md, "The files of `replay`".
const RUNS: &[u8] = include_bytes!("../../../crates/run_replay/data/runs");
const CUTS: &[u8] = include_bytes!("../../../crates/run_replay/data/cuts");

/// An input (mode byte and image), the area's length, the listing.
pub struct Case {
    pub mode: u32,
    pub image: &'static [u8],
    pub area: usize,
    pub listing: &'static str,
}

impl Case {
    fn new(input: &'static [u8], area: usize, listing: &'static [u8]) -> Self {
        let listing = std::str::from_utf8(listing).expect("a listing");
        Self { mode: u32::from(input[0]), image: &input[1..], area, listing }
    }

    pub fn accepted(&self) -> bool {
        self.listing.starts_with("layout ")
    }
}

/// Takes three numbers from the front of a file.
fn three(file: &mut &'static [u8]) -> [usize; 3] {
    [0, 1, 2].map(|_| {
        let (number, rest) = file.split_first_chunk().expect("a whole entry");
        *file = rest;
        u32::from_le_bytes(*number) as usize
    })
}

fn part(file: &mut &'static [u8], length: usize) -> &'static [u8] {
    let (part, rest) = file.split_at(length);
    *file = rest;
    part
}

/// All runs, and both inputs of each cut pair over an area for any image.
pub fn cases() -> Vec<Case> {
    let (mut runs, mut cuts, mut all) = (RUNS, CUTS, vec![]);
    while !runs.is_empty() {
        let [input, area, listing] = three(&mut runs);
        let input = part(&mut runs, input);
        all.push(Case::new(input, area, part(&mut runs, listing)));
    }
    while !cuts.is_empty() {
        let [whole, cut, listing] = three(&mut cuts);
        let inputs = [part(&mut cuts, whole), part(&mut cuts, cut)];
        let listing = part(&mut cuts, listing);
        all.extend(inputs.map(|input| Case::new(input, layout_reader::ANY_AREA, listing)));
    }
    all
}
