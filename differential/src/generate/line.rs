//! A case under construction: mode, starting value, components as text.

use super::{rng::Rng, words};
use crate::text::encode;

#[derive(Clone, Default)]
pub struct Line {
    pub mode: u8,
    /// Starting value, without its colon.
    pub prefix: Option<String>,
    /// Concatenations of components, each the most significant first.
    pub concats: Vec<Vec<String>>,
}

impl Line {
    pub fn new(concats: Vec<Vec<String>>) -> Self {
        Self { concats, ..Self::default() }
    }

    /// A line given as text, in mode 0.
    pub fn of(concats: &[&[&str]]) -> Self {
        let owned = |comps: &&[&str]| comps.iter().map(|c| (*c).to_owned()).collect();
        Self::new(concats.iter().map(owned).collect())
    }

    pub fn mode(mut self, mode: usize) -> Self {
        self.mode = mode as u8;
        self
    }

    pub fn prefix(mut self, prefix: &str) -> Self {
        self.prefix = Some(prefix.to_owned());
        self
    }

    /// Mode 0, or a mode with a return type up to `most` and a starting value,
    /// so that fillers may stand in the source.
    pub fn any_mode(mut self, rng: &Rng, most: usize) -> Self {
        self.mode = rng.within(0, most) as u8;
        if self.prefix.is_none() && (self.mode > 0 || rng.chance(15)) {
            self.prefix = Some(prefix(rng));
        }
        self
    }

    pub fn text(&self) -> String {
        let concats: Vec<_> = self.concats.iter().map(|comps| comps.join(", ")).collect();
        let prefix = self.prefix.as_ref().map_or(String::new(), |p| format!("{p}: "));
        prefix + &concats.join("; ")
    }

    /// Mode byte and image.
    pub fn input(&self) -> Vec<u8> {
        let text = self.text();
        encode(self.mode, &text).unwrap_or_else(|e| panic!("no image of `{text}`: {e}"))
    }
}

/// A starting value without a lone colon.
pub fn prefix(rng: &Rng) -> String {
    rng.pick(&["zero", "umax", "a::b", "", "::x::y", "f(3)", "ноль", "x as u", "⟨z⟩"]).to_owned()
}

/// A component that no stage refuses by itself; literals only in the source.
pub fn harmless(rng: &Rng, source: bool) -> String {
    let w = rng.within(1, 20);
    match rng.below(8) {
        0 | 1 if source => words::literal(rng, w),
        2 if source => words::sliced_literal(rng, w),
        3 => words::range(rng, w as u128),
        4 => words::known_variable(rng, w as u128),
        _ => words::variable(rng),
    }
}

/// A component that only stage 2 refuses.
pub fn refused_by_stage2(rng: &Rng) -> String {
    rng.pick(&["q[5..3]", "q[4..4]", "1u8[9..]", "7..", "q[..=«-9»]"]).to_owned()
}

/// A component that stage 1 refuses.
pub fn refused_by_stage1(rng: &Rng) -> String {
    rng.pick(&["q[]", "q[...]", "9z", "..1..", "q[a b + 1..]"]).to_owned()
}

/// Puts a component that `stage` (1 or 2) refuses among harmless ones. Some
/// cases also hold components that are refused later: further on by the same
/// stage, or anywhere by the next.
pub fn among(rng: &Rng, stage: u8, bad: String) -> Line {
    let mut comps: Vec<_> = (0..rng.below(3)).map(|_| harmless(rng, true)).collect();
    if stage == 1 && rng.chance(20) {
        comps.push(refused_by_stage2(rng));
    }
    comps.push(bad);
    comps.extend((0..rng.below(2)).map(|_| harmless(rng, true)));
    if rng.chance(20) {
        let early = stage == 1 && rng.chance(50);
        comps.push(if early { refused_by_stage1(rng) } else { refused_by_stage2(rng) });
    }
    // so far in the order of testing, low components first; now as written
    let cut = rng.below(comps.len());
    let above = comps.split_off(cut);
    let mut concats = vec![comps, above];
    concats.retain(|comps| !comps.is_empty());
    concats.iter_mut().for_each(|comps| comps.reverse());
    Line { mode: rng.below(3) as u8, prefix: None, concats }
}
