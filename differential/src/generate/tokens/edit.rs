//! Changes of a list, token by token.

use crate::{
    generate::Rng,
    tokens::{CLOSER, FIRST_OPENER, Lent, TOKEN},
};

pub trait Edit {
    /// How many whole tokens there are.
    fn count(&self) -> usize;
    fn token(&self, at: usize) -> [u32; 3];
    /// One of a token's three numbers.
    fn set(&mut self, at: usize, field: usize, number: u32);
    fn put(&mut self, at: usize, token: [u32; 3]);
    fn insert(&mut self, at: usize, token: [u32; 3]);
    fn remove(&mut self, at: usize);
    /// A token whose kind is such, if there is one.
    fn some(&self, rng: &Rng, such: impl Fn(u32) -> bool) -> Option<usize>;
    /// The places before, between and after the tokens where no group is open.
    fn tops(&self) -> Vec<usize>;
}

impl Edit for Lent {
    fn count(&self) -> usize {
        self.list.len() / TOKEN
    }

    fn token(&self, at: usize) -> [u32; 3] {
        self.tokens().nth(at).expect("a token")
    }

    fn set(&mut self, at: usize, field: usize, number: u32) {
        let at = TOKEN * at + 4 * field;
        self.list[at..at + 4].copy_from_slice(&number.to_le_bytes());
    }

    fn put(&mut self, at: usize, token: [u32; 3]) {
        (0..3).for_each(|field| self.set(at, field, token[field]));
    }

    fn insert(&mut self, at: usize, token: [u32; 3]) {
        let bytes = token.map(u32::to_le_bytes).concat();
        self.list.splice(TOKEN * at..TOKEN * at, bytes);
    }

    fn remove(&mut self, at: usize) {
        self.list.drain(TOKEN * at..TOKEN * (at + 1));
    }

    fn some(&self, rng: &Rng, such: impl Fn(u32) -> bool) -> Option<usize> {
        let tokens = self.tokens().enumerate();
        let all: Vec<usize> = tokens.filter(|(_, t)| such(t[0])).map(|(at, _)| at).collect();
        (!all.is_empty()).then(|| all[rng.below(all.len())])
    }

    fn tops(&self) -> Vec<usize> {
        let (mut depth, mut tops) = (0, vec![0]);
        for (at, [kind, ..]) in self.tokens().enumerate() {
            match kind {
                CLOSER => depth -= 1,
                FIRST_OPENER..CLOSER => depth += 1,
                _ => (),
            }
            if depth == 0 {
                tops.push(at + 1);
            }
        }
        tops
    }
}
