//! An input's fields by their places, for damaging it.

use std::ops::RangeInclusive;

use super::rng::Rng;
use crate::image::{COMPONENT_ENTRY, RECORD_ENTRY};

/// An input whose fields can be looked at and changed.
pub struct Edit {
    pub input: Vec<u8>,
}

/// The three fields of a record.
#[derive(Clone, Copy)]
pub enum Field {
    Kind = 0,
    Start = 1,
    Skip = 2,
}

impl Edit {
    /// Place of header field `i` in the input; the mode byte stands before.
    pub fn header(i: usize) -> usize {
        1 + 4 * i
    }

    pub fn get(&self, at: usize) -> usize {
        u32::from_le_bytes(self.input[at..at + 4].try_into().expect("four bytes")) as usize
    }

    pub fn set(&mut self, at: usize, value: usize) {
        self.input[at..at + 4].copy_from_slice(&(value as u32).to_le_bytes());
    }

    /// Entries of a table, counted as document 01 lists the tables.
    pub fn count(&self, table: usize) -> usize {
        self.get(Self::header(table))
    }

    /// Place of a table in the input.
    pub fn table(&self, table: usize) -> usize {
        1 + self.get(Self::header(5 + table))
    }

    /// Place of a component's number of records; its width stands 4 bytes on.
    pub fn component(&self, component: usize) -> usize {
        self.table(1) + COMPONENT_ENTRY * component
    }

    /// Place of a record's field.
    pub fn record(&self, record: usize, field: Field) -> usize {
        self.table(2) + RECORD_ENTRY * record + 4 * field as usize
    }

    /// Place of the first text byte of a record.
    pub fn text(&self, record: usize) -> usize {
        self.table(3) + self.get(self.record(record, Field::Start))
    }

    /// A record whose kind is among those asked for.
    pub fn find(&self, rng: &Rng, kinds: RangeInclusive<usize>) -> usize {
        let of_kind = |r: &usize| kinds.contains(&self.get(self.record(*r, Field::Kind)));
        let found: Vec<_> = (0..self.count(2)).filter(of_kind).collect();
        found[rng.below(found.len())]
    }
}
