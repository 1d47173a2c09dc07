//! Our run in this process, and what is lent to it.

pub mod lent;
pub mod ours;
