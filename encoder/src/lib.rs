//! Lines of text and their prepared images, and what a refusal of the run says
//! about the line. No foreign sources are needed.
//!
//! A line is written as in the Rust's macros: the most significant component
//! first, `,` between components, `;` between concatenations, a starting value
//! and its colon first. White space, newlines too, only parts tokens.
//!
//! Three marks are ours: `⟨ ... ⟩` is a Space group; `«...»` is one record of
//! just this text, with `\` and two hex digits for a byte; `⟦8:a5⟧` at a
//! component's end gives it a literal width and bits, highest byte first.

pub mod explain;
pub mod hints;
pub mod image;
pub mod listing;
pub mod show;

mod cells;
mod fault;
mod lexer;
mod line;
mod literal;
mod quotes;
mod slips;

pub use fault::Fault;
pub use lexer::{Placed, Token, tokens};
pub use line::{Line, encode, literal_of, read_line, tree_of};
pub use literal::read_literal;
