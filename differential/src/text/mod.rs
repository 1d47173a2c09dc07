//! Images as a line of text: the crate `layout-line` in ../encoder makes an
//! image of a line (its lib.rs has the notation); here is the way back.

mod decode;

pub use decode::decode;
pub use layout_line::{encode, read_literal, tree_of};
