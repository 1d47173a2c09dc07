//! The unchanged stages of the layout crate, run on prepared images.
//!
//! The first block compiles the Rust sources where they stand; they name each
//! other through the crate root, hence the re-exports. All else is ours:
//! document 01's image check, the way from an image to the sources' `Ast`,
//! the way from their errors to numbers and places, and the listing.

/// One module that holds one unchanged source file.
macro_rules! unchanged {
    ($($module:ident $file:literal)*) => {$(
        #[allow(clippy::all)]
        mod $module {
            include!(concat!(env!("LAYOUT_RUST_SRC"), $file));
        }
        pub use $module::*;
    )*};
}

unchanged! {
    component "/component.rs"
    concatenation "/concatenation.rs"
    errors "/errors.rs"
    misc "/misc.rs"
    ranges "/ranges.rs"
    token_stream "/token_stream.rs"
    token_tree "/token_tree.rs"
}

pub mod ast;
pub mod check;
pub mod generate;
pub mod leaves;
pub mod listing;
pub mod refusal;
pub mod replay;
pub mod run;
pub mod stats;
pub mod text;
pub mod tokens;
pub mod with_default;

/// The tree of an image and its writer, which the encoder of lines shares.
pub use layout_line::image;
/// An answer of our run, which looks at every byte of it, displayed as its listing.
pub use layout_reader::{Answer, area_needed};
