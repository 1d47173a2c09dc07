//! Tells the crate where the Rust sources stand. They are compiled in place,
//! by `include!`; no copy is kept here.

use std::{env, path::PathBuf};

const FILES: [&str; 7] = [
    "component.rs",
    "concatenation.rs",
    "errors.rs",
    "misc.rs",
    "ranges.rs",
    "token_stream.rs",
    "token_tree.rs",
];

fn main() {
    let here = PathBuf::from(env::var("CARGO_MANIFEST_DIR").unwrap());
    let named = env::var("LAYOUT_RUST_SRC").unwrap_or("../../shared/docs/src/src".to_owned());
    let folder = here.join(&named).canonicalize().unwrap_or_else(|e| {
        panic!("LAYOUT_RUST_SRC: no folder {named} seen from differential/: {e}")
    });
    println!("cargo:rerun-if-env-changed=LAYOUT_RUST_SRC");
    for file in FILES {
        println!("cargo:rerun-if-changed={}", folder.join(file).display());
    }
    println!("cargo:rustc-env=LAYOUT_RUST_SRC={}", folder.display());
}
