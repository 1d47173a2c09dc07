//! Links our run: `liblayout_c.a`, which `rt lib` in crates/layout_c writes.

use std::{env, path::PathBuf};

fn main() {
    let here = PathBuf::from(env::var("CARGO_MANIFEST_DIR").unwrap());
    let named = env::var("LAYOUT_STATICLIB").unwrap_or("../../crates/layout_c/out".to_owned());
    let folder = here.join(&named).canonicalize().unwrap_or_else(|e| {
        panic!("LAYOUT_STATICLIB: no folder {named} seen from differential/compare/: {e}")
    });
    println!("cargo:rerun-if-env-changed=LAYOUT_STATICLIB");
    println!("cargo:rerun-if-changed={}", folder.join("liblayout_c.a").display());
    println!("cargo:rustc-link-search=native={}", folder.display());
    println!("cargo:rustc-link-lib=static=layout_c");
}
