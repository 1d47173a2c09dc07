//! Says where the static library is: in the folder that `LAYOUT_LIB_DIR` names,
//! seen from here, or where `rt lib` in crates/layout_c writes it.

use std::{env, path::PathBuf};

fn main() {
    println!("cargo::rerun-if-changed=build.rs");
    if env::var_os("CARGO_FEATURE_LIBRARY").is_none() {
        return;
    }
    println!("cargo::rerun-if-env-changed=LAYOUT_LIB_DIR");
    let here = PathBuf::from(env::var_os("CARGO_MANIFEST_DIR").unwrap_or_default());
    let named = env::var_os("LAYOUT_LIB_DIR").unwrap_or("../crates/layout_c/out".into());
    let folder = here.join(named);
    let library = folder.join("liblayout_c.a");
    println!("cargo::rerun-if-changed={}", library.display());
    if !library.is_file() {
        println!("cargo::error=there is no {}", library.display());
        println!(
            "cargo::error=run `rt lib` in the repository's folder crates/layout_c, or name in \
             LAYOUT_LIB_DIR the folder that has liblayout_c.a; the reader of answers and the \
             words need no library (default-features = false)"
        );
        return;
    }
    println!("cargo::rustc-link-search=native={}", folder.display());
    println!("cargo::rustc-link-lib=static=layout_c");
}
