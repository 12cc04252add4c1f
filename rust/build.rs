//! Links `libghindulza.a`: from `GHINDULZA_LIB_DIR` if that is set, otherwise
//! from `../target/staticlib` beside this crate.

use std::{env, path::PathBuf};

fn main() {
    println!("cargo::rerun-if-env-changed=GHINDULZA_LIB_DIR");
    let directory = match env::var_os("GHINDULZA_LIB_DIR") {
        Some(directory) => PathBuf::from(directory),
        None => PathBuf::from(env::var_os("CARGO_MANIFEST_DIR").expect("set by cargo"))
            .join("../target/staticlib"),
    };
    let library = directory.join("libghindulza.a");
    println!("cargo::rerun-if-changed={}", library.display());
    if !library.exists() {
        println!("cargo::warning={} is not there yet: build it first", library.display());
    }
    println!("cargo::rustc-link-search=native={}", directory.display());
    println!("cargo::rustc-link-lib=static=ghindulza");
}
