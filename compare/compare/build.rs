//! Links the proved library where it has been made. A library without a function that it has to have
//! stops the build, and so does a name after COFFERDRIFT_LIB that is no file's.

#[path = "src/exports.rs"]
mod exports;

use std::path::{Path, PathBuf};
use std::{env, fs};

/// From the crate's folder.
const DEFAULT_LIBRARY: &str = "../../crates/c_api/out/libc_api.a";

fn main() {
    println!("cargo::rerun-if-changed=build.rs");
    println!("cargo::rerun-if-changed=src/exports.rs");
    println!("cargo::rerun-if-env-changed=COFFERDRIFT_LIB");
    println!("cargo::rustc-check-cfg=cfg(ours_present)");
    for act in exports::acts() {
        println!("cargo::rustc-check-cfg=cfg(ours_{act})");
    }
    let asked = env::var("COFFERDRIFT_LIB").ok().filter(|file| !file.is_empty());
    let base = PathBuf::from(env::var("CARGO_MANIFEST_DIR").expect("cargo names the folder"));
    let library = base.join(asked.as_deref().unwrap_or(DEFAULT_LIBRARY));
    println!("cargo::rerun-if-changed={}", library.display());
    println!("cargo::rustc-env=COFFERDRIFT_LIB_ASKED={}", library.display());
    match fs::read(&library) {
        Ok(bytes) => link(&library, &bytes),
        Err(why) if asked.is_some() => panic!("COFFERDRIFT_LIB: {}: {why}", library.display()),
        Err(_) => {}
    }
}

/// A copy under a name of our own, because the linker looks for `libNAME.a` in a folder.
fn link(library: &Path, bytes: &[u8]) {
    let acts = exports::acts_of(bytes).unwrap_or_else(|why| panic!("{}: {why}", library.display()));
    let out = PathBuf::from(env::var("OUT_DIR").expect("cargo names OUT_DIR"));
    fs::copy(library, out.join("libcofferdrift_proved.a")).expect("OUT_DIR can be written");
    println!("cargo::rustc-link-search=native={}", out.display());
    println!("cargo::rustc-link-lib=static=cofferdrift_proved");
    println!("cargo::rustc-cfg=ours_present");
    for act in acts {
        println!("cargo::rustc-cfg=ours_{act}");
    }
}
