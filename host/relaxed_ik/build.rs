//! Links the proved static library, which is built at the repository's root, and
//! tells the crate which one that is.

use std::path::Path;
use std::{env, fs, process};

fn main() {
    let here = env::var("CARGO_MANIFEST_DIR").expect("cargo sets CARGO_MANIFEST_DIR");
    let folder = Path::new(&here).join("../../target/staticlib");
    let archive = folder.join("libexports.a");
    println!("cargo:rerun-if-changed={}", archive.display());
    let Ok(bytes) = fs::read(&archive) else {
        eprintln!(
            "the proved library is missing: {}\nrun `make library` at the repository's root, then build again",
            archive.display()
        );
        process::exit(1);
    };
    println!(
        "cargo:rustc-env=RELAXED_IK_LIBRARY=libexports.a, {} bytes, FNV-1a {:016x}",
        bytes.len(),
        fnv(&bytes)
    );
    println!("cargo:rustc-link-search=native={}", folder.display());
    println!("cargo:rustc-link-lib=static=exports");
}

/// The 64-bit FNV-1a sum.
fn fnv(bytes: &[u8]) -> u64 {
    bytes.iter().fold(0xcbf2_9ce4_8422_2325, |hash, &byte| {
        (hash ^ u64::from(byte)).wrapping_mul(0x0000_0100_0000_01b3)
    })
}
