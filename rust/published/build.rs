//! Finds the published Rust. It is compiled where it lies; without it this crate is empty, and says so.

use std::env;
use std::path::PathBuf;

const DEFAULT: &str = "../shared/docs/src";

const FILES: [&str; 10] = [
    "debug.rs",
    "error.rs",
    "format.rs",
    "io.rs",
    "file/structure.rs",
    "file/parser/buffer.rs",
    "file/parser/function.rs",
    "file/parser/header.rs",
    "file/parser/parsing.rs",
    "file/parser/table.rs",
];

fn main() {
    let package = PathBuf::from(env::var_os("CARGO_MANIFEST_DIR").unwrap());
    let repository = package.ancestors().nth(2).unwrap();
    let folder = env::var_os("HERMES_DECOMP_SRC").unwrap_or(DEFAULT.into());
    let sources = repository.join(folder).join("crates/hbc-decomp/src");

    println!("cargo::rustc-check-cfg=cfg(published)");
    println!("cargo::rerun-if-env-changed=HERMES_DECOMP_SRC");
    println!("cargo::rerun-if-changed=build.rs");
    println!("cargo::rustc-env=PUBLISHED={}", sources.display());
    for file in FILES {
        println!("cargo::rerun-if-changed={}", sources.join(file).display());
    }
    if FILES.iter().all(|file| sources.join(file).is_file()) {
        println!("cargo::rustc-cfg=published");
        println!("cargo::metadata=found=yes");
    }
}
