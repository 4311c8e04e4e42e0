//! The build script of every program here that needs both sides: `cfg(published)` if the published Rust was found. Without
//! libhbc_c.a nothing is built: bisquepond says so.

fn main() {
    println!("cargo::rerun-if-changed=../sides.rs");
    println!("cargo::rustc-check-cfg=cfg(published)");
    println!("cargo::rerun-if-env-changed=DEP_HERMES_DECOMP_FOUND");
    if std::env::var_os("DEP_HERMES_DECOMP_FOUND").is_some() {
        println!("cargo::rustc-cfg=published");
    }
}
