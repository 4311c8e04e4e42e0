//! Feeds the published Rust and libhbc_c.a the same inputs and compares all that they answer.
//! docs/COMPARISON.md says what is compared and how to run it.

use std::process::ExitCode;

#[cfg(published)]
mod buffer;
#[cfg(published)]
mod case;
#[cfg(published)]
mod clean;
#[cfg(published)]
mod debug;
#[cfg(published)]
mod differences;
#[cfg(published)]
mod exact;
#[cfg(published)]
mod function;
#[cfg(published)]
mod hostile;
#[cfg(published)]
mod inputs;
#[cfg(published)]
mod io;
#[cfg(published)]
mod lent;
#[cfg(published)]
mod meter;
#[cfg(published)]
mod parsing;
#[cfg(published)]
mod record;
#[cfg(published)]
mod run;
#[cfg(published)]
mod search;
#[cfg(published)]
mod table;

#[cfg(published)]
fn main() -> ExitCode {
    run::main(&[
        io::LAYER,
        function::LAYER,
        table::LAYER,
        buffer::LAYER,
        parsing::LAYER,
        debug::LAYER,
        clean::LAYER,
    ])
}

#[cfg(not(published))]
fn main() -> ExitCode {
    println!(
        "comparison skipped: the published Rust is not in {} (HERMES_DECOMP_SRC names its folder)",
        published::FOLDER
    );
    ExitCode::SUCCESS
}
