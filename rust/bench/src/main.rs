//! Times libhbc_c.a and the published Rust on the same bytes, in the same run. A benchmark, never a test.

use std::process::ExitCode;

#[cfg(published)]
mod buffer;
#[cfg(published)]
mod callees;
#[cfg(published)]
mod clean;
#[cfg(published)]
mod debug;
#[cfg(any(published, test))]
mod floors;
#[cfg(published)]
mod function;
#[cfg(published)]
mod io;
#[cfg(published)]
mod parsing;
#[cfg(published)]
mod strings;
#[cfg(published)]
mod table;
#[cfg(published)]
mod texts;
#[cfg(published)]
mod whole;
#[cfg(published)]
mod worst;

#[cfg(published)]
fn main() -> ExitCode {
    table::main(&[
        ("io", io::rows),
        ("table", strings::rows),
        ("text", texts::rows),
        ("buffer", buffer::rows),
        ("function", function::rows),
        ("parsing", parsing::rows),
        ("debug", debug::rows),
        ("callees", callees::rows),
        ("clean", clean::rows),
        ("worst", worst::rows),
    ])
}

#[cfg(not(published))]
fn main() -> ExitCode {
    println!(
        "benchmark skipped: the published Rust is not in {} (HERMES_DECOMP_SRC names its folder)",
        published::FOLDER
    );
    ExitCode::SUCCESS
}
