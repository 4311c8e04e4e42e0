//! The rows of docs/DIFFERENCES.md that are run: each on its smallest input, with the answers of both sides as the
//! document has them, so that a change of either is noticed.

use std::fmt::Debug;
use std::os::unix::process::ExitStatusExt;
use std::path::PathBuf;
use std::process::Command;

use bisquepond::Refusal;
use published::error::{Error, Result as Published};

use crate::case::{Compared, Difference, Words};
use crate::run::Run;

/// An answer of the Rust, its error as a text.
pub fn text<T>(answer: Published<T>) -> Result<T, String> {
    answer.map_err(|error| match error {
        Error::Parse(text) => text,
        error => panic!("an error that no reader has: {error}"),
    })
}

/// An answer of ours, its refusal as a number and a place.
pub fn told<T>(answer: Result<T, Refusal>) -> Result<T, (u32, u32)> {
    answer.map_err(|refusal| (refusal.number, refusal.place))
}

/// One row, to be held against what each side answers.
pub struct Row<'a> {
    run: &'a mut Run,
    what: &'a str,
}

pub fn row<'a>(run: &'a mut Run, what: &'a str) -> Row<'a> {
    Row { run, what }
}

impl Row<'_> {
    /// What the Rust answers, and what the document says that it answers.
    pub fn rust<T: PartialEq + Debug>(self, given: T, listed: T) -> Result<Self, Difference> {
        side(self.what, "the Rust", given, listed)?;
        Ok(self)
    }

    /// The same of ours.
    pub fn ours<T: PartialEq + Debug>(self, given: T, listed: T) -> Compared {
        side(self.what, "libhbc_c", given, listed)?;
        self.run.equal();
        Ok(())
    }
}

fn side<T: PartialEq + Debug>(what: &str, side: &str, given: T, listed: T) -> Compared {
    if given == listed {
        return Ok(());
    }
    Err(Difference(vec![
        format!("listed    {what}"),
        format!("{side}  {given:?}"),
        format!("document  {listed:?}"),
    ]))
}

/// How a program ended: with a line that it said, or by a signal and with a line of error.
#[derive(PartialEq, Debug)]
pub enum End {
    Said(String),
    Signal(i32, String),
}

pub const ABORT: i32 = 6;

/// This program by its process, so that one built meanwhile is not run in its place. Under valgrind, which is told by what it
/// loads before all else, that process is valgrind's own, and the program is found by its path.
fn this_program() -> PathBuf {
    let loaded = std::env::var("LD_PRELOAD").unwrap_or_default();
    match loaded.contains("vgpreload") {
        true => std::env::current_exe().expect("a path of this program"),
        false => format!("/proc/{}/exe", std::process::id()).into(),
    }
}

/// Replays these words in a process of its own whose address space is 2,000,000 kilobytes.
pub fn bounded(words: &[&str]) -> End {
    let output = Command::new("sh")
        .arg("-c")
        .arg("ulimit -c 0; ulimit -v 2000000; exec \"$0\" --replay \"$@\"")
        .arg(this_program())
        .args(words)
        .output()
        .expect("a shell");
    let line = |bytes: &[u8]| {
        let text = String::from_utf8_lossy(bytes);
        text.lines().next().unwrap_or_default().to_string()
    };
    match output.status.signal() {
        Some(signal) => End::Signal(signal, line(&output.stderr)),
        None => End::Said(line(&output.stdout)),
    }
}

/// `SIDE BYTES`: what `Rust` or `ours` says of so many zeros.
pub fn zeros(
    words: &mut Words,
    rust: impl FnOnce(&[u8]) -> String,
    ours: impl FnOnce(&[u8]) -> String,
) -> Result<String, Difference> {
    let side = words.next()?.to_string();
    let file = vec![0; words.number()?];
    match side.as_str() {
        "Rust" => Ok(rust(&file)),
        "ours" => Ok(ours(&file)),
        _ => Err("SIDE is Rust or ours".to_string().into()),
    }
}
