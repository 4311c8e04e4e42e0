//! The calls on literals, and what they share: the file in which the Rust looks strings up, and its values in numbers.

pub mod literal;
pub mod series;

use std::sync::OnceLock;

use published::error::Error;
use published::file::parser::parsing;
use published::file::structure::{LiteralValue, StringTableEntry};
use published::file::BytecodeFile;
use published::format::{empty_header, FunctionHeaderLayout};
use published::io::ByteReader;

use crate::case::{Difference, Words};

/// Strings of the file: some numbers are found there, others are not.
const STRINGS: u32 = 300;

/// A file of nothing but these strings.
pub fn file_of(texts: impl Iterator<Item = String>) -> BytecodeFile {
    let header = empty_header(FunctionHeaderLayout::Legacy16);
    let mut file = parsing::trailing(&[], &mut ByteReader::new(&[]), header).unwrap();
    let entry = |value| StringTableEntry { value, is_utf16: false, is_identifier: false };
    file.strings = texts.map(entry).collect();
    file
}

/// One whose strings are texts that tell their number. Where there is none, the Rust's own text does.
fn file() -> &'static BytecodeFile {
    static FILE: OnceLock<BytecodeFile> = OnceLock::new();
    FILE.get_or_init(|| file_of((0..STRINGS).map(|i| format!("string {i}"))))
}

/// Kind and payload of docs/FORMAT.md, section 5.1, for a value of the Rust.
fn told(value: &LiteralValue) -> (u32, u64) {
    match value {
        LiteralValue::Null => (0, 0),
        LiteralValue::Bool(true) => (1, 0),
        LiteralValue::Bool(false) => (2, 0),
        LiteralValue::Number(number) => (3, number.to_bits()),
        LiteralValue::String(text) => (4, string_number(text)),
        LiteralValue::Integer(number) => (5, *number as u32 as u64),
        LiteralValue::Undefined => panic!("three bits of a tag have no such value"),
    }
}

fn string_number(text: &str) -> u64 {
    let found = text.strip_prefix("string ");
    let missing = || text.strip_prefix("<string:")?.strip_suffix('>');
    let digits = found.or_else(missing).expect("a text that tells a number");
    digits.parse().expect("a number")
}

/// The refusal number of docs/FORMAT.md, section 1.1, for an error of the Rust.
fn refusal(error: &Error) -> u32 {
    match error {
        Error::Parse(text) if text.starts_with("buffer offset out of range") => 7,
        Error::Parse(text) if text.starts_with("unexpected end of file") => 3,
        error => panic!("not an error of buffer.rs: {error}"),
    }
}

/// `Literal TAG CURSOR BYTES` or `Series OFFSET COUNT KINDS PAYLOADS BYTES`, as a difference prints them: KINDS and
/// PAYLOADS are how many words are lent. A series is also read as an object's.
pub fn replay(words: &mut Words) -> Result<String, Difference> {
    match () {
        _ if words.called("Literal") => literal::replay(words),
        _ if words.called("Series") => series::replay(words),
        _ => Err("--replay buffer needs Literal or Series".to_string().into()),
    }
}
