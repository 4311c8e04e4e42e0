//! The differences of the literals.

use bisquepond::io::ByteReader as Ours;
use bisquepond::literal::{read_series_into, Literal};
use bisquepond::sys::LIMIT;
use published::file::parser::buffer::{literal, read_buffer_series};
use published::file::structure::LiteralValue;
use published::file::BytecodeFile;
use published::io::ByteReader as Theirs;

use super::case::file_of;
use crate::case::Compared;
use crate::differences::{row, text, told};
use crate::run::Run;

pub fn listed(run: &mut Run) -> Compared {
    strings(run)?;
    nan(run)?;
    tags(run)?;
    lent(run)?;
    longer(run)
}

/// A file of nothing but these strings.
fn file(texts: &[&str]) -> BytecodeFile {
    file_of(texts.iter().map(|text| text.to_string()))
}

/// The Rust's values, in a file of these strings.
fn rust(texts: &[&str], buffer: &[u8], count: u32) -> Result<Vec<String>, String> {
    let values = text(read_buffer_series(&file(texts), buffer, 0, count))?;
    Ok(values.iter().map(|value| format!("{value:?}")).collect())
}

/// The bytes used, and the two words lent in each table.
type Answer = (Result<usize, (u32, u32)>, [u32; 2], [u64; 2]);

fn ours(buffer: &[u8], count: u32) -> Answer {
    let (mut kinds, mut payloads) = ([9; 2], [9; 2]);
    let series = read_series_into(buffer, 0, count, &mut kinds, &mut payloads);
    let used = told(series.map(|series| series.used.len()));
    (used, kinds, payloads)
}

/// Finding e: texts for numbers.
fn strings(run: &mut Run) -> Compared {
    let string = |text: &str| Ok(vec![format!("{:?}", LiteralValue::String(text.into()))]);
    row(run, "e: 61 07, no strings")
        .rust(rust(&[], &[0x61, 7], 1), string("<string:7>"))?
        .ours(ours(&[0x61, 7], 1), (Ok(2), [4, 9], [7, 9]))?;
    for number in [0, 1] {
        row(run, "e: 61 00 and 61 01, two strings of one text")
            .rust(rust(&["a", "a"], &[0x61, number], 1), string("a"))?
            .ours(ours(&[0x61, number], 1), (Ok(2), [4, 9], [number.into(), 9]))?;
    }
    row(run, "e: 61 00, a string that reads as a missing one")
        .rust(rust(&["<string:7>"], &[0x61, 0], 1), string("<string:7>"))?
        .ours(ours(&[0x61, 0], 1), (Ok(2), [4, 9], [0, 9]))
}

/// A NaN with a payload: its bits in a series; in one literal which NaN is not promised.
fn nan(run: &mut Run) -> Compared {
    const BITS: u64 = 0x7FF8_0000_0000_0001;
    let buffer = [0x31, 1, 0, 0, 0, 0, 0, 0xF8, 0x7F];
    let bits = |value: &LiteralValue| match value {
        LiteralValue::Number(number) => number.to_bits(),
        value => panic!("not a number: {value:?}"),
    };
    let rust = text(read_buffer_series(&file(&[]), &buffer, 0, 1));
    row(run, "31 01 00 00 00 00 00 F8 7F, a series")
        .rust(rust.map(|values| bits(&values[0])), Ok(BITS))?
        .ours(ours(&buffer, 1), (Ok(9), [3, 9], [BITS, 9]))?;
    let rust = text(literal(&file(&[]), 3, &mut Theirs::new(&buffer[1..])));
    let one = told(Ours::at(&buffer, 1).read_literal(buffer[0]));
    let nan = |value| matches!(value, Literal::Number(number) if number.is_nan());
    row(run, "31 01 00 00 00 00 00 F8 7F, one literal")
        .rust(rust.map(|value| bits(&value)), Ok(BITS))?
        .ours(one.map(nan), Ok(true))
}

/// All eight tags have a value; none is the Rust's `Undefined`.
fn tags(run: &mut Run) -> Compared {
    let zeros = [0; 8];
    let missing = LiteralValue::String("<string:0>".into());
    let values = [
        (LiteralValue::Null, Literal::Null),
        (LiteralValue::Bool(true), Literal::Bool(true)),
        (LiteralValue::Bool(false), Literal::Bool(false)),
        (LiteralValue::Number(0.0), Literal::Number(0.0)),
        (missing.clone(), Literal::String(0)),
        (missing.clone(), Literal::String(0)),
        (missing, Literal::String(0)),
        (LiteralValue::Integer(0), Literal::Integer(0)),
    ];
    for (bits, (theirs, own)) in (0..).zip(values) {
        let rust = text(literal(&file(&[]), bits, &mut Theirs::new(&zeros)));
        row(run, "the eight tags, zeros")
            .rust(rust.map(|value| format!("{value:?}")), Ok(format!("{theirs:?}")))?
            .ours(told(Ours::new(&zeros).read_literal(bits << 4)), Ok(own))?;
    }
    Ok(())
}

/// What the tables that are lent make another answer, and the bytes used.
fn lent(run: &mut Run) -> Compared {
    row(run, "11, count 1: the bytes used")
        .rust(rust(&[], &[0x11], 1), Ok(vec!["Bool(true)".into()]))?
        .ours(ours(&[0x11], 1), (Ok(1), [1, 9], [0, 9]))?;
    let cut = "unexpected end of file: needed 4 bytes at offset 2 but only 0 remain";
    row(run, "11 71, count 2: a value before the cut")
        .rust(rust(&[], &[0x11, 0x71], 2), Err(cut.into()))?
        .ours(ours(&[0x11, 0x71], 2), (Err((3, 1)), [9; 2], [9; 2]))?;
    let three = || Ok(vec!["Bool(true)".into(); 3]);
    row(run, "13, count 3, two words in each table")
        .rust(rust(&[], &[0x13], 3), three())?
        .ours(ours(&[0x13], 3), (Err((4, 0)), [9; 2], [9; 2]))
}

/// Finding j.
fn longer(run: &mut Run) -> Compared {
    let mut long = vec![0; LIMIT + 1];
    long[0] = 0x11;
    row(run, "j: 11 first of 2^30 + 1 bytes, count 1")
        .rust(rust(&[], &long, 1), Ok(vec!["Bool(true)".into()]))?
        .ours(ours(&long, 1), (Err((1, 0)), [9; 2], [9; 2]))
}
