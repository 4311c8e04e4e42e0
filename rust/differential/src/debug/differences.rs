//! The differences of the debug section. What ours answers is also compared as everywhere.

use bisquepond::sys::LIMIT;
use published::debug::{try_parse_debug_info, DebugInfo};

use super::case::{Answer, NONE};
use super::groups::{case, parts_alone};
use crate::case::{code, Compare, Compared, Difference};
use crate::differences::{row, text};
use crate::run::Run;

/// A section at byte 1 with nothing but its three parts.
fn file(scopes: &[u8], callees: &[u8], strings: &[u8]) -> Vec<u8> {
    parts_alone(scopes, callees, strings).bytes().0
}

/// The Rust, which has nothing else to say of such a file.
fn rust(file: &[u8]) -> DebugInfo {
    let rust = DebugInfo::parse(file, 1).expect("the Rust reads it");
    assert!(rust.source_locations.is_empty());
    rust
}

/// Ours, with two rows in each table.
fn ours(file: &[u8]) -> Result<Answer, Difference> {
    case(file, 1, &[4, 10, 2, 4].map(|words| vec![7; words])).compare()
}

/// Ours with no rows: the answer alone.
fn no_rows(file: &[u8], offset: u32) -> Result<u64, Difference> {
    Ok(case(file, offset, &Default::default()).compare()?.code)
}

pub fn listed(run: &mut Run) -> Compared {
    short_header(run)?;
    names(run)?;
    texts(run)?;
    callees(run)?;
    lost_bits(run)?;
    rows(run)?;
    longer(run)
}

fn short_header(run: &mut Run) -> Compared {
    let file = [0, 0];
    let short = "unexpected end of file: needed 4 bytes at offset 0 but only 1 remain";
    let given = text(DebugInfo::parse(&file, 1)).map(drop);
    row(run, "two bytes, offset 1")
        .rust(given, Err(short.into()))?
        .rust(try_parse_debug_info(&file, 1).is_none(), true)?
        .ours(no_rows(&file, 1)?, code(Err((3, 0))))
}

fn names(run: &mut Run) -> Compared {
    for (strings, name) in [(&[][..], NONE), (&[0], 0)] {
        let file = file(&[0, 0, 1, 0], &[], strings);
        let (ours, rust) = (ours(&file)?, rust(&file));
        row(run, "an unknown name, and a known one of length 0")
            .rust(&rust.scope_descriptors[0].names[..], &["".into()])?
            .ours((ours.counts[2], ours.tables[2][0]), (1, name))?;
    }
    Ok(())
}

fn texts(run: &mut Run) -> Compared {
    for strings in [&b"\x01\xFF"[..], b"\x03\xEF\xBF\xBD"] {
        let file = file(&[], &[], strings);
        let len = strings.len() as u32 - 1;
        row(run, "a byte that is no UTF-8, and the text that stands for it")
            .rust(&rust(&file).string_table[..], &["\u{FFFD}".into()])?
            .ours(&ours(&file)?.tables[0][..2], &[30, len])?;
    }
    for name in 0..2 {
        let file = file(&[], &[1, 5, name], &[0, 0]);
        let callees: Vec<_> = rust(&file).textified_callees.into_iter().collect();
        row(run, "two strings of one text")
            .rust(callees, vec![(5, String::new())])?
            .ours(&ours(&file)?.tables[3][..2], &[5, name.into()])?;
    }
    Ok(())
}

/// No part, count 0, a count that fails, is negative or too large; then an address that fails, behind which the Rust
/// reads a name all the same.
fn callees(run: &mut Run) -> Compared {
    let none: [&[u8]; 6] = [&[], &[0], &[0x80], &[0x7F], &[1], &[1, 0x80]];
    let too_long = [&[1][..], &[0x80; 10], &[0]].concat();
    for part in none.into_iter().chain([too_long.as_slice()]) {
        let file = file(&[], part, &[0]);
        let ours = ours(&file)?;
        row(run, "callees of which there are no rows")
            .rust(rust(&file).textified_callees.len(), 0)?
            .ours((ours.code, ours.counts), (0, [1, 0, 0, 0]))?;
    }
    // That name counts for no mark.
    let lost = [&[2][..], &[0x80; 10], &[0x80; 9], &[2]].concat();
    let file = file(&[], &lost, &[0]);
    let ours = ours(&file)?;
    row(run, "a name that lost bits behind an address that fails")
        .rust(rust(&file).textified_callees.len(), 0)?
        .ours((ours.code, ours.counts, ours.mark), (0, [1, 0, 0, 0], 1))
}

/// Flags of ten bytes that DWARF reads as 2^64, and as -2^69.
fn lost_bits(run: &mut Run) -> Compared {
    for last in [2, 0x40] {
        let scope = [&[0][..], &[0x80; 9], &[last, 0]].concat();
        let file = file(&scope, &[], &[]);
        let ours = ours(&file)?;
        row(run, "flags of ten bytes whose last has lost bits")
            .rust(rust(&file).scope_descriptors[0].flags, 0)?
            .ours((ours.counts[1], ours.tables[1][2], ours.mark), (1, 0, 0))?;
    }
    Ok(())
}

fn rows(run: &mut Run) -> Compared {
    let file = file(&[], &[], &[0]);
    row(run, "one string, no rows")
        .rust(&rust(&file).string_table[..], &["".into()])?
        .ours(no_rows(&file, 1)?, code(Err((4, 0))))
}

/// With a section, and at an offset that is otherwise empty.
fn longer(run: &mut Run) -> Compared {
    let file = vec![0; LIMIT + 1];
    for offset in [1, 0, u32::MAX] {
        row(run, "j: 2^30 + 1 bytes")
            .rust(DebugInfo::parse(&file, offset).is_ok(), true)?
            .ours(no_rows(&file, offset)?, code(Err((1, 0))))?;
    }
    Ok(())
}
