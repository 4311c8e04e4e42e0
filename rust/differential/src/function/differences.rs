//! The differences of the function tables.

use bisquepond::function::{read_functions, read_functions_into, refresh_functions};
use bisquepond::function::{FunctionRow, Totals};
use bisquepond::sys::{hbc_read_functions, LIMIT};
use bisquepond::Layout::{Legacy16, Modern12};
use bisquepond::Row as _;
use published::format::FunctionHeader;
use published::io::ByteReader;

use super::case::{parsed, Layout, Record, INLINE, PLACE, RECORD, ROW};
use crate::case::{code, said, Compared, Difference, Words};
use crate::differences::{bounded, row, text, told, zeros, End, ABORT};
use crate::lent::Reserved;
use crate::run::Run;

pub fn listed(run: &mut Run) -> Compared {
    lent(run)?;
    placed(run)?;
    totalled(run)?;
    refused(run)?;
    memory(run)?;
    longer(run)
}

/// The Rust's records of a table that begins at byte 0.
fn legacy(file: &[u8], count: u32) -> Result<Vec<Record>, String> {
    text(parsed(file, Layout::Legacy, 0, count))
}

/// Our answer, and the rows lent, which held sevens.
type Answer = (Result<u32, (u32, u32)>, Vec<u32>);

fn ours(file: &[u8], start: usize, count: u32, rows: usize) -> Answer {
    let mut lent = vec![7; rows * ROW];
    let table = FunctionRow::rows_mut(&mut lent);
    let read = read_functions_into(file, Legacy16, start, count, table);
    let answer = told(read.map(|(rows, _)| rows.len() as u32));
    (answer, lent)
}

/// Rows as they were.
fn left(rows: usize) -> Vec<u32> {
    vec![7; rows * ROW]
}

fn lent(run: &mut Run) -> Compared {
    row(run, "one header, no rows")
        .rust(legacy(&[0; 16], 1), Ok(vec![[0; RECORD]]))?
        .ours(ours(&[0; 16], 0, 1, 0), (Err((4, 0)), left(0)))?;
    let cut = "unexpected end of file: needed 16 bytes at offset 16 but only 0 remain";
    row(run, "one header, count 2")
        .rust(legacy(&[0; 16], 2), Err(cut.into()))?
        .ours(ours(&[0; 16], 0, 2, 2), (Err((3, 1)), left(2)))?;
    let mut reader = ByteReader::new(&[]);
    row(run, "start 1 in no bytes, count 0")
        .rust(text(reader.seek(1)), Err("seek out of range: 1 > 0".into()))?
        .ours(ours(&[], 1, 0, 0), (Err((2, 0)), left(0)))
}

/// Two files of one record: a header of zeros, and one whose large header of zeros is at 16. The Rust keeps no more of it.
fn placed(run: &mut Run) -> Compared {
    let mut large = [0; 47];
    (large[0], large[FLAGS]) = (16, FLAGGED);
    for (file, place) in [(&[0; 16][..], INLINE), (&large, 16)] {
        let mut words = left(1);
        words.fill(0);
        words[PLACE] = place;
        row(run, "the place of a large header, and none")
            .rust(legacy(file, 1), Ok(vec![[0; RECORD]]))?
            .ours(ours(file, 0, 1, 1), (Ok(1), words))?;
    }
    Ok(())
}

/// The same two files: the Rust adds nothing up.
fn totalled(run: &mut Run) -> Compared {
    let mut large = [0; 47];
    (large[0], large[FLAGS]) = (16, FLAGGED);
    for (file, rows) in [(&[0; 16][..], 0), (&large, 1)] {
        let read = read_functions(file, Legacy16, 0, 1);
        let totals = read.map(|table| (table.totals().large(), table.totals().sizes()));
        row(run, "the totals of a large row, and of none")
            .rust(legacy(file, 1), Ok(vec![[0; RECORD]]))?
            .ours(told(totals), Ok((rows, 0)))?;
    }
    Ok(())
}

/// A flagged legacy header: the byte of its flags, and the flag.
const FLAGS: usize = 15;
const FLAGGED: u8 = 0x20;

fn refused(run: &mut Run) -> Compared {
    // The large header of function 0 stands at 0 and is cut, and header 1 is not there.
    let mut file = [0; 16];
    file[FLAGS] = FLAGGED;
    let cut = "unexpected end of file: needed 4 bytes at offset 16 but only 0 remain";
    for count in [1, 2] {
        row(run, "a fresh read: large header 0 cut, header 1 cut")
            .rust(legacy(&file, count), Err(cut.into()))?
            .ours(ours(&file, 0, count, 2), (Err((3, 0)), left(2)))?;
    }
    for span in [0..0, 0..16] {
        let (mut rows, mut totals) = ([FunctionRow::default(); 2], Totals::default());
        let again = refresh_functions(&file, Legacy16, 0, 2, span, &mut rows, &mut totals);
        row(run, "a refresh: large header 0 cut, header 1 cut")
            .rust(legacy(&file, 2), Err(cut.into()))?
            .ours(told(again), Err((3, 1)))?;
    }
    // The packed place is 2^32: a number of 32 bits would be 0, where 31 bytes are.
    let mut file = [0; 31];
    (file[10], file[FLAGS]) = (1, FLAGGED);
    row(run, "i: packed place 2^32, 31 bytes, on a machine of 64 bits")
        .rust(legacy(&file, 1), Err("seek out of range: 4294967296 > 31".into()))?
        .ours(ours(&file, 0, 1, 1), (Err((2, 0)), left(1)))
}

/// The zeros of finding g.
const ZEROS: usize = 64 << 20;

/// Finding g. The Rust asks for the memory of a header for each byte; ours is lent none, or makes none.
fn memory(run: &mut Run) -> Compared {
    let asked = ZEROS * size_of::<FunctionHeader>();
    let failed = format!("memory allocation of {asked} bytes failed");
    let whole = ZEROS / 16;
    let replayed = |side| bounded(&["function", "Zeros", side, &ZEROS.to_string()]);
    row(run, "g: 2^32 - 1 functions of 64 MiB of zeros, address space of 2 GB")
        .rust(replayed("Rust"), End::Signal(ABORT, failed))?
        .ours(replayed("ours"), End::Said(format!("refused 4 at 0; refused 3 at {whole}")))?;
    let Some(table) = Reserved::<u32>::new(u32::MAX as usize * ROW) else {
        return Ok(());
    };
    let (file, count) = (vec![0; ZEROS], u32::MAX);
    let (rows, len, [mut large, mut sizes]) = (table.as_mut_ptr(), table.len(), [7; 2]);
    let (s, bytes) = (file.as_ptr(), file.len());
    let given =
        unsafe { hbc_read_functions(s, bytes, 0, 0, count, rows, len, &mut large, &mut sizes) };
    assert_eq!([large, sizes], [7; 2], "totals of a read that is refused");
    row(run, "g: the same with all rows lent, and what the Rust clamps the count to")
        .rust(ByteReader::new(&file).capacity_hint(count as usize), ZEROS)?
        .ours(given, code(Err((3, whole as u32))))
}

/// `Zeros SIDE BYTES`: 2^32 - 1 legacy functions of so many zeros by one side, whose memory may be bounded.
pub fn replay(words: &mut Words) -> Result<String, Difference> {
    let rust = |file: &[u8]| format!("{:?}", legacy(file, u32::MAX).map(|rows| rows.len()));
    zeros(words, rust, |file| {
        let table = read_functions(file, Legacy16, 0, u32::MAX);
        let table = told(table.map(|table| table.len() as u32));
        let both = [ours(file, 0, u32::MAX, 0).0, table].map(|answer| said(code(answer), "rows"));
        both.join("; ")
    })
}

/// Finding j.
fn longer(run: &mut Run) -> Compared {
    let long = vec![0; LIMIT + 1];
    row(run, "j: one header of 2^30 + 1 bytes")
        .rust(legacy(&long, 1), Ok(vec![[0; RECORD]]))?
        .ours(ours(&long, 0, 1, 1), (Err((1, 0)), left(1)))?;
    if !run.full {
        return Ok(());
    }
    // A modern header whose place is 2^32 - 1: its large header ends past what an info_offset can say.
    let mut long = vec![0; (1 << 32) + 36];
    long[..3].fill(0xFF);
    (long[5], long[6], long[11]) = (0xC0, 0x3F, FLAGGED);
    let mut wrapped = [0; RECORD];
    (wrapped[0], wrapped[6]) = (1, 36);
    let refusal = read_functions(&long, Modern12, 0, 1);
    row(run, "j: a large header at 2^32 - 1")
        .rust(text(parsed(&long, Layout::Modern, 0, 1)), Ok(vec![wrapped]))?
        .ours(told(refusal.map(drop)), Err((1, 0)))
}
