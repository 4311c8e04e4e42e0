//! The differences of handlers and trailing sections.

use bisquepond::function::FunctionRow;
use bisquepond::parsing::{
    read_handlers, read_handlers_into, trailing_sections, why_no_handlers, SectionCounts, Sections,
    Why,
};
use bisquepond::sys::LIMIT;
use bisquepond::{Refusal, Row as _};
use published::file::BytecodeFile;

use super::case::handlers::{self, FLAGS, FUNCTION, HAS, INFO_OFFSET, ROW};
use super::case::sections;
use crate::case::{code, Compare, Compared, Difference, Words};
use crate::differences::{bounded, row, text, told, zeros, End, ABORT};
use crate::inputs::bytes_of;
use crate::run::Run;

pub fn listed(run: &mut Run) -> Compared {
    handlers(run)?;
    sections(run)?;
    memory(run)?;
    longer(run)
}

/// A function of this id whose handlers are at `info_offset`.
fn function(id: u32, info_offset: u32) -> [u32; FUNCTION] {
    let mut row = [0; FUNCTION];
    (row[1], row[INFO_OFFSET], row[FLAGS]) = (id, info_offset, HAS);
    row
}

/// The Rust's handlers, as the rows that they would be.
fn rust(file: &[u8], functions: &[[u32; FUNCTION]]) -> Vec<[u32; ROW]> {
    let headers: Vec<_> = functions.iter().map(|row| handlers::header(row[1], row)).collect();
    handlers::listed(file, &headers)
}

fn ours(file: &[u8], functions: &[[u32; FUNCTION]], count: u32) -> Result<Vec<u32>, (u32, u32)> {
    let handlers = read_handlers(file, FunctionRow::rows(functions.as_flattened()), count);
    told(handlers.map(|rows| rows.words().to_vec()))
}

fn handlers(run: &mut Run) -> Compared {
    // At 4 one handler 1, 2, 3 and at 8 one handler 2, 3, 4.
    let file = bytes_of(&[0, 1, 1, 2, 3, 4]);
    let twice = [function(0, 4), function(0, 8)];
    row(run, "f: two functions of id 0")
        .rust(rust(&file, &twice), vec![[0, 2, 3, 4]])?
        .ours(ours(&file, &twice, 2), Ok(vec![0, 1, 2, 3, 1, 2, 3, 4]))?;
    let numbered = [function(0, 4), function(1, 8)];
    row(run, "f: the same, numbered as their rows")
        .rust(rust(&file, &numbered), vec![[0, 1, 2, 3], [1, 2, 3, 4]])?
        .ours(ours(&file, &numbered, 2), Ok(vec![0, 1, 2, 3, 1, 2, 3, 4]))?;
    row(run, "count 1, no function lent")
        .rust(rust(&[], &[]), vec![])?
        .ours(ours(&[], &[], 1), Err((11, 0)))?;
    let one = [function(0, 4)];
    let functions = FunctionRow::rows(&one[0]);
    let short = read_handlers_into(&file, functions, 1, &mut []).map(drop);
    row(run, "one handler, no rows")
        .rust(rust(&file, &one), vec![[0, 1, 2, 3]])?
        .ours(told(short), Err((4, 0)))?;
    let why = |file: &[u8], row: &[u32]| told(why_no_handlers(file, FunctionRow::rows(row), 0));
    row(run, "no handlers: the flag is clear")
        .rust(rust(&[], &[[0; FUNCTION]]), vec![])?
        .ours(why(&[], &[0; FUNCTION]), Ok(Why::FlagClear))?;
    let cut = bytes_of(&[0, 2, 1, 2, 3]);
    row(run, "no handlers: the second one is cut")
        .rust(rust(&cut, &one), vec![])?
        .ours(why(&cut, &one[0]), Ok(Why::Cut))
}

/// The Rust's file of nothing but these sections.
fn trailing(file: &[u8], start: usize, counts: SectionCounts) -> Result<BytecodeFile, String> {
    let SectionCounts { regexps, storage, cjs, sources } = counts;
    text(sections::trailing(&sections::Case {
        file,
        start,
        regexps,
        storage,
        cjs,
        sources,
        ..sections::NONE
    }))
}

/// Name, offset, size and entries of each section there.
type Found = Vec<(&'static str, u32, u32, Option<u32>)>;

fn names(file: Result<BytecodeFile, String>) -> Result<Found, String> {
    let section = |s: &published::file::SectionInfo| (s.name, s.offset, s.size, s.entries);
    Ok(file?.sections.iter().map(section).collect())
}

/// Start, size and entries of each section here; none for sources that are absent.
type Told = [Option<[u32; 3]>; 5];

fn parts(sections: Result<Sections, Refusal>) -> Result<Told, (u32, u32)> {
    let found = told(sections)?;
    let sections = [
        Some(found.regexp_table),
        Some(found.regexp_storage),
        Some(found.cjs_pairs),
        found.function_sources,
        Some(found.bytecode),
    ];
    Ok(sections.map(|section| section.map(|s| [s.start, s.size, s.entries])))
}

/// The call itself on no bytes and no counts, with so many words lent, which held sevens; the words afterwards.
fn in_c(words: usize) -> Result<(u64, Vec<u32>), Difference> {
    let mut answer = sections::Case { rows: &vec![7; words], ..sections::NONE }.compare()?;
    answer.table.truncate(words);
    Ok((answer.code, answer.table))
}

fn sections(run: &mut Run) -> Compared {
    let none = SectionCounts::default();
    let empty = |entries| (0, 0, entries);
    let found = |name, (offset, size, entries)| (name, offset, size, entries);
    let listed = vec![
        found("regexp_table", empty(Some(0))),
        found("regexp_storage", empty(None)),
        found("cjs_module_table", empty(Some(0))),
        found("bytecode", empty(None)),
    ];
    let zeros = Some([0; 3]);
    row(run, "no bytes, no counts: no sources, and no entries of storage and bytecode")
        .rust(names(trailing(&[], 0, none)), Ok(listed))?
        .ours(parts(trailing_sections(&[], 0, none)), Ok([zeros, zeros, zeros, None, zeros]))?;
    let (given, rows) = in_c(20)?;
    row(run, "the same in C: mark 1 says absent")
        .rust(trailing(&[], 0, none).map(|file| file.sections.len()), Ok(4))?
        .ours((given, &rows[12..16]), (code(Ok(5)), &[0, 0, 0, 1]))?;
    let counts = SectionCounts { regexps: 1, ..none };
    let read = trailing(&[7; 8], 0, counts).map(|file| {
        let table = file.reg_exp_table.iter();
        table.map(|e| (e.offset, e.length)).collect::<Vec<_>>()
    });
    let found = trailing_sections(&[7; 8], 0, counts).map(|found| {
        let s = found.regexp_table;
        [s.start, s.size, s.entries]
    });
    row(run, "one regexp: its entry is read there, found here")
        .rust(read, Ok(vec![(0x0707_0707, 0x0707_0707)]))?
        .ours(told(found), Ok([0, 8, 1]))?;
    row(run, "19 words lent")
        .rust(trailing(&[], 0, none).is_ok(), true)?
        .ours(in_c(19)?, (code(Err((4, 0))), vec![7; 19]))
}

/// The zeros of finding g.
const ZEROS: usize = 256 << 20;

const MOST: SectionCounts = SectionCounts { regexps: u32::MAX, storage: 0, cjs: 0, sources: None };

/// Finding g: the Rust asks for the memory of an entry for each byte.
fn memory(run: &mut Run) -> Compared {
    let failed = format!("memory allocation of {} bytes failed", ZEROS * 8);
    let replayed = |side| bounded(&["parsing", "Zeros", side, &ZEROS.to_string()]);
    row(run, "g: 2^32 - 1 regexps in 256 MiB of zeros, address space of 2 GB")
        .rust(replayed("Rust"), End::Signal(ABORT, failed))?
        .ours(replayed("ours"), End::Said("Err((3, 0))".into()))
}

/// `SIDE BYTES`: 2^32 - 1 regexps in so many zeros by one side, whose memory may be bounded.
pub fn replay(words: &mut Words) -> Result<String, Difference> {
    zeros(
        words,
        |file| format!("{:?}", names(trailing(file, 0, MOST))),
        |file| format!("{:?}", parts(trailing_sections(file, 0, MOST))),
    )
}

/// Finding j.
fn longer(run: &mut Run) -> Compared {
    let mut long = vec![0; LIMIT + 1];
    long[4] = 1;
    let one = [function(0, 4)];
    row(run, "j: one handler in 2^30 + 1 bytes")
        .rust(rust(&long, &one), vec![[0; ROW]])?
        .ours(ours(&long, &one, 1), Err((1, 0)))?;
    if !run.full {
        return Ok(());
    }
    let none = SectionCounts::default();
    let end = LIMIT as u32;
    let listed = vec![
        ("regexp_table", end, 0, Some(0)),
        ("regexp_storage", end, 0, None),
        ("cjs_module_table", end, 0, Some(0)),
        ("bytecode", end, 1, None),
    ];
    row(run, "j: sections from 2^30 of 2^30 + 1 bytes")
        .rust(names(trailing(&long, LIMIT, none)), Ok(listed))?
        .ours(parts(trailing_sections(&long, LIMIT, none)), Err((1, 0)))
}
