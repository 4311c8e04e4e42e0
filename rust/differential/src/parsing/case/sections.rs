//! The sections that follow the literal buffers.

use bisquepond::sys::{hbc_read_pair_table, hbc_trailing_sections, number, LIMIT};
use published::error::{Error, Result as Published};
use published::file::parser::parsing;
use published::file::BytecodeFile;
use published::format::{empty_header, FunctionHeaderLayout};
use published::io::ByteReader;

use crate::case::{self, bytes_word, printed, replayed, said, table_word};
use crate::case::{Compare, Difference, Refusal, Words};
use crate::lent::{copied, Answer};
use crate::meter;

/// The words of a section's row, and the rows that there are.
pub const ROW: usize = 4;
pub const ROWS: usize = 5;

/// The sections by their names in the Rust, in the order of their rows.
const NAMES: [&str; ROWS] =
    ["regexp_table", "regexp_storage", "cjs_module_table", "function_source_table", "bytecode"];

/// One call. `rows` are the words lent, as they are before it.
#[derive(Clone, Copy)]
pub struct Case<'a> {
    pub file: &'a [u8],
    pub start: usize,
    pub regexps: u32,
    pub storage: u32,
    pub cjs: u32,
    pub sources: Option<u32>,
    /// The count of sources that stands beside `given` where they are not.
    pub aside: u32,
    pub rows: &'a [u32],
}

/// No bytes, no counts, and no words lent.
pub const NONE: Case = Case {
    file: &[],
    start: 0,
    regexps: 0,
    storage: 0,
    cjs: 0,
    sources: None,
    aside: 0,
    rows: &[],
};

/// What the Rust finds: a row for each section, and the pairs of the three tables.
pub type Found = ([[u32; ROW]; ROWS], [Vec<(u32, u32)>; 3]);

/// The Rust's file of nothing but these sections.
pub fn trailing(case: &Case) -> Published<BytecodeFile> {
    let mut header = empty_header(FunctionHeaderLayout::Legacy16);
    header.reg_exp_count = case.regexps;
    header.reg_exp_storage_size = case.storage;
    header.cjs_module_count = case.cjs;
    header.function_source_count = case.sources;
    let mut reader = ByteReader::new(case.file);
    reader.seek(case.start)?;
    parsing::trailing(case.file, &mut reader, header)
}

fn published(case: &Case) -> Result<Found, Refusal> {
    let file = trailing(case).map_err(|error| match error {
        Error::Parse(text) if text.starts_with("seek out of range") => (2, 0),
        Error::Parse(text) if text.starts_with("unexpected end of file") => (3, 0),
        error => panic!("an error that parsing.rs does not have here: {error}"),
    })?;
    let rows = NAMES.map(|name| {
        let found = file.sections.iter().find(|section| section.name == name);
        found.map_or([0, 0, 0, 1], |section| {
            let entries = section.entries.unwrap_or(0);
            [section.offset, section.size, entries, 0]
        })
    });
    assert_eq!(rows[3][3], case.sources.is_none().into());
    let regexps = file.reg_exp_table.iter();
    let pairs = regexps.map(|entry| (entry.offset, entry.length)).collect();
    Ok((rows, [pairs, file.cjs_module_table, file.function_source_table]))
}

/// What is right: the sections by the Rust, 1 and 4 by docs/FORMAT.md.
pub fn right(case: &Case) -> Result<Found, Refusal> {
    if case.file.len() > LIMIT {
        return Err((1, 0));
    }
    if case.start > case.file.len() {
        return Err((2, 0));
    }
    if case.rows.len() / ROW < ROWS {
        return Err((4, 0));
    }
    published(case)
}

impl Compare for Case<'_> {
    type Answer = Answer;
    /// The entries of the three tables.
    type Besides = Option<Found>;

    fn ours(&self) -> Result<Answer, String> {
        let (file, len) = (self.file.as_ptr(), self.file.len());
        let (given, sources) = (self.sources.is_some(), self.sources.unwrap_or(self.aside));
        let (start, regexps, storage, cjs) = (self.start, self.regexps, self.storage, self.cjs);
        let mut table = copied(self.rows);
        let (lent, words) = (table.as_mut_ptr(), self.rows.len());
        let code = meter::call(|| unsafe {
            hbc_trailing_sections(
                file, len, start, regexps, storage, cjs, given, sources, lent, words,
            )
        });
        Ok(Answer { code, table })
    }

    fn right(&self, _: Option<&Answer>) -> (Answer, Option<Found>) {
        let found = right(self);
        let mut table = copied(self.rows);
        if let Ok((found, _)) = &found {
            table[..ROWS * ROW].copy_from_slice(found.as_flattened());
        }
        let answer = found.as_ref().map(|_| ROWS as u32);
        let code = case::code(answer.map_err(|&why| why));
        (Answer { code, table }, found.ok())
    }

    /// They are had by the call that reads pairs, at the section's start.
    fn besides(&self, _: &Answer, found: Option<Found>) -> Result<(), String> {
        let Some((rows, pairs)) = found else {
            return Ok(());
        };
        for (row, pairs) in [rows[0], rows[2], rows[3]].iter().zip(pairs) {
            let [start, _, entries, absent] = *row;
            if absent != 0 || entries == 0 {
                continue;
            }
            let mut at = start as usize;
            let mut table = vec![0; 2 * entries as usize];
            let code = unsafe {
                let (file, len) = (self.file.as_ptr(), self.file.len());
                hbc_read_pair_table(file, len, &mut at, entries, table.as_mut_ptr(), table.len())
            };
            let read = table.chunks_exact(2).map(|pair| (pair[0], pair[1]));
            if number(code) != 0 || !read.eq(pairs) {
                return Err(format!("pairs at {start}: {}, other pairs", said(code, "")));
            }
        }
        Ok(())
    }

    fn call(&self) -> String {
        let (start, len, words) = (self.start, self.file.len(), self.rows.len());
        let (regexps, storage, cjs, sources) =
            (self.regexps, self.storage, self.cjs, self.sources_word());
        format!("sections from {start}: {regexps} regexps, {storage} bytes, {cjs} CJS pairs, {sources} sources, {len} bytes of file, {words} words lent")
    }

    fn said(&self, answer: &Answer, right: Option<&Answer>) -> String {
        answer.words("rows", right, ROW)
    }

    fn replay(&self) -> Option<String> {
        let (start, regexps, storage, cjs) = (self.start, self.regexps, self.storage, self.cjs);
        printed(self.file, &[self.rows], &[]).then(|| {
            let sources = self.sources_word();
            let (file, rows) = (bytes_word(self.file), table_word(self.rows));
            format!("parsing Sections {start} {regexps} {storage} {cjs} {sources} {file} {rows}")
        })
    }
}

impl Case<'_> {
    fn sources_word(&self) -> String {
        let not = || format!("not {}", self.aside);
        self.sources.map_or_else(not, |count| count.to_string())
    }
}

/// `START REGEXPS STORAGE CJS SOURCES FILE ROWS`; sources that are not given are `not` and the count beside it.
pub fn replay(words: &mut Words) -> Result<String, Difference> {
    let (start, regexps) = (words.number()?, words.number()?);
    let (storage, cjs) = (words.number()?, words.number()?);
    let not = words.called("not");
    let sources = words.number()?;
    let case = Case {
        start,
        regexps,
        storage,
        cjs,
        sources: Some(sources).filter(|_| !not),
        aside: sources,
        file: &words.bytes()?,
        rows: &words.table()?,
    };
    replayed(&case, words)
}
