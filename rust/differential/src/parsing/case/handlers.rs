//! The exception handlers of a table of functions.

use bisquepond::parsing::HandlerRow;
use bisquepond::sys::{hbc_read_handlers, LIMIT};
use bisquepond::Row as _;
use published::file::parser::parsing;
use published::format::{FunctionHeader, LegacyFunctionHeader};

use crate::case::{self, bytes_word, printed, replayed, said, table_word};
use crate::case::{Compare, Difference, Refusal, Words};
pub use crate::function::case::{FLAGS, INFO_OFFSET, ROW as FUNCTION};
use crate::lent::{copied, first_wrong};
use crate::meter;

/// The words of a handler's row.
pub const ROW: usize = HandlerRow::WORDS;

/// The flag of a function that has handlers.
pub const HAS: u32 = 8;

/// A function of which only two words are set.
pub fn function(info_offset: u32, flags: u32) -> [u32; FUNCTION] {
    let mut row = [0; FUNCTION];
    (row[INFO_OFFSET], row[FLAGS]) = (info_offset, flags);
    row
}

/// One call. `functions` and `rows` are the words lent, as they are before it.
#[derive(Clone, Copy)]
pub struct Case<'a> {
    pub file: &'a [u8],
    pub functions: &'a [u32],
    pub count: u32,
    pub rows: &'a [u32],
}

/// The answer, how many rows it says, and every word lent afterwards.
#[derive(PartialEq, Eq)]
pub struct Answer {
    pub code: u64,
    pub total: usize,
    rows: Vec<u32>,
}

impl Answer {
    /// The rows that were written, as many as the total says.
    pub fn rows(&self) -> &[[u32; ROW]] {
        let (rows, _) = self.rows.as_chunks();
        rows.get(..self.total).unwrap_or(&[])
    }
}

/// What the total holds before a call, so that a refused one can be seen to have left it.
const LENT: usize = 0xA5A5_A5A5_A5A5_A5A5;

/// A header as the Rust holds it, by a number and the words of a row. Its flags are a byte there.
pub fn header(function_id: u32, row: &[u32]) -> FunctionHeader {
    FunctionHeader::Legacy(LegacyFunctionHeader {
        function_id,
        offset: row[2],
        param_count: row[3],
        bytecode_size_in_bytes: row[4],
        function_name: row[5],
        info_offset: row[INFO_OFFSET],
        frame_size: row[7],
        environment_size: 0,
        highest_read_cache_index: 0,
        highest_write_cache_index: 0,
        flags: row[FLAGS] as u8,
    })
}

/// The Rust's handlers of the functions of these rows, each numbered as its row.
pub fn published(file: &[u8], functions: &[u32]) -> Vec<[u32; ROW]> {
    let rows = functions.chunks_exact(FUNCTION).zip(0..);
    let headers: Vec<_> = rows.map(|(row, id)| header(id, row)).collect();
    listed(file, &headers)
}

/// The Rust's handlers of these functions.
pub fn listed(file: &[u8], headers: &[FunctionHeader]) -> Vec<[u32; ROW]> {
    let found = parsing::handlers(file, headers);
    let rows = found.iter().flat_map(|(&id, handlers)| {
        let row = move |h: &published::file::ExceptionHandler| [id, h.start, h.end, h.target];
        handlers.iter().map(row)
    });
    rows.collect()
}

/// What is right: the handlers by the Rust, the refusals by docs/FORMAT.md.
pub fn right(case: &Case) -> Result<Vec<[u32; ROW]>, Refusal> {
    if case.file.len() > LIMIT {
        return Err((1, 0));
    }
    let count = case.count as usize;
    if case.functions.len() / FUNCTION < count {
        return Err((11, 0));
    }
    let found = published(case.file, &case.functions[..count * FUNCTION]);
    if case.rows.len() / ROW < found.len() {
        return Err((4, 0));
    }
    Ok(found)
}

impl Case<'_> {
    /// A refusal, which leaves all that is lent as it was.
    pub fn refused(&self, refusal: Refusal) -> Answer {
        Answer { code: case::code(Err(refusal)), total: LENT, rows: copied(self.rows) }
    }
}

impl Compare for Case<'_> {
    type Answer = Answer;
    type Besides = ();

    fn ours(&self) -> Result<Answer, String> {
        let (file, len) = (self.file.as_ptr(), self.file.len());
        let (functions, words) = (self.functions.as_ptr(), self.functions.len());
        let (mut total, mut rows) = (LENT, copied(self.rows));
        let (lent, lent_len) = (rows.as_mut_ptr(), self.rows.len());
        let (count, total_at) = (self.count, &mut total);
        let code = meter::call(|| unsafe {
            hbc_read_handlers(file, len, functions, words, count, lent, lent_len, total_at)
        });
        Ok(Answer { code, total, rows })
    }

    fn right(&self, _: Option<&Answer>) -> (Answer, ()) {
        let found = match right(self) {
            Ok(found) => found,
            Err(refusal) => return (self.refused(refusal), ()),
        };
        let mut rows = copied(self.rows);
        rows[..found.len() * ROW].copy_from_slice(found.as_flattened());
        let (code, total) = (0, found.len());
        (Answer { code, total, rows }, ())
    }

    fn call(&self) -> String {
        let (count, len) = (self.count, self.file.len());
        let (words, lent) = (self.functions.len(), self.rows.len());
        format!("handlers of {count} functions, {len} bytes of file, {words} and {lent} words lent")
    }

    fn said(&self, answer: &Answer, right: Option<&Answer>) -> String {
        let total = match answer.total {
            LENT => "no total".to_string(),
            total => format!("{total} rows"),
        };
        let wrong = first_wrong("table", &answer.rows, right.map(|right| &right.rows), ROW);
        format!("{}, {total}{wrong}", said(answer.code, ""))
    }

    fn replay(&self) -> Option<String> {
        let tables = [self.functions, self.rows];
        printed(self.file, &tables, &[]).then(|| {
            let (file, [functions, rows]) = (bytes_word(self.file), tables.map(table_word));
            format!("parsing Handlers {} {file} {functions} {rows}", self.count)
        })
    }
}

/// `COUNT FILE FUNCTIONS ROWS`.
pub fn replay(words: &mut Words) -> Result<String, Difference> {
    let case = Case {
        count: words.number()?,
        file: &words.bytes()?,
        functions: &words.table()?,
        rows: &words.table()?,
    };
    replayed(&case, words)
}
