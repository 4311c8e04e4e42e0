//! One call on function headers.

pub mod panes;
pub mod totals;
pub mod write;

use bisquepond::function::FunctionRow;
use bisquepond::sys::*;
use bisquepond::Row as _;
use published::error::{Error, Result as Published};
use published::file::parser::function::parse_function_headers;
use published::format::{empty_header, FunctionHeader, FunctionHeaderLayout, FLAG_OVERFLOWED};
use published::io::ByteReader;

use self::totals::{carried, Lent, Totals};
use crate::case::{self, bytes_word, printed, replayed, said, table_word};
use crate::case::{Compare, Difference, Refusal, Words};
use crate::lent::{first_wrong, guarded, inside, kept, Word, FRONT};
use crate::meter;
use crate::search::last;

/// The words of a row, and four of them.
pub const ROW: usize = FunctionRow::WORDS;
pub const SIZE: usize = 4;
pub const INFO_OFFSET: usize = 6;
pub const FLAGS: usize = 8;
pub const PLACE: usize = 16;

/// The words of a record: those of a row that the Rust has too. Behind them stands the place.
pub const RECORD: usize = PLACE;

pub type Row = [u32; ROW];
pub type Record = [u32; RECORD];

/// The last word of a row that was read from no large header.
pub const INLINE: u32 = u32::MAX;

#[derive(Clone, Copy, PartialEq, Eq, Debug)]
pub enum Op {
    Read,
    Refresh,
    One,
    Ground,
    Meets,
}

use Op::*;

pub const OPS: [Op; 5] = [Read, Refresh, One, Ground, Meets];

/// What stands for the place of a large header that there is not.
pub const NO_PLACE: usize = usize::MAX;

/// Two numbers lent for a ground, as they are before the call: as words, the lesser half first.
fn unsaid() -> Vec<u32> {
    (0..4).map(Word::before).collect()
}

fn halves(number: usize) -> [u32; 2] {
    [number as u32, (number >> 32) as u32]
}

pub fn joined(halves: &[u32]) -> usize {
    halves[0] as usize | (halves[1] as usize) << 32
}

#[derive(Clone, Copy, PartialEq, Eq, Debug)]
pub enum Layout {
    Legacy,
    Modern,
}

pub const LAYOUTS: [Layout; 2] = [Layout::Legacy, Layout::Modern];

impl Layout {
    pub fn ours(self) -> bisquepond::Layout {
        match self {
            Layout::Legacy => bisquepond::Layout::Legacy16,
            Layout::Modern => bisquepond::Layout::Modern12,
        }
    }

    pub fn published(self) -> FunctionHeaderLayout {
        match self {
            Layout::Legacy => FunctionHeaderLayout::Legacy16,
            Layout::Modern => FunctionHeaderLayout::Modern12,
        }
    }

    /// The bytes of a header in the table.
    pub fn own(self) -> usize {
        self.ours().header_size()
    }

    /// The bytes of a large header.
    pub fn large(self) -> usize {
        self.ours().large_header_size()
    }

    /// The packed place of a header, if it is flagged. The Rust hands none back; this is
    /// written from docs/FORMAT.md, section 3.3, and the request's sentences.
    pub fn place(self, header: &[u8]) -> Option<u64> {
        let word = |at: usize| u64::from_le_bytes(header[at..at + 8].try_into().unwrap());
        let offset = word(0) & ((1 << 25) - 1);
        if header[self.own() - 1] & FLAG_OVERFLOWED == 0 {
            return None;
        }
        Some(match self {
            Layout::Legacy => (word(8) & ((1 << 25) - 1)) << 16 | offset,
            Layout::Modern => (word(0) >> 46 & 0xFF) << 24 | offset & 0xFF_FFFF,
        })
    }

    /// The last word of a function's row, by its header: the place of its large header, or 2^32 - 1. Of a function that can
    /// be read the place is in the file, which has at most 2^30 bytes, so that it is never taken for the other.
    pub fn last_word(self, header: &[u8]) -> u32 {
        self.place(header).map_or(INLINE, |place| {
            assert!(place < LIMIT as u64, "a large header past 2^30 was read");
            place as u32
        })
    }

    /// Where header `id` of the table stands, if it is wholly in the file.
    pub fn header(self, file: &[u8], start: usize, id: u32) -> Option<(usize, &[u8])> {
        let at = start.checked_add(id as usize * self.own())?;
        let bytes = file.get(at..at.checked_add(self.own())?)?;
        Some((at, bytes))
    }

    /// Whether the ground of function `id` shares a byte with the span.
    fn meets(self, file: &[u8], start: usize, id: u32, low: usize, high: usize) -> bool {
        let Some((at, header)) = self.header(file, start, id) else {
            return false;
        };
        let shares = |from: u64, size: usize| {
            let to = from + size as u64;
            low < high && from < high as u64 && (low as u64) < to
        };
        let by_large = |place| shares(place, self.large());
        shares(at as u64, self.own()) || self.place(header).is_some_and(by_large)
    }
}

/// One call: on which file and table, with which numbers. `low` and `high` are 0 where there is no span.
#[derive(Clone, Copy)]
pub struct Case<'a> {
    pub op: Op,
    pub file: &'a [u8],
    pub layout: u32,
    pub start: usize,
    /// How many functions; the number of the one where the call is about one.
    pub count: u32,
    pub low: usize,
    pub high: usize,
    /// The words lent, as they are before the call.
    pub table: &'a [u32],
    /// The totals lent, likewise; where none are named, those of the rows lent to a refresh, and others to a read.
    pub totals: Option<Totals>,
}

/// The record by the Rust's header of a function.
pub fn record(header: &FunctionHeader) -> Record {
    let words: &[u32] = match header {
        FunctionHeader::Legacy(h) => &[
            0,
            h.function_id,
            h.offset,
            h.param_count,
            h.bytecode_size_in_bytes,
            h.function_name,
            h.info_offset,
            h.frame_size,
            h.flags.into(),
            h.environment_size,
            h.highest_read_cache_index,
            h.highest_write_cache_index,
        ],
        FunctionHeader::Modern(h) => &[
            1,
            h.function_id,
            h.offset,
            h.param_count,
            h.bytecode_size_in_bytes,
            h.function_name,
            h.info_offset,
            h.frame_size,
            h.flags.into(),
            h.loop_depth,
            h.number_reg_count,
            h.non_ptr_reg_count,
            h.read_cache_size.into(),
            h.write_cache_size.into(),
            h.num_cache_new_object.into(),
            h.private_name_cache_size.into(),
        ],
    };
    let mut record = [0; RECORD];
    record[..words.len()].copy_from_slice(words);
    record
}

/// The row of a record and its last word.
pub fn row(record: &Record, last: u32) -> Row {
    let mut row = [last; ROW];
    row[..RECORD].copy_from_slice(record);
    row
}

/// The Rust's own loop over `count` functions from a start within the file.
pub fn parsed(file: &[u8], layout: Layout, start: usize, count: u32) -> Published<Vec<Record>> {
    let mut header = empty_header(layout.published());
    header.function_count = count;
    let mut reader = ByteReader::new(file);
    reader.seek(start).expect("a start within the file");
    let headers = parse_function_headers(&mut reader, &header)?;
    Ok(headers.iter().map(record).collect())
}

/// Its records, or the number of its refusal.
fn published(file: &[u8], layout: Layout, start: usize, count: u32) -> Result<Vec<Record>, u32> {
    parsed(file, layout, start, count).map_err(|error| match error {
        Error::Parse(text) if text.starts_with("seek out of range") => 2,
        Error::Parse(text) if text.starts_with("unexpected end of file") => 3,
        error => panic!("an error that function.rs does not have: {error}"),
    })
}

/// A fresh read of the whole table: records by the Rust, the last words by the headers. The Rust's refusal names no
/// function: the place is the greatest count that it still reads.
pub fn fresh(file: &[u8], layout: Layout, start: usize, count: u32) -> Result<Vec<Row>, Refusal> {
    let records = published(file, layout, start, count).map_err(|number| {
        let fit = (file.len() - start) / layout.own();
        let reads = |count| published(file, layout, start, count).is_ok();
        (number, last(0..count.min(fit as u32 + 1), 0, reads))
    })?;
    let headers = file[start..].chunks_exact(layout.own());
    let rows = records.iter().zip(headers);
    Ok(rows.map(|(record, header)| row(record, layout.last_word(header))).collect())
}

/// One function by the Rust: a table of one, at its header.
pub fn one(file: &[u8], layout: Layout, start: usize, id: u32) -> Result<Row, Refusal> {
    let (at, header) = layout.header(file, start, id).ok_or((3, id))?;
    let records = published(file, layout, at, 1).map_err(|number| (number, id))?;
    let mut row = row(&records[0], layout.last_word(header));
    row[1] = id;
    Ok(row)
}

/// What is right: records and their refusals by the Rust, all else by docs/FORMAT.md. The rows are written into `table`, and
/// the totals into `totals`.
pub fn right(case: &Case, table: &mut [u32], totals: &mut Totals) -> Result<u32, Refusal> {
    let Case { op, file, start, count, low, high, .. } = *case;
    let layout = *LAYOUTS.get(case.layout as usize).ok_or((12, 0))?;
    let meets = |&id: &u32| layout.meets(file, start, id, low, high);
    if file.len() > LIMIT {
        return Err((1, 0));
    }
    if start > file.len() {
        return Err((2, 0));
    }
    if (op == Refresh || op == Meets) && (low > high || high > file.len()) {
        return Err((10, 0));
    }
    if op == Ground || op == Meets {
        let (at, header) = layout.header(file, start, count).ok_or((3, count))?;
        if op == Meets {
            return Ok(meets(&count).into());
        }
        let large = layout.place(header).map_or(NO_PLACE, |place| place as usize);
        table.copy_from_slice([halves(at), halves(large)].as_flattened());
        return Ok(0);
    }
    let rows = if op == One { 1 } else { count as usize };
    if table.len() / ROW < rows {
        return Err((4, 0));
    }
    let written: Vec<(usize, Row)> = match op {
        Read => {
            let rows = fresh(file, layout, start, count)?;
            rows.into_iter().enumerate().collect()
        }
        Refresh => {
            let fit = (file.len() - start) / layout.own();
            if fit < count as usize {
                return Err((3, fit as u32));
            }
            let met = (0..count).filter(meets);
            let read = met.map(|id| Ok((id as usize, one(file, layout, start, id)?)));
            read.collect::<Result<_, Refusal>>()?
        }
        _ => vec![(0, one(file, layout, start, count)?)],
    };
    if op == Refresh {
        let old = |i: usize| &table[i * ROW..][..ROW];
        let rewritten = written.iter().map(|(i, row)| (*i as u32, old(*i), &row[..]));
        let carried = carried(*totals, rewritten);
        assert!(carried.is_ok() || case.totals.is_some(), "true totals are refused");
        *totals = carried?;
    }
    for (i, row) in &written {
        table[i * ROW..][..ROW].copy_from_slice(row);
    }
    if op == Read {
        *totals = totals::of(table, count);
    }
    Ok(written.len() as u32)
}

/// The answer, every word of the table as it is afterwards, those behind it too, and the totals.
#[derive(Clone, PartialEq, Eq)]
pub struct Answer {
    pub code: u64,
    pub table: Vec<u32>,
    pub totals: Totals,
}

/// Bytes of a file that is lent as a copy, with bytes on both sides.
const COPIED: usize = 1 << 12;

impl Case<'_> {
    /// Another call on the same, of so many functions or about one.
    pub fn of(self, op: Op, count: u32) -> Self {
        Case { op, count, ..self }
    }

    /// The totals that are lent.
    pub fn lent(&self) -> Totals {
        self.totals.unwrap_or_else(|| match self.op {
            Refresh => totals::of(self.table, self.count),
            _ => [0, 1].map(Word::before),
        })
    }

    /// The call itself, with a table of so many words.
    pub fn make(&self, table: *mut u32, words: usize, totals: &mut Lent) -> u64 {
        let (s, len) = (self.file.as_ptr(), self.file.len());
        let (layout, start, count) = (self.layout, self.start, self.count);
        let (low, high, [large, sizes]) = (self.low, self.high, totals.lent());
        meter::call(|| unsafe {
            match self.op {
                Read => {
                    hbc_read_functions(s, len, layout, start, count, table, words, large, sizes)
                }
                Refresh => hbc_refresh_functions(
                    s, len, layout, start, count, low, high, table, words, large, sizes,
                ),
                One => hbc_read_function(s, len, layout, start, count, table, words),
                Ground => unreachable!("it is lent two numbers and no table"),
                Meets => hbc_function_meets(s, len, layout, start, count, low, high),
            }
        })
    }

    /// A ground, with its two numbers as words.
    fn ground(&self) -> Answer {
        let (s, len, mut table) = (self.file.as_ptr(), self.file.len(), unsaid());
        let (layout, start, id) = (self.layout, self.start, self.count);
        let (mut header, mut large) = (joined(&table[..2]), joined(&table[2..]));
        let code = meter::call(|| unsafe {
            hbc_function_ground(s, len, layout, start, id, &mut header, &mut large)
        });
        table.copy_from_slice([halves(header), halves(large)].as_flattened());
        Answer { code, table: behind(&table), totals: self.lent() }
    }

    /// Compares a refresh with a fresh read of the same file by the Rust as well. `self.table` begins with the rows of
    /// a file that was read whole, and that differs from this one within the span alone.
    pub fn compare_fresh(&self) -> Result<Answer, Difference> {
        let given = self.compare()?;
        let layout = LAYOUTS[self.layout as usize];
        let (mut table, mut totals) = (behind(self.table), self.lent());
        let answer = fresh(self.file, layout, self.start, self.count).map(|rows| {
            table[..rows.len() * ROW].copy_from_slice(rows.as_flattened());
            totals = totals::of(rows.as_flattened(), self.count);
            place(given.code)
        });
        let code = case::code(answer);
        let same = self.same(Ok(given), &Answer { code, table, totals });
        same.map_err(|Difference(mut lines)| {
            lines.push("expected  by a fresh read of the same file".to_string());
            Difference(lines)
        })
    }
}

/// The words of a table, and those behind it.
fn behind(table: &[u32]) -> Vec<u32> {
    let mut all = guarded(table, table.len());
    all.drain(..FRONT);
    all
}

impl Compare for Case<'_> {
    type Answer = Answer;
    type Besides = ();

    fn ours(&self) -> Result<Answer, String> {
        if self.op == Ground {
            return Ok(self.ground());
        }
        let (mut table, mut totals) =
            (guarded(self.table, self.table.len()), Lent::new(self.lent()));
        let copy = (self.file.len() < COPIED).then(|| guarded(self.file, self.file.len()));
        let file = copy.as_deref().map_or(self.file, inside);
        let call = Case { file, ..*self };
        let code = call.make(table[FRONT..].as_mut_ptr(), self.table.len(), &mut totals);
        if copy.is_some_and(|copy| !kept(&copy) || inside(&copy) != self.file) {
            return Err("the file was written, or bytes beside it".to_string());
        }
        if table.drain(..FRONT).enumerate().any(|(i, word)| word != Word::before(i)) {
            return Err("a word in front of the table was written".to_string());
        }
        Ok(Answer { code, table, totals: totals.held()? })
    }

    fn right(&self, _: Option<&Answer>) -> (Answer, ()) {
        let unsaid = (self.op == Ground).then(unsaid);
        let lent = unsaid.as_deref().unwrap_or(self.table);
        let (mut table, mut totals) = (behind(lent), self.lent());
        let code = case::code(right(self, &mut table[..lent.len()], &mut totals));
        (Answer { code, table, totals }, ())
    }

    fn call(&self) -> String {
        let (op, layout, start, count) = (self.op, self.layout, self.start, self.count);
        let (low, high, len, words) = (self.low, self.high, self.file.len(), self.table.len());
        let [large, sizes] = self.lent();
        format!("{op:?}, layout {layout}, start {start}, count or number {count}, span {low} to {high}, {len} bytes of file, {words} words lent, totals {large} and {sizes}")
    }

    fn said(&self, answer: &Answer, right: Option<&Answer>) -> String {
        let what = match self.op {
            Meets => "",
            Ground => "places",
            _ => "rows",
        };
        let [large, sizes] = answer.totals;
        let totals = match self.op {
            Read | Refresh => format!(", totals {large} and {sizes}"),
            _ => String::new(),
        };
        let table = right.map(|right| &right.table);
        said(answer.code, what) + &totals + &first_wrong("table", &answer.table, table, ROW)
    }

    fn replay(&self) -> Option<String> {
        let (op, layout, start, count) = (self.op, self.layout, self.start, self.count);
        let (low, high) = (self.low, self.high);
        printed(self.file, &[self.table], &[]).then(|| {
            let (file, table) = (bytes_word(self.file), table_word(self.table));
            let [large, sizes] = self.lent();
            format!("function {op:?} {layout} {start} {count} {low} {high} {file} {table} {large} {sizes}")
        })
    }
}

/// `OP LAYOUT START COUNT LOW HIGH FILE TABLE LARGE SIZES`, as a difference prints them; or `Write ..`, `Panes ..`
/// or `Zeros ..`.
pub fn replay(words: &mut Words) -> Result<String, Difference> {
    if words.called("Write") {
        return write::replay(words);
    }
    if words.called("Panes") {
        return panes::replay(words);
    }
    if words.called("Zeros") {
        return super::differences::replay(words);
    }
    let case = Case {
        op: words.one_of(&OPS)?,
        layout: words.number()?,
        start: words.number()?,
        count: words.number()?,
        low: words.number()?,
        high: words.number()?,
        file: &words.bytes()?,
        table: &words.table()?,
        totals: Some([words.number()?, words.number()?]),
    };
    replayed(&case, words)
}
