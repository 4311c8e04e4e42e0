//! One call on the debug section.

use bisquepond::debug::{CalleeRow, NameRow, ScopeRow, TextRow};
use bisquepond::sys::{hbc_read_debug, LIMIT};
use bisquepond::Row as _;
use published::debug::{DebugInfo, ScopeDescriptor};
use published::io::ByteReader;

use crate::case::{self, bytes_word, printed, replayed, said, table_word};
use crate::case::{Compare, Difference, Refusal, Words};
use crate::exact::UNMARKED;
use crate::lent::{copied, first_wrong, lent, Number};
use crate::meter;

use super::numbers::all_exact;

/// The four tables, and the words of their rows.
pub const TABLES: [&str; 4] = ["strings", "scopes", "names", "callees"];
pub const ROWS: [usize; 4] = [TextRow::WORDS, ScopeRow::WORDS, NameRow::WORDS, CalleeRow::WORDS];

/// No parent, and no such string.
pub const NONE: u32 = u32::MAX;

/// One call. `tables` are the words lent, as they are before it.
#[derive(Clone, Copy)]
pub struct Case<'a> {
    pub file: &'a [u8],
    pub offset: u32,
    pub tables: [&'a [u32]; 4],
}

/// The answer, the four counts and the mark, and every word lent afterwards.
#[derive(PartialEq, Eq)]
pub struct Answer {
    pub code: u64,
    pub counts: [usize; 4],
    pub mark: u32,
    pub tables: [Vec<u32>; 4],
}

impl Answer {
    /// What it tells besides the tables.
    fn told(&self) -> Told {
        Told { code: self.code, counts: self.counts, mark: self.mark }
    }
}

/// The answer, and what it leaves in the counts and in the mark.
#[derive(Clone, Copy, PartialEq, Eq, Debug)]
pub struct Told {
    pub code: u64,
    pub counts: [usize; 4],
    pub mark: u32,
}

impl Told {
    /// A refusal, which leaves the numbers.
    pub fn refused(refusal: Refusal) -> Told {
        Told { code: case::code(Err(refusal)), counts: [LENT; 4], mark: UNMARKED }
    }

    /// In words.
    pub fn words(&self) -> String {
        let mut words = said(self.code, "");
        if self.counts != [LENT; 4] {
            words += &format!(", counts {:?}", self.counts);
        }
        match self.mark {
            UNMARKED => words,
            0 => words + ", bits lost",
            1 => words + ", exact",
            mark => words + &format!(", marked {mark}"),
        }
    }
}

/// What the counts hold before a call, so that a refused one can be seen to have left them.
pub const LENT: usize = 0xA5A5_A5A5_A5A5_A5A5;

/// A table as it is lent: where it is, and its words.
pub type Table = (*mut u32, usize);

/// The call itself; an error where a number was written beside a lent one.
pub fn make(file: &[u8], offset: u32, tables: [Table; 4]) -> Result<Told, String> {
    let [(a, a_len), (b, b_len), (c, c_len), (d, d_len)] = tables;
    let (s, len) = (file.as_ptr(), file.len());
    let (mut counts, mut mark) =
        ([0; 4].map(|_| Number::new(LENT, LENT)), Number::new(UNMARKED, UNMARKED));
    let ([w, x, y, z], exact) = (counts.each_mut().map(Number::lent), mark.lent());
    let code = meter::call(|| unsafe {
        hbc_read_debug(s, len, offset, a, a_len, b, b_len, c, c_len, d, d_len, w, x, y, z, exact)
    });
    let mark = mark.held()?;
    let mut told = Told { code, counts: [0; 4], mark };
    for (told, count) in told.counts.iter_mut().zip(&counts) {
        *told = count.held()?;
    }
    Ok(told)
}

/// What a section holds, in rows: the words of each table.
#[derive(Default)]
pub struct Rows {
    pub tables: [Vec<u32>; 4],
}

/// A part of the debug data; empty where its bounds are reversed or outside.
fn part(data: &[u8], from: u32, to: u32) -> (usize, &[u8]) {
    let part = data.get(from as usize..to as usize);
    (from as usize, part.unwrap_or_default())
}

/// The rows by docs/FORMAT.md, its numbers read by io.rs. [`check`] holds them against what debug.rs makes of the bytes.
pub fn rows(file: &[u8], offset: u32) -> Result<Rows, Refusal> {
    let mut rows = Rows::default();
    if offset == 0 || offset == u32::MAX || offset as usize >= file.len() {
        return Ok(rows);
    }
    let section = &file[offset as usize..];
    let mut reader = ByteReader::new(section);
    let mut header = [0; 7];
    for word in &mut header {
        *word = reader.read_u32().map_err(|_| (3, 0))?;
    }
    let [filenames, storage, regions, scopes, callees, strings, size] = header;
    let data_start = 28 + 8 * u64::from(filenames) + u64::from(storage) + 12 * u64::from(regions);
    let data_end = data_start + u64::from(size);
    if data_end > section.len() as u64 {
        return Ok(rows);
    }
    let data = &section[data_start as usize..data_end as usize];
    let (at, text) = part(data, strings, size);
    let in_file = offset as usize + data_start as usize + at;
    rows.tables[0] = string_rows(text, in_file);
    let known = rows.tables[0].len() as i64 / 2;
    let (_, bytes) = part(data, scopes, callees);
    (rows.tables[1], rows.tables[2]) = scope_rows(bytes, known);
    let (_, bytes) = part(data, callees, strings);
    rows.tables[3] = callee_rows(bytes, known);
    Ok(rows)
}

fn string_rows(part: &[u8], in_file: usize) -> Vec<u32> {
    let mut rows = Vec::new();
    let mut reader = ByteReader::new(part);
    while reader.remaining() > 0 {
        let mut prefix = ByteReader::new(part);
        prefix.seek(reader.position()).unwrap();
        let (Ok(len), Ok(_)) = (prefix.read_uleb128(), reader.read_length_prefixed_string()) else {
            break;
        };
        rows.extend([(in_file + prefix.position()) as u32, len as u32]);
    }
    rows
}

fn scope_rows(part: &[u8], known: i64) -> (Vec<u32>, Vec<u32>) {
    let (mut rows, mut names) = (Vec::new(), Vec::new());
    let mut reader = ByteReader::new(part);
    while reader.remaining() > 0 {
        let offset = reader.position() as u32;
        let mut number = || reader.read_sleb128();
        let (Ok(parent), Ok(flags), Ok(count)) = (number(), number(), number()) else {
            break;
        };
        if count < 0 || count > reader.remaining() as i64 {
            break;
        }
        let first = names.len() as u32;
        for _ in 0..count {
            let Ok(name) = reader.read_sleb128() else {
                break;
            };
            let named = (0..known).contains(&name);
            names.push(if named { name as u32 } else { NONE });
        }
        let parent = match parent {
            0..0xFFFF_FFFF => parent as u32,
            _ => NONE,
        };
        let kept = names.len() as u32 - first;
        rows.extend([offset, parent, flags as u32, first, kept]);
    }
    (rows, names)
}

fn callee_rows(part: &[u8], known: i64) -> Vec<u32> {
    let mut reader = ByteReader::new(part);
    let mut entries: Vec<(u32, u32)> = Vec::new();
    let count = reader.read_sleb128().unwrap_or(0);
    if count > reader.remaining() as i64 {
        return Vec::new();
    }
    for _ in 0..count {
        let Ok(address) = reader.read_sleb128() else {
            break;
        };
        let Ok(name) = reader.read_sleb128() else {
            break;
        };
        if (0..known).contains(&name) {
            entries.push((address as u32, name as u32));
        }
    }
    // Rising, and of equal addresses the last alone: sorting keeps their order.
    entries.sort_by_key(|entry| entry.0);
    let last = |i: usize| entries.get(i + 1).is_none_or(|next| next.0 != entries[i].0);
    let kept = (0..entries.len()).filter(|&i| last(i));
    kept.flat_map(|i| [entries[i].0, entries[i].1]).collect()
}

/// Whether these rows say what debug.rs says, which has texts where they have numbers and spans.
pub fn check(case: &Case, rows: &Result<Rows, Refusal>) -> Result<(), String> {
    let published = DebugInfo::parse(case.file, case.offset);
    let (rows, published) = match (rows, published) {
        (Err((3, 0)), Err(_)) => return Ok(()),
        (Ok(rows), Ok(published)) => (rows, published),
        (_, Ok(_)) => return Err("debug.rs reads it".to_string()),
        (_, Err(error)) => return Err(format!("debug.rs says {error}")),
    };
    let [strings, scopes, names, callees] = &rows.tables;
    let span = |row: &[u32]| &case.file[row[0] as usize..][..row[1] as usize];
    let text = |row| String::from_utf8_lossy(span(row)).into_owned();
    let texts: Vec<String> = strings.chunks_exact(2).map(text).collect();
    if texts != published.string_table {
        return Err("debug.rs has other strings".to_string());
    }
    let name = |&name: &u32| texts.get(name as usize).cloned().unwrap_or_default();
    let same = |(row, scope): (&[u32], &ScopeDescriptor)| {
        let named = names[row[3] as usize..][..row[4] as usize].iter();
        row[0] == scope.offset
            && row[1] == scope.parent_offset.unwrap_or(NONE)
            && row[2] == scope.flags
            && named.map(name).eq(scope.names.iter().cloned())
    };
    let (rows, found) = (scopes.chunks_exact(5), &published.scope_descriptors);
    let same_scopes = rows.len() == found.len() && rows.zip(found).all(same);
    if !same_scopes {
        return Err("debug.rs has other scopes".to_string());
    }
    let pairs = callees.chunks_exact(2).map(|row| (row[0], name(&row[1])));
    if !pairs.eq(published.textified_callees) {
        return Err("debug.rs has other callees".to_string());
    }
    Ok(())
}

/// What is right of the lent words.
pub fn expected(case: &Case, rows: &Result<Rows, Refusal>) -> Answer {
    let tables = case.tables.map(<[u32]>::to_vec);
    let mut answer = Answer { code: 0, counts: [LENT; 4], mark: UNMARKED, tables };
    let short = |rows: &&Rows| (0..4).any(|i| case.tables[i].len() < rows.tables[i].len());
    match rows {
        Err(refusal) => answer.code = case::code(Err(*refusal)),
        Ok(rows) if short(&rows) => answer.code = case::code(Err((4, 0))),
        Ok(rows) => {
            for (i, rows) in rows.tables.iter().enumerate() {
                answer.counts[i] = rows.len() / ROWS[i];
                answer.tables[i][..rows.len()].copy_from_slice(rows);
            }
            answer.mark = all_exact(case.file, case.offset).into();
        }
    }
    answer
}

impl Compare for Case<'_> {
    type Answer = Answer;
    type Besides = ();

    fn ours(&self) -> Result<Answer, String> {
        let mut tables = self.tables.map(copied);
        let lent = std::array::from_fn(|i| (tables[i].as_mut_ptr(), self.tables[i].len()));
        let Told { code, counts, mark } = make(self.file, self.offset, lent)?;
        Ok(Answer { code, counts, mark, tables })
    }

    fn right(&self, _: Option<&Answer>) -> (Answer, ()) {
        let rows = match self.file.len() {
            0..=LIMIT => {
                let rows = rows(self.file, self.offset);
                if let Err(wrong) = check(self, &rows) {
                    let words = self.replay();
                    panic!("the comparison itself is wrong: {wrong}\n{words:?}");
                }
                rows
            }
            _ => Err((1, 0)),
        };
        let mut answer = expected(self, &rows);
        answer.tables = answer.tables.map(|table| {
            let words = table.len();
            lent(table, words)
        });
        (answer, ())
    }

    fn call(&self) -> String {
        let (offset, len) = (self.offset, self.file.len());
        let words = self.tables.map(<[u32]>::len);
        format!("debug at {offset}, {len} bytes of file, {words:?} words lent")
    }

    fn said(&self, answer: &Answer, right: Option<&Answer>) -> String {
        let mut words = answer.told().words();
        for (i, name) in TABLES.iter().enumerate() {
            let right = right.map(|right| &right.tables[i]);
            words += &first_wrong(name, &answer.tables[i], right, ROWS[i]);
        }
        words
    }

    fn replay(&self) -> Option<String> {
        printed(self.file, &self.tables, &[]).then(|| {
            let [a, b, c, d] = self.tables.map(table_word);
            let file = bytes_word(self.file);
            format!("debug {} {file} {a} {b} {c} {d}", self.offset)
        })
    }
}

/// `OFFSET FILE STRINGS SCOPES NAMES CALLEES`, as a difference prints them.
pub fn replay(words: &mut Words) -> Result<String, Difference> {
    let (offset, file) = (words.number()?, words.bytes()?);
    let tables = [words.table()?, words.table()?, words.table()?, words.table()?];
    let tables = tables.each_ref().map(Vec::as_slice);
    let file = &file;
    let case = Case { file, offset, tables };
    replayed(&case, words)
}
