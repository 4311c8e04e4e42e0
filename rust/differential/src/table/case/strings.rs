//! Decoded strings, and one string's bytes.

use bisquepond::sys::*;
use bisquepond::table::StringRow;
use bisquepond::Row as _;
use published::error::{Error, Result as Published};
use published::file::parser::table::{decode_string_table, parse_string_kinds};
use published::file::structure::{StringKindEntry, StringTableEntry};
use published::io::ByteReader;

use super::text;
use crate::case::{bytes_word, code, printed, replayed, table_word};
use crate::case::{Compare, Difference, Refusal, Words};
use crate::inputs::bytes_of;
use crate::lent::{lent, Answer};
use crate::meter;
use crate::search::last;

/// Words in a row.
pub const ROW: usize = StringRow::WORDS;

const UTF16: u32 = 1;
const IDENTIFIER: u32 = 2;

/// One call: how many strings, by which kind runs, small entries and overflow words, of which storage, into a table of
/// how many words.
#[derive(Clone, Copy)]
pub struct Case<'a> {
    pub count: u32,
    pub kinds: &'a [u32],
    pub small: &'a [u32],
    pub overflow: &'a [u32],
    pub storage: &'a [u8],
    pub lent: usize,
}

/// The kind runs as the published Rust reads them.
fn runs(kinds: &[u32]) -> Vec<StringKindEntry> {
    let bytes = bytes_of(kinds);
    parse_string_kinds(&mut ByteReader::new(&bytes), kinds.len() as u32).expect("whole words")
}

fn rust(case: &Case, runs: &[StringKindEntry], count: u32) -> Published<Vec<StringTableEntry>> {
    let pairs = case.overflow.chunks_exact(2);
    let pairs: Vec<_> = pairs.map(|pair| (pair[0], pair[1])).collect();
    decode_string_table(count, runs, case.small, &pairs, case.storage)
}

/// The text that the Rust makes of the bytes of a string.
fn text_of(bytes: &[u8], utf16: bool) -> String {
    if !utf16 {
        return String::from_utf8_lossy(bytes).to_string();
    }
    let unit = |pair: &[u8]| u16::from_le_bytes([pair[0], pair[1]]);
    let units: Vec<u16> = bytes.chunks_exact(2).map(unit).collect();
    String::from_utf16_lossy(&units)
}

impl Case<'_> {
    /// The strings that are decoded.
    fn strings(&self) -> usize {
        self.small.len().min(self.count as usize)
    }

    /// Start, byte length and validity of each string, in the words of docs/FORMAT.md: the Rust's texts don't tell the
    /// start of an empty string, nor one part from another that reads the same.
    fn spans(&self) -> Vec<[u32; 3]> {
        let mut pairs = self.overflow.chunks_exact(2);
        let small = &self.small[..self.strings()];
        let span = |&entry: &u32| {
            let (start, length) = match entry >> 24 {
                255 => {
                    let pair = pairs.next().expect("a pair for each, as the Rust found");
                    (pair[0], pair[1])
                }
                length => (entry >> 1 & 0x7F_FFFF, length),
            };
            let bytes = (length as u64) << (entry & 1);
            let end = self.storage.len() as u64;
            match start as u64 >= end || start as u64 + bytes > end {
                true => [0, 0, 1],
                false => [start, bytes as u32, 0],
            }
        };
        small.iter().map(span).collect()
    }

    /// What is right: the words of the rows, with what the Rust made of them, or the refusal. What the Rust doesn't refuse
    /// or tell is docs/FORMAT.md's.
    pub fn decoded(&self, guess: u32) -> Result<(Vec<u32>, Vec<StringTableEntry>), Refusal> {
        if self.storage.len() > LIMIT {
            return Err((1, 0));
        }
        if self.lent / ROW < self.strings() {
            return Err((4, 0));
        }
        let runs = runs(self.kinds);
        let texts = rust(self, &runs, self.count).map_err(|error| {
            missing(error);
            (8, self.first_missing(&runs, guess))
        })?;
        let mut words = Vec::with_capacity(texts.len() * ROW);
        for (span, text) in self.spans().iter().zip(&texts) {
            words.extend(span);
            let identifier = if text.is_identifier { IDENTIFIER } else { 0 };
            words.push(identifier + text.is_utf16 as u32 * UTF16);
        }
        Ok((words, texts))
    }

    /// Whether the bytes that a row names read as the Rust's text, or what is wrong.
    pub fn reads(&self, i: usize, row: &[u32], text: &StringTableEntry) -> Result<(), String> {
        let [start, len] = [row[0], row[1]].map(|word| word as usize);
        let ours = match (row[2], text.is_utf16) {
            (0, utf16) => text_of(&self.storage[start..start + len], utf16),
            (_, true) => "<invalid utf16>".to_string(),
            (_, false) => "<invalid utf8>".to_string(),
        };
        if ours != text.value {
            let text = &text.value;
            return Err(format!("string {i} reads {ours:?}, in the Rust {text:?}"));
        }
        Ok(())
    }

    /// Whether our text of a row is the Rust's, or what is wrong; of an invalid row ours is empty. Long ones have groups of
    /// their own.
    fn writes(&self, i: usize, rows: &[u32], text: &StringTableEntry) -> Result<(), String> {
        let right = match rows[i * ROW + 2] {
            0 => text.value.as_bytes(),
            _ => &[],
        };
        if right.len() > 1 << 12 {
            return Ok(());
        }
        let mut out = vec![7; right.len()];
        let lent = (out.as_mut_ptr(), out.len());
        let code = text::make(self.storage, (rows.as_ptr(), rows.len()), i, lent);
        match code == right.len() as u64 && out == right {
            true => Ok(()),
            false => Err(format!(
                "of string {i} the text {:?} ({code:#x}), in the Rust {:?}",
                String::from_utf8_lossy(&out),
                text.value
            )),
        }
    }

    /// The string whose pair is missing: so many the Rust still decodes, and not one more.
    fn first_missing(&self, runs: &[StringKindEntry], guess: u32) -> u32 {
        let strings = self.strings() as u32;
        let decodes = |count| rust(self, runs, count).map_err(missing).is_ok();
        last(0..strings, guess, decodes)
    }
}

/// The one error that decoding has.
fn missing(error: Error) {
    match error {
        Error::Parse(text) if text == "overflow string entry missing" => (),
        error => panic!("not an error of decoding: {error}"),
    }
}

impl Compare for Case<'_> {
    type Answer = Answer;
    /// The texts.
    type Besides = Vec<StringTableEntry>;

    fn ours(&self) -> Result<Answer, String> {
        let mut table = lent(Vec::new(), self.lent);
        let tables = [self.kinds, self.small, self.overflow];
        let [(a, a_len), (b, b_len), (c, c_len)] = tables.map(|t| (t.as_ptr(), t.len()));
        let (s, s_len) = (self.storage.as_ptr(), self.storage.len());
        let (count, rows, len) = (self.count, table.as_mut_ptr(), self.lent);
        let code = meter::call(|| unsafe {
            hbc_decode_strings(count, a, a_len, b, b_len, c, c_len, s, s_len, rows, len)
        });
        Ok(Answer { code, table })
    }

    fn right(&self, ours: Option<&Answer>) -> (Answer, Vec<StringTableEntry>) {
        let guess = ours.map_or(0, |ours| place(ours.code));
        let (answer, words, texts) = match self.decoded(guess) {
            Ok((words, texts)) => (Ok(texts.len() as u32), words, texts),
            Err(refusal) => (Err(refusal), Vec::new(), Vec::new()),
        };
        let (code, table) = (code(answer), lent(words, self.lent));
        (Answer { code, table }, texts)
    }

    /// The bytes that each row names.
    fn besides(&self, ours: &Answer, texts: Vec<StringTableEntry>) -> Result<(), String> {
        let (storage, rows) = (self.storage, &ours.table[..self.lent]);
        for (i, (text, row)) in texts.iter().zip(rows.chunks(ROW)).enumerate() {
            let part = part(storage, rows, i).compare();
            part.map_err(|Difference(lines)| lines.join("; "))?;
            self.reads(i, row, text)?;
            self.writes(i, rows, text)?;
        }
        Ok(())
    }

    fn call(&self) -> String {
        let (count, lent, bytes) = (self.count, self.lent, self.storage.len());
        let [kinds, small, overflow] = [self.kinds, self.small, self.overflow].map(<[u32]>::len);
        format!("Strings, {count} of {small} entries, {kinds} runs, {overflow} overflow words, {bytes} bytes, {lent} words lent")
    }

    fn said(&self, answer: &Answer, right: Option<&Answer>) -> String {
        answer.words("rows", right, ROW)
    }

    fn replay(&self) -> Option<String> {
        let (count, lent) = (self.count, self.lent);
        let tables = [self.kinds, self.small, self.overflow];
        printed(self.storage, &tables, &[lent]).then(|| {
            let [kinds, small, overflow] = tables.map(table_word);
            let storage = bytes_word(self.storage);
            format!("table Strings {count} {lent} {kinds} {small} {overflow} {storage}")
        })
    }
}

/// The part that a row names, whatever the row holds.
pub struct Part<'a> {
    storage: &'a [u8],
    rows: &'a [u32],
    index: usize,
}

pub fn part<'a>(storage: &'a [u8], rows: &'a [u32], index: usize) -> Part<'a> {
    Part { storage, rows, index }
}

/// Start and length of the part that a row names, by docs/FORMAT.md: the Rust has no such call.
pub fn right_bytes(storage: &[u8], rows: &[u32], index: usize) -> (usize, usize) {
    match rows.chunks_exact(ROW).nth(index) {
        Some(&[start, len, 0, _]) if start as u64 + len as u64 <= storage.len() as u64 => {
            (start as usize, len as usize)
        }
        _ => (0, 0),
    }
}

impl Compare for Part<'_> {
    type Answer = (usize, usize);
    type Besides = ();

    fn ours(&self) -> Result<(usize, usize), String> {
        let (mut start, mut len) = (usize::MAX, usize::MAX);
        let (s, s_len) = (self.storage.as_ptr(), self.storage.len());
        let (rows, rows_len) = (self.rows.as_ptr(), self.rows.len());
        meter::call(|| unsafe {
            hbc_string_bytes(s, s_len, rows, rows_len, self.index, &mut start, &mut len)
        });
        Ok((start, len))
    }

    fn right(&self, _: Option<&Self::Answer>) -> ((usize, usize), ()) {
        (right_bytes(self.storage, self.rows, self.index), ())
    }

    fn call(&self) -> String {
        let (index, words, bytes) = (self.index, self.rows.len(), self.storage.len());
        format!("StringBytes, row {index} of {words} words, {bytes} bytes")
    }

    fn said(&self, (start, len): &Self::Answer, _: Option<&Self::Answer>) -> String {
        format!("{len} bytes from {start}")
    }

    fn replay(&self) -> Option<String> {
        printed(self.storage, &[self.rows], &[]).then(|| {
            let (rows, storage) = (table_word(self.rows), bytes_word(self.storage));
            format!("table StringBytes {} {rows} {storage}", self.index)
        })
    }
}

/// `COUNT WORDS KINDS SMALL OVERFLOW STORAGE`.
pub fn replay(words: &mut Words) -> Result<String, Difference> {
    let case = Case {
        count: words.number()?,
        lent: words.number()?,
        kinds: &words.table()?,
        small: &words.table()?,
        overflow: &words.table()?,
        storage: &words.bytes()?,
    };
    replayed(&case, words)
}

/// `INDEX ROWS STORAGE`.
pub fn replay_bytes(words: &mut Words) -> Result<String, Difference> {
    let index = words.number()?;
    let (rows, storage) = (words.table()?, words.bytes()?);
    replayed(&part(&storage, &rows, index), words)
}
