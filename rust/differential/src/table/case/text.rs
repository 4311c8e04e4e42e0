//! One string's text, against the conversions of the Rust's own library and against the Unicode Standard's words.

use bisquepond::sys::*;
use bisquepond::table::{self, StringRow};
use bisquepond::Row as _;

use super::strings::{right_bytes, ROW};
use crate::case::{bytes_word, code, printed, replayed, said, table_word};
use crate::case::{Compare, Compared, Difference, Refusal, Words};
use crate::lent::{guarded, inside, BEHIND, FRONT};
use crate::meter;

/// The mark of UTF-16.
pub const UTF16: u32 = 1;

/// What stands for what is ill-formed.
const REPLACEMENT: &[u8] = "\u{FFFD}".as_bytes();

/// The rows of table 3-7 of the Unicode Standard: of each byte of a well-formed sequence the least and the greatest.
const WELL_FORMED: [&[[u8; 2]]; 9] = [
    &[[0x00, 0x7F]],
    &[[0xC2, 0xDF], [0x80, 0xBF]],
    &[[0xE0, 0xE0], [0xA0, 0xBF], [0x80, 0xBF]],
    &[[0xE1, 0xEC], [0x80, 0xBF], [0x80, 0xBF]],
    &[[0xED, 0xED], [0x80, 0x9F], [0x80, 0xBF]],
    &[[0xEE, 0xEF], [0x80, 0xBF], [0x80, 0xBF]],
    &[[0xF0, 0xF0], [0x90, 0xBF], [0x80, 0xBF], [0x80, 0xBF]],
    &[[0xF1, 0xF3], [0x80, 0xBF], [0x80, 0xBF], [0x80, 0xBF]],
    &[[0xF4, 0xF4], [0x80, 0x8F], [0x80, 0xBF], [0x80, 0xBF]],
];

/// How many of the first bytes are as the row has them.
fn agree(row: &[[u8; 2]], bytes: &[u8]) -> usize {
    let within = |&([low, high], byte): &(&[u8; 2], &u8)| low <= byte && byte <= high;
    row.iter().zip(bytes).take_while(within).count()
}

/// Whole rows as they are; else the longest beginning of one, or one byte where there is none, is one U+FFFD.
fn utf8_in_words(bytes: &[u8]) -> Vec<u8> {
    let (mut text, mut rest) = (Vec::new(), bytes);
    while !rest.is_empty() {
        let begun = |row: &&[[u8; 2]]| agree(row, rest);
        let row = WELL_FORMED.iter().copied().max_by_key(begun).expect("a row");
        let part = begun(&row).max(1);
        text.extend(if begun(&row) == row.len() { &rest[..part] } else { REPLACEMENT });
        rest = &rest[part..];
    }
    text
}

/// The bytes of a scalar value, by table 3-6: six bits a byte from the last one on.
fn encoded(scalar: u32) -> Vec<u8> {
    let six = |place: u32| 0x80 + (scalar / 64u32.pow(place) % 64) as u8;
    let first = |mark: u8, place: u32| mark + (scalar / 64u32.pow(place)) as u8;
    match scalar {
        0..=0x7F => vec![scalar as u8],
        0x80..=0x7FF => vec![first(0xC0, 1), six(0)],
        0x800..=0xFFFF => vec![first(0xE0, 2), six(1), six(0)],
        _ => vec![first(0xF0, 3), six(2), six(1), six(0)],
    }
}

/// A unit from D800 to DBFF with one from DC00 to DFFF behind it is one scalar value; any other surrogate is one U+FFFD.
fn utf16_in_words(bytes: &[u8]) -> Vec<u8> {
    let units: Vec<u32> =
        bytes.chunks_exact(2).map(|unit| u32::from(unit[0]) + 256 * u32::from(unit[1])).collect();
    let (mut text, mut rest) = (Vec::new(), units.as_slice());
    loop {
        rest = match *rest {
            [] => return text,
            [high @ 0xD800..=0xDBFF, low @ 0xDC00..=0xDFFF, ref more @ ..] => {
                text.extend(encoded(0x1_0000 + (high - 0xD800) * 0x400 + (low - 0xDC00)));
                more
            }
            [0xD800..=0xDFFF, ref more @ ..] => {
                text.extend(REPLACEMENT);
                more
            }
            [unit, ref more @ ..] => {
                text.extend(encoded(unit));
                more
            }
        };
    }
}

/// Bytes up to which the Standard's words are asked too.
const IN_WORDS: usize = 1 << 12;

/// The text of a string's bytes, by the Rust's library. Short ones are held against the Standard's words.
pub fn text_of(bytes: &[u8], utf16: bool) -> Vec<u8> {
    let text = if utf16 { utf16_text(bytes) } else { utf8_text(bytes) };
    if bytes.len() <= IN_WORDS {
        let words = if utf16 { utf16_in_words(bytes) } else { utf8_in_words(bytes) };
        let known = if utf16 && bytes.len() % 2 == 1 { vec![] } else { words };
        assert_eq!(text, known, "docs/FORMAT.md, section 4.8: {bytes:02x?}, UTF-16: {utf16}");
    }
    text
}

fn utf8_text(bytes: &[u8]) -> Vec<u8> {
    String::from_utf8_lossy(bytes).into_owned().into_bytes()
}

/// Of an odd number of bytes there is none.
fn utf16_text(bytes: &[u8]) -> Vec<u8> {
    if bytes.len() % 2 == 1 {
        return Vec::new();
    }
    let units = bytes.chunks_exact(2).map(|unit| u16::from_le_bytes([unit[0], unit[1]]));
    let scalars = char::decode_utf16(units).map(|read| read.unwrap_or(char::REPLACEMENT_CHARACTER));
    scalars.collect::<String>().into_bytes()
}

/// One call: of which storage, by which rows and number of a row, into a buffer of how many bytes.
#[derive(Clone, Copy)]
pub struct Text<'a> {
    pub storage: &'a [u8],
    pub rows: &'a [u32],
    pub index: usize,
    pub lent: usize,
}

/// The row of all bytes of a storage.
pub fn all(storage: &[u8], utf16: bool) -> [u32; ROW] {
    [0, storage.len() as u32, 0, utf16 as u32]
}

/// The call itself.
pub fn make(storage: &[u8], rows: (*const u32, usize), index: usize, out: (*mut u8, usize)) -> u64 {
    let (s, s_len) = (storage.as_ptr(), storage.len());
    meter::call(|| unsafe { hbc_string_text(s, s_len, rows.0, rows.1, index, out.0, out.1) })
}

impl Text<'_> {
    /// What is right: the text, or the refusal.
    pub fn text(&self) -> Result<Vec<u8>, Refusal> {
        if self.storage.len() > LIMIT {
            return Err((1, 0));
        }
        let row = self.rows.chunks_exact(ROW).nth(self.index).ok_or((11, 0))?;
        let (start, len) = right_bytes(self.storage, self.rows, self.index);
        let text = text_of(&self.storage[start..start + len], row[3] & UTF16 != 0);
        match text.len() > self.lent {
            true => Err((4, 0)),
            false => Ok(text),
        }
    }

    /// Whether what is only read is small enough to be copied.
    fn is_small(&self) -> bool {
        self.rows.len() < 1 << 12 && self.storage.len() < 1 << 14
    }

    fn given(&self) -> Option<(Vec<u32>, Vec<u8>)> {
        let copies =
            || (guarded(self.rows, self.rows.len()), guarded(self.storage, self.storage.len()));
        self.is_small().then(copies)
    }
}

/// The answer, and afterwards the buffer with what is on both sides; where they are small, rows and storage too.
#[derive(Clone, PartialEq, Eq)]
pub struct Answered {
    pub code: u64,
    out: Vec<u8>,
    given: Option<(Vec<u32>, Vec<u8>)>,
}

impl Answered {
    /// The first bytes that were lent: the text, where it is accepted.
    fn text(&self) -> &[u8] {
        match number(self.code) {
            0 => &self.out[FRONT..][..self.code as usize],
            _ => &[],
        }
    }
}

impl Compare for Text<'_> {
    type Answer = Answered;
    type Besides = ();

    fn ours(&self) -> Result<Answered, String> {
        let (mut out, given) = (guarded(&[], self.lent), self.given());
        let (rows, storage) = match &given {
            Some((rows, storage)) => (inside(rows), inside(storage)),
            None => (self.rows, self.storage),
        };
        let lent = (out[FRONT..].as_mut_ptr(), self.lent);
        let code = make(storage, (rows.as_ptr(), rows.len()), self.index, lent);
        Ok(Answered { code, out, given })
    }

    fn right(&self, _: Option<&Answered>) -> (Answered, ()) {
        let text = self.text();
        let written = text.as_ref().map_or(&[][..], |text| text);
        let out = guarded(written, self.lent);
        let code = code(text.map(|text| text.len() as u32));
        (Answered { code, out, given: self.given() }, ())
    }

    /// The text of the text is itself, in just as much room; and the Rust crate's calls say the same.
    fn besides(&self, ours: &Answered, _: ()) -> Result<(), String> {
        let text = ours.text();
        if number(ours.code) == 0 && text.len() < 1 << 14 {
            let mut again = guarded(&[], text.len());
            let (row, lent) = (all(text, false), (again[FRONT..].as_mut_ptr(), text.len()));
            let code = make(text, (row.as_ptr(), ROW), 0, lent);
            if code != ours.code || again != guarded(text, text.len()) {
                return Err(format!("{}, or another text, of the text", said(code, "bytes")));
            }
        }
        let rows = StringRow::rows(self.rows);
        let refusal = |why: bisquepond::Refusal| (why.number, why.place);
        let in_rust = table::string_text(self.storage, rows, self.index).map_err(refusal);
        let of_code = match number(ours.code) {
            0 | 4 => Text { lent: usize::MAX, ..*self }.text(),
            number => Err((number, place(ours.code))),
        };
        if in_rust.map(String::into_bytes) != of_code {
            return Err("another text in a String".to_string());
        }
        let mut lent = vec![7; self.lent];
        let into = table::string_text_into(self.storage, rows, self.index, &mut lent);
        match code(into.map(|text| text.len() as u32).map_err(refusal)) == ours.code
            && lent.starts_with(text)
            && lent[text.len()..].iter().all(|&byte| byte == 7)
        {
            true => Ok(()),
            false => Err("another text in a lent buffer".to_string()),
        }
    }

    fn call(&self) -> String {
        let (index, words, bytes) = (self.index, self.rows.len(), self.storage.len());
        format!("Text, row {index} of {words} words, {bytes} bytes, {} lent", self.lent)
    }

    fn said(&self, answer: &Answered, right: Option<&Answered>) -> String {
        let mut words = said(answer.code, "bytes");
        if number(answer.code) == 0 && answer.code <= 64 {
            let text = answer.out[FRONT..].iter().take(answer.code as usize);
            words += &text.map(|byte| format!(" {byte:02x}")).collect::<String>();
        }
        let Some(right) = right else {
            return words;
        };
        if let Some(i) = answer.out.iter().zip(&right.out).position(|(a, b)| a != b) {
            let (at, given, right) = (i as isize - FRONT as isize, answer.out[i], right.out[i]);
            words += &format!("; byte {at} of {} lent is {given:02x}, not {right:02x}", self.lent);
        }
        if answer.given != right.given {
            words += "; what is only read changed";
        }
        words
    }

    fn replay(&self) -> Option<String> {
        printed(self.storage, &[self.rows], &[self.lent]).then(|| {
            let (rows, storage) = (table_word(self.rows), bytes_word(self.storage));
            format!("table Text {} {} {rows} {storage}", self.index, self.lent)
        })
    }
}

/// `INDEX BYTES ROWS STORAGE`: BYTES is how many are lent.
pub fn replay(words: &mut Words) -> Result<String, Difference> {
    let case = Text {
        index: words.number()?,
        lent: words.number()?,
        rows: &words.table()?,
        storage: &words.bytes()?,
    };
    replayed(&case, words)
}

/// Short strings by the million: what is lent stays where it is, and what is on both sides of it is seen each time.
pub struct Short {
    storage: Vec<u8>,
    rows: Vec<u32>,
    out: Vec<u8>,
    /// The buffer before each call.
    clean: Vec<u8>,
}

impl Short {
    /// The bytes that a string may have.
    pub const MOST: usize = 300;

    pub fn new() -> Self {
        let clean = guarded(&[], ample(Self::MOST));
        let (storage, rows) = (guarded(&[], Self::MOST), guarded(&[0; ROW], ROW));
        Short { storage, rows, out: clean.clone(), clean }
    }

    /// A storage of these bytes alone, with just as much room as the text needs, and with more than any text does.
    pub fn compare(&mut self, bytes: &[u8], utf16: bool) -> Compared {
        let text = if utf16 { utf16_text(bytes) } else { utf8_text(bytes) };
        let row = all(bytes, utf16);
        self.storage[FRONT..][..bytes.len()].copy_from_slice(bytes);
        self.rows[FRONT..][..ROW].copy_from_slice(&row);
        for room in [text.len(), ample(bytes.len())] {
            if self.is_right(bytes.len(), &text, room) {
                self.out[FRONT..][..text.len()].copy_from_slice(&self.clean[FRONT..][..text.len()]);
                continue;
            }
            let case = Text { storage: bytes, rows: &row, index: 0, lent: room };
            case.compare()?;
            return Err(case.difference("what a call of its own answers", "otherwise, among many"));
        }
        match self.storage[FRONT..][..bytes.len()] == *bytes && self.rows[FRONT..][..ROW] == row {
            true => Ok(()),
            false => Err(format!("what is only read changed: {bytes:02x?}").into()),
        }
    }

    /// Makes the call on the first bytes of the storage, and says whether this text was written and nothing else.
    fn is_right(&mut self, len: usize, text: &[u8], room: usize) -> bool {
        let storage = &self.storage[FRONT..][..len];
        let (rows, out) = (&self.rows[FRONT..][..ROW], &mut self.out[FRONT..]);
        let code = make(storage, (rows.as_ptr(), ROW), 0, (out.as_mut_ptr(), room));
        let (end, seen) = (FRONT + text.len(), FRONT + room + BEHIND);
        code == text.len() as u64
            && self.out[..FRONT] == self.clean[..FRONT]
            && self.out[FRONT..end] == *text
            && self.out[end..seen] == self.clean[end..seen]
    }
}

/// More room than any text of so many bytes needs.
fn ample(bytes: usize) -> usize {
    3 * bytes + 2
}
