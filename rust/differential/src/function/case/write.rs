//! One call that writes a table. The Rust has no writer: what is right is written here a second time, from the sentences of
//! docs/FORMAT.md, section 3.9, in numbers of 128 bits, so that no sum wraps around. What was written the Rust reads.

use bisquepond::sys::*;

use super::{fresh, totals, Layout, Row, FLAGS, INFO_OFFSET, INLINE, LAYOUTS, PLACE, RECORD, ROW};
use crate::case::{self, bytes_word, printed, replayed, said, table_word};
use crate::case::{Compare, Difference, Refusal, Words};
use crate::lent::{copied, guarded, BEHIND, FRONT};
use crate::meter;

/// A field by its word in a row, its bits in an inline header and its bytes in a large one.
pub type Field = (usize, u32, usize);

/// The fields in the order of both headers, which they fill.
const LEGACY: [Field; 10] = [
    (2, 25, 4), // offset
    (3, 7, 4),  // param_count
    (4, 15, 4), // size
    (5, 17, 4), // name
    (6, 25, 4), // info_offset
    (7, 7, 4),  // frame_size
    (9, 8, 4),  // environment_size
    (10, 8, 1), // read
    (11, 8, 1), // write
    (FLAGS, 8, 1),
];
const MODERN: [Field; 13] = [
    (2, 25, 4), // offset
    (3, 5, 4),  // param_count
    (9, 2, 4),  // loop_depth
    (4, 14, 4), // size
    (5, 8, 4),  // name
    (10, 5, 4), // number_reg
    (11, 5, 4), // non_ptr_reg
    (7, 8, 4),  // frame_size
    (12, 8, 1), // read_cache
    (13, 6, 1), // write_cache
    (14, 1, 1), // new_object
    (15, 1, 1), // private_name
    (FLAGS, 8, 1),
];

pub fn fields(layout: Layout) -> &'static [Field] {
    match layout {
        Layout::Legacy => &LEGACY,
        Layout::Modern => &MODERN,
    }
}

/// The overflow bit of the flags.
pub const OVERFLOW: u32 = 1 << 5;

/// One call: which rows, where to, and what the buffer holds before.
#[derive(Clone, Copy)]
pub struct Case<'a> {
    /// The words lent.
    pub rows: &'a [u32],
    pub layout: u32,
    pub start: usize,
    pub count: u32,
    /// The place for large headers.
    pub large: usize,
    pub buffer: &'a [u8],
}

/// What is to be written: each header or large header with its place, and where all of it ends.
pub struct Plain {
    pub end: u32,
    pub pieces: Vec<(usize, Vec<u8>)>,
}

/// The next multiple of 4.
fn up(place: u128) -> u128 {
    place.div_ceil(4) * 4
}

/// Whether all fields fit, the overflow bit is clear and, in modern, info_offset is 0.
pub fn inline(layout: Layout, row: &[u32]) -> bool {
    let fits = |&(word, bits, _): &Field| u128::from(row[word]) < 1 << bits;
    let clear = (row[FLAGS] / OVERFLOW).is_multiple_of(2);
    let info = layout == Layout::Legacy || row[INFO_OFFSET] == 0;
    fields(layout).iter().all(fits) && clear && info
}

/// Whether layout, number, zeros and the fields of one byte are right.
fn sound(layout: Layout, id: usize, row: &[u32]) -> bool {
    let byte = |&(word, _, bytes): &Field| bytes > 1 || row[word] < 256;
    let zeros = layout == Layout::Modern || row[12..RECORD] == [0; 4];
    row[0] == layout as u32 && row[1] as usize == id && zeros && fields(layout).iter().all(byte)
}

/// For each row the place of its large header, if it needs one.
pub fn places(layout: Layout, rows: &[u32], large: usize) -> Vec<Option<u128>> {
    let mut next = up(large as u128);
    let place = |row: &[u32]| {
        let place = (!inline(layout, row)).then_some(next)?;
        next = up(place + layout.large() as u128);
        Some(place)
    };
    rows.chunks_exact(ROW).map(place).collect()
}

/// The info_offset of a modern large header at a place.
pub fn behind(place: u128) -> u128 {
    up(place + Layout::Modern.large() as u128)
}

/// Gives each modern row that needs a large header the info_offset it must have, or what 32 bits keep of it.
pub fn settle(layout: Layout, rows: &mut [u32], large: usize) {
    if layout == Layout::Modern {
        let places = places(layout, rows, large);
        for (row, place) in rows.chunks_exact_mut(ROW).zip(places) {
            row[INFO_OFFSET] = place.map_or(0, |place| behind(place) as u32);
        }
    }
}

/// The bytes of an inline header: one number, the fields from bit 0 up.
pub fn header(layout: Layout, row: &[u32]) -> Vec<u8> {
    let (mut number, mut first) = (0, 0);
    for &(word, bits, _) in fields(layout) {
        number += u128::from(row[word]) << first;
        first += bits;
    }
    number.to_le_bytes()[..layout.own()].to_vec()
}

/// That of a row whose large header is at a place.
pub fn leading(layout: Layout, place: u128) -> Vec<u8> {
    let (upper, unit) = match layout {
        Layout::Legacy => (INFO_OFFSET, 1 << 16),
        Layout::Modern => (5, 1 << 24),
    };
    let mut row: Row = [0; ROW];
    row[upper] = (place / unit) as u32;
    row[2] = (place % unit) as u32;
    row[FLAGS] = OVERFLOW;
    header(layout, &row)
}

/// The bytes of a large header: the fields one after another.
pub fn large_header(layout: Layout, row: &[u32]) -> Vec<u8> {
    let of = |&(word, _, bytes): &Field| row[word].to_le_bytes()[..bytes].to_vec();
    fields(layout).iter().flat_map(of).collect()
}

/// What is right for a buffer of so many bytes.
pub fn plain(case: &Case, len: usize) -> Result<Plain, Refusal> {
    let layout = *LAYOUTS.get(case.layout as usize).ok_or((12, 0))?;
    if len > LIMIT {
        return Err((1, 0));
    }
    if case.start > len {
        return Err((2, 0));
    }
    if case.rows.len() / ROW < case.count as usize {
        return Err((11, 0));
    }
    let words = &case.rows[..case.count as usize * ROW];
    let rows = || words.chunks_exact(ROW).enumerate();
    if let Some((id, _)) = rows().find(|(id, row)| !sound(layout, *id, row)) {
        return Err((13, id as u32));
    }
    let places = places(layout, words, case.large);
    if layout == Layout::Modern {
        let wrong = |(id, row): &(usize, &[u32])| {
            places[*id].is_some_and(|place| behind(place) != row[INFO_OFFSET].into())
        };
        if let Some((id, _)) = rows().find(wrong) {
            return Err((14, id as u32));
        }
    }
    let at = |id: usize| case.start as u128 + id as u128 * layout.own() as u128;
    let table = at(case.count as usize);
    if (case.large as u128) < table {
        return Err((15, 0));
    }
    let last = places.iter().flatten().last();
    let end = last.map_or(table, |place| place + layout.large() as u128);
    if (len as u128) < end {
        return Err((4, 0));
    }
    let mut pieces = Vec::new();
    for ((id, row), place) in rows().zip(places) {
        let own = place.map_or_else(|| header(layout, row), |place| leading(layout, place));
        pieces.push((at(id) as usize, own));
        pieces.extend(place.map(|place| (place as usize, large_header(layout, row))));
    }
    Ok(Plain { end: end as u32, pieces })
}

/// The answer, the bytes of the buffer with those in front of it and behind it, and the rows as they are afterwards.
#[derive(Clone, PartialEq, Eq)]
pub struct Written {
    pub code: u64,
    bytes: Vec<u8>,
    rows: Vec<u32>,
}

/// The rows as they are read back: the records, and as last word the place of each large header as it is now.
pub fn placed(case: &Case) -> Vec<u32> {
    let mut rows = case.rows[..case.count as usize * ROW].to_vec();
    let places = places(LAYOUTS[case.layout as usize], &rows, case.large);
    for (row, place) in rows.chunks_exact_mut(ROW).zip(places) {
        row[PLACE] = place.map_or(INLINE, |place| place as u32);
    }
    rows
}

/// These rows, read back from a buffer by our reader and by the Rust's; else what is wrong.
pub fn read_back(case: &Case, buffer: &[u8]) -> Result<(), String> {
    let Case { layout, start, count, .. } = *case;
    let rows = placed(case);
    let mut ours = vec![7; rows.len()];
    let (s, len, words) = (buffer.as_ptr(), buffer.len(), ours.len());
    let (lent, [mut large, mut sizes]) = (ours.as_mut_ptr(), [7; 2]);
    let read = meter::call(|| unsafe {
        hbc_read_functions(s, len, layout, start, count, lent, words, &mut large, &mut sizes)
    });
    if read == count.into() && [large, sizes] != totals::of(&rows, count) {
        return Err(format!("totals {large} and {sizes}, where it is read back"));
    }
    if read != count.into() || ours != rows {
        let wrong = ours.iter().zip(&rows).position(|(a, b)| a != b);
        let word = wrong.map_or(String::new(), |i| {
            let (row, word) = (i / ROW, i % ROW);
            format!("; row {row} word {word} is {}, not {}", ours[i], rows[i])
        });
        return Err(format!("{}{word}, where it is read back", said(read, "rows")));
    }
    match fresh(buffer, LAYOUTS[layout as usize], start, count) {
        Ok(theirs) if theirs.as_flattened() == rows => Ok(()),
        Ok(_) => Err("the Rust reads other rows back".to_string()),
        Err(refusal) => Err(format!("what the Rust refuses: {refusal:?}")),
    }
}

impl Case<'_> {
    /// The call itself, with a buffer of so many bytes.
    pub fn make(&self, buffer: *mut u8, len: usize) -> u64 {
        self.lending(self.rows.as_ptr(), self.rows.len(), buffer, len)
    }

    /// The same with other rows lent.
    pub fn lending(&self, rows: *const u32, words: usize, buffer: *mut u8, len: usize) -> u64 {
        let Case { layout, start, count, large, .. } = *self;
        meter::call(|| unsafe {
            hbc_write_functions(rows, words, layout, start, count, large, buffer, len)
        })
    }
}

impl Written {
    /// The buffer alone.
    pub fn buffer(&self) -> &[u8] {
        &self.bytes[FRONT..self.bytes.len() - BEHIND]
    }
}

impl Compare for Case<'_> {
    type Answer = Written;
    type Besides = ();

    fn ours(&self) -> Result<Written, String> {
        let (mut bytes, rows) = (guarded(self.buffer, self.buffer.len()), copied(self.rows));
        let (lent, len) = (bytes[FRONT..].as_mut_ptr(), self.buffer.len());
        let code = self.lending(rows.as_ptr(), self.rows.len(), lent, len);
        Ok(Written { code, bytes, rows })
    }

    fn right(&self, _: Option<&Written>) -> (Written, ()) {
        let (mut bytes, rows) = (guarded(self.buffer, self.buffer.len()), copied(self.rows));
        let answer = plain(self, self.buffer.len()).map(|plain| {
            for (at, piece) in &plain.pieces {
                bytes[FRONT + at..][..piece.len()].copy_from_slice(piece);
            }
            plain.end
        });
        (Written { code: case::code(answer), bytes, rows }, ())
    }

    fn besides(&self, ours: &Written, _: ()) -> Result<(), String> {
        match number(ours.code) {
            0 => read_back(self, ours.buffer()),
            _ => Ok(()),
        }
    }

    fn call(&self) -> String {
        let Case { layout, start, count, large, .. } = *self;
        let (words, len) = (self.rows.len(), self.buffer.len());
        format!("Write, layout {layout}, start {start}, count {count}, large headers from {large}, {words} words of rows, {len} bytes of buffer")
    }

    fn said(&self, answer: &Written, right: Option<&Written>) -> String {
        let mut words = said(answer.code, "where it ends");
        let Some(right) = right else {
            return words;
        };
        let wrong = answer.bytes.iter().zip(&right.bytes).position(|(a, b)| a != b);
        if let Some(i) = wrong {
            let at = i as isize - FRONT as isize;
            words +=
                &format!("; byte {at} is {:#04x}, not {:#04x}", answer.bytes[i], right.bytes[i]);
        }
        if answer.rows != right.rows {
            words += "; the rows changed";
        }
        words
    }

    fn replay(&self) -> Option<String> {
        let Case { layout, start, count, large, .. } = *self;
        printed(self.buffer, &[self.rows], &[]).then(|| {
            let (rows, buffer) = (table_word(self.rows), bytes_word(self.buffer));
            format!("function Write {layout} {start} {count} {large} {rows} {buffer}")
        })
    }
}

/// `LAYOUT START COUNT LARGE ROWS BUFFER`, as a difference prints them.
pub fn replay(words: &mut Words) -> Result<String, Difference> {
    let case = Case {
        layout: words.number()?,
        start: words.number()?,
        count: words.number()?,
        large: words.number()?,
        rows: &words.table()?,
        buffer: &words.bytes()?,
    };
    replayed(&case, words)
}
