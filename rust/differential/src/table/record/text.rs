//! A sample of what is right of texts, by the conversions of the Rust's own library.

use harness::Random;

use super::super::case::strings::ROW;
use super::super::case::text::{all, text_of, Text};
use super::super::groups::text::{any_string, KINDS_OF_STRINGS, WORKED};
use super::MOST_GIVEN;
use crate::case::code;
use crate::record::{Record, Sample, FILL_BYTE, STRING_TEXT};

/// Its group among those of the string tables.
pub const GROUP: usize = 5;

/// The bytes of buffer for which the program has room.
const MOST_BUFFER: usize = 256;

fn add(sample: &mut Sample, case: Text) {
    assert!(case.rows.len() <= MOST_GIVEN && case.lent < MOST_BUFFER);
    let text = case.text();
    let mut buffer = vec![FILL_BYTE; case.lent];
    if let Ok(text) = &text {
        buffer[..text.len()].copy_from_slice(text);
    }
    let number = text.as_ref().map_or_else(|why| why.0, |_| 0);
    let asked = [case.index, case.lent].map(|n| n as u64);
    let record = Record::new(STRING_TEXT, &asked, &[], case.storage)
        .answer(&[code(text.map(|text| text.len() as u32)), 0])
        .part(&buffer)
        .words(case.rows);
    sample.add(GROUP, number, record);
}

/// A storage of these bytes alone, in so much more room than its text needs, or in less.
fn alone(sample: &mut Sample, storage: &[u8], utf16: bool, more: isize) {
    let lent = text_of(storage, utf16).len().saturating_add_signed(more);
    add(sample, Text { storage, rows: &all(storage, utf16), index: 0, lent });
}

pub fn write(sample: &mut Sample, random: &mut Random) {
    for (bytes, utf16, text) in WORKED {
        assert_eq!(text_of(bytes, utf16), text);
        for more in [-1, 0, 3] {
            alone(sample, bytes, utf16, more);
        }
    }
    forms(sample);
    rows(sample);
    for i in 0..42 {
        let utf16 = i % 3 == 0;
        let string = any_string(random, i % KINDS_OF_STRINGS, 60, utf16);
        alone(sample, &string, utf16, random.below(5) as isize - 1);
    }
}

/// The edges of table 3-7, whole, cut and a byte past them; units at the edges of UTF-16.
fn forms(sample: &mut Sample) {
    let utf8: [&[u8]; 12] = [
        b"\x00\x7F\xC2\x80\xDF\xBF\xE0\xA0\x80\xED\x9F\xBF\xEE\x80\x80\xEF\xBF\xBF",
        b"\xF0\x90\x80\x80\xF3\xBF\xBF\xBF\xF4\x8F\xBF\xBF",
        b"\xC1\xBF\xE0\x9F\xBF\xED\xA0\x80",
        b"\xF0\x8F\xBF\xBF\xF4\x90\x80\x80\xF5\x80",
        b"\x80\xBF\xFE\xFF",
        b"\xE1\x80\xE1\x80\x80\xE1",
        b"\xF1\x80\x80\xF1\x80\x80\x80\xF1\x80",
        b"sixteen letters.\xE9 and more",
        b"seven..\xC3\xA9 and on",
        b"\xC2",
        b"\xEF\xBF\xBD\xFF\xEF\xBF",
        b"plain, of more than thirty-two bytes, no more",
    ];
    for bytes in utf8 {
        alone(sample, bytes, false, 0);
        alone(sample, bytes, false, -1);
    }
    let utf16: [&[u16]; 8] = [
        &[0, 0x7F, 0x80, 0x7FF, 0x800, 0xD7FF, 0xE000, 0xFFFF],
        &[0xD800, 0xDC00, 0xDBFF, 0xDFFF],
        &[0xDC00, 0xD800],
        &[0xD800, 0xD800, 0xDC00, 0xDC00],
        &[0xD800, 0x61, 0xDFFF],
        &[0xFEFF, 0xFFFE, 0x61],
        &[0x61; 20],
        &[0x65E5; 9],
    ];
    for units in utf16 {
        let bytes: Vec<u8> = units.iter().flat_map(|unit| unit.to_le_bytes()).collect();
        alone(sample, &bytes, true, 1);
        alone(sample, &bytes[..bytes.len() - 1], true, 1);
    }
}

/// Rows that are marked invalid, leave the storage or have other marks; rows that are not there, and numbers of rows that no
/// table has.
fn rows(sample: &mut Sample) {
    let storage = b"a\xC3\xA9b\x3D\xD8";
    for row in [
        [0, 4, 0, 0],
        [1, 2, 0, 2],
        [2, 2, 0, u32::MAX - 1],
        [4, 2, 0, 3],
        [0, 2, 0, u32::MAX],
        [0, 4, 1, 0],
        [0, 4, 2, 1],
        [0, 4, u32::MAX, 0],
        [6, 0, 0, 0],
        [6, 1, 0, 0],
        [7, 0, 0, 0],
        [0, 7, 0, 0],
        [5, 1, 0, 1],
        [u32::MAX, 1, 0, 0],
        [2, u32::MAX - 1, 0, 0],
    ] {
        add(sample, Text { storage, rows: &row, index: 0, lent: 9 });
    }
    let three = [0, 1, 0, 0, 1, 2, 0, 2, 4, 2, 0, 1];
    for words in [0, 3, 4, 11, 12] {
        for index in [0, 1, 2, 3, 1 << 62, usize::MAX] {
            let lent = if words == 11 { 0 } else { 4 };
            add(sample, Text { storage, rows: &three[..words], index, lent });
        }
    }
    assert_eq!(three.len() / ROW, 3);
}
