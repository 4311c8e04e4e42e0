//! The differences of the string tables, and what both sides do that Hermes does not.

use bisquepond::io::ByteReader as Ours;
use bisquepond::sys::LIMIT;
use bisquepond::table::{StringRow, Strings};
use published::error::Result as Published;
use published::file::parser::table::*;
use published::io::ByteReader as Theirs;

use crate::case::Compared;
use crate::differences::{row, text, told};
use crate::inputs::bytes_of;
use crate::run::Run;

pub fn listed(run: &mut Run) -> Compared {
    cursors(run)?;
    texts(run)?;
    counts(run)?;
    overflow(run)?;
    kinds(run)?;
    longer(run)
}

type Read = fn(&mut Theirs<'_>, u32) -> Published<()>;

/// The Rust's readers of words, and of pairs.
const WORDS: [Read; 2] = [
    |r, count| parse_u32_vec(r, count).map(drop),
    |r, count| parse_string_kinds(r, count).map(drop),
];
const PAIRS: [Read; 4] = [
    |r, count| parse_pair_table(r, count).map(drop),
    |r, count| parse_overflow_string_table(r, count).map(drop),
    |r, count| parse_table_entries(r, count).map(drop),
    |r, count| parse_shape_table(r, count).map(drop),
];

/// What a reader of the Rust answers from byte 0, and where it then stands.
fn rust(input: &[u8], read: Read, count: u32) -> (Result<(), String>, usize) {
    let mut reader = Theirs::new(input);
    let answer = text(read(&mut reader, count));
    (answer, reader.position())
}

/// Our answer, the cursor, and the two words lent.
type Answer = (Result<(), (u32, u32)>, usize, [u32; 2]);

fn our_words(input: &[u8], at: usize, count: u32) -> Answer {
    let (mut reader, mut words) = (Ours::at(input, at), [7; 2]);
    let answer = told(reader.read_u32_table_into(count, &mut words));
    (answer, reader.position(), words)
}

fn our_pairs(input: &[u8], at: usize, count: u32) -> Answer {
    let (mut reader, mut pairs) = (Ours::at(input, at), [[7; 2]]);
    let answer = told(reader.read_pair_table_into(count, &mut pairs));
    (answer, reader.position(), pairs[0])
}

/// Finding a, and a cursor past the end.
fn cursors(run: &mut Run) -> Compared {
    let cut = "unexpected end of file: needed 4 bytes at offset 4 but only 0 remain";
    let input = [0; 4];
    for read in WORDS {
        row(run, "a: two words of 4 bytes")
            .rust(rust(&input, read, 2), (Err(cut.into()), 4))?
            .ours(our_words(&input, 0, 2), (Err((3, 1)), 0, [7; 2]))?;
    }
    for read in PAIRS {
        row(run, "a: one pair of 4 bytes")
            .rust(rust(&input, read, 1), (Err(cut.into()), 4))?
            .ours(our_pairs(&input, 0, 1), (Err((3, 0)), 0, [7; 2]))?;
    }
    for answer in [our_words(&[], 1, 0), our_pairs(&[], 1, 0)] {
        let mut reader = Theirs::new(&[]);
        row(run, "cursor 1 in no bytes, count 0")
            .rust(
                (text(reader.seek(1)), reader.position()),
                (Err("seek out of range: 1 > 0".into()), 0),
            )?
            .ours(answer, (Err((2, 0)), 1, [7; 2]))?;
    }
    Ok(())
}

/// Text, whether it is UTF-16, whether an identifier.
type Text = (String, bool, bool);

fn rust_strings(strings: &Strings, count: u32) -> Result<Vec<Text>, String> {
    let words = bytes_of(strings.kinds);
    let runs = parse_string_kinds(&mut Theirs::new(&words), strings.kinds.len() as u32).unwrap();
    let pairs: Vec<_> = strings.overflow.iter().map(|&pair| pair.into()).collect();
    let decoded = decode_string_table(count, &runs, strings.small, &pairs, strings.storage);
    let entries = text(decoded)?.into_iter();
    Ok(entries.map(|entry| (entry.value, entry.is_utf16, entry.is_identifier)).collect())
}

/// The words of the rows: start, bytes, invalid, marks.
fn our_strings(strings: &Strings, count: u32) -> Result<Vec<u32>, (u32, u32)> {
    told(strings.decode(count).map(|rows| rows.words().to_vec()))
}

/// The text of the first string.
fn our_text(strings: &Strings) -> Result<String, (u32, u32)> {
    told(strings.decode(1).and_then(|rows| rows[0].text(strings.storage)))
}

fn plain(text: &str) -> Text {
    (text.into(), false, false)
}

/// A small entry.
const fn entry(offset: u32, len: u32) -> u32 {
    len << 24 | offset << 1
}

/// Strings of no kind runs.
fn strings<'a>(small: &'a [u32], overflow: &'a [[u32; 2]], storage: &'a [u8]) -> Strings<'a> {
    let kinds = &[];
    Strings { kinds, small, overflow, storage }
}

/// Finding c: strings of one text that are not the same.
fn texts(run: &mut Run) -> Compared {
    let small = [entry(0, 14), entry(14, 0)];
    let two = strings(&small, &[], b"<invalid utf8>");
    row(run, "c: a string that reads `<invalid utf8>`, and one past the storage")
        .rust(rust_strings(&two, 2), Ok(vec![plain("<invalid utf8>"); 2]))?
        .ours(our_strings(&two, 2), Ok(vec![0, 14, 0, 0, 0, 0, 1, 0]))?;
    let text = "<invalid utf16>";
    let wide: Vec<u8> = text.encode_utf16().flat_map(u16::to_le_bytes).collect();
    let small = [entry(0, 15) | 1, entry(30, 0) | 1];
    let two = strings(&small, &[], &wide);
    row(run, "c: a string that reads `<invalid utf16>`, and one past the storage")
        .rust(rust_strings(&two, 2), Ok(vec![(text.into(), true, false); 2]))?
        .ours(our_strings(&two, 2), Ok(vec![0, 30, 0, 1, 0, 0, 1, 1]))?;
    let small = [entry(0, 1), entry(1, 3)];
    let two = strings(&small, &[], b"\xFF\xEF\xBF\xBD");
    row(run, "c: FF, and EF BF BD")
        .rust(rust_strings(&two, 2), Ok(vec![plain("\u{FFFD}"); 2]))?
        .ours(our_strings(&two, 2), Ok(vec![0, 1, 0, 0, 1, 3, 0, 0]))?;
    for (small, text) in [(entry(0, 0), "<invalid utf8>"), (entry(0, 0) | 1, "<invalid utf16>")] {
        let small = [small];
        let one = strings(&small, &[], &[]);
        row(run, "c: the text of an invalid string")
            .rust(rust_strings(&one, 1), Ok(vec![(text.into(), small[0] & 1 == 1, false)]))?
            .ours(our_text(&one), Ok(String::new()))?;
    }
    let small = [entry(0, 0), entry(1, 0)];
    let two = strings(&small, &[], &[0; 2]);
    row(run, "c: length 0 at 0, and at 1")
        .rust(rust_strings(&two, 2), Ok(vec![plain(""); 2]))?
        .ours(our_strings(&two, 2), Ok(vec![0, 0, 0, 0, 1, 0, 0, 0]))
}

/// Fewer entries than the count says, and fewer rows.
fn counts(run: &mut Run) -> Compared {
    let one = strings(&[0], &[], &[0]);
    row(run, "count 2, one entry")
        .rust(rust_strings(&one, 2), Ok(vec![plain("")]))?
        .ours(our_strings(&one, 2), Ok(vec![0; 4]))?;
    let rows: &mut [StringRow] = &mut [];
    row(run, "one string, no rows")
        .rust(rust_strings(&one, 1), Ok(vec![plain("")]))?
        .ours(told(one.decode_into(1, rows).map(drop)), Err((4, 0)))
}

/// Finding l: both sides alike. The fields of the long entries name each other's pair.
fn overflow(run: &mut Run) -> Compared {
    let small = [entry(1, 255), entry(0, 255)];
    let two = strings(&small, &[[0, 1], [1, 1]], b"ab");
    row(run, "l: two long entries, their fields 1 and 0")
        .rust(rust_strings(&two, 2), Ok(vec![plain("a"), plain("b")]))?
        .ours(our_strings(&two, 2), Ok(vec![0, 1, 0, 0, 1, 1, 0, 0]))?;
    // One past the greatest offset that a field holds would be the sentinel; the bits there are the length's.
    let small = [entry(0x7F_FFFF, 0)];
    let one = strings(&small, &[], &[]);
    row(run, "l: the greatest offset, 0x7FFFFF, length 0, no pair")
        .rust(rust_strings(&one, 1), Ok(vec![plain("<invalid utf8>")]))?
        .ours(our_strings(&one, 1), Ok(vec![0, 0, 1, 0]))?;
    let one = strings(&[0x80_0000 << 1], &[], b"a");
    row(run, "l: 0x800000 in the offset's place, no pair")
        .rust(rust_strings(&one, 1), Ok(vec![plain("a")]))?
        .ours(our_strings(&one, 1), Ok(vec![0, 1, 0, 0]))?;
    let small = [entry(0, 255)];
    let (one, missing) = (strings(&small, &[], &[]), "overflow string entry missing");
    row(run, "length 255, no pair")
        .rust(rust_strings(&one, 1), Err(missing.into()))?
        .ours(our_strings(&one, 1), Err((8, 0)))?;
    let small = [entry(0, 255) | 1];
    let one = strings(&small, &[[0, 1 << 31]], &[0; 2]);
    let invalid = ("<invalid utf16>".into(), true, false);
    row(run, "UTF-16, start 0 and length 2^31, two bytes")
        .rust(rust_strings(&one, 1), Ok(vec![invalid]))?
        .ours(our_strings(&one, 1), Ok(vec![0, 0, 1, 1]))
}

/// Finding l: runs of no strings and of no identifiers, and one string.
fn kinds(run: &mut Run) -> Compared {
    let one = Strings { kinds: &[0, 1 << 31], ..strings(&[0], &[], b"a") };
    row(run, "l: runs 00000000 and 80000000, one string")
        .rust(rust_strings(&one, 1), Ok(vec![("".into(), false, true)]))?
        .ours(our_strings(&one, 1), Ok(vec![0, 0, 0, 2]))
}

/// Finding j.
fn longer(run: &mut Run) -> Compared {
    let long = vec![0; LIMIT + 1];
    row(run, "j: one word of 2^30 + 1 bytes")
        .rust(rust(&long, WORDS[0], 1), (Ok(()), 4))?
        .ours(our_words(&long, 0, 1), (Err((1, 0)), 0, [7; 2]))?;
    row(run, "j: one pair of 2^30 + 1 bytes")
        .rust(rust(&long, PAIRS[0], 1), (Ok(()), 8))?
        .ours(our_pairs(&long, 0, 1), (Err((1, 0)), 0, [7; 2]))?;
    let one = strings(&[0], &[], &long);
    row(run, "j: one string of a storage of 2^30 + 1 bytes")
        .rust(rust_strings(&one, 1), Ok(vec![plain("")]))?
        .ours(our_strings(&one, 1), Err((1, 0)))?;
    row(run, "j: one string's text of a storage of 2^30 + 1 bytes")
        .rust(rust_strings(&one, 1), Ok(vec![plain("")]))?
        .ours(told(StringRow::default().text(&long)), Err((1, 0)))
}
