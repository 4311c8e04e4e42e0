//! A sample of what is right of debug sections.

use harness::Random;

use super::case::{check, expected, rows, Case, ROWS};
use super::groups::exact::{unread_parts, PLACES};
use super::groups::{good, Section};
use crate::exact::{lost, Kind, UNMARKED};
use crate::inputs::{any_bytes, sleb};
use crate::record::{Record, Sample, FILL, READ_DEBUG};

const NAMES: [&str; 9] = [
    "read_debug, offsets and headers",
    "read_debug, strings",
    "read_debug, scopes",
    "read_debug, callees",
    "read_debug, cut and damaged",
    "read_debug, tables lent",
    "read_debug, any",
    "read_debug, bits lost",
    "read_debug, bytes that are no number",
];

/// The words for which the program has room, besides a row that is not lent.
const MOST_LENT: [usize; 4] = [94, 155, 95, 94];

fn answers(group: usize) -> &'static [u32] {
    match group {
        0 | 4 | 6 => &[0, 3],
        5 => &[0, 3, 4],
        _ => &[0],
    }
}

/// Adds a case with what is right: the rows by docs/FORMAT.md, held against all that debug.rs answers.
fn lent(sample: &mut Sample, group: usize, file: &[u8], offset: u32, words: [usize; 4]) {
    assert!((0..4).all(|i| words[i] <= MOST_LENT[i]));
    let tables = words.map(|words| vec![FILL; words]);
    let [a, b, c, d] = &tables;
    let case = Case { file, offset, tables: [a, b, c, d] };
    let rows = rows(file, offset);
    check(&case, &rows).expect("what debug.rs says");
    let right = expected(&case, &rows);
    let number = bisquepond::sys::number(right.code);
    // The counts of a refused call are 0, as they were before it.
    let counts = if number == 0 { right.counts } else { [0; 4] };
    let lent = words.map(|words| words as u64);
    let answer = [&[right.code], &counts.map(|count| count as u64)[..]].concat();
    let record = Record::new(READ_DEBUG, &lent, &[offset], file).answer(&answer);
    let record = right.tables.iter().fold(record, |record, table| record.table(table));
    // The mark is a table of one word, which stays as it was where the call is refused.
    assert_eq!(UNMARKED, FILL);
    sample.add(group, number, record.table(&[right.mark]));
}

/// With just the words that the rows need, and up to two more.
fn add(sample: &mut Sample, group: usize, file: &[u8], offset: u32) {
    let needed = rows(file, offset).map_or([0; 4], |rows| rows.tables.map(|table| table.len()));
    let words = std::array::from_fn(|i| needed[i] + (file.len() + i) % 3);
    lent(sample, group, file, offset, words);
}

/// A section at byte 1 with nothing but its three parts.
fn parts(scopes: &[u8], callees: &[u8], strings: &[u8]) -> (Vec<u8>, u32) {
    Section {
        before: 1,
        filenames: 0,
        storage: 0,
        regions: 0,
        lines: 0,
        scopes: vec![scopes.to_vec()],
        callees: vec![callees.to_vec()],
        strings: vec![strings.to_vec()],
    }
    .bytes()
}

fn on_parts(sample: &mut Sample, group: usize, scopes: &[u8], callees: &[u8], strings: &[u8]) {
    let (file, offset) = parts(scopes, callees, strings);
    add(sample, group, &file, offset);
}

pub fn write(mut random: Random) -> (Vec<u8>, Vec<String>) {
    let mut sample = Sample::new("debug", &NAMES);
    headers(&mut sample, &mut random);
    strings(&mut sample);
    scopes(&mut sample);
    callees(&mut sample, &mut random);
    damaged(&mut sample, &mut random);
    tables(&mut sample, &mut random);
    bits_lost(&mut sample, &mut random);
    while sample.fewer(760) {
        any(&mut sample, &mut random);
    }
    sample.done(answers)
}

/// Short files, offsets that mean no debug information; each header word around its own number and far from it.
fn headers(sample: &mut Sample, random: &mut Random) {
    for len in [0, 1, 2, 27, 28, 29, 30] {
        let file = vec![0; len];
        for offset in [0, 1, 2, len as u32, len as u32 + 1, 1 << 30, u32::MAX] {
            add(sample, 0, &file, offset);
        }
    }
    let section = Section { filenames: 1, storage: 1, regions: 1, ..good(random) };
    let (file, offset) = section.bytes();
    for word in 0..7 {
        let at = offset as usize + 4 * word;
        let own = u32::from_le_bytes(file[at..at + 4].try_into().unwrap());
        let numbers = [own.wrapping_sub(1), own + 1, 0, 1 << 31, 0x2000_0000, u32::MAX];
        for number in numbers {
            let mut changed = file.clone();
            changed[at..at + 4].copy_from_slice(&number.to_le_bytes());
            add(sample, 0, &changed, offset);
        }
    }
}

/// Empty strings, bytes that are no text, prefixes of two to eleven bytes, and strings that are cut.
fn strings(sample: &mut Sample) {
    let long: Vec<u8> = (1..=11).chain([0]).map(|n| if n == 0 { 0 } else { 0x80 }).collect();
    let all: [&[u8]; 12] = [
        b"",
        b"\0",
        b"\0\0",
        b"\x01",
        b"\x01a",
        b"\x02a",
        b"\x01\xFF",
        b"\x03\xEF\xBF\xBD",
        b"\x01a\x05bc",
        b"\x82\0ab\x01c",
        b"\x80",
        b"\xFF\xFF\xFF\xFF\xFF\xFF\xFF\xFF\xFF\x01a",
    ];
    for part in all {
        on_parts(sample, 1, &[], &[], part);
    }
    for bytes in [9, 10, 11] {
        let part = [&long[..bytes - 1], &[0], b"\x01a"].concat();
        on_parts(sample, 1, &[], &[], &part);
    }
}

/// Parents, flags, counts and names at their edges, in as many bytes as need be and in ten and eleven.
fn scopes(sample: &mut Sample) {
    let two = b"\x01a\0";
    let edges = [31, 32, 33, 63].map(|bits| (1u64 << bits) as i64);
    let edges =
        edges.into_iter().flat_map(|edge| [edge.wrapping_sub(1), edge, edge.wrapping_neg()]);
    for value in (-2..=3).chain(edges).chain([0xFFFF_FFFE]) {
        for len in [1, 10] {
            let number = sleb(value, len);
            let zero = [0];
            for place in 0..4 {
                let mut pieces = [&zero[..], &zero, &[1], &zero];
                pieces[place] = &number;
                on_parts(sample, 2, &pieces.concat(), &[], two);
            }
        }
    }
    for last in [2, 0x40, 0x7F] {
        let lost = [&[0][..], &[0x80; 9], &[last, 0]].concat();
        on_parts(sample, 2, &lost, &[], two);
    }
    let eleven = [&[0][..], &[0x80; 10], &[0, 0]].concat();
    on_parts(sample, 2, &eleven, &[], two);
    // Two scopes, the names of the second cut at each byte.
    let both = [0, 1, 2, 0, 1, 0x7F, 2, 3, 1, 0, 0x80];
    for end in 0..=both.len() {
        on_parts(sample, 2, &both[..end], &[], two);
    }
    on_parts(sample, 2, &[0, 0, 1, 0], &[], &[]);
    on_parts(sample, 2, &[0, 0, 1, 0], &[], &[0]);
}

/// No entries in each way, any order, equal addresses, unknown names, addresses that differ above bit 31.
fn callees(sample: &mut Sample, random: &mut Random) {
    let none: [&[u8]; 6] = [&[], &[0], &[0x80], &[0x7F], &[1], &[1, 0x80]];
    for part in none {
        on_parts(sample, 3, &[], part, &[0]);
    }
    for name in 0..3 {
        on_parts(sample, 3, &[], &[1, 5, name], &[0, 0]);
    }
    for round in 0..60 {
        let count = round % 7;
        let said = count + random.pick(&[0, 0, 0, 1, 9]);
        let mut part = sleb(said as i64, 1);
        for i in 0..count {
            let near = random.below(3) as i64;
            let address = match round % 4 {
                0 => i as i64,
                1 => 70 - i as i64,
                2 => near,
                _ => near + (random.pick(&[-1, 0, 1]) << 32),
            };
            let name = random.pick(&[0, 1, 1, 0, 2, -1, 1 << 32]);
            part.extend(sleb(address, 1));
            part.extend(sleb(name, 1));
        }
        on_parts(sample, 3, &[], &part, &[0, 1, b'a']);
    }
}

/// A good section cut at every byte, and with a bit of each byte changed.
fn damaged(sample: &mut Sample, random: &mut Random) {
    let (file, offset) = parts(&[0, 3, 1, 0, 1, 0, 0], &[2, 4, 1, 9, 0], b"\x01a\x02bc");
    for end in 0..=file.len() {
        add(sample, 4, &file[..end], offset);
    }
    for at in 1..file.len() {
        let mut changed = file.clone();
        changed[at] ^= 1 << random.below(8);
        add(sample, 4, &changed, offset);
    }
}

/// Each table with every number of words around what its rows need; too few are refused only where the header is whole.
fn tables(sample: &mut Sample, random: &mut Random) {
    let mut section = good(random);
    while section.scopes.is_empty() || section.callees.len() < 3 {
        section = good(random);
    }
    let (file, offset) = section.bytes();
    let needed = rows(&file, offset).expect("a good section").tables.map(|table| table.len());
    for i in 0..4 {
        let from = needed[i].saturating_sub(ROWS[i] + 1);
        for words in [0].into_iter().chain(from..=needed[i] + ROWS[i]) {
            let mut all = needed;
            all[i] = words;
            lent(sample, 5, &file, offset, all);
        }
    }
    for (file, offset) in
        [(&file[..], 0), (&file[..offset as usize + 27], offset), (&file[..], u32::MAX)]
    {
        lent(sample, 5, file, offset, [0; 4]);
    }
}

/// One number that lost bits at each place that the comparison has, and such bytes where no number is read; the mark is
/// told in both, or is refused with a table that is a row short.
fn bits_lost(sample: &mut Sample, random: &mut Random) {
    for place in PLACES {
        let number = lost(place.kind(), place.value, random.byte());
        let [scopes, callees, strings] = place.parts(&number);
        on_parts(sample, 7, &scopes, &callees, &strings);
    }
    let number = lost(Kind::Signed, 0, random.byte());
    for [scopes, callees, strings] in unread_parts(&number) {
        on_parts(sample, 8, &scopes, &callees, &strings);
    }
    let (file, offset) = parts(&[], &[], &number);
    add(sample, 8, &file, 0);
    lent(sample, 5, &file, offset, [1, 0, 0, 0]);
}

/// A good section with some of its numbers put in another way, then damaged or cut.
fn any(sample: &mut Sample, random: &mut Random) {
    let mut section = good(random);
    let pieces = section.pieces().count();
    for _ in 0..random.below(3) {
        let i = random.below(pieces);
        let value = match random.below(3) {
            0 => random.below(8) as i64 - 2,
            1 => random.word() as i64 >> random.below(64),
            _ => random.pick(&[-1, 0xFFFF_FFFF, 1 << 32, i64::MIN, i64::MAX]),
        };
        *section.pieces().nth(i).unwrap() = sleb(value, random.pick(&[1, 1, 1, 10, 11]));
    }
    let (mut file, offset) = section.bytes();
    if random.below(4) == 0 {
        let from = 28 + offset as usize;
        let noise = any_bytes(random, file.len() - from);
        file[from..].copy_from_slice(&noise);
    }
    if random.below(4) == 0 {
        file.truncate(random.below(file.len() + 1));
    }
    add(sample, 6, &file, offset);
}
