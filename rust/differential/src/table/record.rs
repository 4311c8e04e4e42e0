//! A sample of what is right of string tables.

mod hermes;
mod text;

use harness::Random;

use super::case::reads::{self, Op, OPS};
use super::case::strings::{self, right_bytes, ROW};
use super::groups::{any_case, small, IDENTIFIER};
use crate::case::{code, Refusal};
use crate::inputs::any_bytes;
use crate::record::{Record, Sample, FILL};
use crate::record::{DECODE_STRINGS, READ_PAIR_TABLE, READ_U32_TABLE, STRING_BYTES};

const NAMES: [&str; 6] = [
    "read_u32_table",
    "read_pair_table",
    "decode_strings",
    "string_span, string_bytes",
    "decode_strings_hermes",
    "string_text",
];

/// The words for which the program has room, besides those that are not lent; and those of a table that it is given.
const MOST_LENT: usize = 120;
const MOST_GIVEN: usize = 64;

fn answers(group: usize) -> &'static [u32] {
    match group {
        0 | 1 => &[0, 2, 3, 4],
        2 | hermes::GROUP => &[0, 4, 8],
        text::GROUP => &[0, 4, 11],
        _ => &[0],
    }
}

/// A table of so many words, of which the first were written.
fn written(words: &[u32], lent: usize) -> Vec<u32> {
    let mut table = vec![FILL; lent];
    table[..words.len()].copy_from_slice(words);
    table
}

fn read(sample: &mut Sample, op: Op, input: &[u8], at: usize, count: u32, lent: usize) {
    assert!(lent <= MOST_LENT);
    let case = reads::Case { op, input, at, count, lent };
    let mut right = case.readers();
    let (answer, words) = right.pop().expect("a reader");
    assert!(right.iter().all(|other| other.0 == answer && other.1 == words));
    let reads::Answer { number, place, at: after } = answer;
    let call = [READ_U32_TABLE, READ_PAIR_TABLE][op as usize];
    let code = code(if number == 0 { Ok(0) } else { Err((number, place)) });
    let record = Record::new(call, &[at as u64, lent as u64], &[count], input)
        .answer(&[code, after as u64])
        .table(&written(&words, lent));
    sample.add(op as usize, number, record);
}

fn decode(sample: &mut Sample, case: strings::Case) {
    let right = case.decoded(0);
    if let Ok((words, texts)) = &right {
        for (i, (row, text)) in words.chunks(ROW).zip(texts).enumerate() {
            case.reads(i, row, text).expect("the Rust's text");
        }
    }
    decoded(sample, (2, DECODE_STRINGS), case, right.map(|right| right.0));
}

/// A record of the strings, by its group and call, with the words of the rows or the refusal.
fn decoded(
    sample: &mut Sample,
    (group, call): (usize, u64),
    case: strings::Case,
    right: Result<Vec<u32>, Refusal>,
) {
    assert!(case.lent <= MOST_LENT);
    let given = [case.kinds, case.small, case.overflow];
    assert!(given.iter().all(|words| words.len() <= MOST_GIVEN));
    let number = right.as_ref().map_or_else(|why| why.0, |_| 0);
    let rows = right.as_ref().map(|words| (words.len() / ROW) as u32);
    let record = Record::new(call, &[case.lent as u64], &[case.count], case.storage)
        .answer(&[code(rows.map_err(|&why| why)), 0])
        .table(&written(right.as_ref().map_or(&[][..], |words| words), case.lent))
        .words(case.kinds)
        .words(case.small)
        .words(case.overflow);
    sample.add(group, number, record);
}

fn span(sample: &mut Sample, storage: &[u8], rows: &[u32], index: usize) {
    let (start, len) = right_bytes(storage, rows, index);
    let record = Record::new(STRING_BYTES, &[index as u64], &[], storage)
        .answer(&[start as u64, len as u64])
        .part(&storage[start..start + len])
        .words(rows);
    sample.add(3, 0, record);
}

pub fn write(mut random: Random) -> (Vec<u8>, Vec<String>) {
    let mut sample = Sample::new("table", &NAMES);
    worked(&mut sample);
    tables(&mut sample, &mut random);
    entries(&mut sample);
    parts(&mut sample);
    while sample.fewer(1_170) {
        any(&mut sample, &mut random);
    }
    hermes::write(&mut sample, &mut random);
    text::write(&mut sample, &mut random);
    sample.done(answers)
}

/// P6 and P7 of docs/FORMAT.md, section 10.1, and the smallest reads that it and the Rust leave at different cursors.
fn worked(sample: &mut Sample) {
    let p6 = strings::Case {
        count: 2,
        kinds: &[],
        small: &[small(false, 3, 0), small(false, 4, 0)],
        overflow: &[],
        storage: b"abcd",
        lent: 2 * ROW,
    };
    let rows = p6.decoded(0).expect("two strings").0;
    assert_eq!(rows, [3, 0, 0, 0, 0, 0, 1, 0]);
    decode(sample, p6);
    let p7 = strings::Case {
        count: 3,
        kinds: &[1, IDENTIFIER, 1],
        small: &[small(false, 0, 1); 3],
        lent: 3 * ROW,
        ..p6
    };
    let rows = p7.decoded(0).expect("three strings").0;
    assert_eq!([rows[3], rows[7], rows[11]], [0, 2, 0]);
    decode(sample, p7);
    read(sample, Op::U32Table, &[1, 2, 3, 4], 0, 2, 2);
    read(sample, Op::PairTable, &[1, 2, 3, 4], 0, 1, 2);
}

/// Cut at every byte, cursors at and past the end, counts that no file has, tables a word short, exact and over.
fn tables(sample: &mut Sample, random: &mut Random) {
    let input = any_bytes(random, 19);
    for op in OPS {
        for end in 0..=input.len() {
            let whole = end / (4 * op.width());
            read(sample, op, &input[..end], 0, whole as u32, whole * op.width());
            read(sample, op, &input[..end], 0, whole as u32 + 1, 8);
        }
        for at in [1, 3, 15, 16, 18, 19, 20, 1 << 30, 1 << 32, 1 << 63, usize::MAX] {
            for count in [0, 1, 2] {
                read(sample, op, &input, at, count, 4);
            }
            read(sample, op, &input, at, 1, 0);
        }
        for lent in 0..=7 {
            for count in [0, 1, 2, 3, 1 << 30, 1 << 31, u32::MAX] {
                read(sample, op, &input, 1, count, lent);
            }
        }
    }
}

/// One string at the storage's end, by its entry and by a pair; all orders of three long and short ones; kind runs; rows.
fn entries(sample: &mut Sample) {
    let storage: Vec<u8> = (0..9).collect();
    let one = strings::Case {
        count: 1,
        kinds: &[IDENTIFIER + 1],
        small: &[],
        overflow: &[],
        storage: &storage,
        lent: ROW,
    };
    for offset in [0, 1, 7, 8, 9, 10, (1 << 23) - 1] {
        for length in [0, 1, 2, 254] {
            for utf16 in [false, true] {
                let small = &[small(utf16, offset, length)];
                decode(sample, strings::Case { small, ..one });
            }
        }
    }
    for offset in [0, 8, 9, 1 << 31, u32::MAX] {
        for length in [0, 1, 9, 255, 1 << 31, 0u32.wrapping_sub(offset), u32::MAX] {
            for utf16 in [false, true] {
                let case = strings::Case {
                    small: &[small(utf16, 3, 255)],
                    overflow: &[offset, length],
                    ..one
                };
                decode(sample, case);
            }
        }
    }
    let pairs = [5, 1, 0, 2, 3, 3];
    for order in 0..8 {
        let entry = |i: u32| match order >> i & 1 {
            0 => small(i == 1, 2 * i, 1),
            _ => small(i == 1, 2 - i, 255),
        };
        let small = &[entry(0), entry(1), entry(2)];
        for words in [0, 1, 2, 3, 4, 6] {
            let case = strings::Case {
                count: 3,
                small,
                overflow: &pairs[..words],
                lent: 3 * ROW + 1,
                ..one
            };
            decode(sample, case);
        }
    }
    let four = [small(false, 0, 1); 4];
    let runs: [&[u32]; 8] = [
        &[],
        &[0],
        &[2, IDENTIFIER + 1],
        &[IDENTIFIER, 0, IDENTIFIER + 9],
        &[0, 0, IDENTIFIER],
        &[IDENTIFIER - 1, IDENTIFIER + 4],
        &[u32::MAX],
        &[IDENTIFIER + 1, 1, IDENTIFIER + 1, 1],
    ];
    for kinds in runs {
        for count in [0, 2, 4, 5, u32::MAX] {
            let case = strings::Case { count, kinds, small: &four, lent: 4 * ROW, ..one };
            decode(sample, case);
        }
    }
    for lent in [0, 3, 4, 7, 8, 9, 15, 16] {
        for small in [&four[..], &[small(true, 0, 255); 4]] {
            let case = strings::Case { count: 2, small, lent, ..one };
            decode(sample, case);
        }
    }
}

/// Rows of any numbers and marks, rows that are not there, and numbers of rows that no table has.
fn parts(sample: &mut Sample) {
    let storage: Vec<u8> = (1..=6).collect();
    for start in [0, 1, 5, 6, 7, u32::MAX] {
        for len in [0, 1, 5, 6, 7, 0u32.wrapping_sub(start)] {
            for invalid in [0, 1, 2, u32::MAX] {
                if invalid == 0 || start < 2 {
                    span(sample, &storage, &[start, len, invalid, 3], 0);
                }
            }
        }
    }
    let rows = [0, 2, 0, 0, 1, 3, 0, 2, 2, 4, 1, 1];
    for words in [0, 3, 4, 7, 8, 12] {
        for index in [0, 1, 2, 3, 1 << 30, 1 << 32, 1 << 62, 1 << 63, usize::MAX] {
            span(sample, &storage, &rows[..words], index);
        }
    }
}

/// A read of each kind, strings, and the parts that their rows name.
fn any(sample: &mut Sample, random: &mut Random) {
    let len = random.below(40);
    let input = any_bytes(random, len);
    for op in OPS {
        let at = random.below(len + 1);
        let whole = (len - at) / (4 * op.width());
        let count = random.below(whole + 2);
        let lent = count * op.width() + random.pick(&[0, 0, 1, 3]);
        read(sample, op, &input, at, count as u32, lent);
    }
    let made = any_case(random);
    let case = made.case();
    if case.lent > 60 || case.storage.len() > 80 {
        return;
    }
    decode(sample, case);
    if let Ok((rows, _)) = case.decoded(0) {
        let index = random.below(rows.len() / ROW + 1);
        span(sample, case.storage, &rows, index);
    }
}
