//! A sample of what is right of literals.

use harness::Random;

use super::case::{literal, series};
use super::groups::{any_runs, push_tag, WIDTHS};
use crate::case::code;
use crate::inputs::any_bytes;
use crate::record::{Record, Sample, READ_LITERAL, READ_OBJECT, READ_SERIES};

const NAMES: [&str; 4] = ["read_literal", "read_series", "read_object keys", "read_object values"];

/// The values for which the program has room, besides one that is not lent.
const MOST: usize = 319;

fn answers(group: usize) -> &'static [u32] {
    match group {
        0 => &[0, 2, 3],
        _ => &[0, 3, 4, 7],
    }
}

fn one(sample: &mut Sample, input: &[u8], at: usize, tag: u8) {
    let right = literal::Case { input, at, tag }.expected();
    // What a call does not write is 0 before it.
    let (kind, float, word) = match (right.number, right.kind) {
        (0, 3) => (3, right.float, 0),
        (0, kind @ 4..) => (kind, 0, right.word),
        (0, kind) => (kind, 0, 0),
        _ => (0, 0, 0),
    };
    let code = code(if right.number == 0 { Ok(0) } else { Err((right.number, 0)) });
    let record = Record::new(READ_LITERAL, &[at as u64, tag.into(), float], &[], input)
        .value(2, 1 << 62)
        .answer(&[code, right.at as u64, kind.into(), word.into(), 1]);
    sample.add(0, right.number, record);
}

/// A buffer that is lent beside the named one, and not looked at: its values are others at every offset.
const OTHER: [u8; 16] = [0x11; 16];

/// A series, by each of the calls named.
fn values(sample: &mut Sample, groups: &[usize], case: series::Case) {
    assert!(case.kinds.max(case.payloads) <= MOST);
    let right = case.expected(0);
    let series::Case { buffer, offset, count, kinds, payloads } = case;
    let lent = [kinds as u64, payloads as u64];
    let left = |record: Record| record.table(&right.kinds).longs(&right.payloads);
    // An object's answer says where its bytes are, too, and of which buffer.
    let (start, used) = match (right.number, count) {
        (0, 0) => (0, 0),
        (0, _) => (offset as usize, right.place as usize),
        _ => (0, 0),
    };
    for &group in groups {
        let keys = u64::from(group == 2);
        let record = match group {
            1 => {
                let answer = match right.number {
                    0 => Ok(right.place),
                    number => Err((number, right.place)),
                };
                left(
                    Record::new(READ_SERIES, &lent, &[offset, count], buffer)
                        .answer(&[code(answer), 0]),
                )
            }
            _ => {
                let place = if right.number == 0 { 0 } else { right.place };
                let answer = [right.number.into(), place.into(), start as u64, used as u64, keys];
                let (first, second) =
                    if keys == 1 { (buffer, &OTHER[..]) } else { (&OTHER[..], buffer) };
                let asked = [lent[0], lent[1], keys];
                left(Record::new(READ_OBJECT, &asked, &[offset, count], first).answer(&answer))
                    .given(second)
                    .part(&buffer[start..start + used])
            }
        };
        sample.add(group, right.number, record);
    }
}

/// All three calls, into tables that have a word more than there are values.
fn all(sample: &mut Sample, buffer: &[u8], offset: u32, count: u32) {
    let lent = (count as usize + 1).min(MOST);
    let case = series::Case { buffer, offset, count, kinds: lent, payloads: lent };
    values(sample, &[1, 2, 3], case);
}

pub fn write(mut random: Random) -> (Vec<u8>, Vec<String>) {
    let mut sample = Sample::new("buffer", &NAMES);
    worked(&mut sample);
    literals(&mut sample, &mut random);
    tags(&mut sample, &mut random);
    tables(&mut sample);
    let mut turn = 0;
    while sample.fewer(1_210) {
        any(&mut sample, &mut random, 1 + turn % 3);
        turn += 1;
    }
    sample.done(answers)
}

/// P8 and P9 of docs/FORMAT.md, section 10.1, P8 cut at every byte and from every offset.
fn worked(sample: &mut Sample) {
    let p8 = [0x72, 5, 0, 0, 0, 0xFF, 0xFF, 0xFF, 0xFF, 0x11];
    let right =
        series::Case { buffer: &p8, offset: 0, count: 3, kinds: 3, payloads: 3 }.expected(0);
    assert_eq!((right.number, right.place), (0, 10));
    assert_eq!((&right.kinds[..], &right.payloads[..]), (&[5, 5, 1][..], &[5, 0xFFFF_FFFF, 0][..]));
    for end in 0..=p8.len() {
        all(sample, &p8[..end], 0, 3);
    }
    for offset in (1..=11).chain([1 << 30, u32::MAX]) {
        all(sample, &p8, offset, 1);
    }
    for count in [0, 1, 2, 4] {
        all(sample, &p8, 0, count);
        all(sample, &p8, u32::MAX, count);
    }
    let right =
        series::Case { buffer: &[0x81, 2], offset: 0, count: 258, kinds: 258, payloads: 258 }
            .expected(0);
    assert_eq!((right.number, right.place, right.kinds.len()), (0, 2, 258));
    all(sample, &[0x81, 2], 0, 258);
    all(sample, &[0x81, 2], 0, 259);
}

/// Every kind of literal, whole, cut and past the end; numbers at their edges, floats of every kind.
fn literals(sample: &mut Sample, random: &mut Random) {
    for bits in 0..8 {
        let width = WIDTHS[bits as usize];
        let input = any_bytes(random, width + 1);
        for at in (0..=input.len() + 1).chain([1 << 32, usize::MAX]) {
            one(sample, &input, at, bits << 4 | random.byte() & 0x8F);
        }
    }
    for word in [0, 1, 255, 65_535, (1 << 31) - 1, 1 << 31, u32::MAX] {
        for bits in [4, 5, 6, 7] {
            one(sample, &word.to_le_bytes(), 0, bits << 4);
        }
    }
    for sign in 0..2u64 {
        for exponent in [0, 1, 1023, 2046, 2047] {
            for fraction in [0, 1, 1 << 51, (1 << 52) - 1] {
                let bits = sign << 63 | exponent << 52 | fraction;
                one(sample, &bits.to_le_bytes(), 0, 0x30);
            }
        }
    }
}

/// Every tag with lengths at the edges of a nibble and of its 12 bits, and floats by their bits.
fn tags(sample: &mut Sample, random: &mut Random) {
    for bits in 0..8 {
        for (length, long) in
            [(0, false), (0, true), (2, false), (2, true), (15, false), (16, true)]
        {
            let mut buffer = any_bytes(random, 2);
            push_tag(&mut buffer, bits, length, long);
            let bytes = any_bytes(random, length * WIDTHS[bits as usize]);
            buffer.extend(bytes);
            buffer.extend([0x71, 1, 2, 3]);
            let group = 1 + (bits as usize + length) % 3;
            for count in [length, length + 1] {
                let lent = count + 1;
                let case = series::Case {
                    buffer: &buffer,
                    offset: 2,
                    count: count as u32,
                    kinds: lent,
                    payloads: lent,
                };
                values(sample, &[group], case);
            }
            buffer.push(4);
            all(sample, &buffer, 2, length as u32 + 1);
        }
    }
    let nans = [0x7FF0_0000_0000_0001, 0x7FF8_0000_0000_0001, u64::MAX, 1 << 63];
    let mut buffer = vec![0x34];
    buffer.extend(nans.iter().flat_map(|bits| bits.to_le_bytes()));
    all(sample, &buffer, 0, 4);
}

/// Tables of no words to more than there are values, each for itself, for series that are accepted, cut and past the end.
fn tables(sample: &mut Sample) {
    let buffer = [0x62, 7, 8, 0x11, 0x71, 1, 2];
    for (offset, count) in [(0, 3), (0, 4), (7, 1), (0, 0), (0, u32::MAX), (9, u32::MAX)] {
        for kinds in 0..=4 {
            for payloads in 0..=4 {
                let case = series::Case { buffer: &buffer, offset, count, kinds, payloads };
                values(sample, &[1 + (kinds + payloads) % 3], case);
            }
        }
    }
}

/// Runs as a file has them, damaged or cut, by one of the calls; and one literal of the same bytes.
fn any(sample: &mut Sample, random: &mut Random, group: usize) {
    let runs = random.below(6);
    let (mut buffer, mut count) = any_runs(random, runs);
    buffer.truncate(60);
    match random.below(4) {
        0 if !buffer.is_empty() => {
            let place = random.below(buffer.len());
            buffer[place] = random.byte();
        }
        1 => buffer.truncate(random.below(buffer.len() + 1)),
        _ => count = random.below(count + 2),
    }
    let count = count.min(40);
    let [kinds, payloads] = [0; 2].map(|_| match random.below(24) {
        0 => random.below(count + 1),
        _ => count + random.below(3),
    });
    let case = series::Case {
        buffer: &buffer,
        offset: random.pick(&[0, 0, 0, 1, 2]),
        count: count as u32,
        kinds,
        payloads,
    };
    values(sample, &[group], case);
    let at = random.below(buffer.len() + 1);
    one(sample, &buffer[..buffer.len().min(at + 9)], at, random.byte());
}
