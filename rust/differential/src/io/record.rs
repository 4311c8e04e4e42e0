//! A sample of the Rust's answers on the cursor layer.

use harness::Random;

use super::case::Op::*;
use super::case::{rust, Answer, Case, Op, OPS, PLAIN};
use super::groups::any_byte;
use crate::case::code;
use crate::exact::{lost, Kind, UNMARKED};
use crate::record::{Record, Sample, IO};

const NAMES: [&str; 19] = [
    "DWARF 5, section 7.6, unsigned",
    "DWARF 5, section 7.6, signed",
    "read_u8",
    "read_i8",
    "read_u16",
    "read_u32",
    "read_u64",
    "read_i32",
    "read_f64",
    "read_uleb128",
    "read_sleb128",
    "read_cstring",
    "read_length_prefixed_string",
    "read_bytes",
    "seek",
    "align",
    "read_uleb128, bits lost",
    "read_sleb128, bits lost",
    "read_length_prefixed_string, bits lost",
];

/// The group of the first call, and of the first whose number lost bits.
const CALLS: usize = 2;
const LOST: usize = 16;

/// What stands in a record for a mark that is not written.
const NO_MARK: u64 = 2;

/// The worked examples of DWARF 5, section 7.6.
const UNSIGNED: [(u64, &[u8]); 6] = [
    (2, &[0x02]),
    (127, &[0x7F]),
    (128, &[0x80, 0x01]),
    (129, &[0x81, 0x01]),
    (130, &[0x82, 0x01]),
    (12857, &[0xB9, 0x64]),
];
const SIGNED: [(i64, &[u8]); 8] = [
    (2, &[0x02]),
    (-2, &[0x7E]),
    (127, &[0xFF, 0x00]),
    (-127, &[0x81, 0x7F]),
    (128, &[0x80, 0x01]),
    (-128, &[0x80, 0x7F]),
    (129, &[0x81, 0x01]),
    (-129, &[0xFF, 0x7E]),
];

/// Every refusal number that the Rust can show, group by group; 0 is accepted.
fn answers(group: usize) -> &'static [u32] {
    let call = group.checked_sub(CALLS).and_then(|call| OPS.get(call));
    let Some(call) = call else {
        return &[0];
    };
    match call {
        Uleb128 | Sleb128 | LengthPrefixedString => &[0, 3, 5],
        Cstring => &[0, 9],
        Seek => &[0, 2],
        Align => &[0, 2, 6],
        _ => &[0, 3],
    }
}

/// Adds one case with the Rust's answer to the group of its call.
fn add(sample: &mut Sample, op: Op, input: &[u8], at: usize, argument: usize) {
    added(sample, CALLS + op as usize, op, input, at, argument);
}

fn added(
    sample: &mut Sample,
    group: usize,
    op: Op,
    input: &[u8],
    at: usize,
    argument: usize,
) -> Answer {
    assert!(at <= input.len());
    let (answer, _) = rust(&Case { op, input, at, argument });
    let call = IO + op as u64;
    let [first, second] = answer.value;
    // A value that is no unsigned number stands among what is asked, in the bits of its type, and the answer has a 1.
    let value =
        |bits: u64, bit| Record::new(call, &[at as u64, first & bits], &[], input).value(1, bit);
    let (record, value) = match op {
        I8 => (value(0xFF, 1), [1, 0]),
        I32 => (value(0xFFFF_FFFF, 1), [1, 0]),
        Sleb128 => (value(u64::MAX, 1), [1, 0]),
        // Another exponent, so that a NaN is none.
        F64 => (value(u64::MAX, 1 << 62), [1, 0]),
        _ => (Record::new(call, &[at as u64, argument as u64], &[], input), [first, second]),
    };
    let code = code(if answer.number == 0 { Ok(0) } else { Err((answer.number, 0)) });
    let mark = if answer.mark == UNMARKED { NO_MARK } else { answer.mark.into() };
    let numbers = [code, answer.at as u64, value[0], value[1], mark];
    let record = match op {
        Cstring | LengthPrefixedString | Bytes | Seek | Align => record.answer(&numbers),
        // A number has no second one.
        _ => record.answer(&[numbers[0], numbers[1], numbers[2], mark]),
    };
    sample.add(group, answer.number, record);
    answer
}

pub fn write(mut random: Random) -> (Vec<u8>, Vec<String>) {
    let mut sample = Sample::new("io", &NAMES);
    for (value, bytes) in UNSIGNED {
        let answer = added(&mut sample, 0, Uleb128, bytes, 0, 0);
        assert_eq!((answer.number, answer.value[0]), (0, value));
    }
    for (value, bytes) in SIGNED {
        let answer = added(&mut sample, 1, Sleb128, bytes, 0, 0);
        assert_eq!((answer.number, answer.value[0] as i64), (0, value));
    }
    edges(&mut sample);
    floats(&mut sample);
    leb128(&mut sample, &mut random);
    bits_lost(&mut sample, &mut random);
    while sample.fewer(2_200) {
        for op in OPS {
            any(&mut sample, &mut random, op);
        }
    }
    sample.done(answers)
}

/// Short inputs at each of their cursors.
fn edges(sample: &mut Sample) {
    let input = [0x81, 0xFE, 0x03, 0x84, 0x7F, 0x86, 0x07, 0xF8, 0x09];
    for op in PLAIN {
        for at in 0..=input.len() {
            add(sample, op, &input, at, 0);
        }
        add(sample, op, &[], 0, 0);
    }
    let far = [1 << 32, 1 << 63, usize::MAX];
    for at in [0, 1, 4, 5] {
        for argument in [0, 1, 5 - at, 6 - at].into_iter().chain(far) {
            add(sample, Bytes, &input[..5], at, argument);
        }
        for argument in [0, 4, 5, 6].into_iter().chain(far) {
            add(sample, Seek, &input[..5], at, argument);
        }
        for argument in (0..=9).chain(far) {
            add(sample, Align, &input[..5], at, argument);
        }
    }
    for input in [&b""[..], b"\0", b"a", b"ab\0", b"\0a\0", b"abc", b"\xFF\0"] {
        for at in 0..=input.len() {
            add(sample, Cstring, input, at, 0);
        }
    }
    for input in
        [&b""[..], b"\0", b"\x01", b"\x01a", b"\x02a", b"\x80\0a", b"\x81\0a", b"\x03abc\0"]
    {
        for at in 0..=input.len() {
            add(sample, LengthPrefixedString, input, at, 0);
        }
    }
}

/// Zeros, ones, the least and the greatest of each kind, infinities and NaNs, of both signs.
fn floats(sample: &mut Sample) {
    let top = (1 << 52) - 1;
    for sign in 0..2u64 {
        for exponent in [0, 1, 1023, 2046, 2047] {
            for fraction in [0, 1, 1 << 51, top] {
                let bits = sign << 63 | exponent << 52 | fraction;
                add(sample, F64, &bits.to_le_bytes(), 0, 0);
            }
        }
    }
}

/// Nine, ten and eleven bytes, complete and cut.
fn leb128(sample: &mut Sample, random: &mut Random) {
    for len in 9..=11 {
        for last in [0x00, 0x01, 0x02, 0x3F, 0x40, 0x41, 0x7E, 0x7F, 0x80, 0xFF] {
            for fill in [0x80, 0xFF, random.byte() | 0x80] {
                let mut input = vec![fill; len - 1];
                input.push(last);
                for op in [Uleb128, Sleb128] {
                    add(sample, op, &input, 0, 0);
                }
            }
            let mut input = vec![0x80; len - 1];
            input.push(last);
            add(sample, LengthPrefixedString, &input, 0, 0);
        }
    }
    // A length of 2^64 - 1, and of 2^32.
    let most = [0xFF, 0xFF, 0xFF, 0xFF, 0xFF, 0xFF, 0xFF, 0xFF, 0xFF, 0x01];
    add(sample, LengthPrefixedString, &most, 0, 0);
    let wide = [0x80, 0x80, 0x80, 0x80, 0x10, 0x61];
    add(sample, LengthPrefixedString, &wide, 0, 0);
}

/// Numbers with every second tenth byte, and prefixes that name text behind them.
fn bits_lost(sample: &mut Sample, random: &mut Random) {
    for form in 0..64 {
        for (i, op) in [Uleb128, Sleb128, LengthPrefixedString].into_iter().enumerate() {
            let kind = if op == Sleb128 { Kind::Signed } else { Kind::Unsigned };
            let value = match op {
                LengthPrefixedString => random.below(4) as i64,
                _ => random.word() as i64 >> random.below(64),
            };
            let mut input: Vec<u8> = (0..random.below(3)).map(|_| random.byte()).collect();
            let at = input.len();
            input.extend(lost(kind, value, form));
            input.extend((0..3).map(|_| random.byte()));
            let answer = added(sample, LOST + i, op, &input, at, 0);
            assert_eq!((answer.number, answer.mark), (0, 0));
        }
    }
}

fn any(sample: &mut Sample, random: &mut Random, op: Op) {
    // Strings that end, and lengths that fit, are rare among bytes of any other flavour.
    let flavour = match op {
        Cstring => random.pick(&[0, 2, 3, 3]),
        LengthPrefixedString => random.pick(&[1, 2, 2, 2]),
        _ => random.below(5),
    };
    let most = random.pick(&[64, 12, 12, 12, 12, 12, 12, 12]);
    let len = random.below(most + 1);
    let input: Vec<u8> = (0..len).map(|_| any_byte(random, flavour)).collect();
    let at = random.below(len + 1);
    let argument = match op {
        Bytes | Seek | Align => random.below(len + 2),
        _ => 0,
    };
    add(sample, op, &input, at, argument);
}
