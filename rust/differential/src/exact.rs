//! Whether a LEB128 number is exact, said a second time: by the number itself, in 128 bits.

/// How a number's bytes are taken.
#[derive(Clone, Copy, PartialEq, Eq, Debug)]
pub enum Kind {
    Unsigned,
    Signed,
}

use Kind::*;

/// What a mark holds before a call: neither of those that are written.
pub const UNMARKED: u32 = 0xA5A5_A5A5;

/// The number of at most ten bytes, by DWARF 5, section 7.6: each has seven bits of it, the least first.
pub fn number(kind: Kind, bytes: &[u8]) -> i128 {
    assert!((1..=10).contains(&bytes.len()));
    let digit = |(i, byte): (usize, &u8)| i128::from(byte & 0x7F) << (7 * i);
    let sum = bytes.iter().enumerate().map(digit).sum();
    let bits = 7 * bytes.len();
    match kind {
        Signed if sum >= 1 << (bits - 1) => sum - (1 << bits),
        _ => sum,
    }
}

/// What 64 bits hold of a number.
pub fn held(kind: Kind, number: i128) -> i128 {
    match kind {
        Unsigned => i128::from(number as u64),
        Signed => i128::from(number as i64),
    }
}

/// Whether 64 bits hold the number of these bytes.
pub fn exact(kind: Kind, bytes: &[u8]) -> bool {
    let number = number(kind, bytes);
    let exact = held(kind, number) == number;
    assert_eq!(exact, said(kind, bytes), "docs/FORMAT.md, section 2.3: {kind:?} {bytes:02x?}");
    exact
}

/// The same in the format's words: not so when an unsigned tenth byte is above 1, or a signed one is neither 00 nor 7F.
pub fn said(kind: Kind, bytes: &[u8]) -> bool {
    match (kind, bytes.get(9)) {
        (_, None) => true,
        (Unsigned, Some(tenth)) => *tenth <= 1,
        (Signed, Some(tenth)) => [0, 0x7F].contains(tenth),
    }
}

/// Ten bytes of which the first nine have the low 63 bits of a value, and the last is given.
pub fn with_tenth(value: i64, tenth: u8) -> Vec<u8> {
    let mut bytes: Vec<u8> = (0..9).map(|i| (value >> (7 * i)) as u8 | 0x80).collect();
    bytes.push(tenth);
    bytes
}

/// A number with this value in its low 64 bits, and others that are lost: its tenth byte has one of 64 or 63 forms.
pub fn lost(kind: Kind, value: i64, form: u8) -> Vec<u8> {
    let sign = (value < 0) as u8;
    let mut tenth = form << 1 & 0x7E | sign;
    if said(kind, &with_tenth(value, tenth)) {
        tenth ^= 0x42;
    }
    with_tenth(value, tenth)
}
