//! Which LEB128 numbers of debug data are read, in the order in which they stand there: a second reader, by docs/FORMAT.md,
//! sections 7.2 to 7.5 and 7.7, and by nobody's code.

use crate::exact::{exact, held, number, Kind};

/// What a number is.
#[derive(Clone, Copy, PartialEq, Eq, Debug)]
pub enum What {
    Parent,
    Flags,
    NameCount,
    Name,
    CalleeCount,
    Address,
    Callee,
    Length,
}

use What::*;

/// A number that is read: its bytes, up to and with the first whose bit 7 is clear.
#[derive(Clone, Copy, PartialEq, Eq, Debug)]
pub struct Number<'a> {
    pub what: What,
    pub bytes: &'a [u8],
}

impl Number<'_> {
    /// The length of a string is unsigned, all others are signed.
    fn kind(&self) -> Kind {
        match self.what {
            Length => Kind::Unsigned,
            _ => Kind::Signed,
        }
    }

    pub fn exact(&self) -> bool {
        exact(self.kind(), self.bytes)
    }

    /// Its low 64 bits, by which reading goes on.
    fn value(&self) -> i128 {
        held(self.kind(), number(self.kind(), self.bytes))
    }
}

/// A part of the debug data, and where reading stands in it.
struct Place<'a> {
    part: &'a [u8],
    at: usize,
}

impl<'a> Place<'a> {
    fn left(&self) -> i128 {
        (self.part.len() - self.at) as i128
    }

    /// The next number, if it ends within ten bytes and before the part does. Failed, reading stands behind the last byte
    /// that was looked at.
    fn next(&mut self, what: What) -> Option<Number<'a>> {
        let from = self.at;
        for _ in 0..10 {
            let byte = *self.part.get(self.at)?;
            self.at += 1;
            if byte < 0x80 {
                return Some(Number { what, bytes: &self.part[from..self.at] });
            }
        }
        None
    }
}

/// The parts of scopes, callees and strings; none where there is no debug information, or its header is cut.
fn parts(file: &[u8], offset: u32) -> Option<[&[u8]; 3]> {
    if offset == 0 || offset == u32::MAX {
        return None;
    }
    let section = file.get(offset as usize..)?;
    let header = section.get(..28)?;
    let word = |i: usize| u64::from(u32::from_le_bytes(header[4 * i..][..4].try_into().unwrap()));
    let begin = 28 + 8 * word(0) + word(1) + 12 * word(2);
    let size = word(6);
    let data = section.get(begin as usize..(begin + size) as usize)?;
    let part = |from: u64, to: u64| data.get(from as usize..to as usize).unwrap_or_default();
    Some([part(word(3), word(4)), part(word(4), word(5)), part(word(5), size)])
}

/// Every number that is read of the debug section, in the order of the debug data.
pub fn each<'a>(file: &'a [u8], offset: u32, mut seen: impl FnMut(Number<'a>)) {
    if let Some([scopes, callees, strings]) = parts(file, offset) {
        of_scopes(scopes, &mut seen);
        of_callees(callees, &mut seen);
        of_strings(strings, &mut seen);
    }
}

/// Parent, flags, name count, names. If one of the three fails, or the count is negative or above the bytes left, no more
/// is read. If a name fails the next scope is looked for where that left off.
fn of_scopes<'a>(part: &'a [u8], seen: &mut impl FnMut(Number<'a>)) {
    let mut place = Place { part, at: 0 };
    while place.left() > 0 {
        let mut count = 0;
        for what in [Parent, Flags, NameCount] {
            let Some(number) = place.next(what) else {
                return;
            };
            seen(number);
            count = number.value();
        }
        if count < 0 || count > place.left() {
            return;
        }
        for _ in 0..count {
            let Some(number) = place.next(Name) else {
                break;
            };
            seen(number);
        }
    }
}

/// A count, and as many pairs of address and name. If one of them fails no more is read.
fn of_callees<'a>(part: &'a [u8], seen: &mut impl FnMut(Number<'a>)) {
    let mut place = Place { part, at: 0 };
    let Some(count) = place.next(CalleeCount) else {
        return;
    };
    seen(count);
    if count.value() > place.left() {
        return;
    }
    for _ in 0..count.value() {
        for what in [Address, Callee] {
            let Some(number) = place.next(what) else {
                return;
            };
            seen(number);
        }
    }
}

/// Lengths, each with so many bytes behind it; a string that is cut is the last.
fn of_strings<'a>(part: &'a [u8], seen: &mut impl FnMut(Number<'a>)) {
    let mut place = Place { part, at: 0 };
    while let Some(length) = place.next(Length) {
        seen(length);
        if length.value() > place.left() {
            return;
        }
        place.at += length.value() as usize;
    }
}

/// The mark of a debug section that is accepted: whether every number that was read is exact.
pub fn all_exact(file: &[u8], offset: u32) -> bool {
    let mut all = true;
    each(file, offset, |number| all &= number.exact());
    all
}
