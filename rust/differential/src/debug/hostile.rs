//! Hostile inputs for the debug section.

mod callees;

use bisquepond::sys::LIMIT;
use harness::Random;

use super::case::{make, Table, Told, NONE, ROWS};
use super::groups::case;
use crate::case::{Compare, Compared, Difference};
use crate::exact::{lost, Kind};
use crate::hostile::{file_of, rows_are, size, Soak};
use crate::inputs::{any_words, fill, mixed, ten};
use crate::lent::Reserved;

/// Where the section begins.
const OFFSET: usize = 1;

/// A scope whose only name is refused, ten bytes on.
const CUT: [u8; 13] = [0x7F, 0, 1, 255, 255, 255, 255, 255, 255, 255, 255, 255, 255];

/// A part that is one piece again and again: its table, whether its numbers are exact, and the words of row `i` where the
/// part begins at a byte.
struct Part {
    name: &'static str,
    piece: &'static [u8],
    table: usize,
    exact: bool,
    row: fn(usize, u32) -> [u32; 5],
}

const STRINGS: usize = 0;
const SCOPES: usize = 1;

const PARTS: [Part; 7] = [
    Part {
        name: "strings of no bytes",
        piece: &[0],
        table: STRINGS,
        exact: true,
        row: |begin, i| [begin as u32 + i + 1, 0, 0, 0, 0],
    },
    Part {
        name: "strings of no bytes, ten-byte prefixes",
        piece: &[0x80, 0x80, 0x80, 0x80, 0x80, 0x80, 0x80, 0x80, 0x80, 0],
        table: STRINGS,
        exact: true,
        row: |begin, i| [begin as u32 + 10 * i + 10, 0, 0, 0, 0],
    },
    Part {
        name: "strings of no bytes, prefixes that lost bits",
        piece: &[0x80, 0x80, 0x80, 0x80, 0x80, 0x80, 0x80, 0x80, 0x80, 2],
        table: STRINGS,
        exact: false,
        row: |begin, i| [begin as u32 + 10 * i + 10, 0, 0, 0, 0],
    },
    Part {
        name: "scopes of no names",
        piece: &[0x7F, 0, 0],
        table: SCOPES,
        exact: true,
        row: |_, i| [3 * i, NONE, 0, 0, 0],
    },
    Part {
        name: "scopes of no names, ten-byte numbers",
        piece: &[0x80, 0x80, 0x80, 0x80, 0x80, 0x80, 0x80, 0x80, 0x80, 0],
        table: SCOPES,
        exact: true,
        row: |_, i| [30 * i, 0, 0, 0, 0],
    },
    Part {
        name: "scopes of no names, numbers that lost bits",
        piece: &[0x80, 0x80, 0x80, 0x80, 0x80, 0x80, 0x80, 0x80, 0x80, 0x40],
        table: SCOPES,
        exact: false,
        row: |_, i| [30 * i, 0, 0, 0, 0],
    },
    Part {
        name: "scopes whose names are cut",
        piece: &CUT,
        table: SCOPES,
        exact: true,
        row: |_, i| [13 * i, NONE, 0, 0, 0],
    },
];

pub fn soak(soak: &mut Soak) -> Compared {
    headers(soak)?;
    for part in &PARTS {
        part.compared(soak)?;
        part.one_short(soak)?;
        part.accepted(soak)?;
        part.last_lost(soak)?;
    }
    claims(soak)?;
    let far = [0, 1, 28, LIMIT as u32, u32::MAX];
    soak.at_random(1 << 16, |random| any(random, &far))?;
    callees::soak(soak)
}

impl Part {
    /// Bytes of an entry, of which a scope of ten-byte numbers has three pieces.
    fn entry(&self) -> usize {
        match (self.table, self.piece.len()) {
            (SCOPES, 10) => 30,
            (_, len) => len,
        }
    }

    /// Makes a section of so many bytes at least: where its part begins, and how many entries it has.
    fn make(&self, file: &mut Vec<u8>, len: usize) -> (usize, usize) {
        fill(file, len, self.piece);
        let begin = 60usize.next_multiple_of(self.entry());
        let count = (len - begin) / self.entry();
        let size = (count * self.entry()) as u32;
        let offsets = match self.table {
            STRINGS => [0, 0, 0],
            _ => [0, size, size],
        };
        header(file, begin, offsets, size);
        (begin, count)
    }

    /// With the Rust, in 2^24 bytes.
    fn compared(&self, soak: &mut Soak) -> Compared {
        let len = 1 << 24;
        let name = format!("{}, 2^24 bytes", self.name);
        soak.case(&name, size(8 * len, 200 * len), |file| {
            let (_, count) = self.make(file, len);
            let mut words = [0; 4];
            words[self.table] = count * ROWS[self.table];
            compare(file, words)
        })
    }

    /// A row short, in 2^30 bytes: refused after all was counted, and nothing is written.
    fn one_short(&self, soak: &mut Soak) -> Compared {
        let name = format!("{}, 2^30 bytes, a row short", self.name);
        soak.case(&name, file_of(LIMIT), |file| {
            let (_, count) = self.make(file, LIMIT);
            let table = Reserved::new(count * ROWS[self.table] - 1).expect("addresses");
            let answer = self.call(file, table.as_mut_ptr(), table.len());
            same(answer?, Told::refused((4, 0)))
        })
    }

    /// All rows of 2^30 bytes, worked out beside.
    fn accepted(&self, soak: &mut Soak) -> Compared {
        let width = ROWS[self.table];
        let words = LIMIT / self.entry() * width;
        let name = format!("{}, 2^30 bytes", self.name);
        soak.case(&name, file_of(LIMIT + 4 * words), |file| {
            let (begin, count) = self.make(file, LIMIT);
            let mut table = vec![7; count * width];
            let answer = self.call(file, table.as_mut_ptr(), table.len());
            rows_are(&table, width, |i, row| *row == (self.row)(begin, i as u32)[..width])?;
            let mut counts = [0; 4];
            counts[self.table] = count;
            same(answer?, Told { code: 0, counts, mark: self.exact.into() })
        })
    }

    /// The last number alone has lost bits, in 2^30 bytes: the rows are the same, and not exact.
    fn last_lost(&self, soak: &mut Soak) -> Compared {
        if !self.exact || self.piece.len() != 10 {
            return Ok(());
        }
        let width = ROWS[self.table];
        let words = LIMIT / self.entry() * width;
        let name = format!("{}, 2^30 bytes, the last lost bits", self.name);
        soak.case(&name, file_of(LIMIT + 4 * words), |file| {
            let (begin, count) = self.make(file, LIMIT);
            file[begin + count * self.entry() - 1] = 0x7E;
            let mut table = vec![7; count * width];
            let answer = self.call(file, table.as_mut_ptr(), table.len());
            rows_are(&table, width, |i, row| *row == (self.row)(begin, i as u32)[..width])?;
            let mut counts = [0; 4];
            counts[self.table] = count;
            same(answer?, Told { code: 0, counts, mark: 0 })
        })
    }

    /// The call with the one table that has words, among others that have none.
    fn call(&self, file: &[u8], words: *mut u32, len: usize) -> Result<Told, String> {
        let mut tables = NO_WORDS;
        tables[self.table] = (words, len);
        make(file, OFFSET as u32, tables)
    }
}

/// Tables that have no words.
const NO_WORDS: [Table; 4] = [(std::ptr::NonNull::dangling().as_ptr(), 0); 4];

/// The section's header, for a part that begins at a byte of the file.
fn header(file: &mut [u8], begin: usize, [scopes, callees, strings]: [u32; 3], size: u32) {
    let storage = (begin - OFFSET - 28) as u32;
    let words = [0, storage, 0, scopes, callees, strings, size].map(u32::to_le_bytes);
    file[OFFSET..OFFSET + 28].copy_from_slice(words.as_flattened());
}

/// The answer, the counts and the mark that were worked out beside.
fn same(given: Told, right: Told) -> Result<String, Difference> {
    match given == right {
        true => Ok(given.words()),
        false => Err(format!("{}, not {}", given.words(), right.words()).into()),
    }
}

/// With so many words lent in each table.
fn compare(file: &[u8], words: [usize; 4]) -> Result<String, Difference> {
    case(file, OFFSET as u32, &words.map(|words| vec![7; words])).compared()
}

/// Each word of the header, and all of them, 2^32 - 1.
fn headers(soak: &mut Soak) -> Compared {
    let name = "header words of 2^32 - 1, 2^30 bytes";
    soak.filled(name, (LIMIT, &[0]), |file| {
        for far in 1u32..128 {
            for word in 0..7 {
                let byte = if far >> word & 1 == 1 { 0xFF } else { 0 };
                file[OFFSET + 4 * word..][..4].fill(byte);
            }
            compare(file, [0; 4])?;
        }
        Ok("each as expected".to_string())
    })
}

/// Numbers that claim more than there is: names, callees, bytes of a string.
fn claims(soak: &mut Soak) -> Compared {
    for (name, names) in [
        ("a scope of 2^32 - 1 names", u32::MAX.into()),
        ("a scope of 2^63 - 1 names", i64::MAX as u64),
        ("a scope of as many names as bytes", (1 << 24) - 72),
    ] {
        soak.case(name, size(1 << 26, 1 << 31), |file| {
            fill(file, 1 << 24, &[0]);
            let data = (1 << 24) - 60;
            header(file, 60, [0, data, data], data);
            file[62..72].copy_from_slice(&ten(names));
            compare(file, [0, 5, 1 << 24, 0])
        })?;
    }
    for (name, count) in [("2^32 - 1 callees", u32::MAX as u64), ("2^63 callees", 1 << 63)] {
        soak.filled(name, (LIMIT, &[0]), |file| {
            let data = (LIMIT - 60) as u32;
            header(file, 60, [0, 0, data - 1], data);
            file[60..70].copy_from_slice(&ten(count));
            compare(file, [2, 0, 0, 0])
        })?;
    }
    let string = "a string of 2^64 - 1 bytes";
    soak.filled(string, (LIMIT, &ten(u64::MAX)), |file| {
        header(file, 60, [0, 0, 0], (LIMIT - 60) as u32);
        compare(file, [0; 4])
    })
}

/// Parts of hostile pieces in any order, between any three offsets.
fn any(random: &mut Random, far: &[u32]) -> Compared {
    let lost = lost(Kind::Signed, random.below(3) as i64, random.byte());
    let pieces: [&[u8]; 9] =
        [&[0], &CUT, &ten(0), &ten(1), &ten(u64::MAX), &[0xFF; 11], &[0, 0, 2], &[1], &lost];
    let len = 100 + random.below(3000);
    let mut file = mixed(random, &pieces, len);
    let size = (file.len() - 60) as u32;
    let mut offsets = [0; 3].map(|_| random.below(size as usize + 1) as u32);
    if random.below(8) > 0 {
        offsets.sort();
    } else {
        offsets[random.below(3)] = random.pick(far);
    }
    header(&mut file, 60, offsets, size);
    let rows = random.pick(&[0, 1, len]);
    let tables = ROWS.map(|row| any_words(random, row * rows));
    case(&file, OFFSET as u32, &tables).compare().map(drop)
}
