//! The function tables: the whole table at once, one function by a call, what an edit costs, and rows that are written.

use bisquepond::function::FunctionRow;
use bisquepond::sys::*;
use bisquepond::Row as _;
use harness::Random;
use published::file::parser::function::parse_function_headers;
use published::format::{empty_header, BytecodeHeader, FunctionHeader};
use published::format::{FunctionHeaderLayout, FLAG_OVERFLOWED};
use published::io::ByteReader;

use crate::table::{Bench, SIZES};
use crate::whole::{heading, sides, Whole};

const ROW: usize = FunctionRow::WORDS;
const START: usize = 128;

/// A layout's number and name, the bytes of a header, and those of a large header with its padding.
const LAYOUTS: [(u32, &str, usize, usize); 2] = [(0, "legacy", 16, 32), (1, "modern", 12, 40)];

/// One function of this many has a large header, where nothing else is said.
const LARGE: usize = 16;

/// The same in words: one function of 16, none, or each.
const KINDS: [(usize, &str); 3] = [
    (LARGE, ""),
    (usize::MAX, ", none large"),
    (1, ", all large"),
];

pub fn rows(bench: &Bench) {
    heading(
        "Function tables: one call for the whole table, one function of 16 with a large header. The Rust makes a vector;",
        "ours writes into lent words, which are there already, or made anew each time as the vector is.",
        "function",
    );
    for (layout, name, ..) in LAYOUTS {
        for size in SIZES {
            let file = File::filling(layout, size, LARGE);
            file.read(bench, &format!("read {name}"));
            file.read_anew(bench, &format!("read {name}, table made anew"));
        }
        let [small, _] = SIZES;
        let file = File::filling(layout, small, usize::MAX);
        file.read(bench, &format!("read {name}, none large"));
        let file = File::filling(layout, small, 1);
        file.read(bench, &format!("read {name}, all large"));
        for count in [10_000, 100_000, 1_000_000] {
            let file = File::new(layout, count, LARGE);
            file.read(bench, &format!("read {name}"));
        }
    }
    heading(
        "One function by a call of its own, for each in turn. The Rust, which reads tables alone, reads one of one function,",
        "at its header, into a vector.",
        "function",
    );
    for (layout, name, ..) in LAYOUTS {
        let [small, _] = SIZES;
        for (one_in, kind) in KINDS {
            let file = File::filling(layout, small, one_in);
            file.one(bench, &format!("one {name}{kind}"));
        }
    }
    heading(
        "A table brought up to date with its totals after an edit of four bytes, against the Rust's fresh read of the edited",
        "file: in a header in the middle of the table, in the last large header; and after any edit, the whole file as span.",
        "function",
    );
    for (layout, name, own, _) in LAYOUTS {
        for size in SIZES {
            let file = File::filling(layout, size, LARGE);
            let (header, len) = (START + own * (file.count / 2), file.bytes.len());
            let four = |low| (low, low + 4, 1);
            file.refresh(bench, &format!("refresh {name}, header"), four(header));
            file.refresh(bench, &format!("refresh {name}, large"), four(file.last));
            file.refresh(
                bench,
                &format!("refresh {name}, whole file"),
                (0, len, file.count),
            );
        }
    }
    sides(
        "Function tables written, against our own read of what was written: a ratio of 0.67 is a write of 1.5 times the",
        "read's time. Rows and bytes are there already. One function of 16 with a large header, none, or each.",
        "function",
        ["write", "read", "read/write"],
    );
    for (layout, name, ..) in LAYOUTS {
        for size in SIZES {
            for (one_in, kind) in KINDS {
                let file = File::filling(layout, size, one_in);
                file.write(bench, &format!("write {name}{kind}"));
            }
        }
    }
}

/// A table of headers, and the large ones behind it in the same order.
struct File {
    layout: u32,
    count: usize,
    bytes: Vec<u8>,
    /// Where the last large header stands.
    last: usize,
}

impl File {
    /// As many functions as a file of this size holds with their large headers, of which there is one for `one_in`.
    fn filling(layout: u32, size: usize, one_in: usize) -> File {
        let (_, _, own, large) = LAYOUTS[layout as usize];
        let each = own as f64 + large as f64 / one_in as f64;
        File::new(layout, ((size - START) as f64 / each) as usize, one_in)
    }

    fn new(layout: u32, count: usize, one_in: usize) -> File {
        let mut random = Random::new(1);
        let (_, _, own, large) = LAYOUTS[layout as usize];
        let table = START + count * own;
        let size = table + count / one_in * large;
        let mut bytes = Vec::with_capacity(size + 8);
        while bytes.len() < size {
            bytes.extend(random.word().to_le_bytes());
        }
        bytes.truncate(size);
        let (mut place, mut last) = (table, table);
        for i in 0..count {
            let header = &mut bytes[START + i * own..][..own];
            header[own - 1] &= !FLAG_OVERFLOWED;
            // By chance, so that no pattern can be learnt, as long as there is room.
            if random.below(one_in) == 0 && place + large <= size {
                point(header, layout, place);
                last = place;
                place += large;
            }
        }
        File {
            layout,
            count,
            bytes,
            last,
        }
    }

    /// What the Rust is told of the file, of which it reads so many functions.
    fn header(&self, count: usize) -> BytecodeHeader {
        let mut header = empty_header(match self.layout {
            0 => FunctionHeaderLayout::Legacy16,
            _ => FunctionHeaderLayout::Modern12,
        });
        header.function_count = count as u32;
        header
    }

    fn published(&self) -> (u64, u64) {
        let rows = self.headers();
        let sampled = [0, rows.len() / 2, rows.len() - 1];
        let sum = sampled.map(|i| u64::from(rows[i].bytecode_size_in_bytes()));
        (rows.len() as u64, sum.iter().sum())
    }

    fn headers(&self) -> Vec<FunctionHeader> {
        let mut reader = ByteReader::new(&self.bytes);
        reader.seek(START).unwrap();
        parse_function_headers(&mut reader, &self.header(self.count)).unwrap()
    }

    fn ours(&self, table: &mut [u32]) -> (u64, u64) {
        self.read_with(table, &mut [0; 2])
    }

    /// The same, and the totals.
    fn read_with(&self, table: &mut [u32], [large, sizes]: &mut [u64; 2]) -> (u64, u64) {
        let (s, len, layout) = (self.bytes.as_ptr(), self.bytes.len(), self.layout);
        let (words, lent) = (table.len(), table.as_mut_ptr());
        let count = self.count as u32;
        let read =
            unsafe { hbc_read_functions(s, len, layout, START, count, lent, words, large, sizes) };
        let sampled = [0, self.count / 2, self.count - 1];
        let sum = sampled.map(|i| u64::from(table[i * ROW + 4]));
        (read, sum.iter().sum())
    }

    /// The totals by the Rust's headers, and by the flags of our own.
    fn totals(&self) -> [u64; 2] {
        let (_, _, own, _) = LAYOUTS[self.layout as usize];
        let headers = self.bytes[START..].chunks_exact(own).take(self.count);
        let large = headers.filter(|header| header[own - 1] & FLAG_OVERFLOWED != 0);
        let headers = self.headers();
        let sizes = headers.iter().map(|header| header.bytecode_size_in_bytes());
        [large.count() as u64, sizes.map(u64::from).sum()]
    }

    /// Each function by a call, and the sum of all their sizes.
    fn one(&self, bench: &Bench, name: &str) {
        let (_, _, own, _) = LAYOUTS[self.layout as usize];
        let (s, len, layout) = (self.bytes.as_ptr(), self.bytes.len(), self.layout);
        let ours = || {
            let (mut row, mut sum, mut read) = ([0; ROW], 0, 0);
            for id in 0..self.count as u32 {
                let lent = row.as_mut_ptr();
                read += unsafe { hbc_read_function(s, len, layout, START, id, lent, ROW) };
                sum += u64::from(row[4]);
            }
            (read, sum)
        };
        let header = self.header(1);
        let rust = || {
            let (mut reader, mut sum, mut read) = (ByteReader::new(&self.bytes), 0, 0);
            for id in 0..self.count {
                reader.seek(START + id * own).unwrap();
                let rows = parse_function_headers(&mut reader, &header).unwrap();
                read += rows.len() as u64;
                sum += u64::from(rows[0].bytecode_size_in_bytes());
            }
            (read, sum)
        };
        self.size().row(bench, name, ours, rust);
    }

    /// Writes what was read: the large headers then stand where they stood.
    fn write(&self, bench: &Bench, name: &str) {
        let (_, _, own, _) = LAYOUTS[self.layout as usize];
        let (layout, count, large) = (self.layout, self.count as u32, START + self.count * own);
        let mut rows = vec![0; self.count * ROW];
        self.ours(&mut rows);
        let mut written = File {
            bytes: vec![0; self.bytes.len()],
            ..*self
        };
        let write = |bytes: &mut [u8]| {
            let (read, words) = (rows.as_ptr(), rows.len());
            let (lent, len) = (bytes.as_mut_ptr(), bytes.len());
            let end =
                unsafe { hbc_write_functions(read, words, layout, START, count, large, lent, len) };
            assert!(end <= LIMIT as u64, "rows that can be written");
            (u64::from(count), 0)
        };
        write(&mut written.bytes);
        let (mut table, mut bytes) = (vec![0; rows.len()], written.bytes.clone());
        written.ours(&mut table);
        assert!(table == rows, "{name}: other rows are read back");
        let read = || (written.ours(&mut table).0, 0);
        self.size().row(bench, name, || write(&mut bytes), read);
    }

    fn size(&self) -> Whole {
        Whole {
            bytes: self.bytes.len(),
            items: self.count,
        }
    }

    fn read(&self, bench: &Bench, name: &str) {
        let mut table = vec![0; self.count * ROW];
        let lent = || self.ours(&mut table);
        self.size().row(bench, name, lent, || self.published());
    }

    fn read_anew(&self, bench: &Bench, name: &str) {
        let made = || self.ours(&mut vec![0; self.count * ROW]);
        self.size().row(bench, name, made, || self.published());
    }

    /// A span, and how many functions meet it. The totals are those of the read, and go from call to call.
    fn refresh(&self, bench: &Bench, name: &str, (low, high, met): (usize, usize, usize)) {
        let (mut table, mut totals) = (vec![0; self.count * ROW], [0; 2]);
        self.read_with(&mut table, &mut totals);
        assert_eq!(totals, self.totals(), "{name}: the totals of a read");
        let (s, len) = (self.bytes.as_ptr(), self.bytes.len());
        let (layout, count) = (self.layout, self.count as u32);
        let [large, sizes] = &mut totals;
        let ours = || {
            let (words, lent) = (table.len(), table.as_mut_ptr());
            let again = unsafe {
                hbc_refresh_functions(
                    s, len, layout, START, count, low, high, lent, words, large, sizes,
                )
            };
            assert_eq!(again, met as u64, "so many functions meet the edit");
            let sampled = [0, self.count / 2, self.count - 1];
            let sum = sampled.map(|i| u64::from(table[i * ROW + 4]));
            (count as u64, sum.iter().sum())
        };
        self.size().row(bench, name, ours, || self.published());
        assert_eq!(
            totals,
            self.totals(),
            "{name}: the totals after all of them"
        );
    }
}

/// Flags a header and packs a place below 2^28 into it.
pub fn point(header: &mut [u8], layout: u32, place: usize) {
    header[header.len() - 1] |= FLAG_OVERFLOWED;
    let [a, b, c, d] = (place as u32).to_le_bytes();
    header[..3].copy_from_slice(&[a, b, if layout == 0 { 0 } else { c }]);
    header[3] &= 0xFE;
    if layout == 0 {
        header[8..11].copy_from_slice(&[c, d, 0]);
        header[11] &= 0xFE;
    } else {
        header[5] = header[5] & 0x3F | d << 6;
        header[6] = header[6] & 0xC0 | d >> 2;
    }
}
