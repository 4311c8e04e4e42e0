//! The literals: a whole series at once.

use bisquepond::sys::*;
use harness::Random;
use published::file::parser::buffer::read_buffer_series;
use published::file::parser::parsing;
use published::file::structure::{LiteralValue, StringTableEntry};
use published::file::BytecodeFile;
use published::format::{empty_header, FunctionHeaderLayout};
use published::io::ByteReader;

use crate::table::Bench;
use crate::whole::{heading, Whole};

/// Strings of the file that the Rust copies texts from, of eight letters each.
const STRINGS: usize = 256;

/// What a series is made of: for each of its runs, bits 4 to 6 of the tag.
const SERIES: [(&str, &[u8]); 8] = [
    ("nulls", &[0]),
    ("truths", &[1, 2]),
    ("numbers", &[3]),
    ("strings, four bytes", &[4]),
    ("strings, two bytes", &[5]),
    ("strings, one byte", &[6]),
    ("integers", &[7]),
    ("mixed", &[0, 1, 2, 3, 4, 5, 6, 7]),
];

/// The same for runs of one value each.
const ONES: [(&str, &[u8]); 6] = [
    ("runs of one null", &[0]),
    ("runs of one truth", &[1, 2]),
    ("runs of one number", &[3]),
    ("runs of one string", &[5]),
    ("runs of one integer", &[7]),
    ("runs of one number or integer", &[3, 7]),
];

/// Bytes of a value, by bits 4 to 6 of its tag.
const WIDTHS: [usize; 8] = [0, 0, 0, 8, 4, 2, 1, 4];

pub fn rows(bench: &Bench) {
    heading(
        "Series: one call for all values, in runs of 1 to 15. The Rust makes a vector, and copies a text for each string;",
        "ours writes kind and payload into lent words, which are there already, or made anew each time.",
        "value",
    );
    let file = file();
    for (name, bits) in SERIES {
        let counts: &[usize] = match name {
            "mixed" => &[10_000, 100_000, 1_000_000, 10_000_000],
            _ => &[10_000, 1_000_000],
        };
        for &count in counts {
            Series::new(bits, count).read(bench, name, &file);
        }
    }
    Series::new(SERIES[7].1, 1_000_000).made_anew(bench, "mixed, tables made anew", &file);
    for (name, bits) in ONES {
        for count in [10_000, 1_000_000] {
            Series::of(bits, 1, count).read(bench, name, &file);
        }
    }
    for count in [10_000, 1_000_000] {
        Series::empty(|_| 7, count).read(bench, "empty tags before one value", &file);
    }
    for count in [10_000, 1_000_000] {
        let kinds = |random: &mut Random| random.byte() >> 5;
        Series::empty(kinds, count).read(bench, "empty tags of any kind", &file);
    }
}

fn file() -> BytecodeFile {
    let header = empty_header(FunctionHeaderLayout::Legacy16);
    let mut file = parsing::trailing(&[], &mut ByteReader::new(&[]), header).unwrap();
    let entry = |i| StringTableEntry {
        value: format!("text {i:03}"),
        is_utf16: false,
        is_identifier: false,
    };
    file.strings = (0..STRINGS).map(entry).collect();
    file
}

struct Series {
    buffer: Vec<u8>,
    values: usize,
    /// What is counted: values, or empty tags.
    items: usize,
}

impl Series {
    fn new(bits: &[u8], values: usize) -> Series {
        Series::of(bits, 15, values)
    }

    /// Values in runs of 1 to `most`.
    fn of(bits: &[u8], most: usize, values: usize) -> Series {
        let mut random = Random::new(1);
        let mut buffer = Vec::new();
        let mut left = values;
        while left > 0 {
            let bits = random.pick(bits);
            let length = (1 + random.below(most)).min(left);
            buffer.push(bits << 4 | length as u8);
            for _ in 0..length {
                // Strings of the file alone: any other costs the Rust a text that it has to write.
                let word = match bits {
                    4..=6 => random.below(STRINGS) as u64,
                    _ => random.word(),
                };
                buffer.extend(&word.to_le_bytes()[..WIDTHS[bits as usize]]);
            }
            left -= length;
        }
        Series {
            buffer,
            values,
            items: values,
        }
    }

    /// One value behind empty tags.
    fn empty(bits: impl Fn(&mut Random) -> u8, tags: usize) -> Series {
        let mut random = Random::new(1);
        let mut buffer: Vec<u8> = (0..tags).map(|_| bits(&mut random) << 4).collect();
        buffer.push(0x11);
        Series {
            buffer,
            values: 1,
            items: tags,
        }
    }

    fn size(&self) -> Whole {
        Whole {
            bytes: self.buffer.len(),
            items: self.items,
        }
    }

    /// The number of values, and the kinds of some.
    fn published(&self, file: &BytecodeFile) -> (u64, u64) {
        let values = read_buffer_series(file, &self.buffer, 0, self.values as u32).unwrap();
        let sum = self.sampled(|i| match values[i] {
            LiteralValue::Null => 0,
            LiteralValue::Bool(true) => 1,
            LiteralValue::Bool(false) => 2,
            LiteralValue::Number(_) => 3,
            LiteralValue::String(_) => 4,
            LiteralValue::Integer(_) => 5,
            LiteralValue::Undefined => 6,
        });
        (values.len() as u64, sum)
    }

    fn ours(&self, kinds: &mut [u32], payloads: &mut [u64]) -> (u64, u64) {
        let used = unsafe {
            hbc_read_series(
                self.buffer.as_ptr(),
                self.buffer.len(),
                0,
                self.values as u32,
                kinds.as_mut_ptr(),
                kinds.len(),
                payloads.as_mut_ptr(),
                payloads.len(),
            )
        };
        assert_eq!(used, self.buffer.len() as u64, "all bytes are used");
        let sum = self.sampled(|i| kinds[i] as u64);
        (self.values as u64, sum)
    }

    fn sampled(&self, value: impl Fn(usize) -> u64) -> u64 {
        let last = self.values - 1;
        (0..=16).map(|i| value(last / 16 * i)).sum()
    }

    fn read(&self, bench: &Bench, name: &str, file: &BytecodeFile) {
        let (mut kinds, mut payloads) = (vec![0; self.values], vec![0; self.values]);
        let ours = || self.ours(&mut kinds, &mut payloads);
        self.size().row(bench, name, ours, || self.published(file));
    }

    fn made_anew(&self, bench: &Bench, name: &str, file: &BytecodeFile) {
        let ours = || self.ours(&mut vec![0; self.values], &mut vec![0; self.values]);
        self.size().row(bench, name, ours, || self.published(file));
    }
}
