//! The string tables: a whole table of words or pairs at once, and all strings at once.

use bisquepond::sys::*;
use bisquepond::table::StringRow;
use bisquepond::Row as _;
use harness::Random;
use published::file::parser::table::{decode_string_table, parse_pair_table, parse_u32_vec};
use published::file::structure::{StringKindEntry, StringKindType, StringTableEntry};
use published::io::ByteReader;

use crate::table::{Bench, SIZES};
use crate::whole::{heading, sides, Whole};

/// Words in a row.
const ROW: usize = StringRow::WORDS;

pub fn rows(bench: &Bench) {
    heading(
        "Tables of words and pairs: one call for the whole table. The Rust makes a vector; ours writes into lent words,",
        "which are there already, or made anew each time as the vector is.",
        "entry",
    );
    for size in SIZES {
        let mut random = Random::new(1);
        let words = (0..size / 8).map(|_| random.word());
        let bytes: Vec<u8> = words.flat_map(u64::to_le_bytes).collect();
        reads(bench, &bytes, "u32", 1);
        reads(bench, &bytes, "pair", 2);
    }
    heading(
        "Strings: one call decodes all, letters of 0 to 39 bytes, one of 16 UTF-16, one of 64 by an overflow pair. The work",
        "is not the same: the Rust makes a text of each, ours a row that says where it is; at last both make all texts.",
        "string",
    );
    for count in COUNTS {
        Strings::new(count).decode(bench);
    }
    Strings::new(1_000_000).made_anew(bench);
    Strings::new(1_000_000).with_texts(bench);
    heading(
        "The same strings in Hermes mode: the fields have the numbers of the pairs in order, and no run is empty, so that both",
        "modes and the Rust read the same.",
        "string",
    );
    for count in COUNTS {
        Strings::new(count).decode_hermes(bench);
    }
    sides(
        "Hermes mode against our own old one, on the same strings: a ratio of 0.8 is Hermes mode in 1.25 times the old",
        "one's time.",
        "string",
        ["Hermes", "old", "old/Hermes"],
    );
    for count in COUNTS {
        Strings::new(count).both_modes(bench);
    }
}

/// How many strings there are.
const COUNTS: [usize; 4] = [10_000, 100_000, 1_000_000, 10_000_000];

fn reads(bench: &Bench, bytes: &[u8], name: &str, width: usize) {
    let items = bytes.len() / (4 * width);
    let size = Whole {
        bytes: bytes.len(),
        items,
    };
    let call = match width {
        1 => hbc_read_u32_table,
        _ => hbc_read_pair_table,
    };
    let sampled = [0, items / 2 * width, items * width - 1];
    let ours = |table: &mut [u32]| {
        let (s, s_len, mut at) = (bytes.as_ptr(), bytes.len(), 0);
        let (lent, words) = (table.as_mut_ptr(), table.len());
        let code = unsafe { call(s, s_len, &mut at, items as u32, lent, words) };
        let sum = sampled.iter().map(|&i| table[i] as u64).sum();
        (code + items as u64, sum)
    };
    let rust = || {
        let mut reader = ByteReader::new(bytes);
        let sum: u64 = if width == 1 {
            let table = parse_u32_vec(&mut reader, items as u32).unwrap();
            sampled.iter().map(|&i| table[i] as u64).sum()
        } else {
            let table = parse_pair_table(&mut reader, items as u32).unwrap();
            let word = |i: &usize| <[u32; 2]>::from(table[i / 2])[i % 2];
            sampled.iter().map(|i| word(i) as u64).sum()
        };
        (items as u64, sum)
    };
    let mut table = vec![0; items * width];
    size.row(bench, &format!("{name} table"), || ours(&mut table), rust);
    let made = || ours(&mut vec![0; items * width]);
    size.row(bench, &format!("{name} table, made anew"), made, rust);
}

/// A call that decodes strings, in either mode.
pub type Decode = unsafe extern "C" fn(
    u32,
    *const u32,
    usize,
    *const u32,
    usize,
    *const u32,
    usize,
    *const u8,
    usize,
    *mut u32,
    usize,
) -> u64;

/// What a file says of its strings, in the form that each side takes.
struct Strings {
    small: Vec<u32>,
    kinds: Vec<u32>,
    runs: Vec<StringKindEntry>,
    overflow: Vec<u32>,
    pairs: Vec<(u32, u32)>,
    storage: Vec<u8>,
}

impl Strings {
    /// Strings of letters in a storage of at most 8 MiB, which is as far as a small entry reaches. Both modes read them
    /// alike.
    fn new(count: usize) -> Strings {
        let mut random = Random::new(1);
        let bytes = (count * 20).min(8 << 20);
        let letter = |i: usize, random: &mut Random| match i % 2 {
            0 => b'a' + random.byte() % 26,
            _ => 0,
        };
        // The first half has letters of one byte, the second of two.
        let mut storage: Vec<u8> = (0..bytes / 2).map(|_| letter(0, &mut random)).collect();
        storage.extend((0..bytes / 4 * 2).map(|i| letter(i, &mut random)));
        let mut strings = Strings {
            small: Vec::new(),
            kinds: Vec::new(),
            runs: Vec::new(),
            overflow: Vec::new(),
            pairs: Vec::new(),
            storage,
        };
        for _ in 0..count {
            let utf16 = random.below(16) == 0;
            let length = random.below(40) as u32 >> utf16 as u32;
            let place = random.below(bytes / 2 - 300) as u32;
            let offset = if utf16 {
                bytes as u32 / 4 * 2 + place / 2 * 2
            } else {
                place
            };
            if random.below(64) == 0 {
                let number = strings.pairs.len() as u32;
                strings.small.push(utf16 as u32 | number << 1 | 0xFF00_0000);
                strings.overflow.extend([offset, length]);
                strings.pairs.push((offset, length));
            } else {
                strings
                    .small
                    .push(utf16 as u32 | offset << 1 | length << 24);
            }
        }
        for _ in 0..count / 100 + 2 {
            let (identifier, count) = (random.below(2) == 1, random.below(200).max(1) as u32);
            strings.kinds.push((identifier as u32) << 31 | count);
            let kind = match identifier {
                true => StringKindType::Identifier,
                false => StringKindType::String,
            };
            strings.runs.push(StringKindEntry { kind, count });
        }
        strings
    }

    fn count(&self) -> usize {
        self.small.len()
    }

    fn size(&self) -> Whole {
        Whole {
            bytes: 4 * self.count(),
            items: self.count(),
        }
    }

    /// The number of strings, and marks and letters of some.
    fn published(&self) -> (u64, u64) {
        let texts = self.texts();
        let sum = self.sampled(|i| {
            let StringTableEntry {
                value,
                is_utf16,
                is_identifier,
            } = &texts[i];
            let letters = value.len() as u64;
            letters * 4 + *is_identifier as u64 * 2 + *is_utf16 as u64
        });
        (texts.len() as u64, sum)
    }

    fn texts(&self) -> Vec<StringTableEntry> {
        let count = self.count() as u32;
        decode_string_table(count, &self.runs, &self.small, &self.pairs, &self.storage).unwrap()
    }

    fn sampled(&self, value: impl Fn(usize) -> u64) -> u64 {
        let last = self.count() - 1;
        (0..=16).map(|i| value(last / 16 * i)).sum()
    }

    fn ours(&self, rows: &mut [u32]) -> (u64, u64) {
        self.decoded(hbc_decode_strings, rows)
    }

    fn hermes(&self, rows: &mut [u32]) -> (u64, u64) {
        self.decoded(hbc_decode_strings_hermes, rows)
    }

    fn decoded(&self, call: Decode, rows: &mut [u32]) -> (u64, u64) {
        let decoded = unsafe {
            call(
                self.count() as u32,
                self.kinds.as_ptr(),
                self.kinds.len(),
                self.small.as_ptr(),
                self.small.len(),
                self.overflow.as_ptr(),
                self.overflow.len(),
                self.storage.as_ptr(),
                self.storage.len(),
                rows.as_mut_ptr(),
                rows.len(),
            )
        };
        let sum = self.sampled(|i| {
            let [length, marks] = [rows[i * ROW + 1], rows[i * ROW + 3]];
            let letters = length >> (marks & 1);
            letters as u64 * 4 + marks as u64
        });
        (decoded, sum)
    }

    fn decode(&self, bench: &Bench) {
        let mut rows = vec![0; self.count() * ROW];
        let ours = || self.ours(&mut rows);
        self.size().row(bench, "decode", ours, || self.published());
    }

    fn decode_hermes(&self, bench: &Bench) {
        let mut rows = vec![0; self.count() * ROW];
        let hermes = || self.hermes(&mut rows);
        self.size()
            .row(bench, "decode, Hermes mode", hermes, || self.published());
    }

    fn both_modes(&self, bench: &Bench) {
        let [mut hermes, mut in_order] = [(); 2].map(|()| vec![0; self.count() * ROW]);
        self.hermes(&mut hermes);
        self.ours(&mut in_order);
        assert!(hermes == in_order, "the modes read different rows");
        let (one, other) = (|| self.hermes(&mut hermes), || self.ours(&mut in_order));
        self.size()
            .row(bench, "decode, Hermes against old mode", one, other);
    }

    fn made_anew(&self, bench: &Bench) {
        let ours = || self.ours(&mut vec![0; self.count() * ROW]);
        self.size()
            .row(bench, "decode, rows made anew", ours, || self.published());
    }

    /// The texts that the Rust makes, made of our rows by the same conversions.
    fn with_texts(&self, bench: &Bench) {
        let ours = || {
            let mut rows = vec![0; self.count() * ROW];
            let answer = self.ours(&mut rows);
            let text = |row: &[u32]| {
                let [start, length] = [row[0], row[1]].map(|word| word as usize);
                let bytes = &self.storage[start..start + length];
                if row[3] & 1 == 0 {
                    return String::from_utf8_lossy(bytes).to_string();
                }
                let unit = |pair: &[u8]| u16::from_le_bytes([pair[0], pair[1]]);
                let units: Vec<u16> = bytes.chunks_exact(2).map(unit).collect();
                String::from_utf16_lossy(&units)
            };
            let texts = rows.chunks_exact(ROW).map(|row| StringTableEntry {
                value: text(row),
                is_utf16: row[3] & 1 != 0,
                is_identifier: row[3] & 2 != 0,
            });
            std::hint::black_box(texts.collect::<Vec<_>>());
            answer
        };
        let rust = || self.published();
        self.size()
            .row(bench, "decode, and make all texts", ours, rust);
    }
}
